"""Tests of classes of items by the value of demand, against pandas; and of money in a currency."""
from __future__ import annotations

from fractions import Fraction

import numpy as np
import pandas as pd
import pytest

from crnplan.money import Currency
from crnplan.read.classes import abc_of
from crnplan.read.defaults import cuts_of


@pytest.mark.parametrize("seed, cuts", [(1, (80, 95)), (2, (50, 60)), (3, (1, 99))])
def test_classes_by_value(seed: int, cuts: tuple[int, int]) -> None:
    """An item is of class A while those of higher value have less than the first share of all value, and so on."""
    values = pd.Series(
        np.random.default_rng(seed).permutation(10**6)[:200]
    ).sort_values(ascending=False)
    above = values.cumsum().shift(fill_value=0) / values.sum()
    wanted = pd.cut(
        above, [-1, cuts[0] / 100, cuts[1] / 100, 2], right=False, labels=list("ABC")
    )
    assert abc_of(
        {name: Fraction(int(value)) for name, value in values.sort_index().items()},
        cuts,
    ) == dict(wanted.astype(str))


def test_equal_values_have_one_class() -> None:
    """Of ten equal values none is above another; 50 and 30 of 100 make 80, so the next one is B."""
    assert set(abc_of(dict.fromkeys(range(10), Fraction(3)), (80, 95)).values()) == {
        "A"
    }
    values = {name: Fraction(value) for name, value in zip("abcde", (50, 30, 14, 1, 5))}
    assert abc_of(values, (80, 95)) == {
        "a": "A",
        "b": "A",
        "c": "B",
        "e": "B",
        "d": "C",
    }


def test_cuts_as_people_write_them() -> None:
    assert cuts_of("70, 90") == cuts_of((70, 90)) == (70, 90)


@pytest.mark.parametrize(
    "code, decimals, text",
    [
        ("EUR", 0, "EUR -1,234.50"),
        ("JPY", 2, "JPY -1,234"),
        ("KWD", 2, "KWD -1,234.500"),
        ("$", 2, "-$1,234.50"),
        ("", 4, "-1,234.50"),
        ("", 0, "-1,234"),
    ],
)
def test_money_in_a_currency(code: str, decimals: int, text: str) -> None:
    """Money has its currency, and its usual decimals: 2, but 0 and 3 in some. -1234.5 rounds to the even -1234."""
    assert Currency(code, decimals).text(-1234.5) == text
    assert Currency(code, decimals).text(-0.0001).strip(f"{code} 0.") == ""
