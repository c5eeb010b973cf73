"""Tests the constructors of laws: what is a law becomes one, and all else is refused with its reason."""
from __future__ import annotations

from collections.abc import Callable
from decimal import Decimal
from fractions import Fraction
from typing import Any

import numpy as np
import pandas as pd
import pytest

from crnplan.errors import Refused
from crnplan.law import Law
from crnplan.runs import Scenario

NAN, INF = float("nan"), float("inf")
# Tails of .5, .3 and .2 are 65,536, 32,768 and 13,107.2: rounded, their differences are the weights.
SHARES = {0: 0.5, 1: 0.3, 2: 0.2}
WEIGHTS = (32_768, 19_661, 13_107)
Make = Callable[[], Law]
SOUND: dict[str, tuple[Make, Law]] = {
    "shares": (lambda: Law.of(SHARES), Law((0, 1, 2), WEIGHTS)),
    "decimals": (
        lambda: Law.of({it: Decimal(str(SHARES[it])) for it in SHARES}),
        Law((0, 1, 2), WEIGHTS),
    ),
    "thirds": (
        lambda: Law.of({1: Fraction(1, 3), 2: Fraction(2, 3)}),
        Law((1, 2), (65_536 - 43_691, 43_691)),
    ),
    "rounded shares": (
        lambda: Law.of({0: 0.333, 1: 0.333, 2: 0.333}),
        Law((0, 1, 2), (21_845, 21_846, 21_845)),
    ),
    "weights": (lambda: Law.of({3: 2, 0: 1, 7: 0}), Law((0, 3), (1, 2))),
    "one share": (lambda: Law.of({0: 0.0, 4: 1.0}), Law((4,), (1,))),
    "whole floats": (
        lambda: Law.of({np.float64(2): np.int64(3)}),
        Law((2,), (3,)),
    ),
    "numbers": (
        lambda: Law.of_numbers(np.array([1, 2, 2])),
        Law((1, 2), (1, 2)),
    ),
    "series": (lambda: Law.of_numbers(pd.Series([1.0, 2.0])), Law((1, 2), (1, 1))),
    "chances": (
        lambda: Law.of_chances(np.array([0.5, 0.5])),
        Law((0, 1), (2**15,) * 2),
    ),
    "lists": (
        lambda: Law([0, np.int8(1)], [1.0, 2]),  # type: ignore[arg-type]
        Law((0, 1), (1, 2)),
    ),
}


def untyped(value: Any) -> Any:
    """Returns a value of a type that no call takes."""
    return value


WRONG: dict[str, tuple[Make, str]] = {
    "sum": (
        lambda: Law.of({0: 0.5, 1: 1.7}),
        "weights: the weights add up to 2.2, and some",
    ),
    "just off": (
        lambda: Law.of({0: 0.5, 1: 0.4989}),
        "weights: the weights add up to 0.9989",
    ),
    "part of a value": (
        lambda: Law.of(untyped({0.5: 1})),
        "weights: value: 0.5 is not a whole",
    ),
    "flag as value": (
        lambda: Law.of({True: 1}),
        "weights: value: true is not a whole number",
    ),
    "flag as weight": (
        lambda: Law.of({1: True}),
        "weights: weight of 1: true is no weight",
    ),
    "text": (
        lambda: Law.of(untyped({1: "1"})),
        "weights: weight of 1: '1' is no weight",
    ),
    "no weight": (lambda: Law.of({1: NAN}), "weights: weight of 1: nan is no weight"),
    "endless": (lambda: Law.of({1: INF}), "weights: weight of 1: inf is no weight"),
    "negative": (lambda: Law.of({1: 2, 2: -1}), "weights: weights: -1 is below 0"),
    "below 0": (lambda: Law.of({-1: 2, 2: 1}), "weights: values: -1 is below 0"),
    "nothing": (lambda: Law.of({}), "weights: no weight is above 0"),
    "only 0": (lambda: Law.of({1: 0}), "weights: no weight is above 0"),
    "no mapping": (
        lambda: Law.of(untyped([1, 2])),
        r"weights: \[1, 2\] is no mapping of values",
    ),
    "parts": (
        lambda: Law.of_numbers([2, 1.5]),
        "numbers: entry 2: 1.5 is not a whole number",
    ),
    "missing": (
        lambda: Law.of_numbers([NAN]),
        "numbers: entry 1: nan is not a whole number; leave it out",
    ),
    "flags": (
        lambda: Law.of_numbers([1, True]),
        "numbers: entry 2: true is not a whole number; write it as 12",
    ),
    "no numbers": (lambda: Law.of_numbers([]), "numbers: no weight is above 0"),
    "a mapping": (
        lambda: Law.of_numbers({0: 3}),
        "numbers: dict is no list of whole numbers",
    ),
    "no list": (
        lambda: Law.of_numbers(untyped(5)),
        "numbers: int is no list of whole numbers",
    ),
    "NaN": (
        lambda: Law.of_chances(np.array([0.5, NAN])),
        "chances: these are no chances",
    ),
    "no chance": (
        lambda: Law.of_chances(np.array([1.5, -0.5])),
        "chances: these are no chances",
    ),
    "chances": (
        lambda: Law.of_chances(np.array([0.5, 0.4])),
        "chances: these add up to 0.9",
    ),
    "ragged": (lambda: Law.of_chances(untyped([[1], 2])), "chances: these are no"),
    "texts": (lambda: Law.of_chances(untyped("x")), "chances: these are no chances"),
    "NaN in tails": (
        lambda: Law.of_tails(np.arange(2), np.array([1.0, NAN])),
        "at_least: these are no chances",
    ),
    "rising tails": (
        lambda: Law.of_tails(np.arange(3), np.array([1.0, 0.2, 0.3])),
        "these are no chances to be at least rising values",
    ),
    "low tails": (
        lambda: Law.of_tails(np.arange(2), np.array([0.9, 0.5])),
        "these are no chances to be at least rising values",
    ),
    "few tails": (
        lambda: Law.of_tails(np.arange(2), np.array([1.0])),
        "these are no chances to be at least rising values",
    ),
    "a negative share": (
        lambda: Law.of({1: 1.5, 2: -0.5}),
        "weights: weight of 2: -0.5 is no weight",
    ),
    "falling": (lambda: Law((2, 1), (1, 1)), "the values do not rise"),
    "uneven": (lambda: Law((2, 1), (1,)), "there are 2 values and 1 weights"),
    "low weight": (lambda: Law((1, 2), (-1, 2)), "weights: -1 is below 0"),
    "zeros": (lambda: Law((1, 2), (0, 0)), "no weight is above 0"),
}


@pytest.mark.parametrize("name", SOUND)
def test_made(name: str) -> None:
    make, wanted = SOUND[name]
    law = make()
    assert law == wanted
    assert {type(it) for it in (*law.values, *law.weights)} == {int}


@pytest.mark.parametrize("name", WRONG)
def test_refused(name: str) -> None:
    make, why = WRONG[name]
    with pytest.raises(Refused, match=f"^{why}"):
        make()


def test_frame() -> None:
    frame = Law.of({0: 1, 5: 3}).frame
    assert frame.to_dict("list") == {
        "value": [0, 5],
        "weight": [1, 3],
        "chance": [0.25, 0.75],
    }


def test_scenarios_take_what_laws_take() -> None:
    """Checks that a scenario names the law, and takes shares as a law does."""
    costs: Any = {"setup": 32, "holding": 1, "backlog": 5, "today": (20, 40)}
    made = Scenario.of(SHARES, [1], **costs)
    assert made.demand == Law.of(SHARES)
    with pytest.raises(Refused, match="^lead: the weights add up to 2.2"):
        Scenario.of(SHARES, {1: 0.5, 2: 1.7}, **costs)
