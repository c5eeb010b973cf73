"""Tests the reading of amounts, shares and times: each is read whole and in one way, or refused with both readings,
whatever its role is."""
from __future__ import annotations

from fractions import Fraction
from operator import attrgetter
from typing import Any

import pytest

import crnplan as crn
from crnplan.read.defaults import currency_of
from planner.tests.read.catalogues import (
    MASTER,
    TODAY,
    but,
    cases_of,
    catalogue_of,
    demand_of,
    masters_of,
)

CASES = cases_of("amounts")


def masters_with(heading: str, cells: list[Any]) -> list[dict[str, Any]]:
    """Returns masters with cells in place of those of the role with which a heading begins. A share of the price has
    one."""
    first = heading.split()[0]
    role = {"Min": "s", "s": "s", "S": "S"}.get(first, first.lower())
    more = {"price": "8"} if role == "holding" else {}
    return [but(role) | more | {heading: cell} for cell in cells]


@pytest.mark.parametrize("heading, cells, words, fact, value", CASES["read"])
def test_cells_that_are_read(
    heading: str, cells: list[Any], words: dict[str, Any], fact: str, value: Any
) -> None:
    """A cell is read with all its digits, by its unit, its currency, its heading and the other cells of its column."""
    items, rejects = catalogue_of(*masters_with(heading, cells), **words)
    read = attrgetter(fact)(items["A"])
    assert not rejects
    if isinstance(read, tuple):
        assert [*read] == value
    elif isinstance(read, Fraction):
        assert read == Fraction(value)
    else:
        assert (read or "") == value


@pytest.mark.parametrize("heading, cells, words, said", CASES["rejected"])
def test_cells_that_are_rejected(
    heading: str, cells: list[Any], words: dict[str, Any], said: str
) -> None:
    """What can be read in two ways, or in none, leaves its item out, with both readings."""
    items, rejects = catalogue_of(*masters_with(heading, cells), **words)
    assert [*items] == ["B"][: len(cells) - 1] and len(rejects) == 1
    assert said in rejects[0]


def test_rounded_amounts_are_said_once() -> None:
    """Two amounts of money have more decimals than are kept. A share and a lead time are no money."""
    third = {"setup": "45.00", "holding": 1 / 3, "backlog": "", "fill": 0.123456789123}
    masters = but("backlog") | {"price": 0.1 + 0.2}, third | {"lead (weeks)": 2 / 3}
    tables = demand_of("A", "B"), masters_of(masters[0], masters[1])
    read = crn.read_catalogue(*tables, fill=0.9, today=TODAY, jobs=1)
    said = [line for line in read.said if "rounded" in line]
    assert said == ["amounts of 2 cells of masters are rounded to 8 decimals"]
    assert not len(read.rejects)


@pytest.mark.parametrize("words, said", CASES["words"])
def test_words_that_may_be_two(words: dict[str, Any], said: str) -> None:
    """Words are read as cells are."""
    with pytest.raises(crn.Refused) as refused:
        catalogue_of(MASTER, **words)
    assert said in str(refused.value)


@pytest.mark.parametrize("sign", ["$", "kr"])
def test_a_sign_of_several_currencies_stays_a_sign(sign: str) -> None:
    assert currency_of(sign) == sign
