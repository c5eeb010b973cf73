"""Tests what stands behind a known heading: it is known too and counts, or the column is refused, and never dropped."""
from __future__ import annotations

from fractions import Fraction
from pathlib import Path

import pytest

import crnplan as crn
from crnplan.read.item import Item
from planner.tests.conftest import Command
from planner.tests.read.catalogues import (
    MASTER,
    TODAY,
    but,
    cases_of,
    catalogue_of,
    demand_of,
    items_of,
    masters_of,
)

CASES = cases_of("headings")


def test_levels_are_compared_in_items() -> None:
    """Compares s in items with S in packs by the items of both."""
    levels = {"reorder point": "30", "max stock packs of 12": "5"}
    items, rejects = catalogue_of({**but("s", "S"), **levels})
    assert not rejects and items["A"].levels == (30, 60)


@pytest.mark.parametrize("heading, role, words", CASES["unknown"])
def test_unknown_words_behind_a_heading(heading: str, role: str, words: str) -> None:
    """What may say something else is refused, until it is said whether the column is meant or not."""
    with pytest.raises(crn.Refused) as refused:
        catalogue_of({**but(role), heading: "2"})
    said = str(refused.value)
    assert f"the column {heading!r} may be the {role}, and {words} behind" in said
    for name in (heading, ""):
        assert f'columns={{"items": {{"{role}": "{name}"}}}}' in said
    columns = {"items": {role: ""}}
    items, rejects = catalogue_of({**MASTER, heading: "2"}, columns=columns)
    if role == "lead":
        assert not items and "there is no lead time" in rejects[0]
    else:
        item = items["A"]
        assert not rejects
        assert (item.price, item.stock, item.group) == (None, None, "")


def fact_of(item: Item, role: str) -> float:
    """Returns the fact of an item that a column of masters is."""
    levels = item.levels or (0, 0)
    facts = {"lead": item.leads[0], "S": levels[1], "order_min": item.bounds.order_min}
    return float(facts[role] if role in facts else getattr(item, role))


@pytest.mark.parametrize("heading, cell, role, value", CASES["consistent"])
def test_units_that_say_one_thing(
    heading: str, cell: str, role: str, value: str
) -> None:
    """Units of which one alone counts are read: an item, the year of a share, packs of a number."""
    others = {} if role == "price" else {"price": "10"}
    items, rejects = catalogue_of({**but(role, "price"), **others, heading: cell})
    assert not rejects
    assert fact_of(items["A"], role) == pytest.approx(eval(value))


@pytest.mark.parametrize("heading, role, said, unit, value", CASES["several"])
def test_several_units(
    heading: str, role: str, said: str, unit: str, value: str
) -> None:
    """None of several units is dropped: they are said, and a stated one answers."""
    others = {} if role == "price" else {"price": "10"}
    cells = {**but(role, "price"), **others, heading: "12"}
    with pytest.raises(crn.Refused) as refused:
        catalogue_of(cells)
    assert f"the heading {heading!r} of the {role} says {said}" in str(refused.value)
    items, rejects = catalogue_of(cells, units={"items": {role: unit}})
    assert not rejects
    assert fact_of(items["A"], role) == pytest.approx(eval(value))


@pytest.mark.parametrize("heading, number", CASES["thousands"])
def test_prices_in_thousands(heading: str, number: str) -> None:
    """A price of so many items is not taken for one in thousands, nor the other way round, until its unit is stated."""
    cells = {**but("price"), heading: "12"}
    with pytest.raises(crn.Refused) as refused:
        catalogue_of(cells)
    said = f"prices of {number} items, or money in units of {number}"
    assert said in str(refused.value)
    for unit, items_of_price in ((number, int(number)), ("item", 1)):
        items, _ = catalogue_of(cells, units={"items": {"price": unit}})
        assert items["A"].price == Fraction(12, items_of_price)


def test_two_times_of_a_lead() -> None:
    with pytest.raises(crn.Refused, match="says 'days' and 'weeks'"):
        catalogue_of({**but("lead"), "Lead time (days/weeks)": "14"})


@pytest.mark.parametrize("role", CASES["demand"])
def test_words_behind_a_heading_of_demand(role: str) -> None:
    """Neither the item, nor the day, nor the quantity is another column that begins so. Usual words change nothing."""
    unknown, known = CASES["demand"][role]
    for heading in (*unknown, *known):
        demand = demand_of("A").rename(columns={role: heading})
        tables = demand, masters_of(MASTER)
        columns = None if heading in known else {"demand": {role: heading}}
        if columns:
            said = f"the column '{heading}' may be the {role}, and "
            with pytest.raises(crn.Refused, match=said):
                crn.read_catalogue(*tables, today=TODAY)
        read = crn.read_catalogue(*tables, today=TODAY, columns=columns)
        assert read.counts["items"]["ready"] == 1


@pytest.mark.parametrize("more, said", CASES["currencies"]["cases"])
def test_currencies_of_headings(more: dict[str, str], said: str) -> None:
    """The currency of a heading is that of its amounts. An amount of money is no number of items."""
    roles = {name.partition(" ")[0] for name in more}
    try:
        items, rejects = catalogue_of(but(*roles) | more)
    except crn.Refused as refused:
        items, rejects = {}, [str(refused)]
    assert not items and said in rejects[0]


def test_the_currency_of_a_heading() -> None:
    """One currency in a heading is that of the catalogue. A smallest order in money is of so much money."""
    money = {"setup (EUR)": 45, "price": 4, "min order (€)": 50}
    masters = masters_of(but("setup") | money)
    read = crn.read_catalogue(demand_of("A"), masters, today=TODAY)
    assert read.fact("currency") == "EUR"
    assert items_of(read)["A"].bounds.order_min == 13


def test_a_column_that_is_none(crnplan: Command, tmp_path: Path) -> None:
    """A word of a command and a key say that a column is none, and what was found says it again."""
    demand, masters = tmp_path / "demand.csv", tmp_path / "items.csv"
    demand_of("A").to_csv(demand, index=False)
    masters_of({**MASTER, "stock group": "x"}).to_csv(masters, index=False)
    words = ["plan", demand, masters, "--check"]
    refused = crnplan(*words)
    said = "say --set 'items.stock=stock group' if it is, or --set items.stock= if it is not"
    assert refused.status == 2 and said in refused.errors.replace('"', "'")
    taken = crnplan(*words, "--set", "items.stock=")
    assert taken.status == 0
    read = crn.read_catalogue(demand, masters, columns={"items": {"stock": ""}})
    assert 'stock = ""  # no column, as stated\n' in read.found
    (tmp_path / "mine.toml").write_text('[catalogue.items]\nstock = ""\n', "utf-8")
    again = crnplan(*words, "--config", tmp_path / "mine.toml")
    assert again.status == 0 and again.output == taken.output
