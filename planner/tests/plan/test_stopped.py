"""Tests items that are asked for no longer, are sold off or succeed others: what is found, read, ordered and added up."""
from __future__ import annotations

import datetime
import itertools
from collections.abc import Callable
from pathlib import Path
from typing import Any

import numpy as np
import pandas as pd
import pytest

import crnplan as crn
from crnplan.read.item import USUAL, Item
from crnplan.read.quiet import (
    chance_of_quiet,
    has_stopped,
    longest_before,
    months_of,
    quiet_periods,
)
from planner.tests.conftest import Command, cases_beside
from planner.tests.plan.items import SHORT

CASES = cases_beside(__file__)
WEEKS = 156
ITEMS = 3_000


@pytest.mark.parametrize(
    "counts",
    [(1, 0, 2, 0, 0), (0, 3, 1, 1, 0), (0, 0, 5), (4, 0, 0, 0, 0, 0), (1, 1)],
    ids=str,
)
def test_chance_of_quiet_periods(counts: tuple[int, ...]) -> None:
    """The chance is the share of all orders of the periods that end with as many without demand, or with more."""
    orders = [*itertools.permutations(counts)]
    quiet = len("".join(map(str, counts))) - len("".join(map(str, counts)).rstrip("0"))
    assert quiet_periods(counts) == quiet
    share = sum(not any(order[len(order) - quiet :]) for order in orders) / len(orders)
    assert chance_of_quiet(counts) == pytest.approx(share, rel=1e-12)


def test_the_longest_time_before() -> None:
    assert [
        longest_before(counts)
        for counts in ((1, 0, 0, 1, 0, 1, 0, 0, 0), (0, 0, 5, 0), (0, 0), (1, 2))
    ] == [2, 0, 0, 0]


def independent(source: np.random.Generator) -> list[int]:
    """Returns a slow mover, asked for in one of 4 weeks to one of 50."""
    rate = 1 / source.uniform(4, 50)
    return np.where(
        source.random(WEEKS) < rate, 1 + source.poisson(2, WEEKS), 0
    ).tolist()


def in_runs(source: np.random.Generator) -> list[int]:
    """Returns an item of projects: some weeks with demand, and then up to more than a year without."""
    counts = list[int]()
    while len(counts) < WEEKS:
        counts += [
            *source.poisson(3, source.integers(2, 12)).tolist(),
            *[0] * int(source.exponential(40)),
        ]
    return counts[:WEEKS]


def seasonal(source: np.random.Generator) -> list[int]:
    """Returns an item that is asked for in a quarter of each year alone."""
    start = source.integers(0, 52)
    return [
        int(source.poisson(2)) if (week - start) % 52 < 13 else 0
        for week in range(WEEKS)
    ]


@pytest.mark.parametrize(
    "drawn, most", [(independent, 3), (in_runs, 180), (seasonal, 0)]
)
def test_active_items_are_hardly_ever_stopped(
    drawn: Callable[[np.random.Generator], list[int]], most: int
) -> None:
    """Of 3,000 active slow movers at most one in a thousand is taken for stopped, of seasonal ones none, and of items
    that are asked for in projects alone 6%."""
    source = np.random.default_rng(71)
    stopped = sum(
        has_stopped(counts, "week")
        for counts in (drawn(source) for _ in range(ITEMS))
        if any(counts)
    )
    assert stopped <= most


def test_what_has_stopped_is_found() -> None:
    """An item that is asked for in one of six weeks, and then for 78 weeks no more, is nearly always found."""
    source = np.random.default_rng(71)
    found = [
        has_stopped(
            [*(source.random(WEEKS) < 1 / 6).astype(int).tolist(), *[0] * 78], "week"
        )
        for _ in range(500)
    ]
    assert sum(found) > 490
    counts = [1, 0] * 60
    for every, year in (("week", 52), ("month", 12), ("day", 365)):
        assert [
            has_stopped([*counts, *[0] * (quiet - 1)], every)
            for quiet in (year - 1, year)
        ] == [False, True]
    # As long, and then longer, without demand as before.
    assert [
        has_stopped([*counts, *[0] * 60, *counts, *[0] * quiet], "week")
        for quiet in (60, 61)
    ] == [False, True]
    # Twice in the first month, and never again in five years.
    assert not has_stopped([1, 0, 0, 1, *[0] * 256], "week")


def test_months_of_a_record() -> None:
    """Months are counted back from the end; what is left at the beginning is none."""
    counts = [9, 1, 2, 3, 4, 5, 6, 7, 8]
    assert months_of(counts, "week") == [10, 26]
    assert months_of(counts, "month") == counts


MONDAY = datetime.date(2023, 1, 2)
# By item what is asked for every second week, from one week to another, its status, and today's stock.
CATALOGUE: dict[str, tuple[int, int, str, int]] = CASES["catalogue"]
QUICK: dict[str, Any] = {
    **SHORT,
    "fit": "empirical",
    "statuses": {"Z3": "stopped"},
}


def tables_of(**status: str) -> tuple[pd.DataFrame, pd.DataFrame]:
    """Returns demand and masters of the catalogue, perhaps with items of another status."""
    rows = [
        (name, MONDAY + datetime.timedelta(weeks=week), 1 + week % 3)
        for name, (first, last, _, _) in CATALOGUE.items()
        for week in range(first, last, 2)
    ]
    masters = [
        (name, 9, 0.1, "95%", 2, 2, 30, 4, 2, stock, status.get(name, own))
        for name, (_, _, own, stock) in CATALOGUE.items()
    ]
    names = ["item", "setup", "holding", "fill", "lead (weeks)"]
    names += "s S price pack stock status".split()
    return (
        pd.DataFrame(rows, columns=["item", "date", "quantity"]),
        pd.DataFrame(masters, columns=names),
    )


def read(
    statuses: dict[str, str] = {"Z3": "stopped"},
    stopped: str = "by-test",
    **status: str,
) -> dict[str, Item]:
    catalogue = crn.read_catalogue(
        *tables_of(**status),
        end=MONDAY + datetime.timedelta(weeks=156, days=-1),
        statuses=statuses,
        stopped=stopped,
    )
    with catalogue.opened() as base:
        return {item.name: item for item in base.items()}


def test_status_of_items() -> None:
    """What the record says counts whatever the status is, unless the status alone is to count."""
    items = read()
    assert {name: item.past for name, item in items.items()} == CASES["pasts"]
    stated = read(stopped="as-stated")
    assert stated["DEAD"].past == stated["KEPT"].past == USUAL
    dead = next(
        remark
        for remark in items["DEAD"].remarks
        if remark.code == "asked for no longer"
    )
    assert (dead.facts["periods"], dead.facts["last"]) == (79, "2024-W25")


@pytest.mark.parametrize("text, past", CASES["statuses"])
def test_words_of_a_status(text: str, past: str) -> None:
    assert read(ACTIVE=text)["ACTIVE"].past == past


@pytest.mark.parametrize("text", ["Z3", "01", "被OLD", "?"])
def test_a_status_that_is_not_known(text: str) -> None:
    """What a text means is stated or refused, never guessed: the item is left out."""
    catalogue = crn.read_catalogue(*tables_of(ACTIVE=text, GONE=""))
    rejects = catalogue.rejects.set_index("item")
    assert rejects.loc["ACTIVE", "column"] == "status"
    assert rejects.loc["ACTIVE", "text"] == text
    assert f'statuses={{"{text}": "stopped"}}' in rejects.loc["ACTIVE", "advice"]


def test_a_successor_takes_the_demand_of_a_chain() -> None:
    """A successor has the demand of its predecessor, which has that of its own, by pandas."""
    items, (demand, _) = read(), tables_of()
    weeks = (
        demand[demand["item"].isin(["OLD", "HEIR", "YOUNG"])]
        .groupby("date")["quantity"]
        .sum()
    )
    days = [MONDAY + datetime.timedelta(weeks=week) for week in range(156)]
    assert items["YOUNG"].counts == tuple(weeks.reindex(days, fill_value=0))
    assert (
        sum(items["HEIR"].counts)
        == demand[demand["item"].isin(["OLD", "HEIR"])]["quantity"].sum()
    )
    assert [remark.code for remark in items["HEIR"].remarks][-2:] == [
        "successor",
        "succeeded",
    ]
    assert items["OLD"].first == items["YOUNG"].first < read(YOUNG="")["YOUNG"].first


@pytest.mark.parametrize("before, behind", CASES["replaced"])
def test_an_item_that_is_replaced(before: str, behind: str) -> None:
    """Its demand goes to the item that replaces it, which may say so too."""
    wanted = read(HEIR="", OUT="successor of ACTIVE")["OUT"]
    for status in ("", "successor of ACTIVE"):
        items = read(HEIR="", ACTIVE=f"{before} OUT{behind}", OUT=status)
        assert items["OUT"].counts == wanted.counts
        assert (items["ACTIVE"].past, items["OUT"].past) == ("phase out", "")


def test_an_item_that_replaces_several() -> None:
    """It has the demand of all of them, by pandas."""
    items, (demand, _) = (
        read(OLD="replaced by ACTIVE", HEIR="", YOUNG="replaced by ACTIVE"),
        tables_of(),
    )
    rows = demand[demand["item"].isin(["OLD", "YOUNG", "ACTIVE"])]
    assert sum(items["ACTIVE"].counts) == rows["quantity"].sum()


def test_a_successor_that_is_not_there() -> None:
    """An item that is replaced by one of which nothing is read is phased out, which is said."""
    item = read(ACTIVE="replaced by XYZ")["ACTIVE"]
    assert (item.past, item.remarks[-1].code) == ("phase out", "unknown successor")
    assert item.remarks[-1].facts == {"item": "XYZ"}


def test_a_successor_of_items_that_have_stopped() -> None:
    """A successor has stopped if the demand of both has, and has not if that of one has."""
    stopped = read(KEPT="successor of DEAD")["KEPT"]
    assert (stopped.past, stopped.remarks[-1].code) == (
        "stopped",
        "asked for no longer",
    )
    items = read(ACTIVE="replaced by KEPT")
    assert items["KEPT"].past == USUAL
    assert "asked for no longer" not in [it.code for it in items["KEPT"].remarks]


@pytest.mark.parametrize("status, said", CASES["successors"], ids=str)
def test_successors_that_can_not_be_meant(status: dict[str, str], said: str) -> None:
    with pytest.raises(crn.Refused, match=said):
        read(**status)


def test_a_predecessor_that_is_not_there() -> None:
    """A predecessor of which nothing is read is said: its demand is nowhere."""
    item = read(YOUNG="successor of XYZ")["YOUNG"]
    assert item.remarks[-1].code == "unknown predecessor"
    assert item.remarks[-1].facts == {"item": "XYZ"}


def test_what_has_stopped_is_not_ordered(program: Path) -> None:
    """Items that have stopped, and those that are phased out, are in no sum, and not ordered but for what is owed of the
    latter."""
    end = MONDAY + datetime.timedelta(weeks=156, days=-1)
    plan = crn.plan(*tables_of(), program=program, jobs=1, end=end, **QUICK)
    decisions, totals = plan.decisions.set_index("item"), plan.totals
    ended = {name: past for name, past in CASES["pasts"].items() if past}
    assert decisions.loc[[*ended], "verdict"].to_dict() == ended
    assert (decisions.loc[[*ended], ["s_chosen", "S_chosen"]] == 0).all(axis=None)
    ordered = decisions.drop([*ended])
    assert {*ordered.index} == {"ACTIVE", "YOUNG"}
    assert decisions.loc[[*ended], "saving"].isna().all()
    for name in ("saving", "cost_today", "cost_chosen", "value_today"):
        assert totals[name] == pytest.approx(ordered[name].sum(), rel=1e-9)
    assert totals["value_ended"] == 4 * (5 + 7)
    assert totals.planned == 2
    assert "8 named = 2 planned + 3 stopped + 3 phase out + 0 left out" in plan.text
    today = plan.orders_today(date=end + datetime.timedelta(1))
    orders = today.frame.set_index("item")
    assert {*orders.index} == {"ACTIVE", "YOUNG", "OUT"}
    # Packs of 2 that cover the 3 items owed.
    names = ["s", "S", "position", "placed", "chance"]
    assert orders.loc["OUT", names].tolist() == [0, 0, -3, 4, 1.0]
    stopped = today.lists[today.lists.list.isin(ended.values())].set_index("item")
    assert stopped["list"].to_dict() == ended
    assert stopped["stock"].sum() == 5 + 7
    assert stopped["value"].sum() == 4 * (5 + 7)
    assert stopped["owed"].to_dict()["GONE"] == 2
    assert (
        "6 items, with stock worth 48.0, of which 1 item is owed to customers and not ordered"
        in today.text
    )
    assert {*today.lists.set_index("list").item["dead"]} == {"DEAD", "OLD"}
    few = pd.DataFrame({"item": ["ACTIVE", "GONE"], "stock": [3, 7]})
    today = plan.orders_today(few, date=end + datetime.timedelta(1))
    lists = today.lists[today.lists.list.isin(ended.values())]
    stocks = lists.set_index("item")["stock"]
    assert {*stocks.index} == {*ended}
    assert stocks.dropna().to_dict() == {"GONE": 7}


def test_status_by_the_command(tmp_path: Path, crnplan: Command) -> None:
    """Options say what a status means, and that the record stops nothing."""
    for name, table in zip(("demand", "items"), tables_of(OUT="ZZ")):
        table.to_csv(tmp_path / f"{name}.csv", index=False)
    files = tmp_path / "demand.csv", tmp_path / "items.csv"
    check = ["plan", *map(str, files), "--check"]
    said = "statuses.Z3=stopped", "statuses.ZZ=phase out", "stopped=as-stated"
    words = [word for text in said for word in ("--set", text)]
    assert "items left out" not in crnplan(*check, *words).output
    assert "say what it means by --set statuses.ZZ=stopped" in crnplan(*check).output
    why = "--set statuses: Z3: 'dead' is not one of active, phase out, stopped"
    assert crnplan(*check, "--set", "statuses.Z3=dead").refuses(why)
