"""Tests that a period whose demand is not known is none without demand: as it is read, and in all that is made of it."""
from __future__ import annotations

import dataclasses
from pathlib import Path
from typing import Any

import numpy as np
import pandas as pd
import pytest

import crnplan as crn
from crnplan.demand.learning import Prior
from crnplan.errors import RefusedFaults
from crnplan.plan.backtest.methods import PLANNED, Walk, Way
from crnplan.plan.backtest.one import backtest_item
from crnplan.plan.correction import trial_of
from crnplan.plan.changes import rows_of, since_of
from crnplan.plan.learned import learners
from crnplan.plan.one import plan_one
from crnplan.plan.how import NONE
from crnplan.plan.question import question_of
from crnplan.read.catalogue_reading import Catalogued
from crnplan.read.item import Item
from crnplan.read.successors import summed
from planner.tests.plan.items import alone, item_of
from planner.tests.read.catalogues import (
    MASTER,
    MASTERS,
    TODAY,
    cases_of,
    demand_of,
    items_of,
    masters_of,
    read_text,
)

CASES = cases_of("unknown")
GAPS = [3, 4, 17]  # places of unknown periods


def with_gaps(**words: Any) -> crn.Catalogue:
    """Returns the catalogue of an item whose rows have no quantity in GAPS."""
    demand = demand_of("A").astype({"quantity": float})
    demand.loc[GAPS, "quantity"] = np.nan
    return crn.read_catalogue(demand, masters_of(MASTER), today=TODAY, **words)


def item_with_gaps(**changed: Any) -> Item:
    """Returns an item with unknown periods, in which something was seen."""
    item = item_of(3, **changed)
    counts = [99 if place in GAPS else n for place, n in enumerate(item.counts)]
    return dataclasses.replace(item, counts=tuple(counts), unknown=tuple(GAPS))


def test_unknown_weeks_have_no_value() -> None:
    """An item's class is by its mean over the weeks that are known: B's of 20 is above A's of 15, with no amounts of an
    unknown week and no unknown week among those that it is divided by."""
    demand = demand_of("A", "B").astype({"quantity": float})
    is_of_b = demand.item == "B"
    demand["quantity"] = np.where(is_of_b, 20, 15.0)
    demand.loc[[5, *demand.index[is_of_b][5:18]], "quantity"] = np.nan
    more = pd.DataFrame({"item": "A", "date": demand.date[5:6], "quantity": 200})
    masters = masters_of(*2 * [{**MASTER, "price": "1"}])
    words: dict[str, Any] = {"empty": "unknown", "abc": (50, 95), "today": TODAY}
    read = crn.read_catalogue(pd.concat([demand, more]), masters, **words)
    assert {name: it.abc for name, it in items_of(read).items()} == {"A": "B", "B": "A"}


def test_a_week_without_a_quantity_is_unknown() -> None:
    """It counts for nothing, is said with a count, and its rows are used and named."""
    read = with_gaps()
    item = items_of(read)["A"]
    others = [2 + week % 3 for week in range(26) if week not in GAPS]
    assert (item.unknown, item.known.counts) == ((3, 4, 17), (*others,))
    (remark,) = item.remarks
    assert remark.facts == {"periods": 3, "every": "week", "of": 26}
    assert "items with periods whose demand is not known: 1, with 3" in read.said[0]
    (reject,) = read.rejects.itertuples()
    assert reject.kind == "suspicious" and "lines 5, 6, 19" in reject.reason
    assert read.counts["files"]["demand"]["used"] == 26 and not read.missing


@pytest.mark.parametrize("text", ["~30", "1,234", "2.5", "-3"])
def test_a_week_with_a_quantity_that_is_not_read_is_unknown(text: str) -> None:
    """Its row is rejected, its item warns, and what is in no sum is counted."""
    demand = demand_of("A").astype({"quantity": object})
    demand.loc[GAPS, "quantity"] = text
    read = crn.read_catalogue(demand, masters_of(MASTER), today=TODAY, empty="none")
    item = items_of(read)["A"]
    others = [2 + week % 3 for week in range(26) if week not in GAPS]
    assert (item.unknown, item.known.counts) == ((*GAPS,), (*others,))
    assert [remark.code for remark in item.remarks] == ["unknown periods"]
    assert read.counts["files"]["demand"]["rejected"] == 3 and not read.missing
    assert "in no sum: 3 that can't be read" in str(read.said)


def test_rows_of_a_day_that_is_not_read() -> None:
    """They are in no week, which their item and the catalogue say, with how much was asked for."""
    demand = demand_of("A")
    demand.loc[GAPS, "date"] = "2026-02-30"
    read = crn.read_catalogue(demand, masters_of(MASTER), today=TODAY)
    item = items_of(read)["A"]
    lost = demand.quantity[GAPS].sum()
    assert item.unknown == () and sum(item.counts) == demand.quantity.sum() - lost
    (remark,) = item.remarks
    assert remark.code == "undated rows"
    assert remark.facts == {"rows": 3, "items": lost, "every": "week", "of": 26}
    assert f"and 3 whose date can't be read, with {lost} items" in str(read.said)


def test_items_teach_by_known_periods_alone() -> None:
    """An item of whose last weeks none is known teaches by its known ones; one of which no week is known teaches nothing."""
    demand = demand_of("A", "B", "C").astype({"quantity": float})
    demand.loc[21:25, "quantity"] = np.nan
    demand.loc[demand["item"] == "C", "quantity"] = np.nan
    masters = masters_of(MASTER, MASTER, MASTER)
    read = crn.read_catalogue(demand, masters, today=TODAY, least=1)
    taught = learners(Catalogued(read.path), False)
    assert [item.name for item in taught] == ["A", "B"]


def test_what_an_empty_cell_means_may_be_stated() -> None:
    """It is none, or unknown, without rows that are named."""
    none, unknown = with_gaps(empty="none"), with_gaps(empty="unknown")
    assert items_of(none)["A"].counts[3:5] == (0, 0)
    assert items_of(none)["A"].unknown == () and not none.said
    assert items_of(unknown)["A"].unknown == (3, 4, 17)
    assert unknown.rejects.empty and none.rejects.empty
    with pytest.raises(crn.Refused, match="empty.*zero.*unknown, none"):
        with_gaps(empty="zero")


def test_a_part_of_a_week_makes_it_unknown(tmp_path: Path) -> None:
    """A week with a row that has no quantity is unknown, whatever its other rows say; a row without a date says none."""
    rows = "A,2026-03-02,5\nA,2026-03-03,\nA,2026-03-10,4\nA,,\nA,2026-03-17,\n"
    item = items_of(read_text(tmp_path, rows, least=1))["A"]
    assert (item.counts, item.unknown) == ((5, 4, 0), (0, 2))
    assert item.known.counts == (4,)


def test_too_few_known_periods_make_an_item_new(tmp_path: Path) -> None:
    """An item with fewer known periods than it needs is new, also with none."""
    rows = "A,2026-03-02,5\nA,2026-03-10,4\n" + "B,2026-03-02,\nB,2026-03-10,\n"
    masters = MASTERS + MASTERS.splitlines()[1].replace("A", "B", 1)
    items = items_of(read_text(tmp_path, rows, masters, least=1))
    assert (items["A"].past, items["B"].past) == ("", "new")
    assert items["B"].known.counts == () and items["B"].box == 1


@pytest.mark.parametrize("row, empty, counts, unknown", CASES["wide"])
def test_wide_tables(
    tmp_path: Path, row: str, empty: str, counts: list[int], unknown: list[int]
) -> None:
    """An empty cell is none by default, and unknown if that is stated; history begins with what is known."""
    text = f"item,2026-W10,2026-W11,2026-W12,2026-W13\nA,{row}\n".encode()
    words = {"empty": empty} if empty else {}
    read = read_text(tmp_path, text, least=1, **words)
    item = items_of(read)["A"]
    assert (item.counts, item.unknown) == (tuple(counts), tuple(unknown))
    said = "empty cells taken as no demand: 1; if their demand is not known, say empty="
    assert (said in str(read.said)) == (empty != "unknown")


def test_zeros_beside_empty_cells_are_refused(tmp_path: Path) -> None:
    """If some cells say 0, an empty one behind the first filled one may be either; before it and in totals it is none."""
    head = "item,2026-W10,2026-W11,2026-W12\n"
    with pytest.raises(RefusedFaults) as refused:
        read_text(tmp_path, f"{head}A,3,,0\n".encode())
    assert "1 cells say 0, and 1 " in str(refused.value)
    assert "say empty=none or empty=unknown" in str(refused.value)
    whole = read_text(tmp_path, f"{head}A,,0,3\nTotal,3,,0\n".encode(), least=1)
    assert items_of(whole)["A"].counts == (0, 3)


@pytest.mark.parametrize("missing", [None, np.nan, pd.NA])
def test_numbers_that_are_missing(missing: Any) -> None:
    """Laws are fitted to the others, in any kind of sequence; lead times may not be missing."""
    counts = [0, 3, 5, 0, 2, 8, 1] * 4
    rows = [*counts[:9], missing, *counts[9:]]
    assert crn.fit_demand(rows) == crn.fit_demand(counts)
    assert crn.fit_demand(pd.Series(rows, dtype="Int64")) == crn.fit_demand(counts)
    checks = crn.check_history(rows)
    assert checks.periods == 28 and checks.notes[0].facts == {"count": 1, "periods": 29}
    with pytest.raises(crn.Refused, match="leads: entry 2"):
        crn.fit_lead([2, missing])
    with pytest.raises(crn.Refused, match="demand: there are 0 numbers"):
        crn.fit_demand([missing] * 3)


@pytest.mark.parametrize("field", ["counts", "returns", "unknown", "first"])
def test_parts_of_an_item(field: str) -> None:
    """Unknown periods keep their place in a part of an item, and without some periods."""
    item = Item("A", (1, 9, 2, 9, 3), (2,), None, 1, 1, returns=(1, 0, 0, 1, 0))
    item = dataclasses.replace(item, unknown=(1, 3), first=10)
    expected: dict[str, Any] = CASES["parts"][field]
    assert list_of(item.part(1, 4), field) == expected["part"]
    assert list_of(item.without([0, 1]), field) == expected["without"]
    assert list_of(item.known, field) == expected["known"]


def list_of(item: Item, field: str) -> Any:
    value = getattr(item, field)
    return [*value] if isinstance(value, tuple) else value


def test_a_successor_is_known_where_both_are() -> None:
    """The joint history is unknown where that of the item or of its predecessor is."""
    old = Item("A", (1, 9, 2, 3), (2,), None, 1, 1, unknown=(1,), first=5)
    new = Item("B", (9, 4), (2,), None, 1, 1, unknown=(0,), first=7)
    joint = summed(new, old)
    assert (joint.first, joint.unknown, joint.known.counts) == (5, (1, 2), (1, 7))
    assert joint.cut == ()


def test_a_successor_is_cut_where_one_is_and_the_other_is_known() -> None:
    """A week that one of both does not know is not cut: nothing says how much of it was asked for at least."""
    old = Item("A", (1, 9, 2), (2,), None, 1, 1, unknown=(0, 1), cut=(0, 1))
    new = Item("B", (4, 0, 3), (2,), None, 1, 1, unknown=(1, 2), cut=(2,))
    joint = summed(new, old)
    assert (joint.unknown, joint.cut, joint.least) == ((0, 1, 2), (0, 2), (5, 5))


def test_a_plan_is_that_of_the_known_periods(program: Path) -> None:
    """What was seen in unknown periods moves nothing but the periods' names."""
    gaps = item_with_gaps()
    plans = [
        plan_one(question_of(item, alone()), str(program))
        for item in (gaps, gaps.known)
    ]
    assert plans[0].chosen == plans[1].chosen and plans[0].law == plans[1].law
    assert gaps.box == gaps.known.box == 1


def test_the_past_is_that_of_the_known_periods() -> None:
    """A backtest and a trial leave unknown periods out, and the first later period has its number."""
    gaps, walk = item_with_gaps(fill=crn.money.exact("0.9")), Walk(40, 7, 30)
    ways = {PLANNED: Way(alone(), Prior(NONE))}
    first, second = (backtest_item(item, walk, ways) for item in (gaps, gaps.known))
    assert first.first == 43 and second.first == 40
    assert dataclasses.replace(first, first=40) == second
    trials = [trial_of(item, alone(), Prior(NONE)) for item in (gaps, gaps.known)]
    assert trials[0] == trials[1]


def test_what_came_since_is_that_of_the_known_periods(program: Path) -> None:
    """What the policy of an earlier plan came to leaves out unknown periods, those before its end too."""
    item, settings = item_of(3), alone()
    old = item.part(0, 40)
    plan = old, plan_one(question_of(old, settings), str(program))
    now = dataclasses.replace(item, unknown=(3, 40, 45))
    since, same = since_of(plan, now, settings, 40), since_of(
        plan, now.known, settings, 39
    )
    assert since and same and (since.first, same.first) == (41, 39)
    assert since.demands == (*item.counts[41:45], *item.counts[46:])
    known = [*item.counts[:3], *item.counts[4:40], *since.demands]
    assert since.mean == pytest.approx(sum(known) / len(known))
    assert dataclasses.replace(since, first=39) == same


def test_a_period_that_is_no_longer_known_has_changed() -> None:
    """Beside an earlier plan, a period that was 0 and is unknown now is a row that has changed."""
    old = item_of(3, counts=(3, 0, 4, 2))
    new = dataclasses.replace(old, unknown=(1,))
    (remark,) = rows_of(old, new, 4)
    assert remark.facts == {"periods": 1, "items": 0}
