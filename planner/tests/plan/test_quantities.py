"""Tests what a planner orders on a day in place of what the plan says: orders by hand, and sums by pandas."""
from __future__ import annotations

import random
from collections.abc import Mapping, Sequence
from dataclasses import replace
from fractions import Fraction
from pathlib import Path
from typing import Any

import pandas as pd
import pytest

import crnplan as crn
from crnplan.errors import RefusedFaults
from crnplan.plan.answer import Answer
from crnplan.plan.standing import Standing
from crnplan.read.bounds import OrderBounds
from crnplan.read.item import PHASE_OUT, STOPPED
from crnplan.read.quantities import Quantity
from crnplan.remarks import Remark
from crnplan.show.today_tables import OrdersToday
from crnplan.sentences import sentence
from planner.tests.conftest import Command, cases_beside
from planner.tests.plan.test_orders import today_of
from planner.tests.plan.test_today import FRIDAY, facts_of, standing_of
from planner.tests.show.made_catalogue import made_folder, made_pair
from planner.tests.show.page_reader import Page

CASES = cases_beside(__file__)
DAY = "2026-11-27"


def asked(standing: Standing, items: int, reason: str = "") -> Standing:
    """Returns an item of which a planner orders so many."""
    return replace(standing, quantity=Quantity(items, reason))


@pytest.mark.parametrize("case", CASES["orders"], ids=str)
def test_quantity_by_hand(case: Mapping[str, Any]) -> None:
    standing = asked(standing_of(**facts_of(case["item"])), *case["quantity"])
    planned, placed, packs, why = case["order"]
    assert standing.is_due
    found = standing.planned, standing.placed, standing.packs
    assert found == (planned, placed, packs)
    assert standing.is_changed == (planned != placed)
    assert "; ".join(map(sentence, standing.reasons)) == why


def test_what_is_ordered_of_a_supplier() -> None:
    """All sums have the quantities. What is left out is said, and not added again to reach the least value."""
    bosch = {"supplier": "Bosch", "category": "a"}
    standings = [
        asked(standing_of(name="A", **bosch), 12, "one truck"),
        asked(standing_of(name="B", stock=4, owed=1, **bosch), 0, "sold out"),
        standing_of(name="C", stock=8, **bosch),
        standing_of(name="D", stock=12, **bosch),
        asked(standing_of(name="E", stock=15, supplier="ABB", category="b"), 8),
        asked(standing_of(name="F", stock=15, **bosch), 0),
    ]
    today = today_of(*standings, minimums={"Bosch": Fraction(100)})
    orders = OrdersToday(replace(today, has_quantities=True), "week")
    # 12 of A and 12 of C cost 72, to which 8 of D add 24; of B the plan has 17.
    assert orders.frame[["item", "placed", "value"]].values.tolist() == [
        ["A", 12, 36],
        ["C", 12, 36],
        ["E", 8, 24],
    ]
    assert orders.lines[["item", "packs", "placed", "value"]].values.tolist() == [
        ["E", 8, 8, 24],
        ["A", 12, 12, 36],
        ["C", 12, 12, 36],
    ]
    groups = orders.groups[["group", "name", "orders", "value"]]
    assert groups.values.tolist() == [
        ["class", "a", 2, 72],
        ["class", "b", 1, 24],
        ["supplier", "ABB", 1, 24],
        ["supplier", "Bosch", 2, 72],
    ]
    assert orders.groups.short[2:].tolist() == [0, 28]
    assert orders.added[["item", "placed", "total"]].values.tolist() == [["D", 8, 96]]
    assert orders.lists.set_index("list").item["owed"] == "B"
    counts = "(the planner changed 1, added 1, left out 1)"
    assert orders.headline == f"{DAY}: 3 orders, worth 96.00 {counts}"
    assert "\nleft out by the planner: 17 B\n" in orders.text
    assert orders.frame.code[0] == "below s; by the plan; may wait"
    plain = OrdersToday(today_of(*standings[2:4]), "week")
    assert "the planner" not in plain.text


@pytest.fixture(scope="module")
def folder(tmp_path_factory: pytest.TempPathFactory) -> Path:
    """Returns the folder of a plan of nut, of other made items, and of bolt, which comes in packs of 24."""
    item, answer = made_pair(random.Random(4), "bolt")
    bolt = replace(item, bounds=OrderBounds(24), price=Fraction(2), supplier="Bosch")
    path = tmp_path_factory.mktemp("asked") / "plan"
    return made_folder(path, 40, ("nut",), has_curve=False, change=(bolt, answer))


@pytest.fixture(scope="module")
def stock(folder: Path) -> pd.DataFrame:
    """Returns a table of stock of all items but one, by which each second one is due."""
    decisions = crn.open_plan(folder).decisions
    less = [1 if place % 2 else -5 for place in range(len(decisions))]
    counts = (decisions.s_chosen - less).clip(lower=0)
    table = pd.DataFrame({"item": decisions.item, "stock": counts})
    return table[table.item != "P00005"]


def test_sums_by_pandas(folder: Path, stock: pd.DataFrame) -> None:
    """Each table has the planner's quantities, else those of the plan, and the headline counts what differs."""
    plan = crn.open_plan(folder)
    before = plan.orders_today(stock, date=FRIDAY).lines.set_index("item").placed
    source = random.Random(7)
    names = [name for name in stock.item if name != "bolt"][::3]
    rows = {name: source.choice([0, 0, 7, 19]) for name in names} | {"bolt": 48}
    some = before.index[before.index.isin(names)][0]
    rows[some] = int(before[some])
    orders = plan.orders_today(stock, date=FRIDAY, quantities=rows)
    wanted = pd.Series({**before, **rows})
    wanted = wanted[wanted > 0].sort_index()
    for table in (orders.lines, orders.frame[orders.frame.placed.notna()]):
        placed = table.set_index("item").placed.sort_index()
        assert placed.to_dict() == wanted.to_dict()
    priced = orders.lines[orders.lines.price.notna()]
    assert (priced.price * priced.placed).tolist() == pytest.approx([*priced.value])
    for _, groups in orders.groups.groupby("group"):
        assert groups.orders.sum() == len(wanted)
        assert groups.value.sum() == pytest.approx(priced.value.sum())
    planned = pd.Series({name: before.get(name, 0) for name in rows})
    own = pd.Series(rows)
    omitted, added = (planned > 0) & (own == 0), (planned == 0) & (own > 0)
    changed = (planned != own) & (planned > 0) & (own > 0)
    assert omitted.any() and added.any() and changed.any()
    counts = f"changed {changed.sum()}, added {added.sum()}, left out {omitted.sum()})"
    assert counts in orders.headline and orders.headline in orders.text
    codes = orders.frame.set_index("item").code
    assert {*codes.index[codes.str.contains("by the plan")]} == {
        *own.index[changed | added]
    }
    totals = orders.controls.set_index(["file", "rows_are"])
    assert totals.units["quantities", "used"] == own.sum()
    assert totals.rows["quantities", "read"] == len(own)
    same = plan.orders_today(stock, date=FRIDAY, quantities=before)
    assert "(the planner changed 0, added 0, left out 0)" in same.headline
    assert same.lines.equals(plan.orders_today(stock, date=FRIDAY).lines)


@pytest.mark.parametrize("rows, said", CASES["refused"], ids=str)
def test_refused_quantities(
    folder: Path,
    stock: pd.DataFrame,
    tmp_path: Path,
    rows: Sequence[str],
    said: Sequence[str],
) -> None:
    """Nothing is ordered by a table with a fault, of which each is named with its line and what may be written."""
    path = tmp_path / "quantities.csv"
    path.write_text("\n".join(["item,quantity,reason", *rows, ""]), "utf-8")
    with pytest.raises(RefusedFaults) as refused:
        crn.open_plan(folder).orders_today(stock, date=FRIDAY, quantities=path)
    faults = [str(fault) for fault in refused.value.faults]
    for fault, words in zip(faults, said, strict=True):
        assert fault.startswith(f"quantities.csv:{words}")


def test_items_that_are_not_known(folder: Path, stock: pd.DataFrame) -> None:
    """A name that is not in the plan is left out and named. Of an item whose stock is not known nothing can be ordered."""
    plan = crn.open_plan(folder)
    rows = {"X-1": 2.5, "bolt": 24, "P00005": 0}
    orders = plan.orders_today(stock, date=FRIDAY, quantities=rows)
    left = orders.left_out.set_index("item")
    assert left.reason["X-1"] == "no item of the plan has this name"
    assert orders.today.holdings.counts["quantities"]["used"] == 2
    unknown = orders.frame[orders.frame.placed.isna()]
    assert [*unknown.item] == ["P00005"]
    said = "quantities: the stock of P00005 is not known; add it to the stock, or write"
    with pytest.raises(crn.Refused, match=said):
        plan.orders_today(stock, date=FRIDAY, quantities={"P00005": 1})


@pytest.mark.parametrize(
    "past, code, planned",
    [(PHASE_OUT, "phase out", 4), (STOPPED, "stopped", 0), ("", "no policy", 0)],
)
def test_items_without_a_policy(
    tmp_path: Path, past: str, code: str, planned: int
) -> None:
    """A quantity is ordered of an item without a policy too, of which there are no s and S, and no stock is above S. Of
    one that is phased out the plan orders what is owed."""
    item, _ = made_pair(random.Random(3), "Q-1")
    item = replace(item, past=past, stock=Fraction(-4), price=Fraction(2))
    answer: Answer | Remark = Remark(code, {"periods": 9, "fill": None})
    folder = made_folder(tmp_path / "plan", 5, has_curve=False, change=(item, answer))
    plan = crn.open_plan(folder)
    without = plan.orders_today(date=DAY)
    own = without.frame[without.frame.item == "Q-1"]
    assert own.placed.dropna().tolist() == [4] * (planned > 0)
    unknown = "as too little is known of them"
    assert (f"{unknown}: 6 items: " in without.text) == (not past)
    orders = plan.orders_today(date=DAY, quantities={"Q-1": 6})
    (line,) = orders.lines[orders.lines.item == "Q-1"].itertuples()
    assert (line.placed, line.value) == (6, 12)
    assert line.why.endswith(f"{planned} by the plan")
    (row,) = orders.frame[orders.frame.item == "Q-1"].itertuples()
    assert pd.isna(row.s) == pd.isna(row.S) == (planned == 0)
    assert not (orders.lists.list == "above").any()
    assert f"{unknown}: 5 items: " in orders.text
    owed = ", of which 1 item is owed to customers and not ordered"
    assert (owed in without.text) == (past == STOPPED)
    assert owed not in orders.text
    none = plan.orders_today(date=DAY, quantities={"Q-1": 0})
    assert none.lines[none.lines.item == "Q-1"].empty
    assert ("left out by the planner: 4 Q-1\n" in none.text) == (planned > 0)


def test_commands(
    folder: Path,
    stock: pd.DataFrame,
    tmp_path: Path,
    crnplan: Command,
    monkeypatch: pytest.MonkeyPatch,
) -> None:
    """The command takes its own tables with other quantities, and a page has the same orders."""
    monkeypatch.chdir(tmp_path)
    stock.to_csv("stock.csv", index=False)
    words = "--stock", "stock.csv", "--date", DAY
    assert crnplan("today", folder, *words, "--out", "out").status == 0
    lines = pd.read_csv("out/today_lines.csv")
    lines.loc[0, "placed"] += 24
    lines["Comment"] = ["fair", *[""] * (len(lines) - 1)]
    lines.to_csv("quantities.csv", index=False)
    words = *words, "--quantities", "quantities.csv"
    answer = crnplan("today", folder, *words, "--csv", "lines")
    Path("lines.csv").write_text(answer.output, "utf-8")
    again = pd.read_csv("lines.csv").set_index("item")
    assert again.placed.to_dict() == dict(zip(lines.item, lines.placed))
    assert again.why[lines.item[0]].endswith(" by the plan (fair)")
    assert again.why.str.contains("by the plan").sum() == 1
    headline = (
        crn.open_plan(folder)
        .orders_today("stock.csv", date=DAY, quantities="quantities.csv")
        .headline
    )
    assert "(the planner changed 1, added 0, left out 0)" in headline
    assert crnplan("report", folder, *words).status == 0
    assert (
        headline.replace("say on_order", "say --on-order")
        in Page(folder / "report.html").words
    )
    lines.assign(placed=lines.placed + 0.5).to_csv("quantities.csv", index=False)
    refused = crnplan("today", folder, *words)
    assert refused.refuses("quantities.csv:2: ")
