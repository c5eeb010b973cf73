"""Tests of the table of the times in which items were out of stock: the demand of such periods is not known."""
from __future__ import annotations

from pathlib import Path
from typing import Any

import pandas as pd
import pytest

import crnplan as crn
from planner.tests.conftest import Command
from planner.tests.plan.items import SHORT
from planner.tests.planned_tables import whole_frame
from planner.tests.read.catalogues import (
    MASTER,
    MASTERS,
    TODAY,
    cases_of,
    demand_of,
    items_of,
    masters_of,
    weekly,
)

CASES = cases_of("outages")


def read(*rows: tuple[object, ...], **words: Any) -> crn.Catalogue:
    """Returns a catalogue of two items of 26 weeks from 2026-03-02 on, with rows of times out of stock."""
    out = pd.DataFrame(rows, columns=["item", "from", "to"], dtype=object)
    masters, demand = masters_of(MASTER, MASTER), demand_of("A", "B")
    words = {"today": TODAY, "out_of_stock": out, **words}
    return crn.read_catalogue(demand, masters, **words)


@pytest.mark.parametrize("first, last, places", CASES["spans"])
def test_weeks_with_a_day_out_of_stock_are_unknown(
    first: str, last: str, places: list[int]
) -> None:
    """All weeks from that of the first day to that of the last one are; without a last day, to the end of the record."""
    items = items_of(read(("A", first, last)))
    assert items["A"].unknown == tuple(places) and items["B"].unknown == ()
    known = [2 + week % 3 for week in range(26) if week not in places]
    assert items["A"].known.counts == (*known,)


def test_times_add_up_with_empty_rows() -> None:
    """Several times of an item, and rows without a quantity, leave periods unknown together, and are counted once. In a
    period with both, nothing is sold at least."""
    demand = demand_of("A")
    demand["quantity"] = demand.quantity.astype(float).where(~demand.index.isin([1, 4]))
    rows = [("A", "2026-03-02", "2026-03-03"), ("A", "2026-03-08", "2026-03-10")]
    out = pd.DataFrame(rows, columns=["item", "from", "to"])
    read = crn.read_catalogue(demand, masters_of(MASTER), today=TODAY, out_of_stock=out)
    item = items_of(read)["A"]
    assert (item.unknown, item.cut, item.least) == ((0, 1, 4), (0,), (2,))
    assert read.counts["items"]["unknown_periods"] == 3
    assert read.counts["files"]["out_of_stock"]["used"] == 2 and not read.missing


@pytest.mark.parametrize("first, last, why", CASES["rejected"])
def test_rows_with_faults_are_rejected(first: str, last: str, why: str) -> None:
    """They are named with why, and leave nothing unknown."""
    wrong = read(("A", first, last), ("B", "2026-03-02", "2026-03-02"))
    (reject,) = wrong.rejects.itertuples()
    assert (reject.kind, reject.item, reject.rows) == ("row", "A", 0)
    assert why in reject.reason
    items = items_of(wrong)
    assert (items["A"].unknown, items["B"].unknown) == ((), (0,))
    assert wrong.counts["files"]["out_of_stock"]["rejected"] == 1


def test_item_of_a_row_without_a_master() -> None:
    """An item that stands in this table alone is named with its row."""
    days = "2026-03-02", "2026-03-03"
    (reject,) = read(("A", *days), ("C", *days)).rejects.itertuples()
    where = reject.file, reject.line, reject.item
    assert where == ("out_of_stock", 3, "C") and "no master" in reject.reason


def test_classes_are_by_the_demand_that_is_known() -> None:
    """The mean demand by which A, B and C are cut is that of the known periods, whatever was sold in the others: nine
    items of 77 in 26 weeks, and one of 1,287 in 13 and 39 in the other 13, which is 66% of all value, or 10%. An item is
    A if those of higher value have less than 50%."""
    names = [f"I-{place}" for place in range(10)]
    demand, masters = demand_of(*names), masters_of(*[MASTER] * 8)
    masters = pd.concat([masters, masters[:2]]).assign(item=names, price="1")
    demand.loc[(demand.item == "I-9") & (demand.index % 26 < 13), "quantity"] = 99
    days = ["2026-03-02"], ["2026-05-31"]
    out = pd.DataFrame({"item": ["I-9"], "from": days[0], "to": days[1]})
    words: dict[str, Any] = {"today": TODAY, "far": "keep", "abc": "50,80"}
    whole = items_of(crn.read_catalogue(demand, masters, **words))
    known = items_of(crn.read_catalogue(demand, masters, out_of_stock=out, **words))
    letters = ["".join(item.abc for item in read.values()) for read in (whole, known)]
    assert letters == ["BBBBBBBBBA", "AAAAAAAAAA"]


def test_the_command_takes_the_table(crnplan: Command, tmp_path: Path) -> None:
    """`crnplan plan` finds the times without stock, and says its columns and what is unknown."""
    demand = f"item,date,quantity\n{weekly([3, 1, 4] * 8)}"
    (tmp_path / "demand.csv").write_text(demand)
    (tmp_path / "items.csv").write_text(MASTERS)
    (tmp_path / "out.csv").write_text("item;fehlt ab;bis\nA;03.03.2026;16.03.2026\n")
    status, output, errors = crnplan(
        *("plan", tmp_path / "demand.csv", tmp_path / "items.csv", "--check"),
        tmp_path / "out.csv",
    )
    assert status == 0 and "[catalogue.out_of_stock]" in errors
    assert 'from = "fehlt ab"' in errors
    assert (
        "is not known: 1, with 3 such periods; out of stock in these: 1 items" in errors
    )


def test_plans_and_tests_of_the_past_take_the_table(program: Path) -> None:
    """`plan` fits to at least what was sold, and says how much; `backtest` leaves such periods out."""
    out = pd.DataFrame(
        {"item": ["A"], "from": ["2026-03-02"], "to": ["2026-03-22"]}, dtype=object
    )
    demand, masters = demand_of("A"), masters_of(MASTER)
    words: dict[str, Any] = {"out_of_stock": out, "jobs": 1}
    plan = crn.plan(
        demand, masters, **words, today=TODAY, borrow="none", program=program, **SHORT
    )
    (row,) = whole_frame(plan).itertuples()
    assert "out of stock" in row.codes and "cut periods" in row.codes
    assert "in 3 of 3 periods out of stock 9 items were sold" in row.warnings
    past: dict[str, Any] = {"record": 20, "every": 4, "borrow": "none", "jobs": 1}
    assert not crn.backtest(demand, masters, **past).frame.left_out.any()
    (why,) = crn.backtest(demand, masters, out_of_stock=out, **past).frame.left_out
    assert "it has 23 periods" in why


def test_the_command_backtest_takes_the_table(crnplan: Command, tmp_path: Path) -> None:
    """Two tables have it beside them; a planned folder has its own."""
    (tmp_path / "demand.csv").write_text(f"item,date,quantity\n{weekly([3, 1] * 13)}")
    (tmp_path / "items.csv").write_text(MASTERS)
    (tmp_path / "out.csv").write_text("item,from,to\nA,2026-03-02,2026-03-22\n")
    walk = "--record", 20, "--every", 4, "--jobs", 1
    files = tmp_path / "demand.csv", tmp_path / "items.csv", "--out", tmp_path / "plan"
    out = [tmp_path / "out.csv"]
    status, _, errors = crnplan("backtest", *files, *out, *walk)
    assert status == 0, errors
    assert "it has 23 periods" in (tmp_path / "plan/backtest.csv").read_text()
    assert crnplan("backtest", tmp_path / "plan", *out).refuses(
        "name a folder of crnplan plan, or tables and --out"
    )
