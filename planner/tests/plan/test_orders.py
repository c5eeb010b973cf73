"""Tests what is late or at risk on a day, and the orders of suppliers: expected values are worked by hand."""
from __future__ import annotations

from collections.abc import Sequence
from dataclasses import replace
from fractions import Fraction
from pathlib import Path
from typing import Any

import pandas as pd
import pytest

import crnplan as crn
from crnplan.store.files import own_folder
from crnplan.law import Law
from crnplan.show.catalogue_page import MOST_ROWS, catalogue_page
from crnplan.show.today_tables import TODAY, OrdersToday
from crnplan.plan.catalogue import planned_folder
from crnplan.plan.risk import Risk
from crnplan.plan.survey import Survey
from crnplan.plan.standing import Standing
from crnplan.plan.today import Today
from crnplan.read.stock import Arrival
from planner.tests.conftest import Command
from planner.tests.show.made_catalogue import made_folder
from planner.tests.plan.test_today import (
    CASES,
    FRIDAY,
    LAWS,
    days,
    facts_of,
    standing_of,
)


def arrival(items: int, day: int | None) -> Arrival:
    """Returns items on order that are due so many days after the Friday."""
    return Arrival(Fraction(items), None if day is None else days(day))


def today_of(
    *standings: Standing, minimums: Any = None, sellers: Sequence[str] = ()
) -> Today:
    """Returns what these items say on the Friday."""
    return Today(FRIDAY, FRIDAY, standings, [], [], minimums or {}, True, sellers)


@pytest.mark.parametrize("case", CASES["risks"], ids=str)
def test_risk_by_hand(case: dict[str, Any]) -> None:
    """The chance of a shortage before the next receipt is without what is overdue, or has no date."""
    risk = Risk(standing_of(**facts_of(case["item"])))
    until, late, chance, short = case["risk"]
    assert (risk.days, risk.days_late) == (pytest.approx(until), late)
    found = risk.chance_without, risk.short
    assert found == pytest.approx((chance, short))
    assert risk.value == pytest.approx(3 * short)


@pytest.mark.parametrize(
    "every, until, is_at_risk",
    [
        ("day", 2, False),
        ("day", 3, True),
        ("week", 17, False),
        ("week", 18, True),
        ("month", 76, False),
        ("month", 77, True),
    ],
)
def test_stock_ends_before_a_receipt(every: str, until: int, is_at_risk: bool) -> None:
    """Five items last two and a half periods at a mean demand of 2: 2.5 days, 17.5 days, or 76.1 days of months."""
    standing = standing_of(arrivals=[arrival(9, until)], every=every)
    assert standing.risk.ends_before == is_at_risk


AT_RISK = """item,on_order,overdue,days_late,next_receipt
dear,9.0,0.0,0,2026-12-07
"due, and low",0.0,0.0,0,
cheap,9.0,0.0,0,2026-12-07
"late, and full",1.0,1.0,1,
unpriced,9.0,0.0,0,2026-12-07
"""


def test_what_is_late_or_at_risk() -> None:
    """An item is late if an order of it is overdue, and at risk if its stock is less than mean demand up to the next
    receipt. What costs most by expected shortage comes first; a price that is not known comes last.
    """
    laws = replace(LAWS, demand=Law((2,), (1,)))
    listed = [
        standing_of(stock=40, arrivals=[arrival(1, -1)], name="late, and full"),
        standing_of(
            stock=1, arrivals=[arrival(9, 10)], name="cheap", price=Fraction(1, 2)
        ),
        standing_of(stock=0, arrivals=[arrival(9, 10)], name="dear"),
        standing_of(stock=0, arrivals=[arrival(9, 10)], name="unpriced", price=None),
        standing_of(stock=3, laws=laws, name="due, and low"),
    ]
    sound = [
        standing_of(stock=3, arrivals=[arrival(9, 10)], name="enough"),
        standing_of(stock=5, laws=laws, name="due"),
        standing_of(stock=1, arrivals=[arrival(2, 0), arrival(9, 10)]),
        standing_of(stock=20, arrivals=[arrival(9, None)]),
    ]
    today = OrdersToday(today_of(*listed, *sound), "week")
    table = today.at_risk
    # dear: two weeks ask for 0, 4, 8: 4 items of 3; due, and low: three weeks ask for 6.
    columns = ["item", "on_order", "overdue", "days_late", "next_receipt"]
    assert table[columns].to_csv(index=False) == AT_RISK
    assert [*table.value[:3]] == pytest.approx([12, 9, 13 / 8])
    assert table.value.isna().tolist() == [False] * 4 + [True]
    assert table.why[1] == (
        "the stock lasts 1.5 weeks, nothing with a date is on order, and an order of today takes 14 days"
    )
    assert (
        "late or at risk: 5 items, 1 of them with overdue orders; expected shortage if these do not come: 22.62; "
        "expedite first: dear, cheap, late, and full, unpriced\n"
    ) in today.text


def test_an_order_below_s_leaves_today() -> None:
    """It may wait only if its supplier's least value is not met whatever is added, and the reason says until when."""
    items = {"supplier": "Bosch"}
    due, near = standing_of(stock=8, name="due", **items), standing_of(
        stock=12, name="near", **items
    )
    other = standing_of(stock=8, name="other", supplier="ABB")
    # due orders 12 of 3, to which near adds 8 of 3. By its 4 weeks of stock, less 2 of the lead time, it may wait 14 days.
    cases = {
        None: (days(0), ["below s"]),
        36: (days(0), ["below s"]),
        60: (days(0), ["below s", "fill up"]),
        61: (days(14), ["below s", "may wait"]),
    }
    for minimum, (latest, codes) in cases.items():
        minimums = {} if minimum is None else {"Bosch": Fraction(minimum)}
        frame = OrdersToday(
            today_of(due, near, other, minimums=minimums), "week"
        ).frame.set_index("item")
        assert frame.latest["due"] == str(latest)
        assert frame.code["due"].split("; ") == codes
        assert frame.latest["other"] == str(FRIDAY)
        assert frame.code["other"] == "below s"
    assert "lacks 25 of its least value" in frame.why["due"]
    assert "may wait until 2026-12-11" in frame.why["due"]


LINES = """item,number,packs,pack,placed,price,value,ordered,due
E,20261127-001,12,1,12,,,2026-11-27,2026-12-11
A,20261127-003,3,5,15,3.0,45.0,2026-11-27,2026-12-11
B,20261127-003,20,1,20,3.0,60.0,2026-11-27,2026-12-11
C,20261127-004,12,1,12,3.0,36.0,2026-11-27,2026-12-09
"""
SUPPLIERS = """name,number
,20261127-001
ABB,
Bosch,20261127-003
Zeiss,20261127-004
"""


def test_lines_of_suppliers() -> None:
    """Each supplier has a number by the day and its place among all, which is the same whatever is ordered."""
    items = [
        standing_of(stock=8, name="A", supplier="Bosch", pack=5),
        standing_of(stock=0, name="B", supplier="Bosch"),
        standing_of(
            stock=8,
            name="C",
            supplier="Zeiss",
            laws=replace(LAWS, lead=Law((1, 2), (1, 2))),
        ),
        standing_of(stock=15, name="D", supplier="ABB"),
        standing_of(stock=8, name="E", price=None),
    ]
    sellers = ["", "ABB", "Bosch", "Zeiss"]
    today = OrdersToday(today_of(*items, sellers=sellers), "week")
    lines = today.lines.set_index("item")
    # S is 20: A lacks 12, which are 3 packs of 5. A mean lead time of 5/3 weeks is 11.67 days, rounded up.
    columns = "number packs pack placed price value ordered due".split()
    assert lines[columns].to_csv() == LINES
    assert today.frame.set_index("item").code["A"] == "below s; rounded up"
    assert (
        lines.why["A"]
        == "the position 8 is below s = 9: 12 lack up to S = 20; rounded up to 15: packs of 5, at least 5"
    )
    groups = today.groups[today.groups.group == "supplier"]
    assert groups[["name", "number"]].to_csv(index=False) == SUPPLIERS
    files = {name for name in today.files if name.startswith("today_supplier_")}
    assert files == {f"today_supplier_{place}.csv" for place in ("001", "003", "004")}
    alone = OrdersToday(today_of(standing_of(stock=8), sellers=[""]), "week")
    assert [*alone.groups.number] == ["", "20261127-001"]


def test_a_file_for_each_supplier(tmp_path: Path) -> None:
    """Names of files are ours, whatever a supplier is called. What is no longer ordered has no file; others stay."""
    first = standing_of(stock=8, name="A", supplier="../../etc/passwd")
    second = standing_of(stock=8, name="B", supplier="Zeiss")
    sellers = [first.item.supplier, "Zeiss"]
    for standings in ([first, second], [first]):
        with own_folder(tmp_path / "today", TODAY) as folder:
            OrdersToday(today_of(*standings, sellers=sellers), "week").write(folder)
        files = {path.name for path in (tmp_path / "today").glob("today_supplier_*")}
        assert files == {
            f"today_supplier_{place:03}.csv" for place in range(1, len(standings) + 1)
        }
    (tmp_path / "today" / "today_supplier_007.csv").write_text("mine", "utf-8")
    with own_folder(tmp_path / "today", TODAY) as folder:
        OrdersToday(today_of(second, sellers=sellers), "week").write(folder)
    assert {path.name for path in (tmp_path / "today").glob("today_supplier_*")} == {
        "today_supplier_002.csv",
        "today_supplier_007.csv",
    }
    (line,) = pd.read_csv(tmp_path / "today" / "today_supplier_002.csv").itertuples()
    assert (line.number, line.item, line.placed) == ("20261127-002", "B", 12)
    assert [path.name for path in tmp_path.iterdir()] == ["today"]


def test_orders_of_files_by_supplier(
    tmp_path: Path, crnplan: Command, monkeypatch: pytest.MonkeyPatch
) -> None:
    """Files of suppliers together are the lines, whose sums are those of the orders, by pandas."""
    monkeypatch.chdir(tmp_path)
    folder = made_folder(tmp_path / "plan", 60, has_curve=False)
    decisions = crn.open_plan(folder).decisions
    pd.DataFrame({"item": decisions.item, "stock": decisions.s_chosen - 2}).to_csv(
        "stock.csv", index=False
    )
    pd.DataFrame(
        {"item": decisions.item[:9], "quantity": 1, "due": "2026-11-20"}
    ).to_csv("open.csv", index=False)
    words = "--stock", "stock.csv", "--on-order", "open.csv", "--date", "2026-11-27"
    answer = crnplan("today", folder, *words, "--out", "out")
    assert answer.status == 0, answer.errors
    orders, lines = (
        pd.read_csv(f"out/today_{name}.csv") for name in ("orders", "lines")
    )
    files = pd.concat(
        [pd.read_csv(path) for path in sorted(Path("out").glob("today_supplier_*.csv"))]
    )
    pd.testing.assert_frame_equal(files.reset_index(drop=True), lines)
    assert lines.placed.sum() == orders.placed.sum() > 0
    assert lines.value.sum() == pytest.approx(orders.value.sum())
    assert {*pd.read_csv("out/today_at_risk.csv").item} >= {*decisions.item[:9]}
    table = crnplan("today", folder, *words, "--csv", "at_risk").output
    assert table == Path("out/today_at_risk.csv").read_text("utf-8")
    with planned_folder(folder) as planned:
        page = catalogue_page(
            planned,
            Survey.of(planned, MOST_ROWS),
            crn.open_plan(folder).orders_today("stock.csv", "open.csv", "2026-11-27"),
        )
    orders_shown, controls_shown = page.index("Orders of 2026-11-27"), page.index(
        "Control totals"
    )
    assert orders_shown < controls_shown < page.index('data">stock.csv</td>')
