"""Tests of orders that were placed: they count until open orders have them, whenever these were dropped."""
from __future__ import annotations

import datetime
import itertools
from collections.abc import Mapping
from typing import Any

import pytest

from crnplan.desk import kept, orders as module
from crnplan.desk.kept import Placed
from crnplan.desk.today_files import TodayFiles
from planner.tests.desk.conftest import Planner
from planner.tests.desk.today import Shown, levels, shown, table_of

__all__ = ["levels", "shown"]


@pytest.fixture(autouse=True)
def clock(monkeypatch: pytest.MonkeyPatch) -> None:
    """Has each time be a second later than the last one."""
    first, seconds = datetime.datetime(2026, 11, 27, 8), itertools.count()
    for place in (kept, module):
        monkeypatch.setattr(
            place, "now", lambda: str(first + datetime.timedelta(seconds=next(seconds)))
        )


def drop_orders(planner: Planner, rows: Mapping[str, object]) -> None:
    """Drops a file of open orders on the page."""
    data = table_of("qty on order", rows)
    sent = planner.post("/files/drop", {"files": [(data, "open.csv")]})
    assert sent.status_code == 303
    assert len(planner.desk.files_of("on_order")) == 1


def test_open_orders_have_what_was_placed(planner: Planner, shown: Shown) -> None:
    """What was placed counts until open orders have a new row of its item and quantity, also if the same file is dropped
    again. It is taken off the list then, and the row is that of no other order."""
    orders, own = shown.lines, shown.form("0017").values("item")
    before = {own[0]: orders[own[0]]}
    drop_orders(planner, before)
    assert Shown(planner).lines.keys() == orders.keys() - {own[0]}
    drop_orders(planner, {"P00010": 1})
    shown = Shown(planner)
    shown.send(shown.form("0017"), "/today/place")
    for rows in ({"P00010": 1}, {}, {own[1]: 1}):
        drop_orders(planner, rows)
        shown = Shown(planner)
        assert shown.lines.keys() == orders.keys() - {*own}
        assert "is or was in a file" not in shown.text

    drop_orders(planner, before)
    shown = Shown(planner)
    assert shown.lines.keys() == orders.keys() - {*own}
    assert shown.text.count("<td>is or was in a file") == 1
    shown.send(shown.ending(), "", None, ("way", "filed"))
    assert [it.item for it in planner.desk.state.placed] == own[1:]
    assert "in a file off this list" not in Shown(planner).text
    assert Shown(planner).lines.keys() == orders.keys() - {*own}


def test_what_open_orders_had_is_no_longer_on_order(
    planner: Planner, shown: Shown
) -> None:
    """An order that one export has counts no longer if the next one has not: it was received or cancelled."""
    orders, own = shown.lines, shown.form("0017").values("item")
    drop_orders(planner, {"P00010": 1})
    shown = Shown(planner)
    shown.send(shown.form("0017"), "/today/place")
    for rows in ({own[0]: orders[own[0]]}, {"P00010": 1}):
        drop_orders(planner, rows)
    assert Shown(planner).lines.keys() == orders.keys() - {*own[1:]}
    assert [it.is_filed for it in planner.desk.state.placed] == [True, False, False]


TWICE = [("A", 6, "1-001", "", False), ("A", 6, "1-002", "6", False)]


@pytest.mark.parametrize(
    "rows, numbered, placed, named",
    [
        (["6"], [], TWICE, [0]),
        (["12"], [], TWICE, []),
        ([], [{"A", "1-002", "5"}], TWICE, [1]),
        ([], [{"B", "1-002", "6"}], TWICE, []),
        (["6", "6"], [], [("A", 6, "1-001", "", True), *TWICE[1:]], [0, 1]),
        (["6"], [], [("A", 6, "1-001", "6", True), *TWICE[1:]], [0]),
        (["6"], [], [("A", 6, "1-001", ""), ("A", 6, "1-002", "")], [0]),
        (["6", "6"], [], [("A", 6, "1-001", "6"), ("A", 6, "1-002", "6")], [0]),
    ],
)
def test_rows_of_open_orders_are_those_of_one_order_each(
    rows: list[str], numbered: list[set[str]], placed: list[Any], named: list[int]
) -> None:
    """A row with the number of an order is its own. A row of item and quantity is that of the first order before which it was
    not there."""
    files = TodayFiles({}, {}, [], {}, {"A": rows}, numbered)
    orders = [Placed(*one[:3], "", *one[3:]) for one in placed]
    assert files.named(orders) == [orders[place] for place in named]
    assert files.had("A").split() == rows
