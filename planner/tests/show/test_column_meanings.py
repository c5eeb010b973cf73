"""Tests that columns have what they say: each number of a plan and of a day is worked out here from a few items."""
from __future__ import annotations

import itertools
import math
import random
from collections.abc import Iterable, Mapping
from dataclasses import replace
from fractions import Fraction
from pathlib import Path
from typing import Any

import pandas as pd
import pytest

import crnplan as crn
from crnplan.plan.answer import Correction, Figures
from crnplan.plan.standing import Standing
from crnplan.plan.today import Lying, Today
from crnplan.read.item import STOPPED
from crnplan.read.stock import Arrival, OnHand
from crnplan.show.catalogue_tables import DECISION_COLUMNS
from crnplan.show.today_tables import TABLES, OrdersToday
from crnplan.table import Column
from planner.tests.plan.test_today import FRIDAY, days, standing_of
from planner.tests.show.made_catalogue import made_folder, made_pair

DEMANDS, MEAN, LEAD = (0, 4), 2, 2  # of a week, as likely, and weeks to come
PRICE, PACK, S_LOW, S_HIGH = 3, 6, 9, 20
# Of each item: stock, items owed, and what is on order with the days until it is due. No two facts of an item are alike.
STOCKS: dict[str, tuple[int, int, list[tuple[int, int]]]] = {
    "late": (5, 2, [(1, -9), (2, -4)]),
    "coming": (4, 1, [(1, 13)]),
    "full": (40, 7, [(5, 30)]),
}
# The same of items that lie, with the weeks since somebody asked for them.
LYING = {"dead": (11, 3, 60), "ended": (13, 4, 70)}


def numbers_of(columns: Iterable[Column]) -> set[str]:
    """Returns the names of the columns with numbers."""
    return {column.name for column in columns if not column.is_text}


def compare(
    columns: Iterable[Column],
    frame: pd.DataFrame,
    key: str,
    wanted: Mapping[str, Mapping[str, float | None]],
) -> None:
    """Compares all numbers of a table, whose rows have a key, with what is wanted: nothing where none is named."""
    names, rows = numbers_of(columns), frame.set_index(key)
    assert {*rows.index} == {*wanted}
    assert names == {name for row in wanted.values() for name in row}
    for place, row in wanted.items():
        for name in names:
            found, number = rows.loc[place, name], row.get(name)
            if number is None:
                assert pd.isna(found), (place, name)
            else:
                assert float(found) == pytest.approx(float(number), 1e-4), (place, name)


def demands_of(weeks: int) -> list[int]:
    """Returns what so many weeks may ask for, each as likely."""
    return [sum(each) for each in itertools.product(DEMANDS, repeat=weeks)]


def orders_of(name: str) -> dict[str, float]:
    """Returns the numbers of the order of an item."""
    stock, owed, coming = STOCKS[name]
    on_order = sum(items for items, _ in coming)
    position, there = stock - owed + on_order, stock - owed
    placed = math.ceil((S_HIGH - position) / PACK) * PACK
    # What is due within a lead time and one more week comes before an order of today.
    asked, weeks = demands_of(LEAD + 1), LEAD + 1
    in_time = there + sum(items for items, due in coming if due < 7 * weeks)
    return {
        "stock": stock,
        "on_order": on_order,
        "owed": owed,
        "position": position,
        "s": S_LOW,
        "S": S_HIGH,
        "placed": placed,
        "value": PRICE * placed,
        "weeks": there / MEAN,
        "chance": sum(it > in_time for it in asked) / len(asked),
    }


def risk_of(name: str) -> dict[str, float]:
    """Returns the numbers of an item that is late or at risk."""
    stock, owed, coming = STOCKS[name]
    late, next_days = (
        [(items, due) for items, due in coming if due < 0],
        [due for _, due in coming if due > 0],
    )
    weeks = math.ceil(min(next_days) / 7) if next_days else LEAD + 1
    asked, there = demands_of(weeks), stock - owed
    short = sum(max(it - there, 0) for it in asked) / len(asked)
    return {
        "stock": stock,
        "on_order": sum(items for items, _ in coming),
        "owed": owed,
        "overdue": sum(items for items, _ in late),
        "days_late": -min((due for _, due in late), default=0),
        "chance_without": sum(it > there for it in asked) / len(asked),
        "short": short,
        "value": PRICE * short,
    }


def lists_of() -> dict[str, dict[str, float | None]]:
    """Returns the numbers of each list, by its name and the item."""
    lists = dict[str, dict[str, float | None]]()
    for name, (stock, owed, coming) in STOCKS.items():
        on_order = sum(items for items, _ in coming)
        facts = {"stock": stock, "on_order": on_order, "owed": owed}
        # An order of whole packs reaches up to a pack less one above S.
        excess = max(stock - owed + on_order - S_HIGH - PACK + 1, 0)
        lists[f"owed {name}"] = {**facts, "excess": excess, "value": PRICE * owed}
        if excess:
            weeks, value = excess / MEAN, PRICE * excess
            own = {"excess": excess, "value": value, "weeks": weeks}
            lists[f"above {name}"] = {**facts, **own}
    for name, (stock, on_order, weeks) in LYING.items():
        kind = STOPPED if name == "ended" else name
        own = {"stock": stock, "on_order": on_order, "value": PRICE * stock}
        lists[f"{kind} {name}"] = {**own, "owed": 0, "periods": weeks}
    return lists


def lying_of(name: str) -> Lying:
    """Returns an item that lies, nobody having asked for it since."""
    stock, on_order, weeks = LYING[name]
    item, _ = made_pair(random.Random(1), name)
    facts = {"counts": (7, *[0] * weeks), "price": Fraction(PRICE)}
    past = STOPPED if name == "ended" else ""
    item = replace(item, past=past, **facts)
    return Lying(item, OnHand(Fraction(stock)), Fraction(on_order))


def standing(name: str) -> Standing:
    """Returns an item of which the stock is known."""
    stock, owed, coming = STOCKS[name]
    arrivals = [Arrival(Fraction(items), days(due)) for items, due in coming]
    return standing_of(
        stock, owed, arrivals, S_LOW, S_HIGH, PACK, name=name, price=Fraction(PRICE)
    )


@pytest.fixture
def orders() -> OrdersToday:
    """Returns what these items say on the Friday."""
    items = [standing(name) for name in STOCKS]
    dead, ended = [lying_of("dead")], [lying_of("ended")]
    today = Today(FRIDAY, FRIDAY, items, [], dead, {}, True, [""], ended=ended)
    return OrdersToday(today, "week")


def test_numbers_of_orders(orders: OrdersToday) -> None:
    wanted = {name: orders_of(name) for name in ("late", "coming")}
    compare(TABLES["orders"], orders.frame, "item", wanted)


def test_numbers_of_risks(orders: OrdersToday) -> None:
    wanted = {name: risk_of(name) for name in ("late", "coming")}
    compare(TABLES["at_risk"], orders.at_risk, "item", wanted)


def test_numbers_of_lists(orders: OrdersToday) -> None:
    lists = orders.lists
    keyed = lists.assign(row=lists["list"] + " " + lists.item)
    compare(TABLES["lists"], keyed, "row", lists_of())


def test_numbers_of_decisions(tmp_path: Path) -> None:
    """The figures of both policies are stated, no two alike. Values are those of the mean stock at the price."""
    item, answer = made_pair(random.Random(3), "it")
    fill, met = Fraction(19, 20), 0.9625
    # s, S, cost, share met at once, share of periods that end short, mean stock, and orders a period.
    today = Figures(3, 14, 12.5, 0.8125, 0.15625, 7.75, 0.4375)
    chosen = Figures(5, 21, 7.25, 0.9375, 0.0625, 9.5, 0.3125)
    item = replace(item, fill=fill, price=Fraction(5, 2), stock=Fraction(77))
    answer = replace(
        answer,
        today=today,
        chosen=chosen,
        alone=Figures(1, 2, 3.5, 0.5, 0.25, 1.5, 0.75),
        cost_today=13.0,
        cost_chosen=6.75,
        saving=6.25,
        correction=Correction(0.975, 8.5, met),
    )
    made_folder(tmp_path / "plan", 12, has_curve=False, change=(item, answer))
    frame = crn.open_plan(tmp_path / "plan").decisions
    wanted: dict[str, Any] = {
        "s_chosen": 5,
        "S_chosen": 21,
        "saving": 13 - 6.75,
        "s_today": 3,
        "S_today": 14,
        "cost_today": 13,
        "cost_chosen": 6.75,
        "value_today": 7.75 * 2.5,
        "value_chosen": 9.5 * 2.5,
        "orders_chosen": 0.3125,
        "fill_wanted": 0.95,
        "fill_promised": met,
        "fill_today": 0.8125,
        "fill_chosen": 0.9375,
    }
    compare(DECISION_COLUMNS, frame[frame.item == "it"], "item", {"it": wanted})
