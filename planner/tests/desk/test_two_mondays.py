"""Tests of two Mondays of a made company: what is ordered is computed here from the exports and from s and S of its plan."""
from __future__ import annotations

import csv
import html
import io
import math
import random
import re
import shlex
from collections import Counter
from collections.abc import Sequence
from dataclasses import dataclass, replace

import pytest

import crnplan as crn
from crnplan.desk import kept, orders as module
from crnplan.desk.front import Front
from crnplan.read.bounds import OrderBounds
from planner.tests.conftest import Command
from planner.tests.desk.conftest import Planner, add_made_plan, file_of
from planner.tests.desk.today import Shown
from planner.tests.show import made_catalogue

ITEMS = 24
FIRST, SECOND, DUE = "2026-11-30", "2026-12-07", "2026-12-18"
FILES = "a file of stock", "masters"
made_pair = made_catalogue.made_pair
Rows = list[tuple[str, int, int]]  # of open orders: item, ordered, received
# Headings of open orders, by where the stock is from.
HEADINGS = {
    FILES[0]: "item,due date,quantity,qty received",
    FILES[1]: "item,due date,quantity,outstanding quantity",
}


def pack_of(name: str) -> int:
    """Returns the pack of an item: 6 of each third one."""
    return 6 if int(name[1:]) % 3 == 0 else 1


def packed(source: random.Random, name: str) -> made_catalogue.Pair:
    """Returns a made item of one of four suppliers, with its pack."""
    item, answer = made_pair(source, name)
    supplier = f"Supplier {int(name[1:]) % 4}"
    return replace(item, bounds=OrderBounds(pack_of(name)), supplier=supplier), answer


@dataclass(frozen=True)
class Monday:
    """The exports of a Monday: the stock of each item, less what is owed, and the rows of open orders."""

    stock: dict[str, float]
    open_orders: Rows

    def masters(self, has_stock: bool) -> bytes:
        """Returns the masters of items, perhaps with their stock."""
        heading = "item,setup,holding,lead (weeks)" + ",stock" * has_stock
        rows = [
            f"{it},9,1,2" + f",{stock}" * has_stock for it, stock in self.stock.items()
        ]
        return "\n".join([heading, *rows]).encode()

    def orders(
        self, levels: dict[str, tuple[int, int]], placed: dict[str, int]
    ) -> Counter[str]:
        """Returns what is to be ordered, if some orders were placed that open orders do not have."""
        to_come, due = Counter(placed), Counter[str]()
        for item, ordered, received in self.open_orders:
            to_come[item] += ordered - received
        for item, (s, S) in levels.items():
            position = self.stock[item] + to_come[item]
            if position < s:
                pack = pack_of(item)
                due[item] = math.ceil((S - position) / pack) * pack
        return due


def drop(planner: Planner, *files: tuple[bytes, str]) -> None:
    """Drops files on the page."""
    sent = planner.post("/files/drop", {"files": [file_of(*file) for file in files]})
    assert sent.status_code == 303


def table_of(heading: str, rows: Sequence[tuple[object, ...]]) -> bytes:
    return "\n".join([heading, *(",".join(map(str, row)) for row in rows)]).encode()


def drop_orders(planner: Planner, rows: Rows, stock_in: str) -> None:
    """Drops open orders with what was received, or with what is still to come."""
    lines = list[tuple[object, ...]]()
    for item, ordered, came in rows:
        last = came if stock_in == FILES[0] else ordered - came
        lines.append((item, DUE, ordered, last))
    drop(planner, (table_of(HEADINGS[stock_in], lines), "open.csv"))


def drop_stock(planner: Planner, monday: Monday, stock_in: str) -> None:
    """Drops masters with a column of stock; or masters, a file of stock, and demand."""
    files = [(monday.masters(stock_in == "masters"), "items.csv")]
    if stock_in == FILES[0]:
        sold = [(it, "2026-11-02", 3) for it in monday.stock]
        files.append((table_of("item,date,quantity", sold), "demand.csv"))
        files.append((table_of("item,stock", [*monday.stock.items()]), "stock.csv"))
    drop(planner, *files)


def first_monday(levels: dict[str, tuple[int, int]]) -> Monday:
    """Returns exports by which every other item is below s; some items are owed, and some have two open orders. One has a
    half."""
    source, stock = random.Random(7), dict[str, float]()
    for item, (s, _) in levels.items():
        stock[item] = source.randint(-3, s - 1) if int(item[1:]) % 2 else s + 5
    some = sorted(stock)[:6]
    stock[some[2]] += 0.5
    rows = [(item, source.randint(20, 40), 0) for item in [*some, *some[:2]]]
    return Monday(stock, rows)


def second_monday(first: Monday, placed: dict[str, int]) -> Monday:
    """Returns the exports of a week later. The first open order was received but for 7 items, the second one was cancelled,
    the others are as they were, and some of what was placed stands there: one in part received, one wholly. All items were
    sold.
    """
    stock = {
        item: stock - int(item[1:]) * 7 % 40 for item, stock in first.stock.items()
    }
    item, ordered, _ = first.open_orders[0]
    (part, some), (whole, all_of_it), *others = placed.items()
    came = [
        (item, ordered, ordered - 7),
        (part, some, 1),
        (whole, all_of_it, all_of_it),
    ]
    for name, _, received in came:
        stock[name] += received
    rows = [(name, quantity, 0) for name, quantity in others]
    return Monday(stock, [*came, *first.open_orders[2:], *rows])


@pytest.mark.parametrize("stock_in", FILES)
def test_two_mondays(
    stock_in: str,
    planner: Planner,
    monkeypatch: pytest.MonkeyPatch,
    crnplan: Command,
) -> None:
    """Each line is that of a computation from the exports, to the piece: the stock of the week counts, and what was placed
    counts once, whether it is exported or not. No order is shown as long as the stock is that of the week before. The
    command of the page has the same lines."""
    clock = {"now": f"{FIRST} 08:00:00"}
    for place in (kept, module):
        monkeypatch.setattr(place, "now", lambda: clock["now"])
    monkeypatch.setattr(made_catalogue, "made_pair", packed)
    monkeypatch.setattr(Front, "read", lambda front: None)  # for the next plan
    path = add_made_plan(planner.front, ITEMS, has_curve=False)
    decisions = crn.open_plan(path).decisions.set_index("item")
    levels = {
        str(name): (int(row.s_chosen), int(row.S_chosen))
        for name, row in decisions.iterrows()
    }
    first = first_monday(levels)
    drop_stock(planner, first, stock_in)
    drop_orders(planner, first.open_orders, stock_in)
    shown, due = Shown(planner, day=FIRST), first.orders(levels, {})
    assert shown.lines == due and len(due) > ITEMS / 4
    shown.send(shown.forms[-2], "/today/place")
    assert Shown(planner, day=FIRST).lines == {}

    clock["now"] = f"{SECOND} 08:00:00"
    missing, *exported = sorted(due)
    second = second_monday(first, {item: due[item] for item in exported})
    drop_orders(planner, second.open_orders, stock_in)
    old = Shown(planner, day=SECOND)
    assert f"The stock is of {FIRST}, and the open orders are of {SECOND}" in old.text
    assert not old.lines and not old.cards
    drop_stock(planner, second, stock_in)
    expected = second.orders(levels, {missing: due[missing]})
    assert Shown(planner, day=SECOND).lines == expected and len(expected) > 3
    drop_orders(planner, second.open_orders, stock_in)
    shown = Shown(planner, day=SECOND)
    assert shown.lines == expected
    assert shown.text.count("<td>is or was in a file") == len(exported)
    assert shown.text.count("<td>counts as on order") == 1
    (command,) = re.findall("<pre[^>]*>(crnplan.*?)</pre>", shown.text)
    words = shlex.split(html.unescape(command))
    ran = crnplan(*words[1:], "--csv", "lines")
    assert ran.status == 0, ran.errors
    table = csv.DictReader(io.StringIO(ran.output))
    assert {row["item"]: int(row["placed"]) for row in table} == expected


def test_units_of_files_of_stock_are_not_those_of_masters(
    planner: Planner, monkeypatch: pytest.MonkeyPatch
) -> None:
    """A unit that is stated for files of stock would count that of masters again: nothing is ordered by it."""
    monkeypatch.setattr(kept, "now", lambda: f"{FIRST} 08:00:00")
    monkeypatch.setattr(Front, "read", lambda front: None)  # for the next plan
    path = add_made_plan(planner.front, ITEMS, has_curve=False)
    names = crn.open_plan(path).decisions["item"]
    drop_stock(planner, Monday(dict.fromkeys(names, 0), []), FILES[1])
    assert Shown(planner, day=FIRST).lines
    planner.desk.keep_words({"units": {"stock.stock": "12"}})
    refused = Shown(planner, day=FIRST)
    assert "a unit is stated for files of stock" in refused.text
    assert not refused.lines and not refused.cards
