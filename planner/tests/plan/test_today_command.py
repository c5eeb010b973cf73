"""Tests the orders of a day of a planned folder: sums by pandas, and what the command says of tables."""
from __future__ import annotations

import contextlib
import random
import re
import sqlite3
from collections.abc import Sequence
from dataclasses import replace
from fractions import Fraction
from pathlib import Path
from typing import Any

import pandas as pd
import pytest

import crnplan as crn
from crnplan.store.files import MARKER
from crnplan.plan.answer import IDLE, Answer
from crnplan.plan.catalogue import ANSWERS, planned_folder
from crnplan.read.catalogue_reading import READ
from crnplan.read.item import NO_DEMAND
from crnplan.read.items import Reading
from crnplan.remarks import Remark
from crnplan.show.today_tables import OrderDays, orders_today
from planner.tests.conftest import Command, state_of
from planner.tests.planned_tables import whole_frame
from planner.tests.show.made_catalogue import made_folder, made_pair
from planner.tests.plan.test_today import CASES, FRIDAY, days


@pytest.fixture(scope="module")
def folder(tmp_path_factory: pytest.TempPathFactory) -> Path:
    """Returns the folder of a plan of 60 made items, which nobody changes."""
    return made_folder(tmp_path_factory.mktemp("today") / "plan", 60, has_curve=False)


@pytest.fixture(scope="module")
def stock(folder: Path) -> pd.DataFrame:
    """Returns a table of stock: of each item in two places, but for the last five, and of one that is not planned."""
    names = crn.open_plan(folder).decisions.item
    source = random.Random(5)
    rows = [(name, source.randint(-4, 40)) for name in [*names[:-5], *names[:-5]]]
    return pd.DataFrame([*rows, ("X-1", 3)], columns=["item", "stock"])


@pytest.fixture(scope="module")
def on_order(stock: pd.DataFrame) -> pd.DataFrame:
    return pd.DataFrame(
        {
            "item": stock.item[:20],
            "quantity": range(20),
            "due": [days(it) for it in range(20)],
        }
    )


def positions_of(
    decisions: pd.DataFrame, stock: pd.DataFrame, on_order: pd.DataFrame
) -> pd.DataFrame:
    """Returns by pandas what is there, owed, ordered and too much of each item that has a stock."""
    known = decisions.set_index("item")
    counts = stock[stock.item != "X-1"].set_index("item").stock
    table = pd.DataFrame(
        {
            "stock": counts.clip(lower=0).groupby("item").sum(),
            "owed": -counts.clip(upper=0).groupby("item").sum(),
            "coming": on_order.groupby("item").quantity.sum(),
        }
    )
    table = table.fillna(0).join(known[["class", "s_chosen", "S_chosen"]])
    table["position"] = table.stock - table.owed + table.coming
    lacks = (table.S_chosen - table.position).astype(float)
    table["placed"] = lacks.where(table.position < table.s_chosen)
    price = (known.value_chosen / known.stock_chosen).reindex(table.index)
    table["value"], table["excess"] = table.placed * price, (-lacks).clip(lower=0)
    return table.assign(above=table.excess * price)


def test_sums_by_pandas(
    folder: Path, stock: pd.DataFrame, on_order: pd.DataFrame
) -> None:
    """Orders and sums are those that pandas has from the decisions and both tables."""
    plan = crn.open_plan(folder)
    today = plan.orders_today(stock, on_order, FRIDAY)
    table = positions_of(whole_frame(plan), stock, on_order)
    orders = today.frame.set_index("item")
    due, unknown = orders[orders.placed.notna()], orders[orders.placed.isna()]
    columns = ["stock", "owed", "position", "placed", "value"]
    wanted = table[table.placed.notna()][columns].astype(float)
    pd.testing.assert_frame_equal(due[columns].sort_index().astype(float), wanted)
    assert list(due.weeks) == sorted(due.weeks)
    assert {*unknown.index} == {*plan.decisions.item[-5:]}
    assert {*unknown.code} == {"no stock"}
    sums = today.groups[today.groups.group == "class"].set_index("name")
    by_class = table.groupby("class")
    for name, column in (("value", "value"), ("excess", "above"), ("owed", "owed")):
        assert sums[name].to_dict() == pytest.approx(by_class[column].sum().to_dict())
    assert sums.orders.to_dict() == by_class.placed.count().to_dict()
    lists = today.lists.set_index("list")
    assert lists.excess["above"].sum() == table.excess.sum()
    assert lists.owed["owed"].sum() == table.owed.sum()
    assert f"{len(due)} orders, worth {table.value.sum():,.2f}" in today.text
    reasons = today.left_out.set_index("item").reason
    assert reasons["X-1"] == "no item of the plan has this name"


def split(table: pd.DataFrame) -> tuple[pd.DataFrame, pd.DataFrame]:
    """Returns the rows of a table in two parts, in each of which some items are alone, and some are in both."""
    is_first = table.index % 3 > 0
    return table[is_first], table[~is_first]


def test_placed_orders_are_on_order(
    folder: Path, stock: pd.DataFrame, on_order: pd.DataFrame
) -> None:
    """A row is the same in both tables: all that follows is as if one table had them all. Each has its own totals."""
    plan = crn.open_plan(folder)
    coming = pd.concat([on_order, on_order.assign(quantity=3)], ignore_index=True)
    before, since = split(coming)
    whole = plan.orders_today(stock, coming, FRIDAY)
    parts = plan.orders_today(stock, before, FRIDAY, placed=since)
    alone = plan.orders_today(stock, date=FRIDAY, placed=coming)
    for name in ("orders", "lists", "groups", "lines", "at_risk"):
        table = whole.tables[name].frame
        assert len(table)
        for other in (parts, alone):
            pd.testing.assert_frame_equal(other.tables[name].frame, table)
    assert len(whole.tables) == len({*whole.tables})
    assert parts.headline == alone.headline == whole.headline
    assert all(orders.today.has_orders for orders in (whole, parts, alone))
    assert not plan.orders_today(stock, date=FRIDAY).today.has_orders
    totals = parts.controls.set_index(["file", "rows_are"]).units
    for name, table in (("on_order", before), ("placed", since)):
        assert totals[name, "used"] == table.quantity.sum()
    by_item = {name: float(own.sum()) for name, own in since.groupby("item").quantity}
    for placed in (by_item, pd.Series(by_item)):
        orders = plan.orders_today(stock, before, FRIDAY, placed=placed)
        positions = (it.frame.set_index("item").position for it in (orders, whole))
        pd.testing.assert_series_equal(*(it.sort_index() for it in positions))


def test_placed_orders_that_cannot_be_read(folder: Path, stock: pd.DataFrame) -> None:
    """Nothing is known of an item of which such a row can't be read."""
    plan = crn.open_plan(folder)
    name = stock.item[0]
    placed = pd.DataFrame({"item": [name, "X-2"], "quantity": ["many", 3]})
    orders = plan.orders_today(stock, date=FRIDAY, placed=placed)
    assert orders.frame.set_index("item").code[name] == "unread stock"
    left = orders.left_out[orders.left_out.file == "placed"]
    assert [*left.item] == [name, "X-2"]
    assert orders.today.holdings.counts["placed"]["rejected"] == 1


def test_orders_of_the_day_as_placed(
    folder: Path,
    stock: pd.DataFrame,
    tmp_path: Path,
    crnplan: Command,
    monkeypatch: pytest.MonkeyPatch,
) -> None:
    """Once the lines that were written are placed, nothing is left to order, by both commands."""
    monkeypatch.chdir(tmp_path)
    stock.to_csv("stock.csv", index=False)
    words = "--stock", "stock.csv", "--date", "2026-11-27"
    first = crnplan("today", folder, *words, "--out", "first")
    lines = pd.read_csv("first/today_lines.csv")
    assert first.status == 0 and lines.placed.sum() > 0
    words = *words, "--placed", "first/today_lines.csv"
    assert (
        "2026-11-27: 0 orders, worth 0.00\n" in crnplan("today", folder, *words).output
    )
    one = crnplan("today", folder, *words[:-1], "first/today_supplier_001.csv")
    part = lines[lines.number == lines.number[0]]
    assert f": {len(lines) - len(part)} orders, worth" in one.output


def made_plan(folder: Path, stock: int, answer: Answer | Remark) -> crn.Plan:
    """Returns a plan of items among which one is quiet, with a stock in its masters and an answer."""
    quiet, _ = made_pair(random.Random(3), "Q-1")
    quiet = replace(
        quiet,
        counts=(7, *[0] * 53),
        stock=Fraction(stock),
        price=Fraction(3, 2),
        supplier="Bosch",
        supplier_min=Fraction(10**6),
        past=NO_DEMAND if isinstance(answer, Remark) and answer.code == IDLE else "",
    )
    made_folder(folder, 12, has_curve=False, change=(quiet, answer))
    return crn.open_plan(folder)


@pytest.mark.parametrize("code", [IDLE, "no demand"])
def test_dead_stock(tmp_path: Path, code: str) -> None:
    """What nobody has asked for during a year lies dead, also if it has no plan."""
    plan = made_plan(tmp_path / "plan", 6, Remark(code, {"periods": 54}))
    today = plan.orders_today(date="2026-11-27")
    own = today.frame[today.frame.item == "Q-1"]
    assert own.placed.isna().all()
    assert (len(own) == 0) == (code == IDLE)
    assert today.lists[["list", "value"]].values.tolist() == [["dead", 6 * 1.5]]


def test_stock_of_the_masters(
    tmp_path: Path, crnplan: Command, monkeypatch: pytest.MonkeyPatch
) -> None:
    """The masters' stock counts without a table. A plan is old if its record ended long before the day."""
    monkeypatch.chdir(tmp_path)
    plan = made_plan(tmp_path / "plan", -4, made_pair(random.Random(3), "Q-1")[1])
    today = plan.orders_today(date="2026-11-27")
    assert today.frame[today.frame.item == "Q-1"].placed.notna().sum() == 1
    assert not (today.lists.list == "dead").any()
    assert "The plan is old" in today.text
    suppliers = today.groups[today.groups.group == "supplier"]
    assert list(suppliers.short) == [10**6 - today.frame.value[0]]
    assert "add none: no other item of it needs" in today.text
    old = replace(today.today, day=FRIDAY)
    ends = [replace(old, end=days(-count)).weeks_old for count in (56, 57, 70)]
    assert ends == [None, 8, 10]
    with contextlib.closing(sqlite3.connect(Path("plan") / READ)) as base, base:
        base.execute("UPDATE items SET setup = '99'")
    said = "its plan is not as the rows that were read last; run crnplan plan again"
    assert crnplan("today", "plan").refuses(said)


def test_command(
    folder: Path, tmp_path: Path, monkeypatch: pytest.MonkeyPatch, crnplan: Command
) -> None:
    """The command changes nothing in the folder, has the rows of files, names what it leaves out, and writes tables."""
    monkeypatch.chdir(tmp_path)
    before, plan = state_of(folder), crn.open_plan(folder)
    names = [*plan.decisions.item]
    for name, text in CASES["files"].items():
        Path(name).write_text(text.format(*names), "utf-8")
    words = "--stock stock.csv --on-order open.csv --date 2026-11-27".split()
    answer = crnplan("today", folder, *words, "--out", "today")
    assert answer.status == 0, answer.errors
    for said in CASES["command"]:
        assert re.search(said, answer.output)
    controls = pd.read_csv("today/today_controls.csv")
    in_python = plan.orders_today("stock.csv", "open.csv", "2026-11-27").controls
    assert in_python.units.tolist() == controls.units.tolist()
    left = pd.read_csv("today/today_left_out.csv")
    assert [*left.line] == [3, 4, 6, 8]
    assert " ".join(left.kind) == "row row row item"
    orders = pd.read_csv("today/today_orders.csv").set_index("item")
    assert orders.stock[names[0]] == 3.5
    assert orders.owed[names[3]] == 2
    unread = orders.loc[[names[1], names[4]]]
    assert {*unread.code} == {"unread stock"}
    assert unread.placed.isna().all()
    table = Path("today/today_orders.csv").read_text("utf-8")
    assert crnplan("today", folder, *words, "--csv", "orders").output == table
    assert state_of(folder) == before
    assert crnplan("today", folder, *words, "--out", folder).refuses(MARKER)
    said = "no item has a stock in its masters; name a table by --stock"
    assert crnplan("today", folder).refuses(said)


@pytest.mark.parametrize("words, wanted", CASES["refused"], ids=str)
def test_refused_words(
    folder: Path,
    stock: pd.DataFrame,
    tmp_path: Path,
    crnplan: Command,
    words: Sequence[str],
    wanted: str,
    monkeypatch: pytest.MonkeyPatch,
) -> None:
    monkeypatch.chdir(tmp_path)
    Path("words.toml").write_text("[catalogue.supplier_min]\nABB = 9.5\n", "utf-8")
    stock.to_csv("stock.csv", index=False)
    answer = crnplan("today", folder, "--stock", "stock.csv", *words)
    assert answer.refuses(wanted)


def test_plan_of_another_version(tmp_path: Path, crnplan: Command) -> None:
    """Answers with other columns are refused, and stay."""
    made_folder(tmp_path / "plan", 12, has_curve=False)
    with contextlib.closing(sqlite3.connect(tmp_path / "plan" / ANSWERS)) as base, base:
        base.execute("ALTER TABLE answers RENAME COLUMN verdict TO outcome")
    assert crnplan("today", tmp_path / "plan").refuses("run crnplan plan")
    with contextlib.closing(sqlite3.connect(tmp_path / "plan" / ANSWERS)) as base:
        assert base.execute("SELECT count(outcome) FROM answers").fetchone() == (12,)


def test_status_of_tables_that_say_nothing(
    folder: Path,
    stock: pd.DataFrame,
    tmp_path: Path,
    crnplan: Command,
    monkeypatch: pytest.MonkeyPatch,
) -> None:
    """A table whose rows are rejected for more than half, or of which no row is used, ends with status 1, and so does one
    of orders; a word allows it. At a half it is used."""
    monkeypatch.chdir(tmp_path)
    first, second = crn.open_plan(folder).decisions.item[:2]
    stock.to_csv("stock.csv", index=False)
    for lines, said in CASES["statuses"]:
        text = lines.format(first, second)
        Path("odd.csv").write_text(text, "utf-8")
        Path("open.csv").write_text(text.replace("stock", "quantity"), "utf-8")
        for words in ("--stock odd.csv", "--stock stock.csv --on-order open.csv"):
            answer = crnplan("today", folder, *words.split())
            if said:
                assert answer.refuses(f"{words.split()[-1]}: {said}", 1)
                assert "correct the files, or say --anyway" in answer.errors
            else:
                assert answer.status == 0
            words += " --anyway"
            assert crnplan("today", folder, *words.split()).status == 0


def test_days_of_one_plan(
    folder: Path, stock: pd.DataFrame, on_order: pd.DataFrame
) -> None:
    """A plan that is read once says on each day, and of each table, what one says that is read anew."""
    due = stock.item[:6].drop_duplicates()
    changed = pd.DataFrame({"item": due, "quantity": range(len(due))})
    less = stock.assign(stock=stock.stock // 2)
    asked: list[tuple[dict[str, Any], str]] = [
        ({"stock": stock}, "2026-11-27"),
        ({"stock": stock, "on_order": on_order}, "2026-11-27"),
        ({"stock": stock, "quantities": changed}, "2026-11-27"),
        ({"stock": less, "on_order": on_order, "quantities": changed}, "2026-12-04"),
        ({"stock": stock}, "2026-11-27"),
    ]
    with planned_folder(folder) as planned:
        days_of_plan = OrderDays(planned, Reading()).read()
    for tables, day in asked:
        orders = days_of_plan.orders(tables, day)
        assert orders == orders_today(folder, tables, Reading(), day)
        assert orders.text == orders_today(folder, tables, Reading(), day).text
