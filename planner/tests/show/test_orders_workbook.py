"""Tests the workbook of the orders of a day, read again by openpyxl: each line is in the sheet of its supplier alone."""
from __future__ import annotations

import random
from collections.abc import Sequence
from dataclasses import replace
from fractions import Fraction
from pathlib import Path
from typing import Any

import openpyxl
import pandas as pd
import pytest

import crnplan as crn
from crnplan.plan.standing import Standing
from crnplan.read.quantities import Quantity
from crnplan.show import book as workbooks
from crnplan.show.today_tables import OrdersToday
from crnplan.show.book import sheet_name
from planner.tests.conftest import Command
from planner.tests.plan.test_orders import today_of
from planner.tests.plan.test_today import standing_of
from planner.tests.show.made_catalogue import made_folder, made_pair
from planner.tests.show.test_workbook import cells_of, sheet_cells
from planner.tests.test_outputs import check_ways

LONG = "Schraubenfabrik Nord und Söhne GmbH & Co"
WORDS = "--date", "2026-11-27"


def orders_of(*standings: Standing) -> OrdersToday:
    """Returns the orders of these items, whose suppliers are all of the plan."""
    sellers = sorted({standing.item.supplier for standing in standings})
    return OrdersToday(today_of(*standings, sellers=sellers), "week")


def book_of(orders: OrdersToday, path: Path) -> Any:
    orders.to_excel(path)
    return openpyxl.load_workbook(path)


def test_sheets_by_hand(tmp_path: Path) -> None:
    """All lines stand in the first sheet, and those of a supplier in one more, by its place in the plan. One without an
    order has none. Item numbers are texts, and nothing runs."""
    standings = [
        standing_of(name="0017", supplier="Bosch"),
        standing_of(name="=1+1", supplier="Bosch", stock=8, pack=5),
        standing_of(name="C", supplier="=cmd|' /C calc'!A0"),
        standing_of(name="D", supplier="ABB", stock=15),
        standing_of(name="E"),
        replace(standing_of(name="F", supplier="Zeiss"), quantity=Quantity(0)),
    ]
    orders = orders_of(*standings)
    book = book_of(orders, tmp_path / "orders.xlsx")
    assert book.sheetnames == [
        "Orders by supplier",
        "001",
        "002 =cmd|' C calc'!A0",
        "004 Bosch",
    ]
    heading, *lines = sheet_cells(book["Orders by supplier"])
    item, placed = heading.index("item"), heading.index("placed")
    found = {
        sheet.title: [(row[item], row[placed]) for row in sheet_cells(sheet)[1:]]
        for sheet in book.worksheets[1:]
    }
    assert found == {
        "001": [("E", 15)],
        "002 =cmd|' C calc'!A0": [("C", 15)],
        "004 Bosch": [("0017", 15), ("=1+1", 15)],
    }
    assert sheet_cells(book["Orders by supplier"]) == cells_of(orders.lines)
    for sheet in book.worksheets:
        assert sheet_cells(sheet)[0] == heading
        kinds = {cell.data_type for row in sheet.iter_rows() for cell in row}
        assert kinds <= {"s", "n", "inlineStr"}
        assert sheet.freeze_panes == "B2"
    row = dict(zip(heading, book["004 Bosch"][2]))
    assert row["item"].number_format == "@"
    assert row["value"].number_format == "#,##0.00"
    again = tmp_path / "again.xlsx"
    orders.to_excel(str(again))
    assert again.read_bytes() == (tmp_path / "orders.xlsx").read_bytes()


@pytest.mark.parametrize(
    "place, supplier, name",
    [
        (1, "", "001"),
        (12, "Bosch", "012 Bosch"),
        (1234, "Bosch", "1234 Bosch"),
        (3, "a[b]c:d*e?f/g\\h", "003 a b c d e f g h"),
        (3, " a\n\tb\x07 ", "003 a b"),
        (3, "部品：株式会社／東京", "003 部品 株式会社 東京"),
        (4, LONG, "004 Schraubenfabrik Nord und Sö"),
        (5, "x" * 26 + " y", "005 " + "x" * 26),
        (5, "x" * 26 + "' y", "005 " + "x" * 26),
        (5, "O'Neill'", "005 O'Neill"),
        (5, "''", "005"),
        # A sign beyond 16 bits counts twice, and is not cut in two.
        (6, "\U0001f529" * 20, "006 " + "\U0001f529" * 13),
        (6, "x" + "\U0001f529" * 20, "006 x" + "\U0001f529" * 13),
    ],
)
def test_names_of_sheets(place: int, supplier: str, name: str) -> None:
    """A name has at most 31 letters, and none that a spreadsheet refuses."""
    assert sheet_name(place, supplier) == name
    assert len(name.encode("utf-16-le")) <= 2 * 31


def test_suppliers_whose_names_begin_alike(tmp_path: Path) -> None:
    """Names that are cut, or differ by their case alone, have sheets of their own."""
    names = [LONG, f"{LONG}. KG", LONG.upper(), "a/b", "a:b", "A?B"]
    orders = orders_of(*(standing_of(name=name, supplier=name) for name in names))
    book = book_of(orders, tmp_path / "orders.xlsx")
    lower = [name.lower() for name in book.sheetnames]
    assert len({*lower}) == len(names) + 1
    found = {
        sheet_cells(sheet)[1][sheet_cells(sheet)[0].index("supplier")]: sheet.title
        for sheet in book.worksheets[1:]
    }
    for place, name in enumerate(sorted(names), 1):
        assert found[name].startswith(f"{place:03} ")


def test_a_day_without_orders(tmp_path: Path, monkeypatch: pytest.MonkeyPatch) -> None:
    """There is one sheet with the heading alone. More lines than a sheet has are refused, and write nothing."""
    orders = orders_of(standing_of(stock=15))
    book = book_of(orders, tmp_path / "orders.xlsx")
    assert book.sheetnames == ["Orders by supplier"]
    assert sheet_cells(book.worksheets[0]) == [[*orders.lines.columns]]
    monkeypatch.setattr(workbooks, "MOST_ROWS", 2)
    with pytest.raises(crn.Refused, match="'Orders by supplier' would have more than"):
        orders_of(*map(named, "AB")).to_excel(tmp_path / "more.xlsx")
    assert not (tmp_path / "more.xlsx").exists()


def named(name: str) -> Standing:
    return standing_of(name=name)


def lines_of(sheets: Sequence[Any]) -> pd.DataFrame:
    """Returns the lines of sheets as one table."""
    frames = [pd.DataFrame(sheet_cells(sheet)) for sheet in sheets]
    lines = [frame.iloc[1:].set_axis([*frame.iloc[0]], axis=1) for frame in frames]
    return pd.concat(lines, ignore_index=True)


def test_sheets_are_the_files_of_suppliers(
    tmp_path: Path, crnplan: Command, monkeypatch: pytest.MonkeyPatch
) -> None:
    """The command writes the orders that it says: each sheet is the file with its number, and together they are the lines."""
    monkeypatch.chdir(tmp_path)
    item, answer = made_pair(random.Random(1), "0017")
    own = replace(item, price=Fraction(3), stock=Fraction(-9), supplier="A/B")
    folder = made_folder(tmp_path / "plan", 60, has_curve=False, change=(own, answer))
    plan = crn.open_plan(folder)
    names = plan.decisions.item
    stock = pd.DataFrame({"item": names, "stock": plan.decisions.s_chosen - 1})
    stock.to_csv("stock.csv", index=False)
    words = *WORDS, "--stock", "stock.csv"
    answered = crnplan("today", folder, *words, "--out", "out", "--xlsx", "today.xlsx")
    assert answered.status == 0, answered.errors
    assert answered.output == crnplan("today", folder, *words).output
    book = openpyxl.load_workbook("today.xlsx")
    first, *others = book.worksheets
    lines, parts = lines_of([first]), lines_of(others)
    pd.testing.assert_frame_equal(parts, lines)
    assert lines.item.is_unique and "0017" in [*lines.item]
    kept = pd.read_csv("out/today_lines.csv", dtype={"item": str})
    assert [*lines.item] == [*kept.item]
    assert lines.placed.tolist() == kept.placed.tolist()
    files = {path.stem[-3:]: path for path in Path("out").glob("today_supplier_*.csv")}
    assert len(files) == len(others) > 1
    for sheet in others:
        own_file = pd.read_csv(files[sheet.title[:3]], dtype={"item": str})
        assert [*lines_of([sheet]).item] == [*own_file.item]
    plan.orders_today("stock.csv", date=WORDS[1]).to_excel("again.xlsx")
    assert Path("again.xlsx").read_bytes() == Path("today.xlsx").read_bytes()


def test_each_way_to_write(
    tmp_path: Path, crnplan: Command, monkeypatch: pytest.MonkeyPatch
) -> None:
    """The workbook is written as other files that a user names: also into a pipe, and behind a symlink."""
    monkeypatch.chdir(tmp_path)
    item, answer = made_pair(random.Random(1), "held")
    held = replace(item, stock=Fraction(2)), answer
    made_folder(tmp_path / "plan", 5, has_curve=False, change=held)
    check_ways(crnplan, tmp_path, f"today plan {' '.join(WORDS)} --xlsx OUT.xlsx")
