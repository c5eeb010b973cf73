"""Tests the workbook of a plan, read again by openpyxl: each cell is that of the tables, and nothing runs."""
from __future__ import annotations

import random
import sqlite3
import zipfile
from dataclasses import replace
from fractions import Fraction
from pathlib import Path
from typing import Any

import openpyxl
import pandas as pd
import pytest

import crnplan as crn
from crnplan.curve.exchange_curve import kept_curve
from crnplan.show import book as workbooks
from crnplan.plan.catalogue import planned_folder
from crnplan.read.catalogue_reading import READ
from planner.tests.conftest import Command
from planner.tests.planned_tables import whole_frame
from planner.tests.show.made_catalogue import made_folder, made_pair
from planner.tests.show.page_reader import Page

NAMES = (
    "000123",
    "=1+1",
    "@SUM(A1)",
    "https://example.org",
    "قطعة ٣",
    "  two  blanks ",
    "<b>&amp;",
    "1e5",
)
DIGITS = 16  # that a workbook keeps


@pytest.fixture(scope="module")
def folder(tmp_path_factory: pytest.TempPathFactory) -> Path:
    """Returns a made plan in a currency, with a curve, and with stock of one item, which nobody changes."""
    item, answer = made_pair(random.Random(1), "held")
    return made_folder(
        tmp_path_factory.mktemp("made") / "plan",
        30,
        NAMES,
        currency="KWD",
        change=(replace(item, stock=Fraction(2), price=Fraction(3)), answer),
    )


@pytest.fixture(scope="module")
def book(folder: Path) -> Any:
    crn.Plan(folder).to_excel(folder.parent / "plan.xlsx")
    return openpyxl.load_workbook(folder.parent / "plan.xlsx")


def cells_of(frame: pd.DataFrame) -> list[list[Any]]:
    """Returns a frame as a sheet has it: its heading, and its cells without the missing ones."""
    plain = frame.astype(object).where(frame.notna() & (frame != ""), None)
    rows = [
        [
            float(f"{cell:.{DIGITS}g}") if isinstance(cell, float) else cell
            for cell in row
        ]
        for row in plain.values.tolist()
    ]
    return [[*frame.columns], *rows]


def sheet_cells(sheet: Any) -> list[list[Any]]:
    return [[*row] for row in sheet.iter_rows(values_only=True)]


def test_cells_are_those_of_the_frames(book: Any, folder: Path) -> None:
    """Decisions, orders, what is left out and the curve are as in the tables, unrounded. Item numbers are texts."""
    plan = crn.Plan(folder)
    assert sheet_cells(book["Decisions"]) == cells_of(plan.decisions)
    assert sheet_cells(book["Details"]) == cells_of(plan.details)
    assert sheet_cells(book["Left out"]) == cells_of(plan.rejects)
    assert sheet_cells(book["Without what is on order"]) == cells_of(
        plan.orders_today().frame
    )
    assert {*NAMES} < {row[0].value for row in book["Decisions"].iter_rows(min_row=2)}
    with planned_folder(folder) as planned:
        curve = kept_curve(planned.store)
    assert curve
    assert (
        sheet_cells(book["Curve"])[1:]
        == cells_of(pd.DataFrame([[name, *point] for name, point in curve]))[1:]
    )
    (chart,) = book["Curve"]._charts
    least = min(point.fill for name, point in curve if name)
    assert chart.y_axis.scaling.min == pytest.approx(max(0, least - 0.04))


def test_classes_and_meanings(book: Any, folder: Path) -> None:
    """Classes are the sums of decisions, and each column of each sheet has a meaning and a unit in the currency."""
    sums = (
        crn.Plan(folder)
        .decisions.assign(**{"class": lambda it: it["class"].replace("", "no class")})
        .groupby("class")
    )
    rows = {row[0]: row[1:] for row in sheet_cells(book["Classes"])[1:]}
    assert {name: row[0] for name, row in rows.items()} == sums.size().to_dict()
    for place, column in ((1, "saving"), (4, "value_today"), (5, "value_chosen")):
        assert {name: row[place] for name, row in rows.items()} == pytest.approx(
            sums[column].sum().to_dict()
        )
    meanings = sheet_cells(book["Read me"])[1:]
    assert [row[:2] for row in meanings] == [
        [sheet.title, cell.value] for sheet in book.worksheets[:-1] for cell in sheet[1]
    ]
    assert ["Decisions", "saving", "KWD a week"] in [row[:3] for row in meanings]
    for row in meanings:
        assert row[3]


def test_formats_and_panes(book: Any) -> None:
    """Each sheet has its heading frozen and filters on; numbers have the decimals of their columns and the currency."""
    names = "Summary, Decisions, Without what is on order, Left out, Curve, Classes, Details, Read me"
    assert book.sheetnames == names.split(", ")
    for sheet in book.worksheets:
        assert sheet.freeze_panes == "B2"
        assert sheet.auto_filter.ref == sheet.dimensions
        for cell in sheet[1]:
            assert sheet.column_dimensions[cell.column_letter].width >= len(cell.value)
    first = dict(
        zip((cell.value for cell in book["Decisions"][1]), book["Decisions"][2])
    )
    assert first["saving"].number_format == '"KWD" #,##0.000;"KWD" -#,##0.000'
    names = "fill_chosen", "s_chosen", "orders_chosen", "item"
    formats = [first[name].number_format for name in names]
    assert formats == ["0.00%", "#,##0", "#,##0.0###", "@"]
    assert book["Summary"]["B2"].number_format == first["saving"].number_format


def test_nothing_runs_and_bytes_stay(
    book: Any, folder: Path, crnplan: Command, tmp_path: Path
) -> None:
    """There is no formula, link, macro or query; the same plan gives the same bytes, by the command too."""
    for sheet in book.worksheets:
        assert not {cell.data_type for row in sheet.iter_rows() for cell in row} - {
            "s",
            "n",
            "inlineStr",
        }
        assert not any(cell.hyperlink for row in sheet.iter_rows() for cell in row)
    path = folder.parent / "plan.xlsx"
    assert not any(
        word in name
        for name in zipfile.ZipFile(path).namelist()
        for word in ("vba", "external", "connect")
    )
    answer = crnplan("report", folder, "--xlsx", tmp_path / "again.xlsx")
    assert answer.status == 0
    assert answer.output.startswith(str(tmp_path / "again.xlsx"))
    assert (tmp_path / "again.xlsx").read_bytes() == path.read_bytes()


def test_orders_in_a_style(folder: Path, crnplan: Command, tmp_path: Path) -> None:
    """Orders of suppliers are in the style that is asked for; other tables are as ever."""
    words = "today", folder, "--date", "2026-11-27", "--out", tmp_path / "orders"
    assert crnplan(*words, "--csv-style", "de").status == 0
    orders = [*(tmp_path / "orders").glob("today_supplier_*.csv")]
    assert orders
    for path in (tmp_path / "orders").glob("*.csv"):
        text = path.read_text("utf-8")
        assert text.startswith("\ufeff") == (path in orders)
        assert (";" in text.splitlines()[0]) == (path in orders)


def test_plain_plans_and_those_that_are_refused(
    tmp_path: Path, monkeypatch: pytest.MonkeyPatch
) -> None:
    """A plan without currency, stock and curve has neither sheet. A plan that is not as its rows is refused, and so is a
    table with more rows than a sheet."""
    plan = crn.Plan(made_folder(tmp_path / "plan", 5, has_curve=False))
    plan.to_excel(tmp_path / "plan.xlsx")
    book = openpyxl.load_workbook(tmp_path / "plan.xlsx")
    assert (
        book.sheetnames
        == "Summary, Decisions, Left out, Classes, Details, Read me".split(", ")
    )
    assert book["Decisions"]["K2"].number_format == "#,##0.00"
    with sqlite3.connect(plan.path / READ) as base:
        base.execute("UPDATE items SET setup = '1' WHERE name = 'P00000'")
    with pytest.raises(
        crn.Refused, match="its plan is not as the rows that were read last"
    ):
        plan.to_excel(tmp_path / "stale.xlsx")
    monkeypatch.setattr(workbooks, "MOST_ROWS", 50)
    with pytest.raises(
        crn.Refused, match="'Decisions' would have more than 50 rows.*decisions.csv"
    ):
        crn.Plan(made_folder(tmp_path / "large", 50, has_curve=False)).to_excel(
            tmp_path / "more.xlsx"
        )
    assert not (tmp_path / "more.xlsx").exists()


@pytest.fixture
def stocked(tmp_path: Path, monkeypatch: pytest.MonkeyPatch) -> crn.Plan:
    """Returns a made plan, beside tables of stock and of what is on order, in which the test runs."""
    monkeypatch.chdir(tmp_path)
    folder = tmp_path / "plan"
    made_folder(folder, 60, has_curve=False, currency="EUR")
    names = crn.Plan(folder).decisions.item
    pd.DataFrame({"item": names, "stock": 3}).to_csv("stock.csv", index=False)
    coming = {"item": names[:40], "quantity": 30, "due": "2026-12-09"}
    pd.DataFrame(coming).to_csv("open.csv", index=False)
    return crn.Plan(folder)


@pytest.mark.parametrize("on_order", ["open.csv", None])
def test_one_computation_of_orders(
    stocked: crn.Plan, crnplan: Command, on_order: str | None
) -> None:
    """Command, workbook, page and Python say the same number and value of orders, with what is on order and without; the
    sheet and the page without it say so, and are not called today's orders."""
    rows, has_orders = whole_frame(stocked), on_order is not None
    lacks = rows.S_chosen - 3 - 30 * has_orders * (rows.index < 40)
    placed = lacks[lacks > rows.S_chosen - rows.s_chosen].astype(float)
    value = (placed * (rows.value_chosen / rows.stock_chosen)).sum()
    said = f"2026-11-27: {len(placed)} orders, worth EUR {value:,.2f}"
    words = ["--stock", "stock.csv", "--date", "2026-11-27"]
    words += ["--on-order", "open.csv"] * has_orders
    listed = crnplan("today", stocked.path, *words)
    written = crnplan("report", stocked.path, *words, "--xlsx", "plan.xlsx")
    assert placed.size and listed.status == written.status == 0, written.errors
    orders = stocked.orders_today("stock.csv", on_order, "2026-11-27")
    stocked.to_excel("again.xlsx", orders)
    assert Path("plan.xlsx").read_bytes() == Path("again.xlsx").read_bytes()
    book = openpyxl.load_workbook("plan.xlsx")
    name = "Today" if has_orders else "Without what is on order"
    assert sheet_cells(book[name]) == cells_of(orders.frame)
    assert ("Today" in book.sheetnames) == has_orders
    page = Page(stocked.path / "report.html")
    summary = "\n".join(str(row[0]) for row in sheet_cells(book["Summary"]))
    for text in (listed.output, page.words, summary):
        assert said in text
        without = ", without what is on order" in text
        assert without != has_orders
    assert ("Orders of 2026-11-27" in page.words) == has_orders
    assert len(page.tables["The most urgent orders"]) == 11
    stocked.report(orders=orders)
    assert Page(stocked.path / "report.html").source == page.source


def test_what_is_at_risk_in_a_workbook(folder: Path, tmp_path: Path) -> None:
    """A workbook has what is late or at risk and the orders by supplier, if it is known what is on order. Orders of
    another plan are refused."""
    plan = crn.Plan(folder)
    on_order = pd.DataFrame({"item": ["held"], "quantity": [2], "due": ["2026-11-20"]})
    orders = plan.orders_today(None, on_order, "2026-11-27")
    plan.to_excel(tmp_path / "plan.xlsx", orders)
    book = openpyxl.load_workbook(tmp_path / "plan.xlsx")
    assert book.sheetnames[2:5] == ["Today", "At risk", "Orders by supplier"]
    assert sheet_cells(book["At risk"]) == cells_of(orders.at_risk)
    assert [*orders.at_risk.item] == ["held"]
    assert sheet_cells(book["Orders by supplier"]) == cells_of(orders.lines)
    other = crn.Plan(made_folder(tmp_path / "other", 12, has_curve=False))
    for write in (
        lambda: other.to_excel(tmp_path / "no.xlsx", orders),
        lambda: other.report(orders=orders),
    ):
        with pytest.raises(
            crn.Refused, match="these orders are not those of this plan"
        ):
            write()
    assert not (tmp_path / "no.xlsx").exists()
