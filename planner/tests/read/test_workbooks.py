"""Tests of workbooks: a cell is what its reader sees, and the sheet that is meant is read."""
from __future__ import annotations

import datetime
import random
from collections.abc import Sequence
from fractions import Fraction
from pathlib import Path
from typing import Any

import openpyxl
import pandas as pd
import pytest
import xlsxwriter

from crnplan.errors import Refused, RefusedFaults
from crnplan.read import workbooks
from crnplan.read.cells import Shown
from crnplan.read.number_formats import Format
from crnplan.read.opening import opened
from crnplan.read.sources import Rules
from crnplan.catalogues import Catalogue, read_catalogue
from planner.tests.read.books import changed, with_rows, written
from planner.tests.read.catalogues import (
    HEADING,
    TODAY,
    WEEKS,
    cases_of,
    day_of,
    items_of,
)

CASES = cases_of("workbooks")
EURO = '#,##0.00\\ "€"'
COLUMNS, ROW = HEADING.split(","), ["A", 45, 1, 10, 2, 3, 9]


def cells_of(path: str | Path) -> list[list[str]]:
    """Returns the texts of the cells of a sheet."""
    with opened(path, "items", Rules()) as sheet:
        return [
            ["" if cell is None else str(cell) for cell in cells]
            for _, cells in sheet.rows()
        ]


def demand_rows(item: object = "A", code: str = "General") -> list[list[Any]]:
    """Returns a row a week of an item, whose quantities have a format."""
    rows: list[list[Any]] = [["item", "date", "quantity"]]
    for week in range(WEEKS):
        rows.append([item, (day_of(week), "dd/mm/yyyy"), (1 + week % 3, code)])
    return rows


def read(
    folder: Path, masters: Sequence[Sequence[Any]], *demand: Any, **words: Any
) -> Catalogue:
    """Reads a catalogue of two workbooks."""
    return read_catalogue(
        written(folder / "demand.xlsx", demand_rows(*demand)),
        written(folder / "items.xlsx", masters),
        today=TODAY,
        **words,
    )


@pytest.mark.parametrize("code, number, seen", CASES["formats"])
def test_a_number_as_its_reader_sees_it(
    code: str, number: float, seen: str, tmp_path: Path
) -> None:
    """The sign, the percent, the currency, the unit, the zeros and the date of a format are there; the number is whole."""
    assert cells_of(written(tmp_path / "book.xlsx", [[(number, code)]])) == [[seen]]


def test_formats_without_sense() -> None:
    """No format is a fault, whatever stands in it, and none without a percent or a scale changes a number."""
    source, infinity = random.Random(1), float("inf")
    numbers = [0, 1, -1, 17, 0.2, -3.5, 12345, 45658.5, 1e300, -1e-9]
    for number in [*numbers, infinity, -infinity] * 500:
        code = "".join(source.choices(CASES["pieces"], k=source.randint(1, 9)))
        cell = Format(code, datetime.datetime(1899, 12, 30)).cell(number)
        if isinstance(cell, Shown):
            assert float(cell.digits) == number
        assert not isinstance(cell, (int, float)) or cell == number


@pytest.mark.parametrize("is_1904", [False, True])
def test_days_of_both_calendars(is_1904: bool, tmp_path: Path) -> None:
    """A workbook counts its days from 1900 or from 1904."""
    path, moment = tmp_path / "book.xlsx", datetime.datetime(2026, 3, 2, 9)
    with xlsxwriter.Workbook(path, {"date_1904": is_1904}) as book:
        day = book.add_format({"num_format": "d/m/yy"})
        book.add_worksheet().write_datetime(0, 0, moment, day)
    assert cells_of(path) == [["2026-03-02"]]


def test_other_cells(tmp_path: Path) -> None:
    """Texts stand as they are, also rich ones and those in the cell; a truth and an error are texts; a row ends with its
    last filled cell."""
    path = tmp_path / "book.xlsx"
    with xlsxwriter.Workbook(path) as book:
        sheet, bold = book.add_worksheet(), book.add_format({"bold": True})
        sheet.write_row(0, 0, ["0017", "", True, False, " x "])
        sheet.write_rich_string(1, 0, "big ", bold, "bolt")
        sheet.write_formula(1, 1, "=1/0", None, "#DIV/0!")
        sheet.write_formula(1, 2, '=""', None, "")
        sheet.write_blank(1, 3, None, bold)
    first = ["0017", "", "TRUE", "FALSE", " x "]
    assert cells_of(path) == [first, ["big bolt", "#DIV/0!"]]
    with_rows(
        path,
        '<row><c><v>5</v></c><c t="inlineStr"><is><t>in it</t></is></c>'
        '<c t="d"><v>2025-01-06T12:30:00</v></c><c t="d"><v>2025-01-06</v></c>'
        '<c t="d"><v>12:30:00</v></c><c><v>?</v></c><c><v>NaN</v></c><c t="inlineStr"/></row>',
    )
    wanted = ["5", "in it", "2025-01-06", "2025-01-06", "12:30:00", "?", "NaN"]
    assert cells_of(path) == [wanted]


def test_rows_that_are_not_there(
    tmp_path: Path, monkeypatch: pytest.MonkeyPatch
) -> None:
    """A row without cells may not be in the file, and has its number all the same. Cells are read once, or again."""
    rows = [["demand"], [3], [], [], [2], [(0.5, "0%")], [3]]
    path = written(tmp_path / "book.xlsx", rows)
    monkeypatch.setattr(workbooks, "MOST_KNOWN", 1)
    rows[5] = [Shown("", "50", "%")]
    with opened(path, "demand", Rules()) as sheet:
        assert [*sheet.rows()] == [*enumerate(rows, 1)]
        path.unlink()
        with pytest.raises(Refused, match="book.xlsx: No such file"):
            next(sheet.rows())


@pytest.mark.parametrize("code, number", [("0-", 5), ("(0)", 5), ("0;0", -5)])
def test_formats_that_show_another_sign(code: str, number: int, tmp_path: Path) -> None:
    """An amount whose format shows another sign than it has is rejected."""
    masters = [*COLUMNS, "stock"], ["A", 45, 1, 10, 2, 3, 9, (number, code)]
    rejects = read(tmp_path, masters).rejects
    assert [*rejects.column] == ["stock"] and "is not a number" in rejects.reason[0]


def test_formats_that_refuse_masters(tmp_path: Path) -> None:
    """A holding cost that shows a percent is no money, and setup in euros and a price in dollars are two currencies."""
    share = read(tmp_path, [COLUMNS, ["A", 45, (0.2, "0%"), 10, 2, 3, 9]]).rejects
    assert [*share.text] == ["20%"] and "is a share" in share.reason[0]
    dollars = (3, "[$$-409]#,##0.00")
    masters = [[*COLUMNS, "price"], ["A", (45, EURO), 1, 10, 2, 3, 9, dollars]]
    assert "'45 €' and '$3'" in read(tmp_path, masters).rejects.reason[0]


def test_formats_decide_what_masters_say(tmp_path: Path) -> None:
    """An item number that shows zeros has them, and money has its currency. A percent below a share is one."""
    row = ["0017", (45, EURO), 1, 10, 2, 3, 9, (3.5, EURO)]
    items = items_of(read(tmp_path, [[*COLUMNS, "price"], row], (17, "0000")))
    assert (items["0017"].setup, items["0017"].price) == (45, Fraction(7, 2))
    heading = [*COLUMNS[:2], "holding (% a year)", *COLUMNS[3:], "price"]
    row = ["A", 45, (0.2, "0%"), 10, 2, 3, 9, 100]
    holding = items_of(read(tmp_path, [heading, row]))["A"].holding
    assert float(holding) == pytest.approx(100 * 0.2 * 7 / 365.25)


def test_words_for_items(tmp_path: Path) -> None:
    """A number of items may show a word for these, in a workbook as in CSV, but not if it counts packs, or is money."""
    heading, stock = [*COLUMNS, "stock", "order min"], (7, "0\\ \\S\\t")
    row = ["A", 45, 1, 10, 2, (3, '0" pcs"'), "9 pcs", stock, "4 EA"]
    item = items_of(read(tmp_path, [heading, row], "A", '#,##0" Stk."'))["A"]
    assert (item.levels, item.stock, item.bounds.order_min) == ((3, 9), 7, 4)
    assert sum(item.counts) == sum(1 + week % 3 for week in range(WEEKS))
    heading[-2], row[-2] = "stock (packs of 12)", "7 pcs"
    other = ["B", "45 pcs", 1, 10, 2, 3, 9, 5, 4]
    rejects = read(tmp_path, [heading, row, other]).rejects
    assert [*zip(rejects.item, rejects.column, rejects.text)] == [
        ("A", "stock (packs of 12)", "7 pcs"),
        ("B", "setup", "45 pcs"),
    ]


@pytest.mark.parametrize("decimal", [None, ".", ","])
def test_a_number_of_a_workbook_has_no_decimal_sign(
    decimal: str | None, tmp_path: Path
) -> None:
    """It is what is stored, whatever sign is stated, and decides no text beside it. So does a time with its unit."""
    first = ["A", (1.234, EURO), (1.234, "0.00"), 10, (14, '0" Tage"'), 3, 9]
    second = ["B", "1.234 €", 1, 10, (7.0, '0.0" days"'), 3, 9]
    heading = [*COLUMNS[:4], "lead", *COLUMNS[5:]]
    catalogue = read(tmp_path, [heading, first, second], decimal=decimal)
    items, stored = items_of(catalogue), Fraction(617, 500)
    item = items["A"]
    assert (item.setup, item.holding, item.leads) == (stored, stored, (2,))
    assert [*catalogue.rejects.item] == ["B"] * (decimal is None)
    if decimal:
        setup = 1234 if decimal == "," else stored
        assert (items["B"].setup, items["B"].leads) == (setup, (1,))


def test_a_formula_without_a_value(tmp_path: Path) -> None:
    """A formula that was never computed is refused with its cell, if its column is used."""
    book, path = openpyxl.Workbook(), tmp_path / "items.xlsx"
    book.active.append([*COLUMNS, "note"])
    book.active.append([*ROW, "=B2"])
    book.active.append(["B", "=B2*2", *ROW[2:], ""])
    book.save(path)
    demand = written(tmp_path / "demand.xlsx", demand_rows())
    said = r"items.xlsx:3:2: the formula =B2\*2 was never computed; open the workbook"
    with pytest.raises(RefusedFaults, match=said) as why:
        read_catalogue(demand, path, today=TODAY)
    assert len(why.value.faults) == 1
    book.active["B3"] = 12
    book.save(path)
    assert [*items_of(read_catalogue(demand, path, today=TODAY))] == ["A", "B"]


@pytest.mark.parametrize("value", [0, 5])
def test_a_formula_that_is_computed_on_load(value: int, tmp_path: Path) -> None:
    """XlsxWriter gives formulas without a value a 0, and asks to compute them on load: it is none. One that was given
    counts, and so does a 0 in a workbook that a spreadsheet program has saved."""
    path, masters = tmp_path / "demand.xlsx", pd.DataFrame([ROW], columns=COLUMNS)
    with xlsxwriter.Workbook(path) as book:
        sheet = book.add_worksheet()
        sheet.write_row(0, 0, ["item", "date", "quantity"])
        for line, amount in enumerate((3, 2), 1):
            sheet.write_row(line, 0, ["A", str(day_of(line)), amount])
        sheet.write_row(3, 0, ["A", str(day_of(3))])
        sheet.write_formula(3, 2, "=C2+C3", None, value)
    if not value:
        said = "demand.xlsx:4:3: the formula =C2.C3 was never computed"
        with pytest.raises(RefusedFaults, match=said):
            read_catalogue(path, masters, today=TODAY, least=1)
        on_load = ' fullCalcOnLoad="1"'
        changed(path, lambda text: text.replace(on_load, ""), "xl/workbook.xml")
    found = read_catalogue(path, masters, today=TODAY, least=1)
    assert items_of(found)["A"].counts == (3, 2, value)


def test_sheets_that_can_be_meant(tmp_path: Path) -> None:
    """A sheet that is not there or has no cells is refused with those that have. The only one beside a chart is meant."""
    path = tmp_path / "book.xlsx"
    with xlsxwriter.Workbook(path) as book:
        book.add_worksheet("data").write_column(0, 0, ["demand", 3, 2])
        chart = book.add_chart({"type": "line"})
        chart.add_series({"values": "=data!$A$2:$A$3"})
        book.add_chartsheet("picture").set_chart(chart)
    assert cells_of(path)[1:] == [["3"], ["2"]]
    said = "the sheet 'picture' is a chart and has no cells; the sheets with cells are: data"
    with pytest.raises(Refused, match=said):
        cells_of(f"{path}!picture")
    with pytest.raises(Refused, match="there is no sheet 'dat'; the sheets are: data"):
        cells_of(f"{path}!dat")


def test_sheets_of_one_workbook(tmp_path: Path) -> None:
    """Both tables of a catalogue may stand in one workbook, whose sheets are named."""
    path = written(tmp_path / "all.xlsx", demand_rows(), [COLUMNS, ROW])
    both = read_catalogue(f"{path}!Sheet1", f"{path}!Sheet2", today=TODAY)
    assert items_of(both) == items_of(read(tmp_path, [COLUMNS, ROW]))
    with pytest.raises(Refused, match="the sheets are: Sheet1, Sheet2"):
        read_catalogue(path, path, today=TODAY)


NAMED = [
    ("book.xlsx", "c"),
    ("a!b.xlsx", "c!d"),
    ("a!b.xlsx", "c.xlsx!d"),
    ("a.xlsx!b.xlsx", "!c!"),
    ("a.xlsx!b/c.xlsx", "d"),
    ("a!b/c!d.XLSM", "e"),
]


@pytest.mark.parametrize("file, sheet", NAMED)
def test_a_name_with_the_sign_before_a_sheet(
    file: str, sheet: str, tmp_path: Path
) -> None:
    """A file, its folder and its sheet may have `!` in their names: a name is split where a file is there."""
    path = tmp_path / file
    path.parent.mkdir(exist_ok=True)
    with xlsxwriter.Workbook(path) as book:
        for name, count in ((sheet, 3), ("other", 5)):
            book.add_worksheet(name).write_column(0, 0, ["demand", count, 2])
    assert cells_of(f"{path}!{sheet}")[1:] == [["3"], ["2"]]
    assert cells_of(f"{path}!other")[1:] == [["5"], ["2"]]
    with pytest.raises(Refused, match="which sheet is meant is not clear"):
        cells_of(path)
    path.unlink()
    with pytest.raises(Refused) as why:
        cells_of(f"{path}!{sheet}")
    assert "there is no such file; looked for: " in str(why.value)
    assert str(path) in str(why.value).partition("looked for: ")[2]


def test_all_files_that_a_name_may_mean_are_looked_for(tmp_path: Path) -> None:
    """The longest name of a file is looked for first, and the text says of all."""
    with pytest.raises(Refused) as why:
        cells_of(f"{tmp_path}/a.xlsx!b.xlsm!c")
    said = f"looked for: {tmp_path}/a.xlsx!b.xlsm, {tmp_path}/a.xlsx; check"
    assert said in str(why.value)
    written(tmp_path / "a.xlsx", [["demand"], [3]])
    with pytest.raises(Refused, match="there is no sheet 'b.xlsm!c'"):
        cells_of(f"{tmp_path}/a.xlsx!b.xlsm!c")
    written(tmp_path / "a.xlsx!b.xlsm", [["demand"], [3]])
    with pytest.raises(Refused, match="there is no sheet 'c'"):
        cells_of(f"{tmp_path}/a.xlsx!b.xlsm!c")


def test_hidden_rows_and_merged_cells(tmp_path: Path) -> None:
    """Hidden rows are read, and that is said once. A merged cell has its text in its first row alone."""
    path = tmp_path / "demand.xlsx"
    with xlsxwriter.Workbook(path) as book:
        sheet, day = book.add_worksheet(), book.add_format({"num_format": "yyyy-mm-dd"})
        sheet.write_row(0, 0, ["item", "date", "quantity"])
        for week in range(WEEKS):
            sheet.write_row(week + 1, 0, ["A", None, 2])
            sheet.write_datetime(week + 1, 1, day_of(week), day)
        for line in (3, 4):
            sheet.set_row(line, None, None, {"hidden": True})
        sheet.merge_range(9, 0, 10, 0, "A", book.add_format({"bold": True}))
    masters = written(tmp_path / "items.xlsx", [COLUMNS, ROW])
    catalogue = read_catalogue(path, masters, today=TODAY)
    assert catalogue.counts["files"]["demand"]["read"] == WEEKS
    rejects = catalogue.rejects[["line", "column", "reason"]].values.tolist()
    assert rejects == [[11, "item", "the item is missing"]]
    assert "demand.xlsx: 2 hidden rows are read like others" in catalogue.said
