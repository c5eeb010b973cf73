"""Writes sheets of workbooks for spreadsheets: tables, and a chart of the curve.

Texts are texts, so an item number keeps its zeros, and no cell is run. Numbers are unrounded, and shown as their
columns are declared.
"""
from __future__ import annotations

import contextlib
import datetime
import io
import math
import re
from collections.abc import Iterator, Sequence
from pathlib import Path
from typing import TYPE_CHECKING, NamedTuple

from ..curve.parts import Point
from ..curve.pictures import AXIS, BLUE, LINE, MARKERS, SERVICE, TITLE, curve_ends
from ..errors import Refused
from ..money import Currency
from ..store.files import named_bytes
from ..table import MONEY, TableCell, Column, DataTable, is_missing
from .catalogue_tables import DECISIONS

if TYPE_CHECKING:
    from xlsxwriter.format import Format
    from xlsxwriter.worksheet import Worksheet

MOST_ROWS = 1_048_576  # of a sheet, with its heading
CREATED = datetime.datetime(2000, 1, 1)  # fixed: the same tables make the same bytes
LEAST_WIDTH, MOST_WIDTH, MEANING_WIDTH, ROOM = (
    9,
    50,
    150,
    4,
)  # of columns, in letters, and of a currency
GRID = {"visible": True, "line": {"color": "#d9d9d9"}}
MOST_ON_PAGE = 12  # columns of a sheet that is as wide as a printed page
A4 = 9  # the number that Excel has for this paper
CURVE, LINES = "Curve", "Orders by supplier"
# What no name of a sheet may have: signs, which are wide ones in some languages, and what XML or a reader can't show.
UNNAMED = re.compile(
    r"[\[\]:*?/\\［］：＊？／＼\x00-\x1f\x7f-\x9f\u2028-\u202e\u2066-\u2069\ud800-\udfff\ufffe\uffff]"
)
MOST_NAME = 31  # of a sheet, in units of UTF-16
TEXT = "@"  # the format of texts
SPELT = re.compile(r"[+]?(?P<group>,?)\.(?P<digits>[0-9])(?P<kind>[f%])")


class Meaning(NamedTuple):
    """What a column of a sheet has."""

    sheet: str
    column: str
    unit: str
    meaning: str


def with_places(whole_part: str, digits: int) -> str:
    if digits:
        return f"{whole_part}.{'0' * digits}"
    return whole_part


def money_format(table: DataTable) -> str:
    """Returns the format of money in the currency of a table."""
    amount = with_places("#,##0", Currency(table.currency, table.decimals).digits)
    if not table.currency:
        return amount
    return f'"{table.currency}" {amount};"{table.currency}" -{amount}'


def number_format(column: Column, table: DataTable) -> str:
    """Returns the format of a column in a spreadsheet, by its declared decimals and the currency of its table. Shares
    are in percent, with the same digits."""
    style = column.shown or column.written
    if column.is_text:
        return TEXT
    if style == MONEY:
        return money_format(table)
    parts = SPELT.fullmatch(style)
    if parts is None:
        if column.kind == "whole":
            return "#,##0"
        return "#,##0.0###"
    digits = int(parts["digits"])
    whole_part = "#,##0" if parts["group"] else "0"
    if parts["kind"] == "%":
        return with_places(whole_part, digits) + "%"
    if column.unit == "share":
        return with_places(whole_part, max(0, digits - 2)) + "%"
    return with_places(whole_part, digits)


def write_cell(
    sheet: Worksheet, row: int, place: int, cell: TableCell, style: Format
) -> int:
    """Writes a cell, empty for no figure, and returns how many letters it needs."""
    if cell is None or is_missing(cell):
        return 0
    if isinstance(cell, str) or not math.isfinite(cell):
        words = str(cell)
        if words:
            sheet.write_string(row, place, words, style)
        return len(words)
    figure = float(cell)
    sheet.write_number(row, place, figure, style)
    return len(f"{figure:,.2f}") + ROOM


def series_of(first: int, last: int, **style: object) -> dict[str, object]:
    """Returns a series of the curve in a style: columns 1 and 2 of these rows are its values across and upwards."""
    return {
        **style,
        "categories": [CURVE, first, 1, last, 1],
        "values": [CURVE, first, 2, last, 2],
    }


class SheetWriter:
    """A workbook, which is written row by row."""

    def __init__(self, file: io.BytesIO, title: str) -> None:
        import xlsxwriter

        self.book = xlsxwriter.Workbook(
            file,
            {
                "constant_memory": True,
                "strings_to_formulas": False,
                "strings_to_urls": False,
            },
        )
        self.book.set_properties(
            {"title": title, "author": "crnplan", "created": CREATED}
        )
        heading = {"bold": True, "bottom": 1}
        self.left = self.book.add_format({**heading, "align": "left", "indent": 1})
        self.right = self.book.add_format({**heading, "align": "right", "indent": 0})
        self.meanings = list[Meaning]()

    def format(self, style: str) -> Format:
        return self.book.add_format({"num_format": style, "indent": int(style == TEXT)})

    def add(
        self,
        name: str,
        table: DataTable,
        styles: Sequence[Sequence[str]] = (),
        widest: int = MOST_WIDTH,
    ) -> tuple[Worksheet, int]:
        """Adds a sheet with a table, whose rows have perhaps formats of their own, and returns it with how many rows it
        has. Raises Refused if they are too many."""
        sheet = self.book.add_worksheet(name)
        for place, column in enumerate(table.columns):
            sheet.write_string(
                0, place, column.name, self.left if column.is_text else self.right
            )
        count = self._write_rows(sheet, table, styles, widest)
        last = len(table.columns) - 1
        sheet.freeze_panes(1, 1)
        sheet.autofilter(0, 0, count, last)
        sheet.set_landscape()
        sheet.set_paper(A4)
        sheet.repeat_rows(0)
        if last < MOST_ON_PAGE:
            sheet.fit_to_pages(1, 0)
        for column in table.columns:
            unit = column.unit_in(table.currency, table.every)
            self.meanings.append(Meaning(name, column.name, unit, column.meaning))
        return sheet, count

    def _write_rows(
        self,
        sheet: Worksheet,
        table: DataTable,
        styles: Sequence[Sequence[str]],
        widest: int,
    ) -> int:
        """Writes the rows of a table, sets the widths of its columns, and returns how many rows there are."""
        usual = [self.format(number_format(column, table)) for column in table.columns]
        own = [[self.format(style) for style in row] for row in styles]
        widths = [max(LEAST_WIDTH, len(column.name) + 4) for column in table.columns]
        count = 0
        for count, row in enumerate(table.rows, 1):
            if count >= MOST_ROWS:
                raise Refused(
                    f"the sheet {sheet.name!r} would have more than {MOST_ROWS:,} rows, which no spreadsheet "
                    "opens",
                    f"take the tables of the folder, as {DECISIONS}",
                )
            formats = own[count - 1] if own else usual
            for place, (cell, style) in enumerate(zip(row, formats, strict=True)):
                length = write_cell(sheet, count, place, cell, style)
                widths[place] = max(widths[place], min(length + 2, widest))
        for place, width in enumerate(widths):
            sheet.set_column(place, place, width)
        return count

    def add_curve(
        self, curve: Sequence[tuple[str, Point]], table: DataTable, currency: str
    ) -> None:
        """Adds the exchange curve: its named points first, and a chart beside them."""
        sheet, count = self.add(CURVE, table)
        named = [point for name, point in curve if name]
        chart = self.book.add_chart({"type": "scatter", "subtype": "straight"})
        chart.add_series(
            series_of(
                len(named) + 1,
                count,
                name=LINE,
                marker={"type": "none"},
                line={"color": BLUE, "width": 2},
            )
        )
        for row in range(1, len(named) + 1):
            marker = MARKERS[(row - 1) % len(MARKERS)]
            chart.add_series(
                series_of(
                    row,
                    row,
                    name=[CURVE, row, 0],
                    line={"none": True},
                    marker=marker.of_sheet,
                )
            )
        right, bottom = curve_ends(named)
        stock = ", ".join(filter(None, (AXIS, currency)))
        across = {"name": stock, "num_format": "#,##0", "min": 0, "max": right}
        upward = {"name": SERVICE, "num_format": "0%", "min": bottom / 100, "max": 1}
        chart.set_title({"name": TITLE})
        chart.set_x_axis(across)
        chart.set_y_axis(upward | {"major_gridlines": GRID})
        chart.set_legend({"position": "bottom"})
        chart.set_size({"width": 860, "height": 520})
        sheet.insert_chart(1, len(table.columns) + 1, chart)


@contextlib.contextmanager
def new_book(path: Path, title: str) -> Iterator[SheetWriter]:
    """Gives a workbook, and writes it with what was added in the block."""
    data = io.BytesIO()
    book = SheetWriter(data, title)
    yield book
    book.book.close()
    with named_bytes(path) as file:
        file.write(data.getbuffer())


def sheet_name(place: int, supplier: str) -> str:
    """Returns the name of the sheet of a supplier: its place, by which no other sheet has that name, and as much of its own
    name as a sheet may have."""
    name = " ".join([f"{place:03}", *UNNAMED.sub(" ", supplier).split()])
    short = name.encode("utf-16-le")[: 2 * MOST_NAME].decode("utf-16-le", "ignore")
    return short.rstrip(" '")
