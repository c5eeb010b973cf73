"""Reads wide tables of demand, with a column for each period, as rows with a date and a quantity.

They have a row for each item, and periods are days, weeks or months.

An empty cell is no demand, as a period without a row is: most systems leave it empty. It is a period whose demand is not
known if that is stated. If other cells of the table say 0, an empty one behind the first filled one of its row may be
either, and the table is refused until it is stated. A column that lacks between others is refused, and so are
columns for other periods than those of the record. Columns and rows of totals are left out.
"""
from __future__ import annotations

import itertools
import operator
import re
from collections.abc import Iterator, Mapping, Sequence

from ..errors import RefusedFaults
from ..remarks import Remark, Value
from .cells import TOTAL, Cell, Unreadable, text_of
from .date_forms import written
from .dates import Day, DateReader, period_name, period_of
from .sources import (
    CELLS_NAME,
    HEADINGS_NAME,
    UNKNOWN,
    SourceColumn,
    Row,
    Sheet,
    refused,
)

# Roles that a wide table has no column for.
NO_WIDE_ROLES = "returned", "promotion"
LEAST_PERIODS = 2
# The line of a cell has the place of its column, from 1, above so many bits.
LINE_BITS = 23
# An item whose name only begins like a total is an item.
WHOLE_TOTAL = re.compile(rf"(?:{TOTAL.pattern})\W*", re.IGNORECASE)
ZERO = re.compile(r"-?0+([.,]0*)?")
EMPTY_CELLS = "empty cells"  # the code of what is said of these
# Days without a column in between are no gap: a shop is closed on them.
MOST_CLOSED = 6


def reader_of(sheet: Sheet) -> DateReader | None:
    """Returns what reads the headings of a table, several of which are dates; None if they are not. Patterns of dates may be
    those of other tables."""
    rules = sheet.rules
    for patterns in (rules.date_formats, ()):
        reader = DateReader(patterns, rules.every, rules.day_first).look(sheet.heading)
        if sum(map(reader.is_date, sheet.heading)) >= LEAST_PERIODS:
            return reader
    return None


def period_of_days(days: Sequence[Day]) -> str:
    """Returns for which periods days in order stand, by the least distance between two of them."""
    least = min((later - day).days for day, later in itertools.pairwise(days))
    if least < 7:
        return "day"
    return "week" if least < 28 else "month"


class WideSheet(Sheet):
    """A wide table as rows: the columns that are no periods, the day of a period, the cell below it, and the text of the
    row, so that rows are the same if all of their cells are."""

    def __init__(
        self, sheet: Sheet, days: Mapping[int, Day], totals: Sequence[int]
    ) -> None:
        """Takes the table, the first day of the period of each column by its place, and the places of totals."""
        written = f"{sheet.written}, with a column for each period"
        super().__init__(sheet.name, written, sheet.rules, sheet.path)
        self.take_head(sheet)
        self.sheet = sheet
        self.days = days
        self.size = sheet.size
        places = range(len(sheet.heading))
        self.fixed = [place for place in places if place not in {*days, *totals}]
        names = map(sheet.heading.__getitem__, self.fixed)
        self.heading = [*names, HEADINGS_NAME, CELLS_NAME, ""]
        # The places of the columns for periods, in order of these.
        self.order = sorted(days, key=days.__getitem__)
        self.names = [*map(sheet.heading.__getitem__, self.order)]
        facts: dict[str, Value] = {"first": self.names[0], "last": self.names[-1]}
        code = "wide unknown" if self.rules.empty == UNKNOWN else "wide"
        self.notes: list[Remark] = [Remark(code, {"count": len(days), **facts})]
        if totals:
            left_out = ", ".join(map(repr, map(sheet.heading.__getitem__, totals)))
            facts = {"count": len(totals), "names": left_out}
            self.notes.append(Remark("wide totals", facts))

    @property
    def width(self) -> int:
        return self.sheet.width

    def at(self, line: int) -> tuple[str, int, str]:
        place, line = divmod(line, 1 << LINE_BITS)
        heading = self.sheet.heading[place - 1] if place else ""
        return self.file_name, line, heading

    def rows(self) -> Iterator[Row]:
        zeros = empty = 0
        for line, cells in self.sheet.rows():
            if line <= self.line:
                continue
            own = [*cells, *[""] * (self.width - len(cells))]
            item = text_of(own[self.fixed[self.columns["item"].place]])
            yield from self._rows_of(line, own, item, self.text_of(cells))
            if not WHOLE_TOTAL.fullmatch(item):
                # What is empty before the first filled cell is the time before the item.
                texts = [text_of(own[place]) for place in self.order]
                below = [*itertools.dropwhile(operator.not_, texts)]
                zeros += sum(ZERO.fullmatch(text) is not None for text in below)
                empty += below.count("")
        self.hidden = self.sheet.hidden
        if zeros and empty and self.rules.empty is None:
            raise self.refused("zeros and empty cells", zeros=zeros, empty=empty)
        if empty and self.rules.empty != UNKNOWN:
            self.notes = [note for note in self.notes if note.code != EMPTY_CELLS]
            self.notes.append(Remark(EMPTY_CELLS, {"count": empty}))

    def _rows_of(
        self, line: int, cells: Sequence[Cell], item: str, text: str
    ) -> Iterator[Row]:
        """Yields a row for each filled cell of an item below a period, or for each one if an empty one is unknown; one without a
        quantity for a total, and for a blank row; and one with 0 for an item that has no filled cell.
        """
        if any(map(text_of, cells[self.width :])):
            yield line, [*cells, *[""] * (len(self.heading) + 1 - len(cells))]
            return
        fixed = [cells[place] for place in self.fixed]
        filled = [place for place in self.days if text_of(cells[place])]
        if self.rules.empty == UNKNOWN and item:
            filled = [*self.days]
        if WHOLE_TOTAL.fullmatch(item) or not (filled or item):
            yield line, [*fixed, "", "", text * (item != "")]
        elif not filled:
            yield line, [*fixed, min(self.days.values()), 0, text]
        else:
            for place in filled:
                cell = line | place + 1 << LINE_BITS
                yield cell, [*fixed, self.days[place], cells[place], text]

    def mark_used(self) -> None:
        """Marks which columns of the table are used, as soon as those with roles are known: their formulas must have been
        computed."""
        places = [*self.days]
        for column in self.columns.values():
            places += self.fixed[column.place : column.place + 1]
        self.sheet.columns = {
            str(place): SourceColumn(self.sheet.heading[place], place)
            for place in places
        }

    def check(self) -> None:
        """Raises RefusedFaults if the columns are not for the periods of the record, if two are for the same one, or if one
        lacks between them."""
        every = str(self.rules.every)
        names = self.names
        days = [*map(self.days.__getitem__, self.order)]
        form = written(names[0])
        closed = 0
        unit = every if form and form.period == every else period_of_days(days)
        if unit not in ("day", every):
            raise self.refused(
                "other columns",
                first=names[0],
                last=names[-1],
                period=unit,
                every=every,
            )
        numbers = [period_of(day, unit) for day in days]
        for place, (number, later) in enumerate(itertools.pairwise(numbers)):
            gap = later - number - 1
            facts = {"first": names[place], "second": names[place + 1], "every": unit}
            if gap < 0:
                raise self.refused("same column", **facts)
            if gap > (MOST_CLOSED if unit == "day" else 0):
                missing = period_name(number + 1, unit)
                raise self.refused(
                    "no column between", count=gap, name=missing, **facts
                )
            closed += gap
        if closed:
            self.notes.append(Remark("days without a column", {"count": closed}))

    def refused(self, code: str, **facts: Value) -> RefusedFaults:
        """Returns the error of the heading."""
        return refused(code, self.name, self.line, **facts)


def wide_sheet(sheet: Sheet) -> WideSheet | None:
    """Returns a table of demand as rows if it is a wide one: if several of its headings are dates or whole periods; else
    None. Raises RefusedFaults if these can't be read, or are not for the periods of the record.
    """
    reader = reader_of(sheet)
    if reader is None:
        return None
    days = dict[int, Day]()
    totals = list[int]()
    for place, name in enumerate(sheet.heading):
        if reader.is_date(name):
            try:
                days[place] = reader.day(name)
            except Unreadable as why:
                raise RefusedFaults([sheet.fault_of(why.remark)]) from why
        elif TOTAL.match(name):
            totals.append(place)
    wide = WideSheet(sheet, days, totals)
    wide.check()
    return wide
