"""Reads the rows of one table: its days and amounts, what is wrong with cells, and what becomes of each row.

So a history, a catalogue and today's tables are read.
"""
from __future__ import annotations

from collections.abc import Callable, Collection, Iterable, Mapping, Sequence
from dataclasses import dataclass
from fractions import Fraction
from functools import partial
from typing import Any, TypeVar

import numpy as np
import numpy.typing as npt

from ..remarks import Remark, joined
from .amounts import AMOUNTS, AmountReader
from .blocks import CodedColumn
from .cells import Cell, CellFault, Flags, Numbers, Unreadable, on_one_line, text_of
from .columns import factors_of
from .dates import DateReader
from .items import Reject
from .observed import Day
from .rows import Rows, amount_reader, date_reader, rows_of
from .sources import Sheet

Value = TypeVar("Value")
Values = dict[str, Any]  # those of a row, by role
Wrong = dict[int, Remark]  # what is wrong with values, by their codes
States = npt.NDArray[np.int8]  # of each row what became of it, as a place in STATES
# What becomes of rows: they are used, rejected, left out with their item, or others than are wanted. At the end none is
# open.
STATES = USED, REJECTED, WITH_ITEM, OTHER, OPEN = (
    "used",
    "rejected",
    "with_item",
    "other",
    "open",
)
PLACES: Mapping[str, int] = {state: place for place, state in enumerate(STATES)}


def alone(
    kind: str, sheet: Sheet
) -> tuple[Rows, DateReader, Mapping[str, AmountReader]]:
    """Returns all rows of a table that decides alone how its dates and amounts are read, with what reads these."""
    rows = rows_of(sheet)
    readers = {role: amount_reader(rows, role) for role in AMOUNTS[kind]}
    return rows, date_reader(rows, readers), readers


def values_of(
    cells: Iterable[Cell], read: Callable[[Cell], Value], default: Value
) -> tuple[list[Value], Wrong]:
    """Returns what a function reads in cells, the default in one that can't be read, and what is wrong with those, by
    their places."""
    values = []
    wrong: Wrong = {}
    for code, cell in enumerate(cells):
        try:
            values.append(read(cell))
        except Unreadable as why:
            values.append(default)
            wrong[code] = why.remark
    return values, wrong


@dataclass
class TableReader:
    """Reads the columns of a table. By role, `values` has what its cells say, and `wrong` what is wrong with them, by their
    codes, and `factors` by what numbers are multiplied that have a unit. `states` says what becomes of each row. What is left
    out or suspicious is handed on to `add`, if it is given."""

    kind: str
    rows: Rows
    dates: DateReader
    amounts: Mapping[str, AmountReader]
    add: Callable[[Reject], None] | None = None

    def __post_init__(self) -> None:
        """Rejects the rows that name no item, and those with too many cells."""
        sheet = self.rows.sheet
        self.factors = factors_of(sheet.columns, str(sheet.rules.every))
        states = np.where(self.rows.other, PLACES[OTHER], PLACES[OPEN])
        self.states: States = states.astype(np.int8)
        self.values = dict[str, list[Any]]()
        self.wrong = dict[str, Wrong]()
        for row, wrong in self.rows.nameless():
            self.reject(row, [wrong], "")

    def read(
        self, role: str, read: Callable[[Cell], Any], default: Any = None
    ) -> CodedColumn:
        """Reads the cells of a column, each distinct one once; one that can't be read has the default. Returns the column."""
        column = self.rows.columns[role]
        self.values[role], self.wrong[role] = values_of(column.distinct, read, default)
        return column

    def read_rows(
        self,
        reads: Mapping[str, Callable[[Cell], Any]],
        needed: Collection[str] = (),
        converted: Collection[str] = (),
    ) -> None:
        """Reads those of some columns that there are for `row`. An empty cell of a role that is not needed has no value.
        Numbers are multiplied by their factors, but for those of roles that are converted elsewhere.
        """

        def reader_of(role: str) -> Callable[[Cell], Any]:
            factor = None if role in converted else self.factors.get(role)

            def value_of(cell: Cell) -> Any:
                if cell == "" and role not in needed:
                    return None
                value = reads[role](cell)
                return value if factor is None else value * factor

            return value_of

        for role in reads:
            if role in self.rows.columns:
                self.read(role, reader_of(role))

    def row(self, row: int) -> tuple[Values, list[CellFault]]:
        """Returns the values of a row by role, None of one that has none, and what is wrong with its cells."""
        values: Values = {}
        for role, known in self.values.items():
            values[role] = known[self.rows.columns[role].codes[row]]
        return values, self.faults(row)

    def number(self, role: str, kind: str = "") -> Callable[[Cell], Fraction]:
        """Returns what reads the numbers of a role, of its own kind of KINDS or of another one."""
        kind = kind or AMOUNTS[self.kind][role]
        return partial(self.amounts[role].number, kind=kind)

    def read_whole(self, role: str, read: Callable[[Cell], int]) -> Numbers:
        """Returns the number that a function reads in each row's cell of a column, 0 of one that has none."""
        return self.read(role, read, 0).of_rows(self.values[role], np.int64)

    def read_days(
        self, role: str, check: Callable[[Day], Any] = lambda day: None
    ) -> Numbers:
        """Returns the day of each row's date, as an ordinal number. `check` raises Unreadable for a day that is none."""

        def day_of(cell: Cell) -> int:
            day = self.dates.day(cell)
            check(day)
            return day.toordinal()

        return self.read_whole(role, day_of)

    def read_spans(self, first: str, last: str) -> tuple[Numbers, Numbers, Flags]:
        """Returns the first and the last day of each row, and which rows have no last day yet: that is not wrong."""
        starts, ends = self.read_days(first), self.read_days(last)
        for code, cell in enumerate(self.rows.columns[last].distinct):
            if cell == "":
                del self.wrong[last][code]
        return starts, ends, self.empty(last)

    def read_amounts(self, role: str, kind: str) -> Numbers:
        """Returns the amount of each row in items, of a kind of KINDS."""
        number, factor = self.number(role, kind), self.factors.get(role, 1)
        return self.read_whole(role, lambda cell: int(number(cell) * factor))

    @property
    def bad(self) -> Flags:
        """Returns which rows have a cell that was read and can't be."""
        bad: Flags = np.zeros(len(self.rows), bool)
        for role, wrong in self.wrong.items():
            bad |= self.rows.having(role, wrong)
        return bad

    def empty(self, role: str) -> Flags:
        """Returns which rows have an empty cell in a column."""
        column = self.rows.columns[role]
        return column.of_rows((cell == "" for cell in column.distinct), bool)

    def blank(self, role: str) -> Flags:
        """Returns which rows have an empty cell in a column of amounts, and nothing else that is wrong."""
        blank = self.empty(role)
        for other, wrong in self.wrong.items():
            if other != role:
                blank &= ~self.rows.having(other, wrong)
        return blank

    def faults(self, row: int) -> list[CellFault]:
        """Returns what is wrong with the cells of a row that were read."""
        faults = list[CellFault]()
        for role, wrong in self.wrong.items():
            remark = wrong.get(self.rows.columns[role].codes[row])
            if remark:
                faults.append((role, self.rows.cell(role, row), remark))
        return faults

    def name(
        self,
        what: str,
        line: int,
        item: str,
        faults: Sequence[CellFault],
        rows: int = 0,
        value: Fraction | None = None,
    ) -> None:
        """Hands on what is left out or suspicious, with columns (by their roles if the table has none) and texts, and with how
        many rows of demand and which value are left out with it."""
        if self.add is None:
            return
        sheet = self.rows.sheet
        columns, texts, remarks = list[str](), list[str](), list[Remark]()
        for role, cell, remark in faults:
            columns.append(sheet.column_of(role, line))
            texts.append(on_one_line(text_of(cell)))
            remarks.append(remark)
        file, line, _ = sheet.at(line)
        where, text = ", ".join(columns), ", ".join(texts)
        what_is_wrong = joined(remarks)
        self.add(
            Reject(what, file, line, item, where, text, what_is_wrong, rows, value)
        )

    def reject(
        self, row: int, faults: Sequence[CellFault], item: str | None = None
    ) -> None:
        """Leaves a row out, of the item that it names if no other is given."""
        self.states[row] = PLACES[REJECTED]
        name = str(self.rows.cell("item", row)) if item is None else item
        rows = int(self.kind == "demand")
        self.name("row", int(self.rows.lines[row]), name, faults, rows)

    def reject_all(
        self, bad: Flags, judged: Callable[[int], CellFault] | None = None
    ) -> None:
        """Leaves rows out, by what is wrong with their cells, else by what is wrong with the row."""
        for row in np.flatnonzero(bad).tolist():
            faults = self.faults(row)
            if judged and not faults:
                faults = [judged(row)]
            self.reject(row, faults)

    def leave(self, others: Flags) -> None:
        """Leaves good rows out that are others than are wanted."""
        self.states[others & self.rows.good] = PLACES[OTHER]
        self.rows.good &= ~others

    def close(self, became: Mapping[int, str]) -> None:
        """Gives each row of which nothing is said yet the state of its item, by the code of this."""
        items = range(len(self.rows.names))
        states = np.array([PLACES[became.get(item, OPEN)] for item in items])
        is_open = self.states == PLACES[OPEN]
        self.states[is_open] = states[self.rows.items[is_open]]
