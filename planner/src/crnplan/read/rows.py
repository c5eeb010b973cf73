"""Holds the rows of a table by role: each column keeps its distinct values once, and a whole number for each row.

So each value is read as a number or a date once, and a row takes some thirty bytes. Rows are numbered from 0, without
blank ones.
"""
from __future__ import annotations

from collections.abc import Callable, Collection, Iterable, Iterator, Mapping
from typing import Protocol

import numpy as np

from .amounts import AmountReader
from .blocks import DATES, Block, Codes, CodedColumn, read_blocks
from .cells import Cell, CellFault, Flags, Numbers, fault, text_of
from .columns import counts_items
from .dates import DateReader
from .sources import FILE_BITS, Sheet

# An amount is far above all others if it is so many times the next largest; TIMES_OF_FEW times if it has fewer others
# than LEAST_OTHERS. At most MOST_FAR are.
TIMES_NEXT, TIMES_OF_FEW, LEAST_OTHERS, MOST_FAR = 30, 300, 4, 3
# What blocks have for each row.
BY_ROW = {"lines": np.int64, "good": np.bool_, "other": np.bool_, "hashes": np.uint64}


class Rows(Block):
    """The rows of a table, whose blocks are put together. Those that are not good decide nothing."""

    def __init__(
        self,
        sheet: Sheet,
        blocks: Iterable[tuple[int, Block]],
        names: Codes | None = None,
    ) -> None:
        """Puts blocks together, each with the lines that stand before it. Tables of one catalogue share the names of
        items."""
        self.sheet = sheet
        self.blank = list[int]()
        self.wide = dict[int, tuple[int, str]]()
        self.columns = dict[str, CodedColumn]()
        for name, kind in BY_ROW.items():
            setattr(self, name, np.zeros(0, kind))
        values = {role: Codes() for role in (*sheet.columns, *sheet.marks)}
        if names is not None:
            values["item"] = names
        for role, known in values.items():
            self.columns[role] = CodedColumn(np.zeros(0, np.int32), known.distinct)
        for before, block in blocks:
            self.wide |= {len(self) + row: cells for row, cells in block.wide.items()}
            self.blank += [before + line for line in block.blank]
            block.lines = block.lines + before
            for name in BY_ROW:
                both = getattr(self, name), getattr(block, name)
                setattr(self, name, np.concatenate(both))
            for role, column in block.columns.items():
                codes = values[role].of(column.distinct)[column.codes]
                codes = np.append(self.columns[role].codes, codes)
                self.columns[role] = CodedColumn(codes, values[role].distinct)

    @property
    def items(self) -> Numbers:
        """Returns the item of each row, as the code of its name."""
        return self.columns["item"].codes

    @property
    def names(self) -> list[str]:
        """Returns the names of items by their codes."""
        return [*map(str, self.columns["item"].distinct)]

    def twins(self, good: Flags) -> dict[int, int]:
        """Returns the good rows that have the same cells as one above them, each with the first such one. They are compared by
        hashes of 64 bits: in a million rows, two different ones collide once in 37 million files.
        """
        rows = np.flatnonzero(good)
        _, places, which = np.unique(
            self.hashes[rows], return_index=True, return_inverse=True
        )
        firsts = rows[places[which]]
        is_again = firsts != rows
        return dict(zip(rows[is_again].tolist(), firsts[is_again].tolist()))

    def cell(self, role: str, row: int) -> Cell:
        """Returns the value of a row's cell; the empty text if the table has no such column."""
        if role not in self.columns:
            return ""
        codes, distinct = self.columns[role]
        return distinct[int(codes[row])]

    def cells(self, row: int) -> dict[str, Cell]:
        """Returns the values of a row by role."""
        return {role: self.cell(role, row) for role in self.sheet.columns}

    def counts(self, role: str) -> dict[Cell, int]:
        """Returns how many good rows have each value of a column that one has; nothing if there is no column."""
        if role not in self.columns:
            return {}
        return dict(+self.columns[role].counts(self.good))

    def by_item(
        self, good: Flags, values: Numbers | None = None
    ) -> Callable[[int], Numbers]:
        """Returns the function that gives the good rows of an item, in their order, by its code; or their columns in a
        table of values."""
        rows = np.flatnonzero(good)
        codes = self.items[rows]
        count = len(self.columns["item"].distinct)
        ends = [0, *np.cumsum(np.bincount(codes, minlength=count)).tolist()]
        if count <= 1 << 16:  # numpy sorts whole numbers of 16 bits by their digits.
            codes = codes.astype(np.uint16)
        order = rows[np.argsort(codes, kind="stable")]
        sorted_values = order if values is None else values[:, order]
        return lambda item: sorted_values[..., ends[item] : ends[item + 1]]

    def nameless(self) -> Iterator[tuple[int, CellFault]]:
        """Yields the rows that are not good: those that name no item, and those with too many cells, with what is
        wrong."""
        for row in np.flatnonzero(~self.good & ~self.other).tolist():
            if row in self.wide:
                cells, text = self.wide[row]
                columns, sign = self.sheet.width, self.sheet.sign
                wrong = fault("", text, "long", cells=cells, columns=columns, sign=sign)
                yield row, wrong
                continue
            name = self.cell("item", row)
            yield row, fault("item", name, "unprintable name" if name else "no item")

    def sizes(self, factors: Mapping[str, int]) -> Numbers:
        """Returns how many items one of each row's unit of measure counts as: 1 if that is not stated."""
        if "measure" not in self.columns:
            return np.ones(len(self), np.int64)
        column = self.columns["measure"]
        sizes = (factors.get(text_of(unit), 1) for unit in column.distinct)
        return column.of_rows(sizes, np.int64)

    def having(self, role: str, codes: Collection[int]) -> Flags:
        """Returns which rows have one of these values in a column."""
        column = self.columns[role]
        wanted = {*codes}
        has = (code in wanted for code in range(len(column.distinct)))
        return column.of_rows(has, bool)


def rows_of(sheet: Sheet) -> Rows:
    """Returns all rows of a table, which are read one by one."""

    def blocks() -> Iterator[tuple[int, Block]]:
        for place, file in enumerate(sheet.files):
            for block in read_blocks(file, file.rows()):
                yield place << FILE_BITS, block

    return Rows(sheet, blocks())


class KeptTable(Protocol):
    """A table with how many of its good rows have each value of a column."""

    sheet: Sheet

    def counts(self, role: str) -> Mapping[Cell, int]:
        ...


def date_reader(table: KeptTable, amounts: Collection[str] = ()) -> DateReader:
    """Returns what reads the dates of a table, after a look at all of them. Roles of amounts are no dates."""
    rules = table.sheet.rules
    reader = DateReader(rules.date_formats, rules.every, rules.day_first)
    for role in DATES:
        column = table.sheet.columns.get(role)
        if column and role not in amounts:
            reader.look(table.counts(role), column.name)
    return reader


def amount_reader(
    table: KeptTable, role: str, currencies: dict[str, str] | None = None
) -> AmountReader:
    """Returns what reads the amounts of a column, after a look at all of them."""
    counts = counts_items(role, table.sheet.columns.get(role))
    reader = AmountReader(table.sheet.rules.decimal_of(role), currencies, counts)
    return reader.look(table.counts(role))


def far_above(amounts: Numbers) -> int:
    """Returns how many amounts, at most MOST_FAR, are far above all others."""
    ranked = np.sort(amounts)[: -MOST_FAR - LEAST_OTHERS - 1 : -1]
    ranked = ranked[ranked > 0].tolist()
    for far, next_largest in enumerate(ranked[1 : 1 + MOST_FAR], 1):
        times = TIMES_NEXT if len(ranked) - far >= LEAST_OTHERS else TIMES_OF_FEW
        if ranked[far - 1] >= times * next_largest:
            return far
    return 0
