"""Reads the tables of a catalogue into files by part of its items, in several processes.

It says what all rows say together: how dates and amounts are read, and the ends of the record.
"""
from __future__ import annotations

import contextlib
from collections import Counter
from collections.abc import Iterable, Mapping, Sequence
from dataclasses import dataclass, field, replace
from fractions import Fraction
from functools import partial
from pathlib import Path
from typing import TYPE_CHECKING

from ..errors import Fault, RefusedFaults
from ..remarks import Remark, Value, joined
from ..store.jobs import Workers
from .amounts import AMOUNTS, AmountReader
from .blocks import (
    Codes,
    Filed,
    Piece,
    RangeRead,
    Sizes,
    closed_ranges,
    ranges_of,
    read_blocks,
    read_range,
    write_blocks,
)
from .cells import Cell, Unreadable, text_of
from .columns import MONEY
from .dates import DateReader
from .defaults import currency_in
from .law_forms import LAWS
from .marks import asked_of_marks
from .observed import Day, Record, check_ends, record_of
from .repeated import sums_of_columns
from .rows import Rows, amount_reader, date_reader
from .sources import FILE_BITS, Sheet, TextSheet
from .times import TimeReader

if TYPE_CHECKING:
    from .items import Reading

# The roles of masters that are times.
SPANS = ("lead", "coverage", "shelf_life", "review")


@dataclass
class FiledTable:
    """A table that was read: its blocks, each with the lines before it, how many good rows have each value, and how
    many rows there are, and blank ones."""

    sheet: Sheet
    blocks: list[tuple[int, Filed]] = field(default_factory=list)
    seen: dict[str, Counter[Cell]] = field(default_factory=dict)
    rows: int = 0
    blank: int = 0

    def add(self, ranges: Iterable[RangeRead], before: int) -> None:
        """Adds the ranges of a file of the table. Raises RefusedFaults for the first one that has faults."""
        lines = 0
        for part in ranges:
            if part.faults:
                raise RefusedFaults(
                    [replace(fault, line=lines + fault.line) for fault in part.faults]
                )
            for block in part.blocks:
                for role, counts in block.seen.items():
                    self.seen.setdefault(role, Counter()).update(counts)
                block.seen = {}
                self.blocks.append((before + lines, block))
                self.rows += block.rows
                self.blank += block.blank
            lines += part.lines

    def counts(self, role: str) -> dict[Cell, int]:
        """Returns how many good rows have each value of a column that one has; nothing if there is no column."""
        return dict(+self.seen.get(role, Counter()))


# The tables of a part of the items, by kind, with where their rows are.
CataloguePart = Mapping[str, tuple[Sheet, Sequence[Piece]]]


def part_of(
    tables: Mapping[str, FiledTable], number: int, kinds: Iterable[str]
) -> CataloguePart:
    """Returns the part of a number of some of the tables."""
    part = dict[str, tuple[Sheet, list[Piece]]]()
    for kind in kinds:
        pieces = list[Piece]()
        for before, block in tables[kind].blocks:
            if number in block.places:
                pieces.append(Piece(before, block.path, block.places[number]))
        part[kind] = tables[kind].sheet, pieces
    return part


def rows_of_part(part: CataloguePart) -> dict[str, Rows]:
    """Returns the rows of all tables, which share the names of items."""
    names = Codes()
    tables = dict[str, Rows]()
    for kind, (sheet, pieces) in part.items():
        tables[kind] = Rows(sheet, map(Piece.read, pieces), names)
    return tables


def read_tables(
    sheets: Mapping[str, Sheet], workers: Workers, room: Path, parts: int, sizes: Sizes
) -> dict[str, FiledTable]:
    """Reads all tables into files of a folder, by part of the items. Workers read ranges of files. Raises
    RefusedFaults."""
    tables = {kind: FiledTable(sheet) for kind, sheet in sheets.items()}
    ranges: dict[tuple[str, int], list[range]] = {}
    words: dict[tuple[str, int], tuple[TextSheet, Sizes, Path, int]] = {}
    files = {
        (kind, place): file
        for kind, sheet in sheets.items()
        for place, file in enumerate(sheet.files)
    }
    for (kind, place), file in files.items():
        if isinstance(file, TextSheet):
            stem = room / f"{kind}-{place}"
            words[kind, place] = file, sizes.of(sheets[kind]), stem, parts
            ranges[kind, place] = [*ranges_of(file, sizes.range)]
    asked = (
        ((*key, part), (*words[key], part)) for key in ranges for part in ranges[key]
    )
    read = dict(workers.answers(read_range, asked))
    for key, file in files.items():
        kind, place = key
        with file.unchanged():
            if key in words:
                done = [read[(*key, part)] for part in ranges[key]]
                again = partial(read_range, *words[key])
                found = [*closed_ranges(ranges[key], done, again)]
            else:
                blocks = read_blocks(file, file.rows())
                stem = room / f"{kind}-{place}"
                found = [RangeRead(0, write_blocks(blocks, stem, parts))]
            tables[kind].add(found, place << FILE_BITS)
    return tables


def check_readable(table: FiledTable, reader: DateReader) -> None:
    """Raises RefusedFaults for a table of demand with dates, none of which can be read: with what is wrong with the first
    one, or with the columns."""
    sheet = table.sheet
    dates = table.counts("date")
    if not dates:
        return
    first = next(iter(dates))
    facts: dict[str, Value] = {
        "name": sheet.columns["date"].name,
        "count": sum(dates.values()),
    }
    try:
        reader.day(first)
    except Unreadable as why:
        wrong = joined([Remark("no readable date", facts), why.remark])
    column = sheet.columns["item"]
    rows = [cells for _, cells in sheet.first_rows if column.place < len(cells)]
    items = [cells[column.place] for cells in rows]
    of_items = DateReader(reader.patterns, reader.every).look(items)
    if items and all(map(of_items.is_date, items)):
        facts |= {"text": text_of(first), "item": items[0]}
        facts |= {"kind": "demand", "other": column.name}
        wrong = Remark("swapped columns", facts)
    raise RefusedFaults([Fault(wrong, sheet.name)])


def refuse_unclear(tables: Mapping[str, FiledTable]) -> None:
    """Raises RefusedFaults with what must be asked of the columns of tables: whether rows count, or numbers beside them."""
    faults = [
        table.sheet.fault_of(remark)
        for kind, table in tables.items()
        for remark in asked_of_marks(kind, table)
    ]
    if faults:
        raise RefusedFaults(faults)


def currencies_of(table: FiledTable, stated: str) -> dict[str, str]:
    """Returns the currencies of the masters, each with its text: the stated one, those of cells, and those of columns."""
    currencies = {stated: stated}
    for cell in table.counts("currency"):
        with contextlib.suppress(Unreadable):
            currencies.setdefault(currency_in(cell), text_of(cell))
    currencies.pop("", None)
    for column in table.sheet.columns.values():
        if column.currency:
            currencies.setdefault(column.currency, column.name)
    return currencies


@dataclass(frozen=True)
class WholeTables:
    """What all rows say together: how the dates of each table are read, and the amounts and times of each column; the
    currencies of the masters, each with its text; the record; the classes that masters state; and the sums of their
    columns, by role."""

    dates: Mapping[str, DateReader]
    amounts: Mapping[str, AmountReader]
    times: Mapping[str, TimeReader]
    currencies: Mapping[str, str]
    record: Record
    groups: frozenset[str]
    sums: Mapping[str, Fraction]

    @classmethod
    def of(cls, tables: Mapping[str, FiledTable], words: Reading) -> WholeTables:
        """Looks at all tables. Raises Refused if the record has no day, or too many, and RefusedFaults if dates can't be
        read."""
        dates = {kind: date_reader(table) for kind, table in tables.items()}
        for kind, reader in dates.items():
            if doubt := reader.doubt():
                raise RefusedFaults([Fault(doubt, tables[kind].sheet.name)])
        masters = tables["items"]
        currencies = currencies_of(masters, words.currency or "")
        amounts = dict[str, AmountReader]()
        for kind, table in tables.items():
            for role in AMOUNTS[kind]:
                known = currencies if role in MONEY else None
                amounts[role] = amount_reader(table, role, known)
        times = dict[str, TimeReader]()
        for role in SPANS:
            decimal = masters.sheet.rules.decimal_of(role)
            times[role] = TimeReader(decimal).look(masters.counts(role))
        days = Counter[Day]()
        for cell, count in tables["demand"].counts("date").items():
            with contextlib.suppress(Unreadable):
                days[dates["demand"].day(cell)] += count
        if not days:
            check_readable(tables["demand"], dates["demand"])
        check_ends(words.start, words.end)
        today = words.today or Day.today()
        ends = words.start, words.end, today
        record = record_of(days, words.every, *ends, LAWS in tables)
        groups = frozenset(map(text_of, masters.counts("class")))
        sums = sums_of_columns(masters, amounts)
        return cls(dates, amounts, times, currencies, record, groups, sums)
