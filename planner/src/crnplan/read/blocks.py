"""Reads rows of a table in blocks, in which each column has its distinct values once and a whole number for each row.

A file is cut into ranges behind ends of lines, each of which is read by itself. pandas reads one of plain rows, and makes
each distinct text once; others are read row by row. Both make the same block. Whether a range begins with a row is known
when those before it are read: if a cell in quotes goes on behind a range, that is read again with what follows.
"""
from __future__ import annotations

import codecs
import copy
import csv
import hashlib
import io
import itertools
import pickle
import re
import zlib
from collections import Counter
from collections.abc import Callable, Iterable, Iterator, Sequence
from dataclasses import dataclass, field
from pathlib import Path
from typing import IO, Any, NamedTuple

import numpy as np
import numpy.typing as npt

from ..errors import Fault, RefusedFaults
from .cells import UNPRINTABLE, Cell, Flags, Numbers, bare_cell, text_of
from .dates import dated_cell
from .sources import Row, Sheet, TextSheet, readable

Seen = dict[str, dict[Cell, int]]  # how many good rows have each value, by role
DATES = ("date", "ordered", "received", "due", "since", "from", "to", "period")
ROWS_AT_ONCE = 200_000  # of those that are read one by one
LOOK_BYTES = 1 << 20  # bytes in which the end of a line is looked for at a time
# Encodings in which no other letter has the byte of a line's end.
CUT = re.compile("utf-8(-sig)?|ascii|iso8859-[0-9]+|cp12[0-9]+|gb18030|gbk|gb2312")
MIX = np.uint64(0x9E3779B97F4A7C15)  # odd, so that no two hashes are mixed to the same


class Codes:
    """The codes of the distinct values of a column."""

    def __init__(self) -> None:
        self.distinct: list[Cell] = []
        self.places: dict[Cell, int] = {}

    def of(self, values: Iterable[Cell]) -> npt.NDArray[np.int32]:
        """Returns the codes of values; those that are not known get the next ones."""
        codes = [self.places.setdefault(value, len(self.places)) for value in values]
        self.distinct += itertools.islice(self.places, len(self.distinct), None)
        return np.array(codes, np.int32)


class CodedColumn(NamedTuple):
    """The cells of a column: a code for each row, and the cell of each code. Two codes may have the same cell."""

    codes: npt.NDArray[np.signedinteger[Any]]
    distinct: list[Cell]

    @classmethod
    def of(cls, cells: Sequence[Cell]) -> CodedColumn:
        codes = Codes()
        return cls(codes.of(cells), codes.distinct)

    def of_rows(self, values: Iterable[Any], kind: type) -> npt.NDArray[Any]:
        """Returns the value of each row, of a type, by the values of the codes."""
        each: npt.NDArray[Any] = np.array([*values], kind)[self.codes]
        return each

    def read(self, read: Callable[[Cell], Cell], kept: Flags) -> CodedColumn:
        """Returns the kept rows with what a function reads in their cells: two codes have two values."""
        codes = Codes()
        places = codes.of(map(read, self.distinct))
        return CodedColumn(places[self.codes[kept]], codes.distinct)

    def counts(self, rows: Flags) -> Counter[Cell]:
        """Returns how many of some rows have each cell, in order of codes; also 0, so that the order is that of all rows."""
        counts = np.bincount(self.codes[rows], minlength=len(self.distinct)).tolist()
        return Counter(dict(zip(self.distinct, counts)))

    def hashes(self) -> npt.NDArray[np.uint64]:
        """Returns a hash of 64 bits of each row's cell, the same in all processes."""
        data = bytearray()
        for cell in self.distinct:
            # So a number never counts as the text that spells it.
            text = cell if isinstance(cell, str) else f"\0{cell!r}"
            code = text.encode("utf-8", "surrogatepass")
            data += hashlib.blake2b(code, digest_size=8).digest()
        hashes: npt.NDArray[np.uint64] = np.frombuffer(data, np.uint64)[self.codes]
        return hashes


class Cells(NamedTuple):
    """Rows as they stand in a table: the line in which each begins, the columns, and by its place how many cells a row
    has that has more than the heading, with its text."""

    lines: Numbers
    columns: Sequence[CodedColumn]
    wide: dict[int, tuple[int, str]]


@dataclass
class Block:
    """Rows of a table, but for blank ones, whose lines are in `blank`. By role it has the values of a column. `good` says
    which rows are of use, `other` which are not wanted, and rows with equal `hashes` are the same.
    """

    lines: Numbers
    columns: dict[str, CodedColumn]
    hashes: npt.NDArray[np.uint64]
    wide: dict[int, tuple[int, str]]
    good: Flags
    other: Flags
    blank: list[int] = field(default_factory=list)

    def __len__(self) -> int:
        return len(self.lines)

    @classmethod
    def of(cls, sheet: Sheet, cells: Cells) -> Block:
        """Returns the block of rows of a table whose columns are known. With patterns of dates, times of day are
        kept."""
        kept = ~blank_rows(cells, next(iter(sheet.columns.values())).place)
        dated = bare_cell if sheet.rules.date_formats else dated_cell
        columns = dict[str, CodedColumn]()
        for role, column in sheet.columns.items():
            read: Callable[[Cell], Cell] = dated if role in DATES else bare_cell
            if role == "item":
                read = text_of
            columns[role] = cells.columns[column.place].read(read, kept)
        good: Flags = np.ones(np.count_nonzero(kept), bool)
        other = ~good
        for name, mark in sheet.marks.items():
            columns[name] = cells.columns[mark.column.place].read(text_of, kept)
            if mark.wanted:
                unwanted = (text not in mark.wanted for text in columns[name].distinct)
                other |= columns[name].of_rows(unwanted, bool)
        if "item" in columns:
            names = map(str, columns["item"].distinct)
            is_name = (bool(it) and not UNPRINTABLE.search(it) for it in names)
            good = columns["item"].of_rows(is_name, bool)
        places = np.cumsum(kept) - 1
        wide = {int(places[row]): texts for row, texts in cells.wide.items()}
        good[[*wide]] = False
        hashes = np.zeros(len(kept), np.uint64)
        for read_column in cells.columns:
            hashes = (hashes ^ read_column.hashes()) * MIX
        return cls(
            cells.lines[kept],
            columns,
            hashes[kept],
            wide,
            good & ~other,
            other,
            cells.lines[~kept].tolist(),
        )

    def seen(self) -> Seen:
        """Returns how many good rows have each value, in order of the first row that has it."""
        seen: Seen = {}
        for role, column in self.columns.items():
            if role not in ("item", "description"):
                seen[role] = column.counts(self.good)
        return seen

    def part(self, rows: Numbers) -> Block:
        """Returns some of the rows with their values alone."""
        columns = dict[str, CodedColumn]()
        for role, (codes, values) in self.columns.items():
            table = np.zeros(len(values), np.int32)
            table[codes[rows]] = 1
            used = np.flatnonzero(table)
            table[used] = np.arange(len(used))
            columns[role] = CodedColumn(
                table[codes[rows]], [*map(values.__getitem__, used.tolist())]
            )
        wide = dict[int, tuple[int, str]]()
        for place, row in enumerate(rows.tolist()) if self.wide else ():
            if row in self.wide:
                wide[place] = self.wide[row]
        return Block(
            self.lines[rows],
            columns,
            self.hashes[rows],
            wide,
            self.good[rows],
            self.other[rows],
        )


def blank_rows(cells: Cells, place: int) -> Flags:
    """Returns which rows have nothing in any cell; a column at a place says for most of them that they have."""
    column = cells.columns[place]
    blank = column.of_rows((not text_of(cell) for cell in column.distinct), bool)
    blank[[*cells.wide]] = False
    rows = np.flatnonzero(blank)
    for codes, distinct in cells.columns if len(rows) else ():
        blank[rows] &= [not text_of(distinct[code]) for code in codes[rows].tolist()]
    return blank


def careful_cells(sheet: Sheet, rows: Iterator[Row]) -> Iterator[Cells]:
    """Yields rows that are read one by one, so many at a time."""
    width = len(sheet.heading)
    padding = [""] * width
    while some := [*itertools.islice(rows, ROWS_AT_ONCE)]:
        wide = dict[int, tuple[int, str]]()
        texts = list[Sequence[Cell]]()
        for row, (_, cells) in enumerate(some):
            if any(map(text_of, cells[width:])):
                wide[row] = len(cells), ",".join(map(text_of, cells))
            if len(cells) != width:
                cells = [*cells, *padding][:width]
            texts.append(cells)
        lines = np.array([line for line, _ in some])
        yield Cells(lines, [*map(CodedColumn.of, zip(*texts))], wide)


def plain_cells(sheet: TextSheet, data: bytes, skip: int) -> Cells | None:
    """Returns the rows of bytes but for the first lines, as `careful_cells` does. None if pandas might read them
    otherwise: with quotes, NULs, lone carriage returns, very long lines, or rows with fewer or more cells than the
    heading."""
    if b'"' in data or b"\0" in data or data.count(b"\r") != data.count(b"\r\n"):
        return None
    try:
        data = data if data.isascii() else data.decode(sheet.encoding).encode()
    except UnicodeError:
        return None
    signs = np.frombuffer(data, np.uint8)
    ends = np.flatnonzero(signs == ord("\n"))
    ends = ends if data.endswith(b"\n") else np.append(ends, len(data))
    starts = np.append(0, ends[:-1] + 1)[skip:]
    ends = ends[skip:]
    cuts = np.flatnonzero(signs == ord(sheet.delimiter))
    cells = np.searchsorted(cuts, ends) - np.searchsorted(cuts, starts)
    if (
        not len(ends)
        or (cells != len(sheet.heading) - 1).any()
        # pandas would leave these bytes out.
        or data.startswith(codecs.BOM_UTF8, starts[0])
        or (ends - starts).max() > csv.field_size_limit()
    ):
        return None
    return Cells(
        np.arange(skip, skip + len(ends)) + 1,
        pandas_columns(sheet, memoryview(data)[starts[0] :]),
        {},
    )


def pandas_columns(sheet: TextSheet, data: memoryview) -> list[CodedColumn]:
    """Returns the columns of bytes in UTF-8 without quotes, whose rows all have as many cells as the heading."""
    import pandas as pd

    frame = pd.read_csv(
        io.BytesIO(data),
        sep=sheet.delimiter,
        header=None,
        names=range(len(sheet.heading)),
        dtype=str,
        index_col=False,
        keep_default_na=False,
        na_filter=False,
        skip_blank_lines=False,
        quoting=csv.QUOTE_NONE,
        engine="c",
        low_memory=False,
        encoding="utf-8",
    )
    columns = []
    for place in range(len(sheet.heading)):
        codes, texts = pd.factorize(frame.pop(place).to_numpy())
        # As csv does, which passes over blanks behind a delimiter.
        columns.append(CodedColumn(codes, [text.lstrip(" ") for text in texts]))
    return columns


class Piece(NamedTuple):
    """Where the rows of a block are that belong to a part, and how many lines of the table stand before the block."""

    before: int
    path: Path
    place: int

    def read(self) -> tuple[int, Block]:
        with self.path.open("rb") as file:
            file.seek(self.place)
            return self.before, pickle.load(file)


@dataclass
class Filed:
    """A block that was written: `places` has for each part of the items that has rows where these begin in the file.
    `seen` is that of the block, which has so many rows, and passed over so many that are blank.
    """

    path: Path
    places: dict[int, int]
    seen: Seen
    rows: int
    blank: int


def write_block(block: Block, path: Path, parts: int) -> Filed:
    """Writes a block to a new file, by part of the items."""
    codes, names = block.columns["item"]
    texts = (str(name).encode("utf-8", "surrogatepass") for name in names)
    # Python's own hash differs by process, and all tables have an item in the same part.
    hashes = [zlib.crc32(text) % parts for text in texts]
    part_of = np.array(hashes, np.uint8)[codes]
    order = np.argsort(part_of, kind="stable")
    ends = np.cumsum(np.bincount(part_of, minlength=parts)).tolist()
    places = dict[int, int]()
    with path.open("xb") as file:
        for part, (start, stop) in enumerate(zip([0, *ends], ends)):
            if start < stop:
                places[part] = file.tell()
                own = block.part(order[start:stop])
                pickle.dump(own, file, pickle.HIGHEST_PROTOCOL)
    return Filed(path, places, block.seen(), len(block), len(block.blank))


def write_blocks(blocks: Iterable[Block], stem: Path, parts: int) -> list[Filed]:
    """Writes blocks to new files whose names begin so, by part of the items."""
    filed = list[Filed]()
    for number, block in enumerate(blocks):
        path = stem.with_name(f"{stem.name}-{number}")
        filed.append(write_block(block, path, parts))
    return filed


class Sizes(NamedTuple):
    """How many bytes of a file are read at a time, of how many a part of the items is made, and how many parts there are
    at most. pandas reads tables of at least `plain` bytes: others are read before it is imported.
    """

    range: int = 16_000_000
    part: int = 2_500_000
    parts: int = 256
    plain: int = 2_000_000

    def of(self, sheet: Sheet) -> Sizes:
        """Returns the sizes by which the files of a table are read."""
        return self._replace(plain=0) if sheet.size >= self.plain else self

    def parts_of(self, sheets: Iterable[Sheet]) -> int:
        """Returns how many parts the items of tables are in."""
        return min(self.parts, 1 + sum(sheet.size for sheet in sheets) // self.part)


@dataclass
class RangeRead:
    """What was read of a range: how many lines it has, its blocks, and what is wrong with it. It is open if its last
    row goes on behind it."""

    lines: int
    blocks: list[Filed]
    faults: Sequence[Fault] = ()
    is_open: bool = False


def read_blocks(sheet: Sheet, rows: Iterator[Row]) -> Iterator[Block]:
    """Yields the blocks of rows below the heading, which are read one by one."""
    below = itertools.dropwhile(lambda row: row[0] <= sheet.line, rows)
    for cells in careful_cells(sheet, below):
        yield Block.of(sheet, cells)


def ranges_of(sheet: TextSheet, size: int) -> Iterator[range]:
    """Yields the ranges of bytes of a file, of some so many bytes, each behind the end of a line; all in one if the
    encoding has letters with the byte of such an end."""
    start = 0
    whole = sheet.state[0]
    with readable(sheet.name), sheet.file.open("rb") as file:
        while start < whole:
            stop = whole
            if CUT.fullmatch(codecs.lookup(sheet.encoding).name):
                file.seek(start + size)
                stop = min(whole, behind_line(file, start + size))
            yield range(start, stop)
            start = stop


def behind_line(file: IO[bytes], place: int) -> int:
    """Returns where the line ends that goes on at a place in a file, or the end of the file."""
    while data := file.read(LOOK_BYTES):
        if (end := data.find(b"\n")) >= 0:
            return place + end + 1
        place += len(data)
    return place


def range_blocks(sheet: TextSheet, sizes: Sizes, part: range) -> Iterator[Block]:
    """Yields the blocks of a range. One that is much longer than others is never whole in memory. Raises
    RefusedFaults."""
    if not sizes.plain and len(part) <= 2 * sizes.range:
        with readable(sheet.name), sheet.file.open("rb") as file:
            file.seek(part.start)
            data = file.read(len(part))
        cells = plain_cells(sheet, data, sheet.line)
        if cells:
            sheet.count = int(cells.lines[-1])
            yield Block.of(sheet, cells)
            return
    yield from read_blocks(sheet, sheet.rows(part.start, part.stop))


def read_range(
    sheet: TextSheet, sizes: Sizes, stem: Path, parts: int, part: range
) -> RangeRead:
    """Reads a range, and writes its blocks into files whose names begin so, by part of the items."""
    sheet = copy.copy(sheet)
    stem = stem.with_name(f"{stem.name}-{part.start}-{part.stop}")
    if part.start:
        sheet.line = 0
        # Only the first range has a heading, and a byte order mark that is no letter.
        sheet.encoding = sheet.encoding.removesuffix("-sig")
    try:
        blocks = write_blocks(range_blocks(sheet, sizes, part), stem, parts)
    except RefusedFaults as refused:
        is_open = sheet.is_read and part.stop < sheet.state[0]
        return RangeRead(sheet.count, [], refused.faults, is_open)
    return RangeRead(sheet.count, blocks)


def closed_ranges(
    ranges: Sequence[range],
    done: Sequence[RangeRead],
    again: Callable[[range], RangeRead],
) -> Iterator[RangeRead]:
    """Yields what was read of ranges in their order, each of which begins with a row and ends with one: what is open is
    read again with what follows."""
    place = 0
    while place < len(ranges):
        count = 1
        read = done[place]
        while read.is_open:
            # By doubling, a long cell in quotes is read again a few times, not once for each range.
            count = min(2 * count, len(ranges) - place)
            read = again(range(ranges[place].start, ranges[place + count - 1].stop))
        yield read
        place += count
