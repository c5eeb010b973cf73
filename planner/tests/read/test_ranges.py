"""Tests that a file that is read in ranges, wherever it is cut, has the rows and the faults that csv finds in all of it."""
from __future__ import annotations

import contextlib
import csv
import io
import tempfile
from collections.abc import Sequence
from pathlib import Path
from typing import Any
from unittest import mock

import pytest
from hypothesis import example, given, settings, strategies as st

from crnplan.errors import Fault, RefusedFaults
from crnplan.store.jobs import Workers
from crnplan.read import sources
from crnplan.read.blocks import Sizes
from crnplan.read.columns import find_columns
from crnplan.read.table_files import part_of, read_tables, rows_of_part
from crnplan.read.items import Reading
from crnplan.read.rows import Rows, rows_of
from crnplan.read.opening import opened
from crnplan.read.sources import Sheet

HEADING, FIRST = "item,date,quantity,note\n", "A,2026-03-02,1,0\n" * 3
HEAD = 60  # bytes that are looked at first, so that faults are found later
PARTS = 3
CELLS = [
    "",
    " ",
    "A",
    " A",
    "A ",
    "B",
    "\tA",
    "1",
    "2.5",
    "2026-03-02",
    "2026-03-02 10:00",
    "é",
    '"A"',
    ' "A"',
    '"a,b"',
    '"a\nb"',
    '"a""b"',
    'x"y',
    '"',
    "\0",
    "\ufeff",
    "\x0b",
    "\u2028",
]
CONTROL = {"\0", "\t", "\n", "\r", "\x0b", "\u2028"}
Row = tuple[Any, ...]

plain = st.lists(st.sampled_from(CELLS[:12]), min_size=4, max_size=4)
rows = st.one_of(
    plain, plain, plain, st.lists(st.sampled_from(CELLS), min_size=0, max_size=6)
)
ends = st.sampled_from(["\n"] * 8 + ["\r\n", "\r"])
tables = st.lists(st.tuples(rows, ends), max_size=12).map(
    lambda its: "".join(",".join(row) + end for row, end in its)
)


def by_csv(text: str) -> list[Row]:
    """Returns of each row that is not blank the line, the cells without blanks around, whether it is of use, and the
    line of the first one of use with the same cells."""
    found, firsts, line = list[Row](), dict[tuple[str, ...], int](), 1
    reader = csv.reader(
        io.StringIO(text, newline=""), strict=True, skipinitialspace=True
    )
    for cells in reader:
        begin, line = line, reader.line_num + 1
        wide, row = any(cell.strip() for cell in cells[4:]), tuple(
            [*cells, "", "", "", ""][:4]
        )
        bare = [cell.strip() for cell in row]
        if begin > 1 and (wide or any(bare)):
            is_good = not wide and bare[0] != "" and not CONTROL & {*bare[0]}
            found.append(
                (
                    begin,
                    *bare[:3],
                    is_good,
                    firsts.setdefault(row, begin) if is_good else begin,
                )
            )
    return found


def by_rows(its: Rows) -> list[Row]:
    """Returns of each row what `by_csv` does."""
    twins = its.twins(its.good)
    return [
        (
            line,
            *(its.cell(role, row) for role in ("item", "date", "quantity")),
            bool(its.good[row]),
            int(its.lines[twins.get(row, row)]),
        )
        for row, line in enumerate(its.lines.tolist())
    ]


def in_ranges(
    data: bytes, sizes: Sizes, encoding: str | None = None
) -> tuple[list[Row], Sequence[Fault]]:
    """Returns the rows of a file that is read in ranges, by their lines, or what is wrong with it: as if it were read
    row by row."""
    words = Reading(delimiter=",", date_formats=("%Y-%m-%d",), encoding=encoding)
    with tempfile.TemporaryDirectory() as room, mock.patch.object(
        sources, "HEAD_BYTES", HEAD
    ):
        path = Path(room) / "demand.csv"
        path.write_bytes(data)
        with opened(path, "demand", words) as sheet:
            return rows_in_ranges(sheet, Path(room), words, sizes)


def rows_in_ranges(
    sheet: Sheet, room: Path, words: Reading, sizes: Sizes
) -> tuple[list[Row], Sequence[Fault]]:
    """Returns what `in_ranges` does."""
    sheets = {"demand": find_columns("demand", sheet, words)}
    try:
        (table,) = read_tables(sheets, Workers(), room, PARTS, sizes).values()
    except RefusedFaults as refused:
        with pytest.raises(RefusedFaults) as whole:
            rows_of(sheet)
        assert refused.faults == whole.value.faults
        return [], refused.faults
    parts, careful = [
        rows_of_part(part_of({"demand": table}, part, ["demand"]))["demand"]
        for part in range(PARTS)
    ], rows_of(sheet)
    found = sorted(row for its in parts for row in by_rows(its))
    assert (
        found == by_rows(careful)
        and table.rows == len(careful)
        and table.blank == len(careful.blank)
    )
    assert [*table.counts("date").items()] == [*careful.counts("date").items()]
    wide, others = (
        {its.lines[row]: cells for its in some for row, cells in its.wide.items()}
        for some in (parts, [careful])
    )
    assert wide == others
    return found, ()


@settings(max_examples=100, deadline=None)
@given(text=tables, size=st.integers(1, 60))
@example('A,1,2,"a\nb\nc\nd\ne\nf"\nB,1,2,\n', 7)
@example("A,1,2,x\n" * 9 + 'A,1,2,"a\n', 16)
@example("A,1,2,3\n A, 1,2, 3\n", 200)
@example("A,1,2\nA,1,2,3,4\n", 200)
@example("A,1,2,3,4\nA,1,2,3\n", 200)
@example("A,1,2,3\n" * 3 + "\ufeffA,1,2,3\n", 8)
@example("\nA,A,,\nA,,,\n", 1)
def test_any_cuts_give_the_rows_of_csv(text: str, size: int) -> None:
    """Reads any small table in ranges of any size, by pandas where it may, as csv reads all of it at once."""
    text = HEADING + FIRST + text
    found, faults = in_ranges(text.encode(), Sizes(size, plain=0))
    with contextlib.suppress(csv.Error):
        expected = by_csv(text)
        assert not faults and found == expected
        return
    assert faults


@pytest.mark.parametrize(
    "encoding, stated",
    [
        ("cp1252", "cp1252"),
        ("utf-16", None),
        ("utf-8-sig", None),
        ("gb18030", "gb18030"),
        ("shift_jis", "shift_jis"),
    ],
)
def test_ranges_of_other_encodings(encoding: str, stated: str | None) -> None:
    """Reads files in other encodings, which are cut if no letter has the byte of a line's end."""
    letter = {"cp1252": "é", "shift_jis": "ソ"}.get(encoding, "上")
    text = HEADING + FIRST + f"A{letter},2026-03-02,1,0\n" * 5
    assert in_ranges(text.encode(encoding), Sizes(20, plain=0), stated) == (
        by_csv(text),
        (),
    )


def test_bytes_of_no_letter() -> None:
    """Refuses a byte that is not UTF-8 by its line in the file, in whatever range it is."""
    _, faults = in_ranges(
        (HEADING + FIRST).encode() + b"A,2026-03-02,1,0\n" * 5 + b"A,\xff,1,0\n",
        Sizes(20, plain=0),
    )
    assert [(it.line, it.column) for it in faults] == [(10, 3)]
