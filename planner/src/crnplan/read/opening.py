"""Opens tables that can be read several times: CSV files, workbooks, DataFrames, and what a pipe gives once.

CSV files may be gzipped.
"""
from __future__ import annotations

import contextlib
import gzip
import sys
import tempfile
import zlib
from collections.abc import Iterator, Mapping, Sequence
from pathlib import Path
from typing import TYPE_CHECKING, Any, Union, cast

from .frames import FrameSheet
from .sources import Rules, Sheet, TextSheet, readable, refused
from .workbooks import BOOKS, OLD, sheet_of_book

if TYPE_CHECKING:
    import pandas as pd

# A file, several with one heading, a DataFrame, or what stands for one: a Series, columns by name, or rows.
Columns = Mapping[str, object]
Named = Union[str, Path, tuple[str, ...]]
Table = Union[Named, "pd.DataFrame", "pd.Series", Columns, Sequence[Columns]]
# What a gzipped file may unpack to, and a pipe may give: a million items with 140 rows each have some 4 GB.
MOST_UNPACKED = 8_000_000_000
PIECE = 1 << 20  # bytes that are copied at a time
# The first bytes of files that are no text, with what is wrong if their name says otherwise.
PACKED = {
    OLD: "old workbook",
    b"PK\x03\x04": "named workbook",
    b"\x1f\x8b": "packed file",
}
LOCK = "~$"  # begins the name of a file that Excel has while it has a workbook open


def text_sheet(path: Path, name: str, rules: Rules) -> TextSheet:
    """Returns a file of text. Raises RefusedFaults for a workbook or a packed file that has no name of one."""
    with readable(name), path.open("rb") as file:
        first = file.read(len(OLD))
    for beginning, code in PACKED.items():
        if first.startswith(beginning):
            raise refused(code, name)
    return TextSheet(path, name, rules)


def copy_of(stream: Any, copy: Any, name: str, most: int | None = None) -> None:
    """Copies a stream to a file. Raises RefusedFaults if it can't be unpacked, or has more than `most` bytes, by default
    MOST_UNPACKED."""
    most = most or MOST_UNPACKED
    rest = most
    try:
        while data := stream.read(PIECE):
            rest -= len(data)
            if rest < 0:
                raise refused("large table", name, most=most)
            copy.write(data)
    except (gzip.BadGzipFile, EOFError, zlib.error) as fault:
        raise refused("no gzip", name, fault=str(fault)) from fault


def file_and_sheet(name: str) -> tuple[Path, str | None]:
    """Returns the file that a name says, and the sheet of FILE.xlsx!SHEET. Either may have `!` in its own name: it is split
    where a file is there. Raises RefusedFaults if there is none."""
    if Path(name).is_file():
        return Path(name), None
    parts = name.split("!")
    books = dict[Path, str]()
    for place in range(len(parts) - 1, 0, -1):
        book = Path("!".join(parts[:place]))
        if book.suffix.lower() in BOOKS:
            books[book] = "!".join(parts[place:])
    for book, sheet in books.items():
        if book.is_file():
            return book, sheet
    if books:
        raise refused("no book", name, books=", ".join(map(str, books)))
    return Path(name), None


@contextlib.contextmanager
def opened(
    table: Table, kind: str, rules: Rules, folder: Path | None = None
) -> Iterator[Sheet]:
    """Gives a table that can be read several times: a sheet of a workbook is FILE.xlsx!SHEET, the only one FILE.xlsx.
    What a pipe gives once is copied, and a gzipped file (FILE.csv.gz) unpacked, into a folder, or for the time of the
    block; `-` is standard input. A DataFrame has the name of its kind. Raises Refused and RefusedFaults for what can't
    be read, or is more than MOST_UNPACKED."""
    if not isinstance(table, (str, Path)):
        yield FrameSheet(kind, cast("pd.DataFrame", table), rules)
        return
    is_input = str(table) == "-"
    name = "standard input" if is_input else str(table)
    path, sheet = file_and_sheet(name)
    if path.name.startswith(LOCK):
        raise refused("lock file", name, book=path.name.removeprefix(LOCK))
    with contextlib.ExitStack() as stack:
        is_packed = path.suffix.lower() == ".gz" and path.is_file()
        is_pipe = path.exists() and not (path.is_file() or path.is_dir())
        if is_input or is_packed or is_pipe:
            room = tempfile.TemporaryDirectory(prefix="crnplan-", dir=folder)
            stem = path.stem if is_packed else Path(name).name
            stream: Any = sys.stdin.buffer
            if not is_input:
                opens: Any = gzip.open if is_packed else open
                stream = stack.enter_context(opens(path, "rb"))
            path = Path(stack.enter_context(room)) / stem
            with path.open("xb") as copy:
                copy_of(stream, copy, name)
        if path.suffix.lower() in BOOKS:
            yield sheet_of_book(path, sheet, rules)
        else:
            yield text_sheet(path, name, rules)
