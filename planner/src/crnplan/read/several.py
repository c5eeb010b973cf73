"""Opens the tables of a catalogue, each of which may be in several files that a pattern names, as demand-2026-*.csv."""
from __future__ import annotations

import contextlib
import glob
from collections.abc import Iterator, Mapping, Sequence
from pathlib import Path

from ..errors import Fault, RefusedFaults
from ..remarks import Remark
from .marks import faults_of_where, marks_of
from .columns import find_columns
from .items import Reading
from .opening import LOCK, Table, opened
from .sources import FILE_BITS, Sheet, TextSheet, refused


class SheetOfFiles(Sheet):
    """Several files of one table, in order of their names. The line of a row has the place of its file above
    FILE_BITS."""

    def __init__(self, name: str, sheets: Sequence[Sheet]) -> None:
        """Takes files with the same heading, by the first of which messages show how the table is written."""
        first = sheets[0]
        super().__init__(name, first.written, first.rules)
        self.take_head(first)
        self._files = sheets
        self.size = sum(sheet.size for sheet in sheets)
        for sheet in sheets:
            if isinstance(sheet, TextSheet):
                sheet.text = ""  # of many files, it would be much

    @property
    def files(self) -> Sequence[Sheet]:
        return self._files

    def at(self, line: int) -> tuple[str, int, str]:
        if not line:
            return super().at(line)
        place, rest = divmod(line, 1 << FILE_BITS)
        return self._files[place].at(rest)


def files_of(table: Table, kind: str) -> tuple[Sequence[Table], Sequence[str]]:
    """Returns the files that a pattern names, in order, or several names, and the names of locks among them, which are no
    tables; the table itself if it is no pattern, or a file has this very name. Raises RefusedFaults for several files
    of masters."""
    names = list[str]()
    for name in table if isinstance(table, tuple) else [table]:
        if not isinstance(name, (str, Path)):
            return [table], []
        has_file = Path(name).exists()
        names += not has_file and sorted(glob.glob(str(name))) or [str(name)]
    locks = [name for name in names if Path(name).name.startswith(LOCK)]
    tables: Sequence[Table] = [name for name in names if name not in locks]
    if kind == "items" and len(tables) > 1:
        raise refused("several files", called(table), count=len(tables))
    return tables or names, [Path(name).name for name in locks]


def called(table: Table) -> str:
    """Returns how messages call a table."""
    return ", ".join(table) if isinstance(table, tuple) else str(table)


def open_table(
    kind: str,
    table: Table,
    words: Reading,
    room: Path | None,
    stack: contextlib.ExitStack,
) -> Sheet:
    """Returns a table after a look at the heads of its files, which are there as long as the stack. Raises RefusedFaults
    with all that is wrong with these, as headings that differ."""
    sheets = list[Sheet]()
    faults = list[Fault]()
    files, locks = files_of(table, kind)
    for file in files:
        try:
            rules = words.rules_of(kind)
            opening = stack.enter_context(opened(file, kind, rules, room))
            sheet = find_columns(kind, opening, words)
            sheet.marks = marks_of(kind, sheet, words)
            sheets.append(sheet)
        except RefusedFaults as why:
            faults += why.faults
    for sheet in sheets[1:]:
        first = sheets[0]
        for word in ("heading", "delimiter"):
            if getattr(sheet, word) != getattr(first, word):
                what = Remark(f"other {word}", {"first": first.file_name})
                faults.append(sheet.fault_of(what))
    if faults:
        raise RefusedFaults(faults)
    sheet = sheets[0] if len(sheets) == 1 else SheetOfFiles(called(table), sheets)
    sheet.locks = locks
    return sheet


@contextlib.contextmanager
def open_tables(
    tables: Mapping[str, Table | None], words: Reading, room: Path | None = None
) -> Iterator[dict[str, Sheet]]:
    """Gives tables after a look at their heads. Raises RefusedFaults with all that is wrong with these."""
    sheets: dict[str, Sheet] = {}
    faults: list[Fault] = []
    given = {kind: table for kind, table in tables.items() if table is not None}
    with contextlib.ExitStack() as stack:
        for kind, table in given.items():
            try:
                sheets[kind] = open_table(kind, table, words, room, stack)
            except RefusedFaults as why:
                faults += why.faults
        faults = faults or [*faults_of_where(sheets, words)]
        if faults:
            raise RefusedFaults(faults)
        yield sheets
