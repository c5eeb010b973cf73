"""Finds what files are that a command names in any order, or that are in a folder: by their columns, or as KIND=FILE says."""
from __future__ import annotations

import contextlib
import itertools
import zipfile
from collections import defaultdict
from collections.abc import Iterable, Iterator, Sequence
from pathlib import Path

from ..errors import Fault, RefusedFaults
from ..remarks import Remark, Value
from ..store.files import MARKER
from .cells import HEADINGS
from .columns import listed
from .looks import Look, likeliest, looks_as
from .items import Reading
from .law_forms import LAWS
from .opening import LOCK, Table
from .moves import OUT
from .several import files_of
from .stock import EXPORTED, OVERRIDES
from .workbooks import BOOKS, sheets_of

SUFFIXES = ".csv", ".txt", ".tsv", ".gz", *BOOKS  # of tables
# The kinds of files: those that a test reads, those of a catalogue, and all that a plan reads.
TESTED = "demand", "items", "orders", OUT
PLANNED = *TESTED, LAWS
OF_PLANS = *PLANNED, OVERRIDES
NEEDED = "demand", "items"
NONE = "none"  # the kind of a file that is to be left out
# Columns that exports of crnplan alone have, and its name in a workbook.
OURS, AUTHOR = {*HEADINGS["ours"]["columns"]}, b">crnplan</dc:creator>"


def fault(code: str, file: str, **facts: Value) -> Fault:
    """Returns what is said or asked of a file."""
    return Fault(Remark(code, {"name": file, **facts}), file)


class SortedFiles:
    """Files by their kinds: as is `stated`, or as they were `found`; what is `said` of them, and what is `asked`."""

    def __init__(self, kinds: Sequence[str], words: Reading) -> None:
        self.kinds, self.words = kinds, words
        self.stated = defaultdict[str, list[str]](list)
        self.found = defaultdict[str, dict[str, Look]](dict)
        self.said, self.asked = list[Fault](), list[Fault]()

    def add(self, names: Iterable[str]) -> None:
        """Adds files: those that are stated, and others once they were looked at."""
        others = list[str]()
        for name in names:
            kind, sign, path = name.partition("=")
            if sign and kind in (*OF_PLANS, NONE) and not Path(name).exists():
                self.stated[kind].append(path)
            else:
                others += self.below(name)
        paths = {Path(path).resolve(): path for path in others}
        for path in itertools.chain.from_iterable(self.stated.values()):
            paths.pop(Path(path).resolve(), None)
        for path in paths.values():
            self.look(path)

    def below(self, name: str) -> Iterator[str]:
        """Yields the tables that a name stands for: a file, those of a pattern, or of a folder."""
        if (Path(name) / MARKER).is_file():
            self.asked.append(fault("own folder", name))
        elif Path(name).is_dir():
            for path in sorted(Path(name).iterdir()):
                is_table = path.suffix.lower() in SUFFIXES and path.is_file()
                if is_table and not path.name.startswith(LOCK):
                    yield str(path)
                else:
                    self.said.append(fault("no table", str(path)))
        else:
            files, locks = files_of(name, "")
            yield from map(str, files)
            self.said += [fault("no table", lock) for lock in locks]

    def look(self, path: str) -> None:
        """Looks at a file, or at each sheet of a workbook. Sheets of no kind are left out, unless all are."""
        sheets = sheets_of(Path(path))
        tables = [f"{path}!{sheet}" for sheet in sheets] if sheets[1:] else [path]
        if path == "-" or Path(path).exists() and not Path(path).is_file():
            self.asked.append(fault("read once", path))
        elif is_own_book(path):
            self.said.append(fault("own export", path))
        else:
            asked = {table: self.asked_of(table) for table in tables}
            if all(asked.values()):
                self.asked += itertools.chain.from_iterable(asked.values())
            else:
                self.said += [fault("no table", it) for it in tables if asked[it]]

    def asked_of(self, table: str) -> Sequence[Fault]:
        """Keeps what a table is by its columns, or returns what is asked about it."""
        looks = looks_as((*OF_PLANS, *EXPORTED), table, self.words)
        refused = [look for look in looks if look.is_refused]
        best = likeliest((look for look in looks if not look.is_refused), {})
        heading = max((look.heading for look in looks), key=len)
        is_text = table.endswith(".txt") or len(heading) == 1
        if not OURS.isdisjoint(heading):
            self.said.append(fault("own export", table))
        elif best:
            self.found[best.kind][table] = best
        elif refused:
            return refused[0].faults
        elif is_text and not any(look.columns for look in looks):
            self.said.append(fault("no table", table))
        else:
            return [fault("unknown kind", table, columns=listed(heading))]
        return []

    def settle(self) -> dict[str, Table | None]:
        """Returns the tables of each kind, and says what each file is. Raises RefusedFaults with all that can't be told."""
        for kind, looks in self.found.items():
            code = "other file" if kind in self.stated else "file kind"
            code = code if kind in self.kinds else "unread kind"
            self.said += [fault(code, path, kind=kind) for path in looks]
        for kind in self.stated.keys() - {*self.kinds}:
            code = "left as said" if kind == NONE else "unread kind"
            self.said += [fault(code, path, kind=kind) for path in self.stated[kind]]
        paths = {kind: self.stated[kind] or self.alike(kind) for kind in self.kinds}
        for kind in NEEDED:
            if not paths[kind] and not self.asked:
                self.asked.append(Fault(Remark("no file of a kind", {"kind": kind})))
        if self.asked:
            raise RefusedFaults(self.asked)
        return {kind: tuple(paths[kind]) or None for kind in self.kinds}

    def alike(self, kind: str) -> list[str]:
        """Returns the files that were found to be of a kind, and asks about those that can't be in one table."""
        looks = self.found[kind]
        first, *others = looks or [""]
        for other in others:
            if kind == "items" or looks[first].source != looks[other].source:
                self.asked.append(fault("two of a kind", other, first=first, kind=kind))
        return [*looks]


def is_own_book(path: str) -> bool:
    """Returns whether crnplan has written a workbook. What can't be read is refused when it is looked at."""
    with contextlib.suppress(Exception), zipfile.ZipFile(path) as book:
        return AUTHOR in book.read("docProps/core.xml")
    return False


def files_by_kind(
    names: Iterable[str], words: Reading, kinds: Sequence[str] = OF_PLANS
) -> tuple[dict[str, Table | None], list[Fault]]:
    """Returns the tables of some kinds among files, which may be folders, patterns or KIND=FILE, and what is to be said of
    each file. Raises RefusedFaults with a question for each that can't be told."""
    files = SortedFiles(kinds, words)
    files.add(names)
    return files.settle(), files.said
