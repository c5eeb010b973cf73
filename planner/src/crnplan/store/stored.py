"""Keeps frozen dataclasses in the columns of SQLite: what is kept of a class, and where, follows from its fields."""
from __future__ import annotations

import contextlib
import dataclasses
import functools
import json
import sqlite3
import typing
from collections.abc import Callable, Iterable, Iterator, Mapping, Sequence
from fractions import Fraction
from pathlib import Path
from typing import Any, Generic, Self, TypeVar

import numpy as np

from .digests import DIGITS, digest_of, sha256, sum_of_digests
from ..errors import CrnplanError, Failed
from .files import is_of_disk
from ..remarks import Remark

StoredCell = int | float | str | bytes | None
Row = TypeVar("Row")
NamedDigest = tuple[
    str, str
]  # a name, and the digest of all that its answer depends on
LARGEST = 2**63  # SQLite's whole numbers are below
WAIT_SECONDS = 60.0  # for another process that writes the same file


class Damaged(Failed):
    """A file of ours that another program, or the disk, has changed."""

    def __init__(self, path: Path, what: str) -> None:
        super().__init__(
            f"{path}: {what}: the file is damaged", "remove it, and run again"
        )


def quoted(names: Iterable[str]) -> str:
    """Returns names of columns as SQL has them, some of which are words of SQL."""
    return ", ".join(f'"{name}"' for name in names)


def _whole_cell(number: int) -> int | str:
    """Returns a whole number as SQLite can keep it: a larger one is a text."""
    if -LARGEST <= number < LARGEST:
        return number
    return str(number)


def _tuples(values: list[Any]) -> tuple[Any, ...]:
    """Returns a list as a tuple, and lists in it."""
    for place, value in enumerate(values):
        if type(value) is list:
            values[place] = _tuples(value)
    return tuple(values)


def _tuple_of(text: str) -> tuple[Any, ...]:
    """Returns the tuple of a text of JSON. Most are of numbers alone."""
    value, _ = LIST.raw_decode(text)
    # A bracket behind the first sign begins a list inside.
    return _tuples(value) if text.rfind("[") else tuple(value)


def _remark_text(remark: Remark) -> str:
    return json.dumps([remark.code, remark.facts])


def _remark_of(text: str) -> Remark:
    return Remark(*json.loads(text))


def _remarks_text(remarks: tuple[Remark, ...]) -> str:
    return json.dumps([[remark.code, remark.facts] for remark in remarks])


def _remarks_of(text: str) -> tuple[Remark, ...]:
    return tuple(Remark(*parts) for parts in json.loads(text))


def _array_bytes(array: Any) -> bytes:
    """Returns an array as a line with its type and its form, and its numbers."""
    head = json.dumps([array.dtype.str, array.shape]).encode()
    numbers: bytes = array.tobytes()
    return head + b"\n" + numbers


def _array_of(data: bytes) -> Any:
    end = data.index(b"\n")
    kind, form = json.loads(data[:end])
    return np.frombuffer(data, kind, offset=end + 1).reshape(form)


LIST = json.JSONDecoder()
# How values of a type are kept in a cell, and read again. Fractions, tuples and remarks are texts, arrays bytes.
KINDS: dict[Any, tuple[Callable[[Any], StoredCell], Callable[[Any], Any]]] = {
    int: (_whole_cell, int),
    float: (float, float),
    str: (str, str),
    bool: (int, bool),
    bytes: (bytes, bytes),
    # A text of a fraction is slowly read, and many items have the same costs.
    Fraction: (str, functools.lru_cache(1 << 12)(Fraction)),
    tuple: (json.JSONEncoder(separators=(",", ":")).encode, _tuple_of),
    np.ndarray: (_array_bytes, _array_of),
    Remark: (_remark_text, _remark_of),
    tuple[Remark, ...]: (_remarks_text, _remarks_of),
}


@contextlib.contextmanager
def reading(path: Path) -> Iterator[None]:
    """Raises Damaged for what is read of a store, or made of that, and is not as it was written. Errors of the disk stay
    as they are."""
    try:
        yield
    except CrnplanError:
        raise
    except sqlite3.DatabaseError as fault:
        if is_of_disk(fault):
            raise
        raise Damaged(path, str(fault)) from fault
    except (ValueError, TypeError, LookupError) as fault:
        raise Damaged(
            path, f"what is kept is not as it was written ({fault})"
        ) from fault


def check_whole(base: sqlite3.Connection, path: Path) -> None:
    """Raises Damaged if a store is not whole, as SQLite sees it."""
    with reading(path):
        states = [str(state) for (state,) in base.execute("PRAGMA quick_check(1)")]
    if states != ["ok"]:
        raise Damaged(path, states[0])


class StoredColumns(Generic[Row]):
    """The columns in which values of a type are kept: one, or for a frozen dataclass those of its fields.

    A field that is a dataclass itself has a column for each of its own fields, with its name before theirs. None stands
    in all columns of a value that is not there.
    """

    def __init__(self, kind: type[Row], name: str = "") -> None:
        self.kind = kind
        self.names = [name]
        # By field: the place of its first cell, the one after its last, and its columns.
        self.parts = dict[str, tuple[int, int, StoredColumns[Any]]]()
        if dataclasses.is_dataclass(kind) and kind is not Remark:
            self._add_fields(name)
        else:
            self.written, self.read = KINDS[
                kind if kind in KINDS else typing.get_origin(kind)
            ]

    def _add_fields(self, name: str) -> None:
        self.names = []
        for field, hint in typing.get_type_hints(self.kind).items():
            types = typing.get_args(hint)
            kind = types[0] if type(None) in types else hint
            part = StoredColumns[Any](kind, f"{name}_{field}" if name else field)
            start = len(self.names)
            self.names += part.names
            self.parts[field] = start, len(self.names), part

    def insert(self, table: str) -> str:
        """Returns what has SQL add the cells of a value to a table with these columns."""
        return f"INSERT INTO {table} VALUES ({', '.join('?' * len(self.names))})"

    def cells(self, value: Row | None) -> list[StoredCell]:
        """Returns the cells of a value with fields; all are None if there is none."""
        if value is None:
            return [None] * len(self.names)
        cells = list[StoredCell]()
        for field, (_, _, part) in self.parts.items():
            content = getattr(value, field)
            # A catalogue has a hundred cells an item, most of them without parts: these are made here, which is fast.
            if part.parts:
                cells += part.cells(content)
            elif content is None:
                cells.append(None)
            else:
                cells.append(part.written(content))
        return cells

    @property
    def answer_names(self) -> list[str]:
        """Returns the names of the columns of an answer: a fault, or a value."""
        return ["fault", *self.names]

    def answer_cells(self, answer: Row | Remark) -> list[StoredCell]:
        """Returns the cells of an answer."""
        if isinstance(answer, Remark):
            return [_remark_text(answer), *self.cells(None)]
        return [None, *self.cells(answer)]

    def answer(self, cells: Sequence[StoredCell]) -> Row | Remark:
        """Returns the answer of cells."""
        if cells[0]:
            return _remark_of(str(cells[0]))
        return self.value(cells[1:])

    def value(self, cells: Sequence[StoredCell]) -> Row:
        """Returns the value of cells, None if the first one is. Raises ValueError, TypeError or LookupError if they
        have none."""
        if cells[0] is None:
            return typing.cast(Row, None)
        values = list[Any]()
        for start, stop, part in self.parts.values():
            if part.parts:
                values.append(part.value(cells[start:stop]))
            elif cells[start] is None:
                values.append(None)
            else:
                values.append(part.read(cells[start]))
        return self.kind(*values)


# Returns the columns of a type, which are made once: that takes as long as to read ten answers.
columns_of: Callable[[Any], Any] = functools.cache(StoredColumns)


class Sealed(typing.NamedTuple):
    """An answer as it is kept: its name, the digest of all that it depends on, a seal of all cells, and these."""

    name: str
    digest: str
    seal: str
    cells: Sequence[StoredCell]


def seal_of(name: str, digest: str, cells: Iterable[StoredCell]) -> str:
    """Returns a digest of an answer as it is kept."""
    plain, data = list[StoredCell](), list[bytes]()
    for cell in cells:
        if isinstance(cell, bytes):
            data.append(cell)
            cell = len(cell)
        plain.append(cell)
    return sha256(repr((name, digest, plain)), *data)[:DIGITS]


def sealed(kind: type[Row], name: str, digest: str, answer: Row | Remark) -> Sealed:
    """Returns an answer as it is kept."""
    cells = columns_of(kind).answer_cells(answer)
    return Sealed(name, digest, seal_of(name, digest, cells), cells)


class Opened:
    """A file of SQLite that is open until `close`, or until the end of a block."""

    base: sqlite3.Connection

    def __enter__(self) -> Self:
        return self

    def __exit__(self, *fault: object) -> None:
        self.close()

    def close(self) -> None:
        self.base.close()


class Store(Opened, Generic[Row]):
    """Answers by name in a file of SQLite, and facts: texts by name.

    An answer is a value, or the fault for which there is none. It is kept with the digest of all that it depends on. So
    a name may have several answers: those to the questions that were asked last, in a run that has come to its end, are
    read by name, and stay until the next run does.
    """

    def __init__(
        self,
        path: Path,
        kind: type[Row],
        *,
        is_read: bool = False,
        is_known: bool = False,
        named: Path | None = None,
    ) -> None:
        """Opens the file, or makes it. One that is only read is there, and no other program writes it; then nothing is
        written beside it. Answers with other columns are of another version, as if there were none. Raises Damaged,
        but for a file that is known to be whole, since it was opened before. A copy has the name of its original in
        messages."""
        self.path, self.kind, self.named = path, kind, named or path
        self.columns: StoredColumns[Row] = columns_of(kind)
        if is_read:
            self.base = sqlite3.connect(
                f"{path.absolute().as_uri()}?mode=ro&immutable=1", uri=True
            )
        else:
            self.base = sqlite3.connect(path, timeout=WAIT_SECONDS)
        if not is_known:
            check_whole(self.base, self.named)
        with reading(self.named):
            if not is_read and not is_known:
                self.base.executescript("PRAGMA journal_mode = WAL;" + self._tables())
            # If power is lost, the last answers may be, but with this journal the file stays whole.
            self.base.execute("PRAGMA synchronous = NORMAL")
            names = [
                column[1] for column in self.base.execute("PRAGMA table_info(answers)")
            ]
        self.is_ours = names == self._names()

    def _names(self) -> list[str]:
        return ["item", "digest", "seal", *self.columns.answer_names]

    def _tables(self) -> str:
        """Returns the SQL that makes what is missing: facts, answers, and the questions that were asked last."""
        return (
            "CREATE TABLE IF NOT EXISTS facts (name TEXT PRIMARY KEY, value TEXT);"
            f"CREATE TABLE IF NOT EXISTS answers ({quoted(self._names())}, PRIMARY KEY (item, digest));"
            "CREATE TABLE IF NOT EXISTS asked (item TEXT PRIMARY KEY, digest TEXT) WITHOUT ROWID;"
        )

    def renew(self) -> None:
        """Makes a store of another version anew, without its answers."""
        if not self.is_ours:
            self.base.executescript(
                "DROP TABLE answers; DROP TABLE IF EXISTS asked;" + self._tables()
            )
            self.is_ours = True

    def fact(self, name: str) -> str | None:
        """Returns a text that is kept; None if there is none. Raises Damaged."""
        with reading(self.named):
            row = self.base.execute(
                "SELECT value FROM facts WHERE name = ?", [name]
            ).fetchone()
            return None if row is None else str(row[0])

    def keep_facts(self, facts: Mapping[str, str]) -> None:
        """Keeps texts: all of them or none."""
        with self.base:
            self._add_facts(facts)

    def _add_facts(self, facts: Mapping[str, str]) -> None:
        self.base.executemany(
            "INSERT OR REPLACE INTO facts VALUES (?, ?)", facts.items()
        )

    def lacking(self, questions: Sequence[NamedDigest]) -> list[NamedDigest]:
        """Returns those of some questions, which are in order of names, that have no answer."""
        if not questions:
            return []
        with reading(self.named):
            kept = {
                *self.base.execute(
                    "SELECT item, digest FROM answers WHERE item BETWEEN ? AND ?",
                    [questions[0][0], questions[-1][0]],
                )
            }
        return [question for question in questions if question not in kept]

    def keep(self, answers: Iterable[Sealed]) -> None:
        """Keeps answers: all of them or none."""
        with self.base:
            self._add(answers)

    def _add(self, answers: Iterable[Sealed]) -> None:
        slots = ", ".join("?" * len(self._names()))
        rows = [(*answer[:3], *answer.cells) for answer in answers]
        self.base.executemany(f"INSERT OR REPLACE INTO answers VALUES ({slots})", rows)

    def replace(self, name: str, digest: str, answer: Row | Remark) -> None:
        """Keeps an answer in place of all others of its name."""
        with self.base:
            self.base.execute("DELETE FROM answers WHERE item = ?", [name])
            self._add([sealed(self.kind, name, digest, answer)])

    def finish(
        self, questions: Iterable[NamedDigest], facts: Mapping[str, str]
    ) -> None:
        """Makes questions those that were asked last, with facts, and removes the answers to all others."""
        with self.base:
            self.base.execute("DELETE FROM asked")
            self.base.executemany("INSERT INTO asked VALUES (?, ?)", questions)
            self.base.execute(
                "DELETE FROM answers WHERE (item, digest) NOT IN (SELECT item, digest FROM asked)"
            )
            self._add_facts(facts)

    def _rows(
        self, columns: str, where: str = "", values: Sequence[str] = ()
    ) -> Iterator[Sequence[Any]]:
        """Yields columns of the answers to the questions that were asked last, in order of names."""
        if not self.is_ours:
            return
        with reading(self.named):
            for row in self.base.execute(
                f"SELECT {columns} FROM asked LEFT JOIN answers USING (item, digest) {where} "
                "ORDER BY item",
                values,
            ):
                yield row

    def digests(self) -> Iterator[NamedDigest]:
        """Yields the questions that were asked last. Raises Damaged."""
        for name, digest in self._rows("item, digest"):
            yield name, digest

    @property
    def digest(self) -> str:
        """Returns a digest of what all answers depend on."""
        return sum_of_digests(digest_of(*question) for question in self.digests())

    def digest_for(self, name: str) -> str | None:
        """Returns what the answer to a name depends on; None if there is none. Raises Damaged."""
        return next(
            (str(digest) for digest, in self._rows("digest", "WHERE item = ?", [name])),
            None,
        )

    def cells(self, column: str) -> Iterator[tuple[str, Remark | None, StoredCell]]:
        """Yields each name in order with the fault for which it has no value, and a column of that as it is kept."""
        for name, fault, cell in self._rows(f'item, fault, "{column}"'):
            yield name, _remark_of(fault) if fault else None, cell

    def _answer(self, row: Sequence[Any]) -> Row | Remark:
        """Returns the answer of a row. Raises Damaged if it is not as it was kept."""
        name, digest, seal, *cells = row
        if seal_of(name, digest, cells) != seal:
            raise Damaged(self.named, f"the answer to {name!r} is not as it was kept")
        with reading(self.named):
            return self.columns.answer(cells)

    def found(self, name: str, digest: str) -> Row | Remark | None:
        """Returns the answer to a question; None if there is none. Raises Damaged."""
        with reading(self.named):
            row = self.base.execute(
                "SELECT * FROM answers WHERE item = ? AND digest = ?", [name, digest]
            ).fetchone()
        return None if row is None else self._answer(row)

    def answer(self, name: str) -> Row | Remark | None:
        """Returns the answer to the question that was asked last of a name; None if there is none. Raises Damaged."""
        return next(
            (answer for _, _, answer in self._answers("WHERE item = ?", [name])), None
        )

    def answers(
        self, first: str = "", last: str | None = None
    ) -> Iterator[tuple[str, str, Row | Remark]]:
        """Yields each name in order with the digest and the answer, perhaps from one name to another. Raises Damaged."""
        if last is None:
            return self._answers("WHERE item >= ?", [first])
        return self._answers("WHERE item BETWEEN ? AND ?", [first, last])

    def _answers(
        self, where: str, values: Sequence[str]
    ) -> Iterator[tuple[str, str, Row | Remark]]:
        for row in self._rows(quoted(self._names()), where, values):
            yield row[0], row[1], self._answer(row)
