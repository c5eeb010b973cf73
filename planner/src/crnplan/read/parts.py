"""Makes the items of a catalogue part by part, each where its rows are: in one process or in several."""
from __future__ import annotations

import contextlib
import sqlite3
from collections import Counter
from collections.abc import Mapping, Sequence
from dataclasses import dataclass
from fractions import Fraction
from pathlib import Path

from ..store.jobs import Workers
from ..store.stored import StoredColumns, quoted
from .marks import split_items
from .classes import abc_of
from .controls import Controls
from .table_files import (
    CataloguePart,
    FiledTable,
    WholeTables,
    part_of,
    rows_of_part,
)
from .item import Item
from .items import Reject, Reading
from .reader import Reader
from .repeated import Shared, names_apart, shared_in

ITEM, REJECT = StoredColumns(Item), StoredColumns(Reject)
ADD_ITEM, ADD_REJECT = ITEM.insert("items"), REJECT.insert("rejects")
REPLACE_ITEM = ADD_ITEM.replace("INSERT", "REPLACE", 1)
# The file has no other use if the process ends before it is whole.
TABLES = (
    "PRAGMA journal_mode = OFF; PRAGMA synchronous = OFF;"
    f"CREATE TABLE items ({quoted(ITEM.names)}, PRIMARY KEY (name)) WITHOUT ROWID;"
    f"CREATE TABLE rejects ({quoted(REJECT.names)});"
)


@dataclass(frozen=True)
class PartRead:
    """A part of the items that was read: the file with the cells of its items and of what is left out or named; what
    became of its items, what its rows come to, from where its values are, over which columns of places its items are
    summed, how many rows its files share, the names that only masters or only demand has, and the decimals of its
    money."""

    path: Path
    items: Mapping[str, int]
    sources: Counter[tuple[str, str]]
    split: Mapping[str, Mapping[str, int]]
    controls: Controls
    shared: Mapping[str, Shared]
    apart: Mapping[bool, Sequence[str]]
    decimals: int


def values_of_part(
    part: CataloguePart, words: Reading, whole: WholeTables
) -> list[Fraction | None]:
    """Returns the value of the mean demand of each item of a part, in order of names."""
    return Reader(rows_of_part(part), words, whole).values()


def items_of_part(
    part: CataloguePart,
    words: Reading,
    whole: WholeTables,
    letters: Sequence[str],
    path: Path,
) -> PartRead:
    """Writes the items of a part, with their classes in order of names, into a new file."""
    with contextlib.closing(sqlite3.connect(path)) as base:
        base.executescript(TABLES)

        def add(reject: Reject) -> None:
            base.execute(ADD_REJECT, REJECT.cells(reject))

        reader = Reader(rows_of_part(part), words, whole, add)
        base.executemany(ADD_ITEM, map(ITEM.cells, reader.read(letters)))
        base.commit()
    return PartRead(
        path,
        reader.numbers,
        reader.sources,
        {kind: split_items(own) for kind, own in reader.rows.items()},
        reader.controls(),
        shared_in(reader.rows),
        names_apart(reader.rows),
        reader.decimals,
    )


def read_parts(
    tables: Mapping[str, FiledTable],
    whole: WholeTables,
    words: Reading,
    workers: Workers,
    room: Path,
    count: int,
) -> list[PartRead]:
    """Returns what was read of each of so many parts, whose files stand in a folder. The classes of items by value
    depend on all of them. Raises Refused for stated classes that there are not."""
    parts = [part_of(tables, number, tables) for number in range(count)]
    values = [
        *workers.in_order(values_of_part, ((part, words, whole) for part in parts))
    ]
    known = dict[tuple[int, int], Fraction]()
    for number, of_part in enumerate(values):
        for place, value in enumerate(of_part):
            if value is not None:
                known[number, place] = value
    classes = abc_of(known, words.abc)
    words.check_classes(whole.groups if any(whole.groups) else {*classes.values()})
    asked = list[tuple[CataloguePart, Reading, WholeTables, list[str], Path]]()
    for number, part in enumerate(parts):
        letters = [
            classes.get((number, place), "") for place in range(len(values[number]))
        ]
        asked.append((part, words, whole, letters, room / f"part-{number}.sqlite"))
    return [*workers.in_order(items_of_part, asked)]
