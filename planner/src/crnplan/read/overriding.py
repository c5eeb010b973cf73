"""Puts the overrides of a planner into a catalogue that was read: those of a table, and those that an earlier plan had.

An item that the table names has what its row says, also if that is nothing. Others keep what their masters say, or else
what an earlier plan had.
"""
from __future__ import annotations

import contextlib
import shutil
import sqlite3
from collections.abc import Iterable, Mapping
from dataclasses import replace
from pathlib import Path

from ..errors import Fault, RefusedFaults
from ..remarks import Remark
from ..store.files import Folder
from .catalogue_reading import READ, Catalogued
from .item import overridden
from .items import Reading
from .opening import Table
from .overrides import Override
from .parts import ADD_REJECT, ITEM, REJECT, REPLACE_ITEM
from .stock import OVERRIDES, Holdings, read_holdings


def read_overrides(
    table: Table | None, words: Reading, names: Iterable[str]
) -> Holdings:
    """Returns what a table sets of the items of these names. Raises Refused and RefusedFaults: no item is ordered by levels
    that can't be read."""
    words = replace(words, where=())
    return read_holdings({OVERRIDES: table}, words, dict.fromkeys(names))


def put_overrides(
    folder: Folder, stated: Holdings, earlier: Mapping[str, Override | None]
) -> None:
    """Puts overrides into the catalogue that was read into a folder, by a copy. Raises RefusedFaults if masters say
    otherwise than the table."""
    part = folder.room() / f"{Path(READ).name}-overridden"
    faults = list[Fault]()
    shutil.copyfile(folder.path / READ, part)
    with contextlib.closing(sqlite3.connect(part)) as base:
        base.executemany(ADD_REJECT, map(REJECT.cells, stated.rejects))
        for name, override in {**earlier, **stated.overrides}.items():
            row = base.execute("SELECT * FROM items WHERE name = ?", [name]).fetchone()
            item = ITEM.value(row) if row else None
            if item and item.override is None:
                base.execute(REPLACE_ITEM, ITEM.cells(overridden(item, override)))
            elif item and name in stated.overrides and item.override != override:
                faults.append(Fault(Remark("two overrides of an item", {"item": name})))
        base.commit()
    if faults:
        raise RefusedFaults(faults)
    folder.take(part, READ)


def set_overrides(
    folder: Folder, table: Table | None, words: Reading, after: Path | None
) -> None:
    """Puts what planners have set into the catalogue that was read into a folder: by a table, and for an earlier plan in
    another folder. Raises Refused and RefusedFaults."""
    names = list[str]()
    if table is not None:
        with contextlib.closing(Catalogued(folder.path / READ, is_known=True)) as read:
            names += read.names()
    stated = read_overrides(table, words, names)
    earlier = dict[str, Override | None]()
    if after and (after / READ).is_file():
        with contextlib.closing(Catalogued(after / READ)) as read:
            earlier = {item.name: item.override for item in read.overridden()}
    if table is not None or earlier:
        put_overrides(folder, stated, earlier)
