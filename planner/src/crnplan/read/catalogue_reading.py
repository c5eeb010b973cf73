"""Reads a catalogue: two files or three to items that can be planned. Nothing is lost, or it is said what.

What was read is kept in a SQLite file of a folder, which is there whole or not at all.
"""
from __future__ import annotations

import contextlib
import heapq
import json
import sqlite3
from collections import Counter
from collections.abc import Iterable, Iterator, Mapping, Sequence
from operator import itemgetter
from pathlib import Path
from typing import Any, cast

from ..store.digests import digest_of
from ..errors import Fault, Refused, RefusedFaults
from ..store.files import IN_KEPT, Folder, faults_of, own_folder
from ..store.means import Means
from ..money import MOST_DECIMALS, Currency
from ..remarks import Remark, Value
from ..store.stored import StoredCell, Opened, check_whole, quoted, reading
from ..sentences import message
from .blocks import Sizes
from .marks import said_of_marks
from .columns import converted, is_converted
from .controls import Controls, controls_in, counts_of, together, tree_of
from .defaults import CLASS, DEFAULT, ORDERS, SOURCES, distinct
from .table_files import FiledTable, WholeTables, read_tables, refuse_unclear
from .table_facts import found_of
from .item import NEW, NO_DEMAND, PHASE_OUT, PLANNED, STOPPED, Item
from .items import Counts, FileCounts, Reject, Reading
from .opening import Table
from .parts import (
    ADD_ITEM,
    ADD_REJECT,
    ITEM,
    REJECT,
    REPLACE_ITEM,
    TABLES,
    PartRead,
    read_parts,
)
from .repeated import files_within, zeros_apart
from .time_units import refuse_bare_times
from .several import open_tables
from .successors import succeeded
from .configuration import told_of

CATALOGUE = "catalogue"  # the kind of the folder
READ = f"{IN_KEPT}catalogue.sqlite"
OVERRIDE_KIND = "override_kind"  # the first column of an override


class Catalogued(Opened):
    """What was read of a catalogue: its items in order of their names, what was left out, and facts by name."""

    def __init__(
        self,
        path: Path,
        is_known: bool = False,
        planned: Sequence[str] = PLANNED,
    ) -> None:
        """Opens a file that was written by `Writer`. Plans depend on the columns `planned`. Raises Refused if it is not
        there, and Damaged, but for a file that is known to be whole.
        """
        self.path, self.folder = path, path.parent.parent
        self.planned = planned
        if not path.is_file():
            raise Refused(
                f"{self.folder}: no catalogue was read into this folder",
                "run crnplan plan first",
            )
        self.base = sqlite3.connect(f"{path.absolute().as_uri()}?mode=ro", uri=True)
        if not is_known:
            check_whole(self.base, path)

    def fact(self, name: str) -> Any:
        """Returns a fact by its name. Raises Refused if an older crnplan has not kept it, and Damaged."""
        with reading(self.path):
            for row in self.base.execute(
                "SELECT value FROM facts WHERE name = ?", [name]
            ):
                return json.loads(row[0])
        raise Refused(
            f"{self.folder}: another version of crnplan has read it",
            "run crnplan plan again",
        )

    def controls(self) -> Controls:
        """Returns the control totals of the tables."""
        return controls_in(self.fact("controls"))

    def remarks(self) -> Iterator[Remark]:
        """Yields what is to be said of the rows of the tables."""
        yield from (Remark(code, facts) for code, facts in self.fact("remarks"))

    def rejects(self, more: Iterable[Reject] = ()) -> Iterator[Reject]:
        """Yields what was left out or named, with more of it: by file, line, item and column."""
        # Rows to sort may be many: SQLite keeps a base without a name on disk if it grows.
        with reading(self.path), contextlib.closing(sqlite3.connect("")) as base:
            base.execute(f"CREATE TABLE rejects ({quoted(REJECT.names)})")
            base.executemany(ADD_REJECT, self.base.execute("SELECT * FROM rejects"))
            base.executemany(ADD_REJECT, map(REJECT.cells, more))
            rows = base.execute(
                'SELECT * FROM rejects ORDER BY file, line, item, kind, "column", text, remark'
            )
            yield from map(REJECT.value, rows)

    def _rows(self, columns: str, *name: str) -> Iterator[tuple[Any, ...]]:
        """Yields the rows of all items in order of their names, or of the item of a name."""
        where = "WHERE name = ?" * len(name)
        with reading(self.path):
            # A loop, since `yield from` would close the cursor of a base that may be closed already.
            for row in self.base.execute(
                f"SELECT {columns} FROM items {where} ORDER BY name", name
            ):
                yield row

    def digests(self, common: str) -> Iterator[tuple[str, str]]:
        """Yields the name of each item with the digest of what its plan depends on, and of what is common to all."""
        for row in self._rows(quoted(self.planned)):
            yield row[0], digest_of(common, row)

    def digest(self, name: str, common: str) -> str:
        """Returns the digest of what the plan of an item depends on."""
        return digest_of(common, next(self._rows(quoted(self.planned), name), None))

    def cells(self, *columns: str) -> Iterator[tuple[Any, ...]]:
        """Yields some columns of all items, as they are kept, in order."""
        yield from self._rows(quoted(columns))

    def values(self, *fields: str) -> Iterator[tuple[Any, ...]]:
        """Yields some facts of all items in order, each of which has one column."""
        reads = [ITEM.parts[field][-1].read for field in fields]
        for cells in self.cells(*fields):
            yield tuple(
                None if cell is None else read(cell) for read, cell in zip(reads, cells)
            )

    @property
    def length(self) -> int:
        """Returns how many periods of the record count."""
        start, stop = self.fact("periods")
        return int(stop - start)

    def names(self, *pasts: str) -> Iterator[str]:
        """Yields the names of the items with one of these pasts, or of all."""
        for name, past in self.cells("name", "past"):
            if not pasts or past in pasts:
                yield name

    def items(self, *name: str) -> Iterator[Item]:
        """Yields the items in order, or that of a name."""
        with reading(self.path):
            yield from map(ITEM.value, self._rows("*", *name))

    def item(self, name: str) -> Item | None:
        """Returns the item of a name; None if there is none."""
        return next(self.items(name), None)

    def overridden(self) -> Iterator[Item]:
        """Yields the items with an override; none of a file of a version that had none."""
        with reading(self.path):
            columns = self.base.execute("PRAGMA table_info(items)")
            if OVERRIDE_KIND in {name for _, name, *_ in columns}:
                rows = self.base.execute(
                    f"SELECT * FROM items WHERE {OVERRIDE_KIND} IS NOT NULL"
                )
                yield from map(ITEM.value, rows)


class Writer:
    """Writes what is read of a catalogue. The file stands under its name only when `finish` is called."""

    def __init__(self, folder: Folder) -> None:
        self.folder = folder
        self.path = folder.store(READ)
        self.part = folder.room() / Path(READ).name
        self.base = sqlite3.connect(self.part)
        self.base.executescript(
            f"{TABLES} CREATE TABLE facts (name TEXT PRIMARY KEY, value TEXT);"
        )

    def add_rows(self, insert: str, rows: Iterable[Sequence[StoredCell]]) -> None:
        """Adds the cells of items, or of what is left out or named."""
        self.base.executemany(insert, rows)

    def add_parts(self, parts: Iterable[PartRead]) -> None:
        """Adds the cells of parts, as they were written there: items in order of names."""
        with contextlib.ExitStack() as stack:
            items = list[Iterator[Sequence[StoredCell]]]()
            for part in parts:
                connection = contextlib.closing(sqlite3.connect(part.path))
                base = stack.enter_context(connection)
                self.add_rows(ADD_REJECT, base.execute("SELECT * FROM rejects"))
                items.append(base.execute("SELECT * FROM items ORDER BY name"))
            self.add_rows(ADD_ITEM, heapq.merge(*items, key=itemgetter(0)))

    def _items(self, where: str, *values: str) -> Iterator[Item]:
        rows = self.base.execute(f"SELECT * FROM items WHERE {where}", values)
        return map(ITEM.value, rows)

    def succeed(self, words: Reading) -> None:
        """Gives items that succeed others the demand of these. Raises Refused."""
        naming = self._items("predecessor != '' OR successor != ''")
        pairs = [(it.predecessor or it.name, it.successor or it.name) for it in naming]

        def find(name: str) -> Item | None:
            return next(self._items("name = ?", name), None)

        changed = succeeded(pairs, find, words)
        self.add_rows(REPLACE_ITEM, map(ITEM.cells, changed.values()))

    def pasts(self) -> dict[str, int]:
        """Returns how many items have each past."""
        return dict(self.base.execute("SELECT past, COUNT(*) FROM items GROUP BY past"))

    def close(self) -> None:
        """Removes what is not finished."""
        self.base.close()
        self.part.unlink(missing_ok=True)

    def finish(self, facts: Mapping[str, Any]) -> Path:
        """Adds the facts, and gives the file its name."""
        rows = [(name, json.dumps(fact, default=str)) for name, fact in facts.items()]
        self.base.executemany("INSERT INTO facts VALUES (?, ?)", rows)
        self.base.commit()
        self.base.close()
        self.folder.take(self.part, READ)
        return self.path


def defaulted(sources: Any) -> Iterator[Remark]:
    """Yields of each value that may have a default, if it is not from the masters alone, of how many items it is from
    where."""
    for role, counts in sources.items():
        if counts.keys() & {CLASS, DEFAULT}:
            yield Remark(
                "taken from",
                {"role": role, **{name: counts.get(name, 0) for name in SOURCES}},
            )


def missing_of(counts: Counts, answered: int) -> list[str]:
    """Returns a line for each file, and for the items, whose counts do not add up. `answered` items have an answer."""
    missing = list[Remark]()
    facts: dict[str, Value]
    for kind, file in counts["files"].items():
        kept = file["used"] + file["rejected"] + file["with_item"] + file["other"]
        if rest := file["read"] - kept:
            facts = {"kind": kind, "rest": rest, **cast(Mapping[str, int], file)}
            missing.append(Remark("lost rows", facts))
    items = counts["items"]
    if rest := items["named"] - answered - items["left_out"]:
        facts = {**items, "answered": answered, "rest": rest}
        missing.append(Remark("lost items", facts))
    return [*map(message, missing)]


def read_alone(path: Path, *given: Any) -> Path:
    """Reads a catalogue into a folder that no other run uses, as `read_into` does."""
    with own_folder(path, CATALOGUE) as folder:
        return read_into(folder, *given)


def read_into(
    folder: Folder,
    tables: Mapping[str, Table | None],
    words: Reading,
    jobs: int | None = 1,
    sizes: Sizes = Sizes(),
) -> Path:
    """Reads a catalogue into a folder by so many processes, by default one for each processor, and returns the file of
    what was read, which is the same for any number. Raises as `read_catalogue` does."""
    with (
        faults_of(folder.path),
        open_tables(tables, words, folder.room()) as sheets,
        contextlib.closing(Writer(folder)) as writer,
    ):
        parts = sizes.parts_of(sheets.values())
        room = folder.room()
        with Means(1 if parts == 1 else jobs).workers() as workers:
            filed = read_tables(sheets, workers, room, parts, sizes)
            refuse_unclear(filed)
            whole = WholeTables.of(filed, words)
            refuse_bare_times(filed, whole)
            read = read_parts(filed, whole, words, workers, room, parts)
        if words.twice is None:
            repeated = [*files_within(sheets, (part.shared for part in read))]
            if repeated:
                raise RefusedFaults(repeated)
        writer.add_parts(read)
        writer.succeed(words)
        controls = together(part.controls for part in read)
        facts = facts_of(filed, whole, read, words)
        facts["controls"] = tree_of(controls)
        facts["counts"] = counts_in(filed, read, controls, writer.pasts())
        said = said_of(filed, whole, facts["sources"])
        facts["said"] = [fault.message for fault in said]
        return writer.finish(facts)


def facts_of(
    tables: Mapping[str, FiledTable],
    whole: WholeTables,
    parts: Sequence[PartRead],
    words: Reading,
) -> dict[str, Any]:
    """Returns what is kept of a catalogue beside its items, but for what its rows come to and what is said."""
    currency = next(iter(distinct(whole.currencies)), "")
    periods = whole.record.periods
    sources: dict[str, dict[str, int]] = {}
    counts = sum((part.sources for part in parts), Counter[tuple[str, str]]())
    for (role, source), count in sorted(counts.items()):
        sources.setdefault(role, {})[source] = count
    return {
        "every": words.every,
        "decimals": max(
            Currency(currency, 0).places, *(part.decimals for part in parts)
        ),
        "currency": currency,
        "abc": words.abc,
        "sources": sources,
        "periods": [periods.start, periods.stop],
        "found": found_of(tables, whole, words),
        "told": told_of(words),
        "keys": tables["items"].sheet.keys,
        "remarks": [
            [remark.code, remark.facts] for remark in remarks_of(tables, parts)
        ],
    }


def said_of(
    tables: Mapping[str, FiledTable],
    whole: WholeTables,
    sources: Mapping[str, Mapping[str, int]],
) -> Iterator[Fault]:
    """Yields what is to be said of tables that were read: how lead times were read, also that they are those of receipts, of
    dates, units that were converted, files that were passed over, and rows that a workbook hides.
    """
    every = whole.record.every
    masters = tables["items"].sheet
    if "orders" in tables and "lead" not in masters.columns:
        items = sources.get("lead", {}).get(ORDERS, 0)
        yield Fault(Remark("leads of receipts", {"items": items}), masters.file_name)
    for kind, table in tables.items():
        for remark in whole.dates[kind].notes.values():
            yield Fault(remark, table.sheet.file_name)
    for sheet in (table.sheet for table in tables.values()):
        for role, column in sheet.columns.items():
            if is_converted(column, every):
                yield Fault(converted(column, role, every), sheet.file_name)
        if sheet.locks:
            files = ", ".join(sheet.locks)
            yield Fault(Remark("locks passed over", {"files": files}), sheet.name)
        for file in sheet.files:
            hidden = Remark("hidden rows", {"count": file.hidden})
            for remark in (*file.notes, *[hidden] * (file.hidden > 0)):
                yield Fault(remark, file.file_name)


def counts_in(
    tables: Mapping[str, FiledTable],
    parts: Iterable[PartRead],
    controls: Controls,
    pasts: Mapping[str, int],
) -> Counts:
    """Returns what became of all rows and items, and how many items have each past."""
    files = dict[str, FileCounts]()
    items = Counter[str]()
    for kind, table in tables.items():
        files[kind] = counts_of(kind, table.sheet, table.rows, table.blank, controls)
    for part in parts:
        items.update(part.items)
    for past in (NEW, NO_DEMAND, STOPPED, PHASE_OUT):
        items[past.replace(" ", "_")] = pasts.get(past, 0)
    return {"files": files, "items": {**items}}


def remarks_of(
    tables: Mapping[str, FiledTable], parts: Sequence[PartRead]
) -> Iterator[Remark]:
    """Yields what is to be said of the rows of tables: over which places items are summed, states of rows, items that
    differ by zeros alone, unknown and promoted periods, and rows that are in no sum."""
    for kind, table in tables.items():
        places = Counter[str]()
        for part in parts:
            places.update(part.split[kind])
        yield from said_of_marks(kind, table, places)
    yield from zeros_apart(part.apart for part in parts)
    items = sum((Counter(part.items) for part in parts), Counter[str]())
    if items["unknown"]:
        cut = {"cut": items["cut"], "cut_periods": items["cut_periods"]}
        facts = {"items": items["unknown"], "periods": items["unknown_periods"]}
        yield Remark("items with unknown periods", {**facts, **cut})
    if items["rounded"]:
        facts = {"cells": items["rounded"], "decimals": MOST_DECIMALS}
        yield Remark("amounts rounded", facts)
    if items["unread_rows"] or items["undated_rows"]:
        names = ("unread_rows", "undated_rows", "undated_items")
        yield Remark("rows not summed", {name: items[name] for name in names})
    if items["stated"]:
        facts = {"items": items["stated"], "bare": items["bare"]}
        yield Remark("items with stated laws", facts)
    if items["promoted"]:
        facts = {"items": items["promoted"], "periods": items["promoted_periods"]}
        yield Remark("items with promotions", facts)
