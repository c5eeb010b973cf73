"""Says what was found in the tables of a catalogue: how they are written, their columns, dates and signs."""
from __future__ import annotations

import itertools
from collections.abc import Mapping
from typing import Any

from .amounts import AMOUNTS, NAMES, AmountReader
from .blocks import DATES
from .cells import Unreadable, on_one_line, text_of
from .columns import ROLES
from .dates import DateReader
from .table_files import FiledTable, WholeTables
from .items import Reading
from .sources import TextSheet
from .times import TimeReader
from .configuration import WRITTEN

SIDES = {
    "/": "slashes",
    "-": "dashes",
}  # the dates in which day and month may be interchanged, by their sign


def found_of(
    tables: Mapping[str, FiledTable], whole: WholeTables, words: Reading
) -> dict[str, Any]:
    """Returns what was found in the tables, of which `Catalogue.found` makes lines of crnplan.toml."""
    record = whole.record
    stated: dict[str, dict[str, Any]] = {}
    facts = []
    for kind, table in tables.items():
        for role, column in table.sheet.columns.items():
            if column.counts:
                stated.setdefault("units", {})[f"{kind}.{role}"] = column.counts
        names = words.columns.get(kind, {})
        none = [role for role in names if not names[role]]
        facts.append(_table_facts(table, whole, kind) | {"none": none})
    for kind, table in tables.items():
        if written := _written(table, whole, kind, words):
            stated.setdefault(WRITTEN, {})[kind] = written
    return {
        "every": record.every,
        "first": str(record.first),
        "last": str(record.last),
        "periods": len(record.periods),
        "tables": facts,
        "stated": stated,
    }


def _readers(whole: WholeTables, kind: str) -> dict[str, AmountReader | TimeReader]:
    """Returns what reads the amounts of a table, and the times of masters, by role."""
    amounts = {role: whole.amounts[role] for role in AMOUNTS[kind]}
    return {**amounts, **whole.times} if kind == "items" else {**amounts}


def _written(
    table: FiledTable, whole: WholeTables, kind: str, words: Reading
) -> dict[str, Any]:
    """Returns how a table is written, as far as that is not stated of all files, and all of its files say the same."""
    texts = [file for file in table.sheet.files if isinstance(file, TextSheet)]
    encodings = {file.encoding.removesuffix("-sig") for file in texts}
    written: dict[str, Any] = {}
    if texts and words.delimiter is None:
        written["delimiter"] = texts[0].sign
    if len(encodings) == 1 and words.encoding is None:
        written["encoding"] = encodings.pop()
    for sign, sides in whole.dates[kind].sides.items():
        if len(sides) == 1:
            written.setdefault("day_first", {})[sign] = True in sides
    for role, reader in _readers(whole, kind).items():
        if reader.sign and words.decimal is None:
            written.setdefault("decimal", {})[role] = reader.sign
    return written


def _date_forms(table: FiledTable, reader: DateReader) -> tuple[list[list[Any]], int]:
    """Returns the forms of the dates of a table, each with how many have it and one of them, and how many dates may be
    two days."""
    forms: dict[str, list[Any]] = {}
    unclear = 0
    counts = (table.counts(role).items() for role in DATES)
    for cell, count in itertools.chain.from_iterable(counts):
        try:
            form = reader.read(cell)[1]
        except Unreadable as why:
            if why.remark.code in ("day or month", "day and month"):
                unclear += count
            continue
        forms.setdefault(form, [form, 0, text_of(cell)])[1] += count
    return sorted(forms.values()), unclear


def _table_facts(table: FiledTable, whole: WholeTables, kind: str) -> dict[str, Any]:
    """Returns how a table is written, its columns, its first rows, its dates, and the signs of its amounts."""
    sheet, dates = table.sheet, whole.dates[kind]
    unused = [
        on_one_line(name)
        for place, name in enumerate(sheet.heading)
        if name and place not in sheet.used
    ]
    forms, unclear = _date_forms(table, dates)
    signs = list[Any]()
    for role, reader in _readers(whole, kind).items():
        if reader.sides:
            sides = sorted(reader.sides.items())
            said = [f"{NAMES[sign]} in {on_one_line(text)}" for sign, text in sides]
            signs.append([role, said])
    columns: dict[str, Any] = dict.fromkeys(ROLES[kind])
    columns |= {role: vars(column) for role, column in sheet.columns.items()}
    return {
        "kind": kind,
        "file": sheet.file_name,
        "written": sheet.written,
        "line": sheet.line,
        "rows": table.rows,
        "blank": table.blank,
        "titles": [on_one_line(text) for _, text in sheet.titles],
        "columns": columns,
        "unused": unused,
        "first_rows": [[*map(on_one_line, cells)] for _, cells in sheet.first_rows],
        "forms": forms,
        "unclear": unclear,
        "by_patterns": bool(dates.patterns),
        "sides": [
            [SIDES[sign], sorted(first.items())] for sign, first in dates.sides.items()
        ],
        "stated": NAMES.get(sheet.rules.decimal or "", ""),
        "signs": signs,
    }
