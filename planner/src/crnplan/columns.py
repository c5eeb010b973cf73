"""Reads the columns of tables, which each package declares in its columns.toml: their form, cell and meaning.

The forms are in columns.toml here.
"""
from __future__ import annotations

import functools
import itertools
import tomllib
from collections.abc import Callable, Mapping, Sequence
from pathlib import Path
from types import MappingProxyType
from typing import Any

from .table import Column

CellMakers = Mapping[str, Callable[[Any], Any]]
ColumnWords = Mapping[str, object]
NO_CELLS: CellMakers = MappingProxyType({})


@functools.cache
def declared(file: str) -> dict[str, dict[str, Any]]:
    """Returns what a TOML file of the package declares, by table."""
    return tomllib.loads((Path(__file__).parent / file).read_text("utf-8"))


def whole_entry(package: str, entry: Sequence[str]) -> Sequence[str]:
    """Returns the form, the path and the meaning of a column, which may be that of another table by a path of its own."""
    place, *own = entry
    if "." not in place:
        return entry
    table, name = place.split(".")
    tables = declared(f"{package}/columns.toml")
    form, path, meaning = whole_entry(package, tables[table][name])
    return form, own[0] if own else path, meaning


def _column(
    package: str, name: str, entry: Sequence[str], cells: CellMakers, words: ColumnWords
) -> Column:
    """Returns a declared column with words in place of those in braces."""
    form, path, meaning = whole_entry(package, entry)
    named = declared("columns.toml")[form.format(**words)]
    traits: dict[str, Any] = {"unit": ""} | named
    column = Column(name.format(**words), meaning=meaning.format(**words), **traits)
    return column.by(path.format(**words) if path else cells[name])


def columns_of(
    package: str,
    table: str,
    cells: CellMakers = NO_CELLS,
    each: Sequence[ColumnWords] = ({},),
    **words: object,
) -> tuple[Column, ...]:
    """Returns the columns of a table of a package in their order.

    `cells` has the functions that make the cells of columns without a path, by their declared names. `words` stand in
    place of the words in braces. Columns side by side whose names have such words stand once for each of `each`.
    """
    columns = []
    entries = declared(f"{package}/columns.toml")[table].items()
    for is_many, group in itertools.groupby(entries, lambda entry: "{" in entry[0]):
        side_by_side = [*group]
        for own in each if is_many else ({},):
            for name, entry in side_by_side:
                columns.append(_column(package, name, entry, cells, {**words, **own}))
    return tuple(columns)
