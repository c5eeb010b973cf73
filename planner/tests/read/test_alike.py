"""A table as CSV as shown, as a workbook and as a DataFrame is read alike, or refused alike: 2,000 random tables."""
from __future__ import annotations

from collections.abc import Mapping
from pathlib import Path
from typing import Any

import pytest

from crnplan.errors import RefusedFaults
from crnplan.read.items import Reading
from crnplan.read.stock import read_holdings
from crnplan.catalogues import read_catalogue
from planner.tests.read.alike import FORMS, Tables
from planner.tests.read.catalogues import TODAY

# Each case has five tables.
CASES, CASES_AT_ONCE = 400, 10


def nameless(files: Mapping[str, Any]) -> dict[str, Any]:
    """Returns the counts of files without their names."""
    return {kind: {**counts, "name": ""} for kind, counts in files.items()}


def of_catalogue(given: dict[str, Any], words: dict[str, Any]) -> Any:
    """Returns what is read of a catalogue: its items, counts and rejects by code. Equal rows have equal texts, of which a
    workbook has fewer: its numbers are spelt in one way."""
    tables = given["demand"], given["items"], given["orders"]
    catalogue = read_catalogue(*tables, today=TODAY, least=1, far="keep", **words)
    with catalogue.opened() as read:
        items, rejects = [*read.items()], []
        for reject in read.rejects():
            place = reject.kind, reject.line, reject.item, reject.column
            if reject.kind != "suspicious":
                rejects.append((*place, reject.remark.code, reject.rows))
        facts = [read.fact(name) for name in ("currency", "periods", "sources")]
    counts = catalogue.counts
    return items, rejects, counts["items"], nameless(counts["files"]), facts


def of_today(given: dict[str, Any], known: list[str], words: dict[str, Any]) -> Any:
    """Returns what is read of tables of today."""
    tables = {kind: given[kind] for kind in ("stock", "on_order")}
    read = read_holdings(tables, Reading(**words), dict.fromkeys(known))
    rejects = []
    for reject in sorted(read.rejects, key=lambda each: (each.column, each.line)):
        place = reject.kind, reject.line, reject.item, reject.column
        if reject.kind != "suspicious":
            rejects.append((*place, reject.remark.code))
    return read.on_hand, read.arrivals, read.unread, nameless(read.counts), rejects


def outcome(read: Any, *given: Any) -> Any:
    """Returns what is read, or why it is refused."""
    try:
        return read(*given)
    except RefusedFaults as why:
        return [(fault.line, fault.column, fault.what) for fault in why.faults]


def read_in_forms(seed: int, folder: Path) -> dict[str, tuple[Any, Any]]:
    """Returns what is read of the tables of a seed in each form."""
    tables = Tables(seed)
    made = {
        "demand": tables.demand(),
        "items": tables.masters(),
        "orders": tables.orders(),
        "stock": tables.stock(),
        "on_order": tables.on_order(),
    }
    words = {"delimiter": ";", "decimal": tables.decimal if tables.is_stated else None}
    known, found = [row[0].text for row in made["items"][1:]], {}
    for form, written in FORMS.items():
        given = written(made, folder)
        found[form] = (
            outcome(of_catalogue, given, words),
            outcome(of_today, given, known, words),
        )
    return found


@pytest.mark.parametrize("first", range(0, CASES, CASES_AT_ONCE))
def test_tables_are_read_alike(first: int, tmp_path: Path) -> None:
    """The items, their counts and the rejects of a workbook and of frames are those of CSV. Some items are read."""
    ready = 0
    for seed in range(first, first + CASES_AT_ONCE):
        found = read_in_forms(seed, tmp_path)
        for form in ("book", "frames"):
            assert found[form] == found["csv"], f"{form} of the tables of {seed}"
        catalogue, _ = found["csv"]
        ready += len(catalogue[0]) if isinstance(catalogue, tuple) else 0
    assert ready >= CASES_AT_ONCE
