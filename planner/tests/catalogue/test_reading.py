"""Tests that a catalogue is read without loss: every planted fault is found, and a second program has the same sums."""
from __future__ import annotations

import copy
import dataclasses
import datetime
import random
import tomllib
from collections.abc import Mapping
from pathlib import Path
from typing import Any

import numpy as np
import pandas as pd
import pytest

from crnplan.errors import Refused
from crnplan.store.files import MARKER
from crnplan.read.blocks import Sizes
from crnplan.read.catalogue_reading import read_alone
from crnplan.read.dates import period_of
from crnplan.read.item import Item
from crnplan.read.items import Reading
from crnplan.read.tables import OPEN, PLACES, USED, TableReader
from crnplan.catalogues import Catalogue, read_catalogue
from crnplan.sentences import sentence
from planner.tests.catalogue.audit import Audit, audit
from planner.tests.catalogue.conftest import FILES
from planner.tests.catalogue.made import (
    IDLE,
    ITEMS,
    START,
    TITLES,
    TODAY,
    WEEKS,
    Made,
    name_of,
)
from planner.tests.read.catalogues import items_of

BAD_COLUMNS = [
    *("Bestellkosten", "Bestellpunkt", "Lagerkosten", "Lieferzeit (Wochen)"),
    *("Fehlmengenkosten", "Lieferzeit (Wochen)", "Bestellkosten", "Servicegrad"),
    "Bestellkosten, Preis",
]
LAST = START + datetime.timedelta(days=7 * WEEKS - 3)
# By kind of a planted item, a part of the reason why it is left out.
REASONS = {
    "far": "times",
    "no master": "no master",
    "orders alone": "no master",
    "two masters": "masters that differ",
    "missing master": "no master",
    "master": "",
}


def read(folder: Path, **words: Any) -> Catalogue:
    return read_catalogue(*(folder / name for name in FILES), today=TODAY, **words)


@pytest.fixture(scope="module")
def rejects(catalogue: Catalogue) -> pd.DataFrame:
    return catalogue.rejects


@pytest.fixture(scope="module")
def second(files: Path) -> Audit:
    """Returns what the second program finds in the file of demand."""
    return audit(files / FILES[0], len(TITLES) + 1, START, LAST)


@pytest.fixture(scope="module")
def items(catalogue: Catalogue) -> dict[str, Item]:
    return items_of(catalogue)


def test_planted_rows_are_rejected_or_named(
    planted: Made, rejects: pd.DataFrame
) -> None:
    """Finds each planted row by its line, and no other one."""
    demand = rejects[rejects.file == FILES[0]]
    rejected, twice = (demand[demand.kind == kind] for kind in ("row", "suspicious"))
    rows = dict(planted.bad_lines)
    assert {*twice.line} == rows.pop("twice")
    rows.pop("leer")  # of an item without a master, with which it is left out
    assert {*rejected.line} == set.union(*rows.values())
    for column in ("Menge", "Buchungstag", "Artikel"):
        found = {*rejected[rejected.column == column].line}
        assert rows[column] <= found <= rows[column] | rows["total"]
    (total,) = demand[demand.line.isin(rows["total"])].reason
    assert "total" in total
    assert {*rejected.rows} == {1} and {*twice.rows} == {0}
    assert not (rejects[["advice", "reason"]] == "").any(axis=None)


def test_planted_items_are_left_out(
    planted: Made, items: dict[str, Item], rejects: pd.DataFrame
) -> None:
    """Leaves out the planted items alone, with their reasons, and names all faulty cells of a master."""
    found = rejects[rejects.kind == "item"].set_index("item")
    for kind, reason in REASONS.items():
        for name in planted.bad_items[kind]:
            assert reason in found.reason[name]
    bad = set.union(*planted.bad_items.values())
    named = {*map(name_of, range(ITEMS)), "A-777", "A-888", IDLE}
    assert {*found.index} == bad and {*items} == named - bad
    masters = found[found.file == FILES[1]]
    columns = masters.column[[name_of(number) for number in range(20, 29)]]
    assert [*columns] == BAD_COLUMNS
    assert found.text["A-026"] == "45,00 Stk" and "120%" in found.text["A-027"]


def test_sums_of_a_second_program(
    catalogue: Catalogue,
    items: dict[str, Item],
    second: Audit,
    rejects: pd.DataFrame,
) -> None:
    """Has the quantities, returns and counts of rows of the second program, and nothing beside."""
    first = period_of(START, "week")
    for name, item in items.items():
        days = [START + datetime.timedelta(7 * week) for week in range(WEEKS)]
        weeks = [day.isocalendar()[:2] for day in days[item.first - first :]]
        for counts, wanted in (
            (item.counts, second.asked),
            (item.returns, second.back),
        ):
            if counts:
                found = dict(zip(weeks, counts, strict=True))
                assert {week: it for week, it in found.items() if it} == +wanted[name]
            else:
                assert not +wanted[name]
        assert item.rows == second.taken[name]
    counts = catalogue.counts["files"]["demand"]
    taken = second.taken.total()
    used = sum(count for name, count in second.taken.items() if name in items)
    assert (counts["read"], counts["used"]) == (second.read, used)
    assert counts["with_item"] == taken - used
    assert counts["with_item"] == rejects[rejects.kind == "item"].rows.sum()
    rows = rejects[(rejects.kind == "row") & (rejects.file == FILES[0])]
    assert counts["rejected"] == second.read - taken == len(rows)
    assert counts["blank"] == 1 and catalogue.missing == []


def test_records_and_lead_times(items: dict[str, Item], files: Path) -> None:
    """An item begins with the record, unless it comes late. Without a master's lead time, orders give it."""
    assert len(items["A-001"].counts) == len(items["A-009"].counts) == WEEKS
    assert not items["A-001"].remarks and not any(items["A-009"].counts[:20])
    assert len(items["A-007"].counts) == WEEKS - 60
    (late,) = items["A-007"].remarks
    assert sentence(late) == "begins with its first movement, in 2026-W04"
    leads = []
    for line in (files / FILES[2]).read_text("utf-8").splitlines():
        item, *days = line.split(";")
        if item == "A-012":
            placed, there = (
                period_of(datetime.date.fromisoformat(day), "week") for day in days
            )
            leads.append(max(1, there - placed))
    assert items["A-012"].leads == tuple(leads)


def test_what_was_found_is_stated(catalogue: Catalogue, files: Path) -> None:
    """States the columns as guesses, dates and decimal signs; and the statement gives the same catalogue."""
    found = tomllib.loads(catalogue.found)["catalogue"]
    demand = "item Artikel date Buchungstag quantity Menge returned Retouren".split()
    assert found["demand"] == dict(zip(demand[::2], demand[1::2]))
    assert found["items"]["S"] == "Höchstbestand"
    assert found["items"]["lead"] == "Lieferzeit (Wochen)"
    for text in (
        '"Artikel"  # found by its name',
        "the day comes first in",
        "heading in line 3",
        "decimal sign of holding is the comma in 0,",
        "not used: Beleg",
        "the record: 2024-11-25 to",
    ):
        assert text in catalogue.found
    again = read(
        files, columns={kind: found[kind] for kind in ("demand", "items", "orders")}
    )
    assert again.counts == catalogue.counts and "# found by its name" not in again.found
    pd.testing.assert_frame_equal(again.rejects, catalogue.rejects)


def test_ranges_change_nothing(
    files: Path, catalogue: Catalogue, items: dict[str, Item], tmp_path: Path
) -> None:
    """Reads the same in many ranges and parts, by pandas and by two processes, and leaves no other file."""
    paths = {
        kind: files / name for kind, name in zip(("demand", "items", "orders"), FILES)
    }
    sizes = Sizes(10_000, 20_000, plain=0)
    again = Catalogue(read_alone(tmp_path, paths, Reading(today=TODAY), 2, sizes))
    assert again.counts == catalogue.counts and items_of(again) == items
    pd.testing.assert_frame_equal(again.rejects, catalogue.rejects)
    assert {*tmp_path.rglob("*")} == {tmp_path / MARKER, again.path.parent, again.path}
    again.path.unlink()
    with pytest.raises(Refused, match="no catalogue was read"):
        again.opened()


def test_order_changes_nothing(
    catalogue: Catalogue, items: dict[str, Item], tmp_path: Path, planted: Made
) -> None:
    """Reads the same from rows and masters in another order, but for the lines."""
    mixed = copy.deepcopy(planted)
    *rows, total = mixed.demand
    random.Random(2).shuffle(rows)
    random.Random(3).shuffle(mixed.masters)
    mixed.demand = [*rows, total]
    again = read(mixed.write(tmp_path))
    lines = {name: item.line for name, item in items.items()}
    moved = items_of(again).values()
    alike = [dataclasses.replace(item, line=lines[item.name]) for item in moved]
    assert {item.name: item for item in alike} == items
    assert again.counts == catalogue.counts


def test_a_lost_row_is_said(files: Path, monkeypatch: pytest.MonkeyPatch) -> None:
    """Says how many rows are lost if some are, as if a part of the reader were wrong."""
    own = TableReader.close

    def without(self: TableReader, became: Mapping[int, str]) -> None:
        """Loses a row that was used."""
        own(self, became)
        if self.kind == "demand":
            self.states[np.flatnonzero(self.states == PLACES[USED])[0]] = PLACES[OPEN]

    monkeypatch.setattr(TableReader, "close", without)
    (missing,) = read(files).missing
    assert missing.startswith("demand: ") and missing.endswith("+1 rows are lost")


@pytest.mark.parametrize(
    "words, rejected, ready",
    [
        ({"twice": "leave-out"}, 3, 0),
        ({"far": "keep"}, 0, 2),
        ({"net": True}, -1, 0),
    ],
)
def test_ways_of_taking_rows(
    files: Path, catalogue: Catalogue, words: dict[str, Any], rejected: int, ready: int
) -> None:
    """Leaves double rows out, keeps items with far amounts, and takes amounts below 0 off, if asked."""
    changed = read(files, **words)
    before, after = catalogue.counts, changed.counts
    assert changed.missing == []
    rows = [counts["files"]["demand"]["rejected"] for counts in (before, after)]
    assert rows[1] - rows[0] == rejected
    assert after["items"]["ready"] - before["items"]["ready"] == ready
