"""An item alone, which is planned as a catalogue of one row."""
from __future__ import annotations

import csv
from collections.abc import Callable, Iterable
from pathlib import Path
from typing import Any

import pandas as pd
import pytest

import crnplan as crn
from planner.tests.conftest import shared
from planner.tests.show.page_reader import Page

NAME = "part"
# The item of the worked case, with money that has decimals and one lead time.
MASTER = {"setup": 45.25, "holding": 0.6, "backlog": 9, "lead (weeks)": "2"}
LEVELS = {"s": 15, "S": 30, "stock": 20}
Alone = Callable[..., crn.PlannedItem]


def tables_of(
    counts: Iterable[object], name: str = NAME, **master: Any
) -> tuple[pd.DataFrame, pd.DataFrame]:
    """Returns the demand of an item by week, and its row of the masters; a fact that is None is left out."""
    weeks = pd.date_range("2023-01-02", periods=len([*counts]), freq="7D")
    sales = pd.DataFrame({"item": name, "date": weeks, "quantity": [*counts]})
    facts = {"item": name, **MASTER, **LEVELS, **master}
    stated = {role: fact for role, fact in facts.items() if fact is not None}
    return sales, pd.DataFrame([stated])


@pytest.fixture(scope="session")
def counts(top: Path) -> list[int]:
    """Returns the demand of the worked case."""
    with (top / "examples/case/history.csv").open(encoding="utf-8") as file:
        return [int(row["demand"]) for row in csv.DictReader(file)]


@pytest.fixture
def alone(counts: list[int], program: Path) -> Alone:
    """Returns a function that plans the item with other demand, other facts or other words."""

    def planned(
        demand: Iterable[object] = counts,
        words: dict[str, Any] = {},
        name: str = NAME,
        **master: Any,
    ) -> crn.PlannedItem:
        tables = tables_of(demand, name, **master)
        words = {"replications": 4, "jobs": 1, "program": program, **words}
        return crn.plan(*tables, **words).item(name)

    return planned


@pytest.fixture(scope="session")
def folder(
    tmp_path_factory: pytest.TempPathFactory, counts: list[int], program: Path
) -> Path:
    """Returns the folder of a plan of the item. It is not changed."""

    def make(room: Path) -> None:
        words = {"replications": 4, "jobs": 1, "program": program}
        crn.plan(*tables_of(counts), out=room / "plan", **words)

    return shared(tmp_path_factory, "item alone", make) / "plan"


@pytest.fixture(scope="session")
def whole(folder: Path, program: Path) -> crn.PlannedItem:
    return crn.open_plan(folder, program=program).item(NAME)


def page_of(item: crn.PlannedItem, room: Path) -> Page:
    """Returns the page of an item as it is read."""
    path = room / "page.html"
    path.write_text(item.page, "utf-8")
    return Page(path)
