"""Measures what grows with the items of a planned catalogue: bytes that are sent and kept, and looks at all items.

    python -m planner.bench.million FOLDER --store

FOLDER is that of one size that `planner.bench.whole --folder` has kept.
"""
from __future__ import annotations

import contextlib
import sqlite3
import time
from collections.abc import Iterator
from pathlib import Path
from typing import Any

import click

from crnplan.curve import gathered
from crnplan.show.catalogue_page import MOST_ROWS, PAGE
from crnplan.show.catalogue_tables import DECISIONS, DETAILS
from crnplan.plan.catalogue import ANSWERS, PlannedFolder, planned_folder
from crnplan.plan.survey import Survey
from crnplan.read.catalogue_reading import CATALOGUE, READ
from crnplan.store.files import own_folder
from crnplan.store.means import Means
from planner.bench.page import CANDIDATES, LOOK, SENT, million_table
from planner.bench.part import PLAN
from planner.bench.stored import circumstances, keep

Measured = tuple[str, float, str]


def row_bytes(path: Path, table: str) -> float:
    """Returns the mean bytes of a row of a table, as texts."""
    with contextlib.closing(sqlite3.connect(path)) as base:
        names = [name for _, name, *_ in base.execute(f"PRAGMA table_info({table})")]
        total = " + ".join(
            f'coalesce(length(CAST("{name}" AS BLOB)), 0)' for name in names
        )
        (mean,) = base.execute(f"SELECT avg({total}) FROM {table}").fetchone()
    return float(mean)


def bytes_of(plan: PlannedFolder, items: int) -> Iterator[Measured]:
    """Yields what is sent and kept for an item."""
    folder = plan.path
    for what, name, table in zip(
        SENT, (READ, ANSWERS, gathered.CANDIDATES), ("items", "answers", "answers")
    ):
        yield what, row_bytes(folder / name, table), "bytes an item"
    for name in (
        READ,
        ANSWERS,
        gathered.CANDIDATES,
        gathered.HULLS,
        DECISIONS,
        DETAILS,
    ):
        yield f"{Path(name).name}, on disk", (
            folder / name
        ).stat().st_size / items, "bytes an item"
    yield f"{PAGE}, up to 5,000 items", (
        folder / PAGE
    ).stat().st_size / items, "bytes an item"


def looks_of(plan: PlannedFolder, items: int) -> Iterator[Measured]:
    """Yields how long the main process takes to look at an item with its plan."""
    start = time.process_time()
    Survey.of(plan, MOST_ROWS)
    yield LOOK, 1e6 * (time.process_time() - start) / items, "µs an item"


def measured_of(folder: Path) -> Iterator[Measured]:
    """Yields what each figure is, the figure and its unit."""
    with planned_folder(folder / PLAN) as plan:
        items = sum(1 for _ in plan.read.names())
        yield from bytes_of(plan, items)
        yield from looks_of(plan, items)
        start = time.process_time()
        with own_folder(plan.path, CATALOGUE) as own, gathered.gather(
            own, plan, Means(1)
        ):
            yield CANDIDATES, 1e6 * (time.process_time() - start) / items, "µs an item"


def rounded(number: float) -> float | int:
    """Returns a figure with three digits."""
    return int(float(f"{number:.3g}")) if number >= 100 else float(f"{number:.3g}")


@click.command()
@click.argument("folder", type=click.Path(exists=True, file_okay=False, path_type=Path))
@click.option("--store", is_flag=True, help="Store the figures in figures.json.")
def main(folder: Path, store: bool) -> None:
    """Measure what grows with the items of a planned catalogue, and print a table."""
    measured = circumstances() | {"jobs": 1}
    rows: list[dict[str, Any]] = [
        {"what": what, "figure": rounded(figure), "unit": unit}
        for what, figure, unit in measured_of(folder)
    ]
    if store:
        keep("million", measured, rows)
    click.echo(million_table(rows), nl=False)


if __name__ == "__main__":
    main()
