"""Measures how fast the items of a catalogue are handed out and their answers are kept, if workers answer at once.

    python -m planner.bench.hand_out --items 1000000 --way Dask --store

Workers are processes of this machine, or those of a Dask cluster on it.
"""
from __future__ import annotations

import contextlib
import importlib
import resource
import tempfile
import time
from collections.abc import Iterator
from operator import itemgetter
from pathlib import Path
from typing import Any

import click

from crnplan.store.clusters import cluster
from crnplan.store.jobs import Workers, processes
from crnplan.plan.answer import LawFacts
from crnplan.store.stored import NamedDigest, Store
from crnplan.store.work import Work
from planner.bench.page import handed_table
from planner.bench.stored import circumstances, keep, stored

FACTS = "x" * 500  # about as many bytes as the facts of an item have
ANSWER = LawFacts("x" * 1_000, 1.0, None, 1.0, 1.0)  # and an answer


def instant(item: str, prior: str) -> LawFacts:
    """Gives each item the same answer."""
    return ANSWER


@contextlib.contextmanager
def dask(count: int) -> Iterator[Workers]:
    """Gives so many workers of a Dask scheduler on this machine."""
    distributed: Any = importlib.import_module("distributed")
    with (
        distributed.LocalCluster(
            n_workers=count, threads_per_worker=1, dashboard_address=None
        ) as local,
        cluster(local.scheduler_address) as workers,
    ):
        yield workers


def measure(
    folder: Path, items: int, workers: contextlib.AbstractContextManager[Workers]
) -> tuple[float, float]:
    """Returns how many items a second of the main process's time, and of wall, are handed out, answered and kept."""

    def questions() -> Iterator[NamedDigest]:
        for number in range(items):
            yield f"P{number:09}", 32 * "0"

    with contextlib.closing(
        Store(folder / "answers.sqlite", LawFacts)
    ) as answers, workers as running:
        work = Work(
            answers, questions, lambda name: name + FACTS, instant, (40_000 * "p",)
        )
        start, used = time.perf_counter(), time.process_time()
        work.finish(contextlib.nullcontext(running), shown=False)
        return items / (time.process_time() - used), items / (
            time.perf_counter() - start
        )


@click.command()
@click.option("--items", type=click.IntRange(1), default=100_000, show_default=True)
@click.option("--jobs", type=click.IntRange(1), default=2, show_default=True)
@click.option(
    "--way",
    type=click.Choice(["processes", "Dask"]),
    default="processes",
    show_default=True,
    help="Where the workers are.",
)
@click.option(
    "--store",
    is_flag=True,
    help="Store the figures in figures.json, beside those of the other ways.",
)
def main(items: int, jobs: int, way: str, store: bool) -> None:
    """Print the rates, and the most memory of the main process. Each way is measured by a process of its own."""
    measured = circumstances() | {"jobs": jobs}
    with tempfile.TemporaryDirectory() as path:
        own, wall = measure(
            Path(path), items, processes(jobs) if way == "processes" else dask(jobs)
        )
    most = resource.getrusage(resource.RUSAGE_SELF).ru_maxrss / 1024
    row = {
        "items": items,
        "jobs": jobs,
        "way": way,
        "rate": round(wall),
        "own": round(own),
        "memory": round(most),
    }
    if store:
        others = [
            other
            for other in stored().get("handed", {"rows": []})["rows"]
            if other["way"] != way
        ]
        keep(
            "handed",
            measured,
            sorted([*others, row], key=itemgetter("way"), reverse=True),
        )
    click.echo(handed_table([row]), nl=False)


if __name__ == "__main__":
    main()
