"""Measures the whole way of catalogues of several sizes, part by part: reading, learning, planning, curve, page, today's
orders and the workbook, and the plan of one item. Another checkout may be measured in turn with this one.

    python -m planner.bench.whole --items 300 --items 1000 --items 3000 --store whole
    python -m planner.bench.whole --items 3000 --jobs 4 --beside OTHER --rounds 3 --store four
"""
from __future__ import annotations

import contextlib
import os
import shutil
import sys
import tempfile
from collections import defaultdict
from collections.abc import Iterator, Sequence
from pathlib import Path
from typing import Any, NamedTuple

import click

from planner.bench.made import Made, make
from planner.bench.page import ITEM, whole_table
from planner.bench.part import FILES, PARTS, PLAN
from planner.bench.stored import circumstances, keep
from planner.bench.usage import usage_of

TOP = Path(__file__).resolve().parents[2]
Row = dict[str, Any]


class House(NamedTuple):
    """A checkout with its .venv, or this one, and the folder in which it plans."""

    top: Path
    folder: Path

    def words(self, part: str, jobs: int) -> list[str]:
        """Returns the command of a part."""
        python = (
            sys.executable if self.top == TOP else str(self.top / ".venv/bin/python")
        )
        if part == ITEM:
            case = self.top / "examples/case"
            return [
                python,
                "-m",
                "crnplan",
                "plan",
                *map(str, (case / "history.csv", case / "items.csv")),
                "--out",
                str(self.folder / ITEM),
            ]
        return [
            python,
            "-m",
            "planner.bench.part",
            part,
            str(self.folder),
            "--jobs",
            str(jobs),
        ]

    def measured(self, part: str, jobs: int) -> Row:
        """Runs a part, and returns what it takes, and the load of the machine as it began."""
        before, load = bytes_of(self.folder / PLAN), os.getloadavg()[0]
        its = usage_of(self.words(part, jobs), self.top)
        return {
            "bytes": bytes_of(self.folder / PLAN) - before,
            "load": round(load, 1),
            **{name: float(f"{value:.4g}") for name, value in its._asdict().items()},
        }


def bytes_of(folder: Path) -> int:
    """Returns how large all files of a folder are."""
    return sum(it.stat().st_size for it in folder.rglob("*") if it.is_file())


@contextlib.contextmanager
def room(kept: Path | None) -> Iterator[Path]:
    """Gives a folder for catalogues, which is removed afterwards if it is not to be kept."""
    path = kept or Path(tempfile.mkdtemp(prefix="crnplan-bench-"))
    try:
        yield path
    finally:
        if kept is None:
            shutil.rmtree(path)


def houses_of(folder: Path, beside: Path | None) -> list[House]:
    """Returns this checkout and perhaps another one, which plans the same files in a folder below."""
    other = folder / "beside"
    if beside:
        other.mkdir(exist_ok=True)
        shutil.copytree(folder / FILES, other / FILES, dirs_exist_ok=True)
    return [House(TOP, folder), *([House(beside.resolve(), other)] if beside else [])]


def measured_parts(
    folder: Path,
    items: int,
    jobs: int,
    parts: Sequence[str],
    beside: Path | None = None,
    rounds: int = 1,
) -> Iterator[Row]:
    """Makes a catalogue of so many items in a folder, and yields what each part takes: in that of several rounds which
    takes least processor time; and as `before` what it takes in another checkout, measured in turn.
    """
    made: Made = make(folder / FILES, items)
    known: defaultdict[tuple[str, House], list[Row]] = defaultdict(list)
    houses = houses_of(folder, beside)
    for number in range(rounds):
        for house in houses:
            shutil.rmtree(house.folder / PLAN, ignore_errors=True)
        for part in parts:
            for house in houses[::-1] if number % 2 else houses:
                known[part, house].append(house.measured(part, jobs))
    for part in parts:
        least = [
            min(known[part, house], key=lambda row: float(row["processor"]))
            for house in houses
        ]
        yield {
            "items": items,
            "rows": made.rows,
            "part": part,
            **least[0],
            **{"before": it for it in least[1:]},
        }


@click.command()
@click.option(
    "--items",
    "sizes",
    type=click.IntRange(100),
    multiple=True,
    default=(300,),
    show_default=True,
    help="Items of a catalogue. May be given several times.",
)
@click.option(
    "--jobs", type=click.IntRange(1), default=1, show_default=True, help="Processes."
)
@click.option(
    "--only", type=click.Choice([*PARTS, ITEM]), multiple=True, help="Only these parts."
)
@click.option(
    "--beside",
    type=click.Path(exists=True, file_okay=False, path_type=Path),
    help="Another checkout, with its .venv, that is measured in turn.",
)
@click.option(
    "--rounds",
    type=click.IntRange(1),
    default=1,
    show_default=True,
    help="So many rounds, of which the least counts for each part.",
)
@click.option(
    "--folder",
    type=click.Path(path_type=Path),
    help="Keep the catalogues in this folder.",
)
@click.option(
    "--store", metavar="NAME", help="Store the figures by this name in figures.json."
)
def main(
    sizes: Sequence[int],
    jobs: int,
    only: Sequence[str],
    beside: Path | None,
    rounds: int,
    folder: Path | None,
    store: str | None,
) -> None:
    """Measure the whole way of made catalogues, part by part, and print a table. Each size is stored as it is done."""
    measured, rows = circumstances() | {"jobs": jobs}, list[Row]()
    with room(folder) as place:
        for size in sizes:
            rows += measured_parts(
                place / str(size), size, jobs, only or [*PARTS, ITEM], beside, rounds
            )
            if store:
                keep(store, measured, rows)
    click.echo(whole_table(rows), nl=False)


if __name__ == "__main__":
    main()
