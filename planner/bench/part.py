"""Runs one part of the way of a catalogue by itself, so that its time and memory can be measured.

    python -m planner.bench.part PART FOLDER --jobs N

FOLDER has the files of `made.py` in `files`; the plan is in `plan`. Each part needs what those before it have written.
"""
from __future__ import annotations

import contextlib
from collections.abc import Callable
from pathlib import Path

import click

from crnplan.read.items import Reading
from crnplan.read.catalogue_reading import CATALOGUE, READ, Catalogued, read_alone
from crnplan.store.files import own_folder
from planner.bench.made import Made

FILES, PLAN = "files", "plan"


def read(folder: Path, jobs: int) -> None:
    """Reads the files."""
    read_alone(folder / PLAN, Made(folder / FILES).paths, Reading(), jobs)


def learn(folder: Path, jobs: int) -> None:
    """Learns laws of demand from all items, which the plan then uses."""
    from crnplan.plan.catalogue import ANSWERS
    from crnplan.plan.learned import learned_of
    from crnplan.plan.question import Settings
    from crnplan.plan.answer import Answer
    from crnplan.store.stored import Store

    with (
        own_folder(folder / PLAN, CATALOGUE) as own,
        contextlib.closing(Catalogued(own.path / READ)) as its,
        contextlib.closing(Store(own.store(ANSWERS), Answer)) as answers,
    ):
        learned_of(answers, its, Settings(), True)


def plan(folder: Path, jobs: int) -> None:
    """Plans all items, and writes the tables."""
    from crnplan.show.catalogue_page import CATALOGUE_FILES
    from crnplan.catalogues import plan_catalogue
    from crnplan.plan.question import Settings
    from crnplan.store.means import Means

    with own_folder(folder / PLAN, CATALOGUE, CATALOGUE_FILES) as own:
        plan_catalogue(own, Settings(), Means(jobs))


def curve(folder: Path, jobs: int) -> None:
    """Draws the exchange curve."""
    from crnplan import exchange_curve

    exchange_curve(folder / PLAN, jobs=jobs)


def page(folder: Path, jobs: int) -> None:
    """Writes the page of all items."""
    from crnplan.show.catalogue_page import report

    report(folder / PLAN)


def today(folder: Path, jobs: int) -> None:
    """Says what to order, by the stock of the masters."""
    from crnplan.show.today_tables import orders_today

    click.echo(orders_today(folder / PLAN, {}, Reading(), None).text)


def workbook(folder: Path, jobs: int) -> None:
    """Writes the workbook of a plan into it."""
    from crnplan.show.workbook import write_workbook

    write_workbook(folder / PLAN, folder / PLAN / "plan.xlsx")


PARTS: dict[str, Callable[[Path, int], None]] = {
    it.__name__: it for it in (read, learn, plan, curve, page, today, workbook)
}


@click.command()
@click.argument("part", type=click.Choice([*PARTS]))
@click.argument("folder", type=click.Path(exists=True, file_okay=False, path_type=Path))
@click.option(
    "--jobs", type=click.IntRange(1), default=1, show_default=True, help="Processes."
)
def main(part: str, folder: Path, jobs: int) -> None:
    """Run one part of the way of a catalogue."""
    PARTS[part](folder, jobs)


if __name__ == "__main__":
    main()
