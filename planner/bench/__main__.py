"""Measures crnplan's search for the best policy beside the published one: python -m planner.bench.

    python -m planner.bench --items 3000 --store    all of it, in some minutes, and store the figures
"""
from __future__ import annotations

import tempfile
from pathlib import Path

import click

from planner.bench.compared import all_figures, compare
from planner.bench.page import compared_table
from planner.bench.stored import circumstances, keep


@click.command()
@click.option(
    "--items",
    type=click.IntRange(100),
    default=400,
    show_default=True,
    help="Items of the catalogue.",
)
@click.option(
    "--jobs", type=click.IntRange(1), default=1, show_default=True, help="Processes."
)
@click.option("--store", is_flag=True, help="Store the figures in figures.json.")
def main(items: int, jobs: int, store: bool) -> None:
    """Plan the items of a made catalogue by crnplan and by the published algorithm, and print a table."""
    measured = circumstances() | {"jobs": jobs}
    with tempfile.TemporaryDirectory(prefix="crnplan-bench-") as folder:
        rows = all_figures(compare(Path(folder), items, jobs))
    if store:
        keep("compared", measured, rows)
    click.echo(compared_table(rows), nl=False)


if __name__ == "__main__":
    main()
