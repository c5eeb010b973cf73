"""Compares what crnplan computes with stored golden data, figure by figure, or stores them anew.

    python -m planner.golden                     all parts, in some minutes with two processes
    python -m planner.golden --part few          one part; may be given several times
    python -m planner.golden --store             stores the figures as they are now

Each figure that differs is printed: its key, the stored and the new value, and the relative difference. The last line
counts them, and the status is 1 if there are any.
"""
from __future__ import annotations

import sys
from collections.abc import Sequence
from pathlib import Path

import click

from crnplan import find_program
from planner.golden.compared import compared, line_of, store
from planner.golden.parts import PARTS


@click.command()
@click.option(
    "--part",
    "names",
    type=click.Choice([*PARTS]),
    multiple=True,
    help="Only these parts.",
)
@click.option(
    "--store",
    "is_stored",
    is_flag=True,
    help="Store the figures in place of those before.",
)
@click.option(
    "--jobs", type=click.IntRange(1), default=2, show_default=True, help="Processes."
)
@click.option("--program", type=click.Path(path_type=Path), help="The program crnsim.")
def main(
    names: Sequence[str], is_stored: bool, jobs: int, program: Path | None
) -> None:
    """Compare what crnplan computes with the golden data, or store them."""
    path, total, moved, expected = str(find_program(program)), 0, 0, 0
    for name in names or PARTS:
        figures = PARTS[name](path, jobs)
        if is_stored:
            click.echo(f"{name}: {store(name, figures):,} figures stored")
            continue
        count, differences = compared(name, figures)
        for it in differences:
            click.echo(line_of(it))
        total, moved = total + count, moved + len(differences)
        expected += sum(it.is_expected for it in differences)
        click.echo(
            f"{name}: {len(differences):,} of {count:,} figures differ", err=True
        )
    if not is_stored:
        click.echo(
            f"{moved:,} of {total:,} figures differ, {expected:,} of them are expected to move"
        )
        sys.exit(moved > 0)


if __name__ == "__main__":
    main()
