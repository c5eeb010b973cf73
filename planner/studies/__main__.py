"""Runs all studies, stores their figures and writes the page: python -m planner.studies, in some hours.

    python -m planner.studies --jobs 4        several processes, where a study takes them
    python -m planner.studies doubt fills     some studies alone
"""
from __future__ import annotations

import subprocess
import sys
from collections.abc import Sequence
from pathlib import Path

import click

from .page import STUDIES

FOLDER = Path(__file__).parent
WITH_JOBS = (
    "laws",
    "laws_leads",
    "long_run",
    "fills",
    "cut_sales",
    "borrowing",
    "doubt",
    "seasons",
    "season_real",
    "by_commands",
    "walk_forward",
    "broken",
    "level_spread_tail",
    "correction",
    "costs",
    "moving",
    "beside_rules",
    "next_year",
    "promotions",
)
PRINTED = ("long_run",)  # its table is a text
SEVERAL = ("borrowing", "walk_forward")  # they write more than one file, into a folder


def words_of(study: str, jobs: int) -> Sequence[str]:
    """Returns the words that run a study."""
    out = (
        []
        if study in PRINTED
        else ["--out", str(FOLDER if study in SEVERAL else FOLDER / f"{study}.csv")]
    )
    return [
        sys.executable,
        "-m",
        f"planner.studies.{study}",
        *(["--jobs", str(jobs)] * (study in WITH_JOBS)),
        *out,
    ]


@click.command()
@click.argument("studies", nargs=-1, type=click.Choice(STUDIES))
@click.option("--jobs", type=click.IntRange(1), default=1, show_default=True)
def main(studies: Sequence[str], jobs: int) -> None:
    """Run studies, all or some, store their figures and write the page. It stops at the first that fails."""
    for study in studies or STUDIES:
        click.echo(f"{study}: running")
        done = subprocess.run(
            words_of(study, jobs), capture_output=study in PRINTED, text=True
        )
        if done.returncode:
            raise click.ClickException(
                f"{study}: status {done.returncode}\n{done.stderr or ''}"
            )
        if study in PRINTED:
            (FOLDER / f"{study}.txt").write_text(done.stdout, encoding="utf-8")
    subprocess.run([sys.executable, "-m", "planner.studies.page"], check=True)


if __name__ == "__main__":
    main()
