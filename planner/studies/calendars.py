"""Measures how often classes are taken for moved by Easter, or by the weeks of a quarter, if they are and if they aren't.

    python -m planner.studies.calendars --out planner/studies/calendars.csv    all, in some minutes
    python -m planner.studies.calendars --small                                 a small part, in some seconds

`open_kinds.py` makes the kinds, with classes of 16 items and two years of weeks; the seeds are others than those of
`beside_rules.py`. `easter` and `quarter` are the shares of classes in which either is seen.
"""
from __future__ import annotations

import math
from collections import defaultdict
from collections.abc import Iterable
from pathlib import Path
from typing import Any

import click
import pandas as pd

from crnplan.demand.seasons import Calendar
from crnplan.plan.seasons import calendar_of
from crnplan.read.item import Item
from planner.studies.open_kinds import catalogue_of
from planner.studies.open_ways import item_of
from planner.studies.page import markdown
from planner.studies.warnings import percent

STORED = Path(__file__).with_name("calendars.csv")
KINDS = "flat", "season", "promotions", "mixed", "correlated", "easter", "4-4-5"
SEEDS, SMALL_SEEDS = range(101, 201), range(101, 106)
FIGURES = Calendar._fields


def calendars(kind: str, seed: int) -> list[Calendar]:
    """Returns what is learned of the classes of a catalogue."""
    catalogue, groups = catalogue_of(kind, seed), defaultdict[str, list[Item]](list)
    for one in catalogue.items:
        item = item_of(one, catalogue.record, catalogue.record)
        groups[item.group].append(item)
    return [calendar_of(own)[0] for own in groups.values()]


def study(seeds: Iterable[int]) -> pd.DataFrame:
    """Returns a row for each kind."""
    rows = []
    for kind in KINDS:
        seen = [one for seed in seeds for one in calendars(kind, seed)]
        row: dict[str, Any] = {"kind": kind, "classes": len(seen)}
        for name in FIGURES:
            share = sum(bool(getattr(one, name)) for one in seen) / len(seen)
            error = math.sqrt(share * (1 - share) / len(seen))
            row |= {name: share, f"{name}_error": error}
        rows.append(row)
    return pd.DataFrame(rows)


def tables() -> dict[str, str]:
    """Returns the stored figures for the page."""
    rows = pd.read_csv(STORED)
    shown = rows[["kind", "classes"]].copy()
    for name in FIGURES:
        pairs = zip(rows[name], rows[f"{name}_error"])
        shown[f"{name}, %"] = [percent(*pair) for pair in pairs]
    return {"calendars": markdown(shown)}


@click.command()
@click.option("--small", is_flag=True, help="Run a small part.")
@click.option("--out", type=click.Path(dir_okay=False, path_type=Path))
def main(small: bool, out: Path | None) -> None:
    """Measure what is learned of Easter and of quarters."""
    rows = study(SMALL_SEEDS if small else SEEDS)
    if out:
        rows.to_csv(out, index=False, float_format="%.4f")
    click.echo(rows.round(3).to_string(index=False))


if __name__ == "__main__":
    main()
