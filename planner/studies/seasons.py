"""Measures the seasons of classes: how often the test sees one that is not there, one that is, and how far off it is.

    python -m planner.studies.seasons --jobs 4 --out planner/studies/seasons.csv    all, in some minutes
    python -m planner.studies.seasons --small                                       a small part, in some seconds

A class has 10 or 60 items with a record of 2, 3 or 4 years of weeks. Means are lognormal, with 6 in the median and a
deviation of 1 of the logarithm; demand is negative binomial with a size of 3. Kinds of demand:

- `independent`; `lumpy`: in a tenth of the weeks, more or less as the mean is, with geometric sizes of mean 8;
- `common shocks`: all means go up and down together each week, with a deviation of 0.3 of the logarithm;
- `common waves`: these go over from week to week, by 0.9;
- `shifts`: once in 40 weeks the level of an item changes for good, with a deviation of 0.5; `common shifts`: that of all,
  with one of 0.3;
- `growth`: all grow by 35% a year;
- `half turned`: independent, but the season of every other item comes half a year later.

Seasons are `none`, `mild` (a sine from 0.85 to 1.15), `strong` (0.6 to 1.6) and a `peak` (four weeks at three times the
others), each begun at random. `seen`
is the share of classes for which the test sees a season, `own` that of items which then have one of their own, and `some`
that of classes with such an item. `error` is the root mean square of the index of an item, 1 if none is seen, less the
true one, over parts of the year and classes; `flat` that of 1. Seeds are fixed: [place of the kind, of the season, years, items].
"""
from __future__ import annotations

import math
from collections.abc import Iterable
from concurrent.futures import ProcessPoolExecutor
from datetime import date
from pathlib import Path
from typing import Any

import click
import numpy as np
import pandas as pd
from scipy.signal import lfilter

from crnplan.chances import Floats, Whole
from crnplan.demand.index import (
    FLAT,
    Years,
    class_index,
    own_alarms,
    own_index,
)
from crnplan.demand.seasons import PARTS_OF_YEAR, parts_of
from crnplan.read.dates import period_of
from planner.studies.page import markdown
from planner.studies.warnings import error_of, percent

STORED = Path(__file__).with_name("seasons.csv")
YEAR, FIRST = 52, period_of(date(2021, 1, 4), "week")
PARTS = PARTS_OF_YEAR["week"]
PART = (np.arange(PARTS) + 0.5) / PARTS
STRONG = (0.6, 0.65, 0.8, 0.9, 1.0, 1.1, 1.25, 1.5, 1.6, 1.2, 0.8, 0.6)


def of_year(amounts: Floats) -> Floats:
    """Returns an index by part of the year, whose mean is 1."""
    return np.asarray(amounts / amounts.mean())


SEASONS: dict[str, Floats] = {
    "none": np.ones(PARTS),
    "mild": 1 + 0.15 * np.sin(2 * math.pi * PART),
    "strong": of_year(np.interp(12 * PART - 0.5, range(12), STRONG, period=12)),
    "peak": of_year(np.where(np.arange(PARTS) < 2, 3.0, 1.0)),
}
KINDS = (
    *("independent", "lumpy", "common shocks", "common waves"),
    *("shifts", "common shifts", "growth"),
    TURNED := "half turned",
)
# Of which power is measured.
OF_SEASONS = ("independent", "lumpy", "common shocks", TURNED)
YEARS, ITEMS = (2, 3, 4), (10, 60)
CLASSES = {"none": 1000, "mild": 200, "strong": 200, "peak": 200}
FIGURES = ("seen", "own", "some", "error")
CASES = [
    (kind, season, years, items)
    for season in SEASONS
    for kind in (KINDS[:-1] if season == "none" else OF_SEASONS)
    for years in YEARS
    for items in ITEMS
]
SMALL = [
    ("independent", "none", 2, 10),
    ("growth", "none", 3, 10),
    ("independent", "strong", 2, 10),
]


def steps(random: np.random.Generator, rows: int, weeks: int, size: float) -> Floats:
    """Draws logarithms of levels that change for good, once in 40 weeks."""
    changes = random.random((rows, weeks)) < 1 / 40
    return np.cumsum(changes * random.normal(0, size, (rows, weeks)), axis=1)


def levels(random: np.random.Generator, kind: str, items: int, weeks: int) -> Floats:
    """Draws the logarithms of the levels of items beside their means: a row for each item, or one for all."""
    match kind:
        case "common shocks":
            return random.normal(0, 0.3, (1, weeks))
        case "common waves":
            shocks = random.normal(0, 0.3 * math.sqrt(1 - 0.9**2), (1, weeks))
            return np.asarray(lfilter([1], [1, -0.9], shocks, axis=1))
        case "shifts":
            return steps(random, items, weeks, 0.5)
        case "common shifts":
            return steps(random, 1, weeks, 0.3)
        case "growth":
            return 0.3 * np.arange(weeks)[None] / YEAR
    return np.zeros((1, weeks))


def demand(
    random: np.random.Generator, kind: str, index: Floats, years: int, items: int
) -> Whole:
    """Draws the demand of a class, whose items have an index each, or all the same: a row for each item."""
    weeks = years * YEAR
    factors = index[:, parts_of("week", FIRST, weeks)]
    factors = factors * np.exp(levels(random, kind, items, weeks))
    if kind == "lumpy":
        is_asked = random.random((items, weeks)) < 0.1 * factors
        return np.where(is_asked, random.geometric(1 / 8, (items, weeks)), 0)
    means = np.exp(random.normal(math.log(6), 1, (items, 1))) * factors
    return random.negative_binomial(3, 3 / (3 + means))


def case(kind: str, season: str, years: int, items: int, count: int) -> dict[str, Any]:
    """Returns the figures of so many classes."""
    places = KINDS.index(kind), [*SEASONS].index(season)
    random = np.random.default_rng([*places, years, items])
    seen, some, owns, squares = 0, 0, list[float](), list[float]()
    for _ in range(count):
        truth = np.roll(SEASONS[season], random.integers(PARTS))[None]
        if kind == TURNED:
            truth = np.resize([truth[0], np.roll(truth[0], PARTS // 2)], (items, PARTS))
        drawn = demand(random, kind, truth, years, items).tolist()
        known = [Years.of(counts, "week", FIRST) for counts in drawn]
        index = class_index(known)
        seen += index is not None
        alarms = own_alarms(known)
        own = [own_index(one, index, alarms) for one in known]
        owns.append(np.mean([one is not index for one in own]))
        some += owns[-1] > 0
        values = np.array([one.values if one else [FLAT] * PARTS for one in own])
        squares.append(float(((values - truth) ** 2).mean()))
    error = math.sqrt(np.mean(squares))
    spread = np.std(squares, ddof=1) / math.sqrt(count)
    return {
        "kind": kind,
        "season": season,
        "years": years,
        "items": items,
        "classes": count,
        "seen": seen / count,
        "seen_error": error_of(seen / count, count),
        "own": np.mean(owns),
        "own_error": np.std(owns, ddof=1) / math.sqrt(count),
        "some": some / count,
        "some_error": error_of(some / count, count),
        "error": error,
        "error_error": spread / (2 * error) if error else 0.0,
        "flat": float(np.std(SEASONS[season])),
    }


def study(
    cases: Iterable[tuple[str, str, int, int]], count: int | None = None, jobs: int = 1
) -> pd.DataFrame:
    """Returns a row for each case, of so many classes, or of as many as are stored."""
    words = [(*own, count or CLASSES[own[1]]) for own in cases]
    with ProcessPoolExecutor(jobs) as pool:
        return pd.DataFrame([*pool.map(case, *zip(*words))])


def table_of(rows: pd.DataFrame) -> pd.DataFrame:
    """Returns a line for each kind and season, with the classes seen by years and items, and the worst error."""
    lines = []
    for (season, kind), part in rows.groupby(["season", "kind"], sort=False):
        line = {"season": season, "demand": kind}
        for row in part.to_dict("records"):
            name = f"{row['years']} years, {row['items']}"
            line[name] = percent(row["seen"], row["seen_error"])
        lines.append(line)
    return pd.DataFrame(lines)


def error_table(rows: pd.DataFrame) -> pd.DataFrame:
    """Returns a line for each kind and season with the error of the index by years and items, in hundredths."""
    lines = []
    for (season, kind), part in rows.groupby(["season", "kind"], sort=False):
        flat = f"{100 * part['flat'].iloc[0]:.1f}"
        line = {"season": season, "demand": kind, "flat": flat}
        for row in part.to_dict("records"):
            name = f"{row['years']} years, {row['items']}"
            line[name] = percent(row["error"], row["error_error"])
        line["own, most"] = f"{100 * part['own'].max():.1f}"
        line["classes, most"] = f"{100 * part['some'].max():.1f}"
        lines.append(line)
    return pd.DataFrame(lines)


def tables() -> dict[str, str]:
    """Returns the stored figures for the page."""
    rows = pd.read_csv(STORED)
    return {
        "seasons": markdown(table_of(rows)),
        "season-errors": markdown(error_table(rows)),
    }


@click.command()
@click.option("--small", is_flag=True, help="Run a small part.")
@click.option("--jobs", type=click.IntRange(1), default=1, show_default=True)
@click.option(
    "--out",
    type=click.Path(dir_okay=False, path_type=Path),
    help="Write the rows as CSV.",
)
def main(small: bool, jobs: int, out: Path | None) -> None:
    """Measure the test and the index of the seasons of classes."""
    rows = study(SMALL, 100) if small else study(CASES, jobs=jobs)
    if out:
        rows.to_csv(out, index=False, float_format="%.4f")
    click.echo(rows.round(3).to_string(index=False))


if __name__ == "__main__":
    main()
