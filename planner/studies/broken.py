"""Measures what a warning about a history says of the periods that come: whether its promise is broken more often.

    python -m planner.studies.broken --out planner/studies/broken.csv    in some minutes; needs R
    python -m planner.studies.broken --small                             a small part, of made series

Each series is an item as in `walk_forward`, which is planned from its record for fill rates of 95% and 98%. A promise is
broken if the plan, kept over the later periods, misses the fill rate that it promised by more than a point. The codes
are those that the record has (`crnplan.demand.checks`), and `one decides` and `three decide`: its largest demand, or its
three largest ones, make more than half of the variance, if ten periods or more have demand.

The table has the share of items that broke their promise with a code and without it, and the difference within sets: the
coefficient of the code in a regression with a constant for each set. Its error is that of clusters: a brand of the
juice, a data set of reported cases, and each other set are one, since their series move together (Cameron and Miller, A
practitioner's guide to cluster-robust inference, 2015). Made series are those of `walk_forward`, with fixed
seeds; they are in no table.
"""
from __future__ import annotations

import math
from collections.abc import Iterator, Sequence
from concurrent.futures import ProcessPoolExecutor
from fractions import Fraction
from pathlib import Path
from typing import Any, NamedTuple

import click
import numpy as np
import pandas as pd

from crnplan.demand.checks import (
    checks_of,
    largest_periods,
    largest_places,
    share_of_variance,
)
from crnplan.demand.learning import Prior
from crnplan.errors import Refused
from crnplan.plan.backtest.methods import PLANNED, Walk, Way
from crnplan.plan.backtest.estimates import squares
from crnplan.plan.backtest.sums import SLACK
from crnplan.plan.how import NONE, Settings
from planner.studies.kept_plans import kept_walk
from planner.studies.level_spread_tail import WALK, item_of, sets_of
from planner.studies.page import markdown
from planner.studies.real_series import Series
from planner.studies.walk_forward import WALKS

STORED = Path(__file__).with_name("broken.csv")
SETS = ("juice", "cheese", "tuna", "flu", "measles", "cases")
FILLS = {"95": Fraction(95, 100), "98": Fraction(98, 100)}
ITEMS = 80
DECIDING, HALF = {"one decides": 1, "three decide": 3}, 0.5
LEAST = 8  # items with a code that is in the table
SMALL: dict[str, Any] = {"sets": (), "kinds": ("shift",), "items": 6}  # of `study`


class Job(NamedTuple):
    """A series of a set with its number there, and the walk through it."""

    kind: str
    number: int
    series: Series
    walk: tuple[int, int, int]


def cluster_of(kind: str, name: str) -> str:
    """Returns what a series moves together with: a brand, a data set of cases, or its set."""
    if kind == "juice":
        return f"juice {name.partition('brand')[2].strip()}"
    return name.split()[0] if kind == "cases" else kind


def broken(job: Job, fill: Fraction) -> bool:
    """Returns whether the plan of a record breaks its promise later. Raises Refused if there is no plan."""
    item = item_of(job.series, None, job.walk[0], fill)
    ways = {PLANNED: Way(Settings(), Prior(NONE))}
    walked = kept_walk(item, Walk(*job.walk), ways)
    plan = walked.planned[0].figures
    kept = walked.happened.of_figures([plan] * walked.happened.later)
    return kept.fill is not None and (kept.promised_fill or 0) - kept.fill > SLACK


def codes_of(record: Sequence[int]) -> list[str]:
    """Returns the codes of a record."""
    checks = checks_of(record, "week", 0, False)
    codes = [remark.code for remark in (*checks.warnings, *checks.notes)]
    return codes + [
        name
        for name, count in DECIDING.items()
        if largest_periods(record)
        and share_of_variance(record, largest_places(record, count)) > HALF
    ]


def row_of(job: Job) -> dict[str, Any] | None:
    """Returns the row of a series; None if it could not be planned."""
    try:
        missed = {fill: int(broken(job, share)) for fill, share in FILLS.items()}
    except Refused:
        return None
    return {
        "set": job.kind,
        "cluster": cluster_of(job.kind, job.series.name),
        "item": job.number,
        "codes": "; ".join(codes_of(job.series.counts[: job.walk[0]])),
        **missed,
    }


def study(
    sets: Sequence[str] = SETS,
    kinds: Sequence[str] = ("shift",),
    items: int = ITEMS,
    jobs: int = 1,
) -> pd.DataFrame:
    """Returns a row for each series that can be planned."""
    work = [
        Job(kind, number, series, WALKS.get(kind, WALK))
        for kind, its in sets_of(sets, kinds, items)
        for number, series in enumerate(its)
    ]
    with ProcessPoolExecutor(jobs) as pool:
        return pd.DataFrame([row for row in pool.map(row_of, work) if row])


def difference(
    rows: pd.DataFrame, has: pd.Series[bool], fill: str
) -> tuple[float, float]:
    """Returns how much oftener promises are broken with a code than without it, within sets, and its error."""
    code, missed = has.astype(float), rows[fill].astype(float)
    code, missed = (
        its - its.groupby(rows["set"]).transform("mean") for its in (code, missed)
    )
    own = float((code * missed).sum() / (code**2).sum())
    influence = code * (missed - own * code) / (code**2).sum()
    clusters = pd.factorize(rows["cluster"])[0]
    return own, math.sqrt(squares(influence.to_numpy(), np.asarray(clusters, np.int64)))


def lines_of(rows: pd.DataFrame) -> Iterator[dict[str, str]]:
    """Yields the lines of the table of codes, that of the greatest difference at 98% first."""
    codes = rows["codes"].str.split("; ")
    counts = codes.explode().value_counts()
    lines = list[tuple[float, dict[str, str]]]()
    for name in counts.index[(counts >= LEAST) & (counts.index != "")]:
        has = codes.map(lambda own, name=name: name in own)
        line, own = {
            "code": name,
            "items": str(has.sum()),
            "sets": str(rows[has]["set"].nunique()),
        }, 0.0
        for fill in FILLS:
            own, error = difference(rows, has, fill)
            line |= {
                f"broke {fill}%: with it, %": f"{100 * rows[has][fill].mean():.0f}",
                f"{fill}%: without, %": f"{100 * rows[~has][fill].mean():.0f}",
                f"{fill}%: difference within sets, points": f"{100 * own:+.0f} ± {100 * error:.0f}",
            }
        lines.append((own, line))
    yield from (line for _, line in sorted(lines, key=lambda pair: -pair[0]))


def share_of(rows: pd.DataFrame, fill: str) -> str:
    """Returns the share of items that broke their promise, in percent, with the error of its clusters if they are
    several."""
    mean, clusters = rows[fill].mean(), np.asarray(
        pd.factorize(rows["cluster"])[0], np.int64
    )
    influence = (rows[fill] - mean).to_numpy(float) / len(rows)
    error = (
        f" ± {100 * math.sqrt(squares(influence, clusters)):.0f}"
        if len(np.unique(clusters)) > 1
        else ""
    )
    return f"{100 * mean:.0f}{error}"


def tables() -> dict[str, str]:
    """Returns the stored figures for the page: of sets, and of codes."""
    stored = pd.read_csv(STORED, keep_default_na=False)
    rows = stored[stored["set"].isin(SETS)].reset_index(drop=True)
    sets = [
        {
            "set": str(name),
            "items": str(len(own)),
            "clusters": str(own["cluster"].nunique()),
            **{f"broke {fill}%, %": share_of(own, fill) for fill in FILLS},
        }
        for name, own in (*rows.groupby("set", sort=False), ("all", rows))
    ]
    return {
        "broken-sets": markdown(pd.DataFrame(sets)),
        "broken": markdown(pd.DataFrame(lines_of(rows))),
    }


@click.command()
@click.option("--small", is_flag=True, help="Run a small part, of made series.")
@click.option("--jobs", type=click.IntRange(1), default=1, show_default=True)
@click.option(
    "--items",
    type=click.IntRange(2),
    default=ITEMS,
    show_default=True,
    help="Series of a set, at most.",
)
@click.option(
    "--out",
    type=click.Path(dir_okay=False, path_type=Path),
    help="Write the rows as CSV.",
)
def main(small: bool, jobs: int, items: int, out: Path | None) -> None:
    """Measure what warnings say of the periods that come."""
    rows = study(**SMALL, jobs=jobs) if small else study(items=items, jobs=jobs)
    if out:
        rows.to_csv(out, index=False)
    click.echo(pd.DataFrame(lines_of(rows)).to_string(index=False))


if __name__ == "__main__":
    main()
