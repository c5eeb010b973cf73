"""Compares plans by a season with plans that know of none, on made catalogues, in the year after the record.

    python -m planner.studies.season_plans --out planner/studies/season_plans.csv    all, in some minutes
    python -m planner.studies.season_plans --small                                   a small part, in some seconds

A catalogue has 60 items in three classes, which it knows. Their seasons are `none`, `strong` (0.6 to 1.6) or a `peak`
(those of `planner.studies.seasons`), and begin a third of a year apart. Means are lognormal, with 10 in the median and a deviation of 0.8
of the logarithm; each week a mean deviates by 5% more. Demand is negative binomial: `steady` has a variance of 1.5 means,
`erratic` a size of 1.2. Items have a lead time of 2 weeks and a setup cost of 8 weeks of holding.

Plans are from 104 or 156 weeks, and kept for the 52 that come: `flat` has one policy, `seasonal` the levels of each part of
the year as `crnplan plan` has them in levels.csv. All items weigh alike. `fill` is the share of demand met at once, `peak`
that in the 14 weeks with the highest index, or the four of a `peak`; errors are over items and blocks of weeks. `stock` is the mean stock in weeks
of demand. `at equal fill` is the mean stock by season beside the flat one if the nominal fill rate of each is raised until
the wanted one comes, with an error over items. Seeds are fixed: [place of the season, of the demand, weeks, number].
"""
from __future__ import annotations

import dataclasses
import math
from collections.abc import Iterable, Sequence
from datetime import date
from pathlib import Path
from typing import Any, NamedTuple

import click
import numpy as np
import pandas as pd

from crnplan.chances import Floats, Whole
from crnplan.crnsim.periods import Realization, periods_of
from crnplan.demand.seasons import parts_of
from crnplan.plan.aims import FILLS
from crnplan.plan.backtest.sums import BLOCK, Ratio
from crnplan.plan.correction import levels_of
from crnplan.plan.how import NONE, Settings
from crnplan.plan.question import Levels, Question, question_of
from crnplan.plan.seasons import Seasons
from crnplan.read.dates import period_of
from crnplan.read.item import Item
from planner.studies.correction import item_of
from planner.studies.page import markdown
from planner.studies.real_series import Series
from planner.studies.seasons import PARTS, SEASONS
from planner.studies.walk_forward import LEAD
from planner.studies.warnings import percent

STORED = Path(__file__).with_name("season_plans.csv")
FIRST, LATER = period_of(date(2021, 1, 4), "week"), 52
KINDS, RECORDS, NUMBERS, ITEMS, CLASSES = ("steady", "erratic"), (104, 156), 2, 60, 3
WAYS = FLAT, SEASONAL = "flat", "seasonal"
WANTED = (0.95, 0.98)
CASES = [
    (season, kind, record)
    for season in ("none", "strong", "peak")
    for kind in KINDS
    for record in RECORDS
]
SMALL: dict[str, Any] = {
    "cases": [("strong", "steady", 104)],
    "numbers": 1,
    "items": 30,
}
FIGURES = ("fill", "peak", "at_equal_fill")
DRAWS = 400  # of items, for the error of a ratio of stocks


class Run(NamedTuple):
    """What policies for `FILLS` come to: by later week the demand, and with a column for each policy what of it is unmet,
    and the stock; in units of the item's mean."""

    asked: Floats
    unmet: Floats
    stock: Floats


def counts_of(
    random: np.random.Generator, kind: str, index: Floats, weeks: int
) -> tuple[int, ...]:
    """Draws the demand of an item."""
    mean = (
        np.exp(random.normal(math.log(10), 0.8)) * index[parts_of("week", FIRST, weeks)]
    )
    mean = mean * np.exp(random.normal(0, 0.05, weeks))
    size = mean / 0.5 if kind == "steady" else np.full(weeks, 1.2)
    return tuple(random.negative_binomial(size, size / (size + mean)).tolist())


def policies(question: Question, way: str) -> list[list[Levels]]:
    """Returns for each later week the policies for `FILLS`."""
    if way == FLAT or question.season is None:
        return [levels_of(question.theory.free)] * LATER
    weeks = list[list[Levels]]()
    for stretch in question.season.year:
        part = levels_of(question.during(stretch).theory.free)
        weeks += [part] * (stretch.end - stretch.first)
    return weeks


def run_of(counts: Sequence[int], record: int, weeks: list[list[Levels]]) -> Run:
    """Returns what the policies of later weeks come to. Before, those of the first of them are in use, for as long as a
    year."""
    past = counts[record - LATER :]
    size, mean = len(past), float(np.mean(counts))
    unmet, stock = list[Floats](), list[Floats]()
    for place in range(len(FILLS)):
        levels = [week[place] for week in weeks]
        before = [levels[0]] * LATER
        happened = Realization(past, (0,) * size, (LEAD,) * size)
        periods = periods_of(happened, before + levels, levels[0][1])[LATER:]
        unmet.append(np.array([period.unmet for period in periods], float))
        stock.append(np.array([max(0, period.stock) for period in periods], float))
    asked = np.array(past[LATER:], float)
    return Run(asked / mean, np.transpose(unmet) / mean, np.transpose(stock) / mean)


def fill_of(runs: Sequence[Run], place: int, is_in: Sequence[Floats]) -> Ratio:
    """Returns what policies for a fill rate leave unmet in some of the weeks of each item."""
    unmet = np.concatenate([run.unmet[own, place] for run, own in zip(runs, is_in)])
    asked = np.concatenate([run.asked[own] for run, own in zip(runs, is_in)])
    items = np.repeat(np.arange(len(runs)), [int(own.sum()) for own in is_in])
    blocks = np.concatenate([np.flatnonzero(own) for own in is_in]) // BLOCK
    return Ratio(unmet, asked, items, blocks)


class Sums(NamedTuple):
    """What items come to over all weeks: a row for each, and a column for each policy but of what is asked for."""

    asked: Floats
    unmet: Floats
    stock: Floats

    @classmethod
    def of(cls, runs: Sequence[Run]) -> Sums:
        """Adds up runs."""
        asked = np.array([run.asked.sum() for run in runs])
        unmet = np.array([run.unmet.sum(axis=0) for run in runs])
        return cls(asked, unmet, np.array([run.stock.mean(axis=0) for run in runs]))

    def needed(self, wanted: float, items: Whole) -> float:
        """Returns the mean stock of some items with which a fill rate comes, between policies by the logarithm of what
        they leave unmet."""
        left = self.unmet[items].sum(axis=0) / self.asked[items].sum()
        logs = np.log(np.maximum.accumulate(np.maximum(left, 1e-6)[::-1]))
        stock = self.stock[items].mean(axis=0)[::-1]
        return float(np.interp(math.log(1 - wanted), logs, stock))


def beside_flat(own: Sums, flat: Sums, wanted: float) -> tuple[float, float]:
    """Returns the stock that a fill rate takes beside that of flat plans, with its standard error: of drawn items."""
    count, random = len(own.asked), np.random.default_rng(1)
    drawn = [np.arange(count), *random.integers(0, count, (DRAWS, count))]
    ratios = [own.needed(wanted, it) / flat.needed(wanted, it) for it in drawn]
    return ratios[0], float(np.std(ratios[1:], ddof=1))


def catalogue(
    season: str, kind: str, record: int, number: int, items: int
) -> tuple[dict[str, list[Run]], list[Floats]]:
    """Returns the runs of the items of a catalogue by way, and of each which weeks are those of its peak quarter."""
    places = [*SEASONS].index(season), KINDS.index(kind)
    random = np.random.default_rng([*places, record, number])
    drawn, made = list[tuple[int, ...]](), list[Item]()
    peaks, parts = list[Floats](), parts_of("week", FIRST + record, LATER)
    for place in range(items):
        index = np.roll(SEASONS[season], PARTS // CLASSES * (place % CLASSES))
        counts = counts_of(random, kind, index, record + LATER)
        item = item_of(Series(f"{season} {place}", counts), record)
        made.append(dataclasses.replace(item, group=str(place % CLASSES), first=FIRST))
        peak = np.argmax(sum(np.roll(index, turn) for turn in range(-3, 4)))
        drawn.append(counts)
        peaks.append((parts - peak + 3) % PARTS < 7)
    runs, seasons = {way: list[Run]() for way in WAYS}, Seasons.of("week", made)
    for way, known in ((FLAT, None), (SEASONAL, seasons)):
        settings = Settings(borrow=NONE, every="week", seasons=known)
        for counts, item in zip(drawn, made):
            weeks = policies(question_of(item, settings), way)
            runs[way].append(run_of(counts, record, weeks))
    return runs, peaks


def case(
    season: str, kind: str, record: int, numbers: int, items: int
) -> list[dict[str, Any]]:
    """Returns the figures of so many catalogues together, for each wanted fill rate and way."""
    runs, peaks = {way: list[Run]() for way in WAYS}, list[Floats]()
    for number in range(numbers):
        own, quarters = catalogue(season, kind, record, number, items)
        peaks += quarters
        for way in WAYS:
            runs[way] += own[way]
    every = [np.ones(LATER, bool)] * len(peaks)
    rows = list[dict[str, Any]]()
    sums = {way: Sums.of(runs[way]) for way in WAYS}
    for wanted in WANTED:
        for way in WAYS:
            ratio, error = beside_flat(sums[way], sums[FLAT], wanted)
            place = FILLS.index(wanted)
            whole = fill_of(runs[way], place, every)
            peak = fill_of(runs[way], place, peaks)
            rows.append(
                {
                    "season": season,
                    "demand": kind,
                    "weeks": record,
                    "items": len(peaks),
                    "wanted": wanted,
                    "way": way,
                    "fill": 1 - whole.value,
                    "fill_error": whole.estimate.error,
                    "peak": 1 - peak.value,
                    "peak_error": peak.estimate.error,
                    "stock": np.mean([run.stock[:, place] for run in runs[way]]),
                    "at_equal_fill": ratio,
                    "at_equal_fill_error": error,
                }
            )
    return rows


def study(
    cases: Iterable[tuple[str, str, int]], numbers: int = NUMBERS, items: int = ITEMS
) -> pd.DataFrame:
    """Returns the rows of all cases, of so many catalogues with so many items each."""
    return pd.DataFrame(
        [row for words in cases for row in case(*words, numbers, items)]
    )


def table_of(rows: pd.DataFrame) -> pd.DataFrame:
    """Returns a line for each case and wanted fill rate, with both ways beside each other."""
    lines = []
    keys = ["season", "demand", "weeks", "wanted"]
    for (season, kind, weeks, wanted), part in rows.groupby(keys, sort=False):
        line = {"season": season, "demand": kind, "weeks": weeks}
        line |= {"items": part["items"].iloc[0], "wanted": f"{100 * wanted:g}"}
        for row in part.to_dict("records"):
            way = row["way"]
            line[f"fill, {way}"] = percent(row["fill"], row["fill_error"])
            line[f"in the peak, {way}"] = percent(row["peak"], row["peak_error"])
            line[f"stock, {way}"] = f"{row['stock']:.2f}"
        last = part.iloc[-1]
        ratio, error = last["at_equal_fill"], last["at_equal_fill_error"]
        line["stock at equal fill, %"] = f"{100 * (ratio - 1):+.0f} ± {100 * error:.0f}"
        lines.append(line)
    return pd.DataFrame(lines)


def tables() -> dict[str, str]:
    """Returns the stored figures for the page."""
    return {"season-plans": markdown(table_of(pd.read_csv(STORED)))}


@click.command()
@click.option("--small", is_flag=True, help="Run a small part.")
@click.option(
    "--out",
    type=click.Path(dir_okay=False, path_type=Path),
    help="Write the rows as CSV.",
)
def main(small: bool, out: Path | None) -> None:
    """Compare plans by month with plans that know of no season."""
    rows = study(**SMALL) if small else study(CASES)
    if out:
        rows.to_csv(out, index=False, float_format="%.4f")
    click.echo(rows.round(3).to_string(index=False))


if __name__ == "__main__":
    main()
