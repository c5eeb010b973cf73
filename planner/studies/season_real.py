"""Compares plans by a season with plans that know of none, on real series, by the stock for the same realized fill.

    python -m planner.studies.season_real --jobs 2 --out planner/studies/season_real.csv    what is stored
    python -m planner.studies.season_real homes --jobs 2                                  some sets alone

Sets, as far as packages of R are installed: `homes` sold by city and month, planned each three months from seven years on;
`rides` from stations by week, and `counts` of cases of diseases by week that ask for 2 or more in the mean, planned each
four weeks from three years on. Cities are one class, stations another, and each data set of cases one of its own.
Both ways plan by the whole record so far, as `crnplan plan` does; `seasonal` applies the levels of the part of the year, and
learns the season anew for each plan. `fair.py` says how ways are compared.
"""
from __future__ import annotations

import dataclasses
from collections.abc import Iterable, Iterator, Sequence
from concurrent.futures import ProcessPoolExecutor
from datetime import date
from functools import partial
from pathlib import Path
from typing import Any, NamedTuple

import click
import numpy as np
import pandas as pd

from crnplan.chances import Whole
from crnplan.plan.how import NONE, Settings
from crnplan.plan.question import Levels, question_of
from crnplan.plan.seasons import Seasons
from crnplan.read.dates import period_of
from crnplan.read.item import Item
from planner.studies.fair import Moving, compared, members_of, of_cases, setup_of
from planner.studies.moving import aimed, by_fill, item_of, shown
from planner.studies.page import markdown
from planner.studies.real_series import Series, real_series

STORED = Path(__file__).with_name("season_real.csv")
LEAST_MEAN = 2  # of counts
WAYS = FLAT, SEASONAL = "flat", "seasonal"
CLASS = "all"
SMALL = 2  # items of a small part


class SeasonSet(NamedTuple):
    """A set and its period, of which the first begins on a day."""

    moving: Moving
    every: str
    start: date

    def items(self, periods: int) -> list[Item]:
        """Returns all items by their first periods."""
        return [self.item(place, periods) for place in range(len(self.moving.members))]

    def item(self, place: int, periods: int) -> Item:
        """Returns an item by its first periods."""
        member, moving = self.moving.members[place], self.moving
        known = member._replace(counts=member.counts[:periods])
        item = item_of(known, setup_of(moving.means[place]))
        first = period_of(self.start, self.every)
        return dataclasses.replace(item, group=member.group, first=first)

    def part(self, count: int) -> SeasonSet:
        """Returns the first so many items."""
        members = self.moving.members[:count]
        return self._replace(moving=dataclasses.replace(self.moving, members=members))

    @property
    def plans(self) -> range:
        """Returns how many periods each plan knows."""
        moving = self.moving
        return range(moving.record, len(moving.members[0].counts), moving.every)


def policies(item: Item, settings: Settings, periods: int) -> list[list[Levels]]:
    """Returns for each coming period the policies of an item at the shares of `NOMINAL`."""
    question = question_of(item, settings)
    if question.season is None:
        return [by_fill(question)] * periods
    first, rows = item.first + len(item.counts), list[list[Levels]]()
    for stretch in question.season.year:
        if stretch.first < first + periods:
            part = by_fill(question.during(stretch))
            rows += [part] * (stretch.end - stretch.first)
    return rows[:periods]


def levels_of(of: SeasonSet, seasons: Sequence[Seasons | None], place: int) -> Whole:
    """Returns the levels of an item in each period after the record by plans that know some seasons: periods, shares, s
    and S."""
    counts, rows = of.moving.members[place].counts, list[list[Levels]]()
    for known, periods in zip(seasons, of.plans):
        settings = Settings(borrow=NONE, every=of.every, seasons=known)
        some = min(of.moving.every, len(counts) - periods)
        rows += policies(of.item(place, periods), settings, some)
    return np.array(rows)


def walked(of: SeasonSet, way: str, jobs: int) -> list[Whole]:
    """Returns `levels_of` for each item, by several processes."""
    seasons = list[Seasons | None]([None] * len(of.plans))
    if way == SEASONAL:
        seasons = [Seasons.of(of.every, of.items(periods)) for periods in of.plans]
    with ProcessPoolExecutor(jobs) as pool:
        places = range(len(of.moving.members))
        return [*pool.map(partial(levels_of, of, seasons), places)]


def of_class(name: str) -> tuple[str, str]:
    """Returns the cluster of a series of one class, and the class."""
    return name, CLASS


def sets() -> dict[str, SeasonSet]:
    """Returns the sets that are there."""
    known, made = real_series(), dict[str, SeasonSet]()
    weekly: Iterable[Series] = known.get("cases", ())
    often = [one for one in weekly if np.mean(one.counts[:156]) >= LEAST_MEAN]
    homes, rides = (known.get(name, ()) for name in ("homes", "rides"))
    for name, series, of, start, every, record, periods, step in (
        ("homes", homes, of_class, date(2000, 1, 1), "month", 84, 144, 3),
        ("rides", rides, of_class, date(2001, 1, 22), "week", 156, 312, 4),
        ("counts", often, of_cases, date(2001, 1, 1), "week", 156, 312, 4),
    ):
        cut = (Series(one.name, one.counts[:periods]) for one in series)
        members = members_of(cut, of, record, periods)
        if members:
            moving = Moving(name, members, record, step, periods)
            made[name] = SeasonSet(moving, every, start)
    return made


def study(of: SeasonSet, jobs: int) -> Iterator[dict[str, Any]]:
    """Yields the rows of a set."""
    levels = {way: walked(of, way, jobs) for way in WAYS}
    yield from compared(of.moving, levels, FLAT, WAYS)


def tables() -> dict[str, str]:
    """Returns the stored figures for the page: a line for each set and fill."""
    lines = []
    for (name, fill), rows in pd.read_csv(STORED).groupby(["set", "fill"], sort=False):
        flat, seasonal = rows.to_dict("records")
        line = {"set": name, "items": flat["items"], "wanted": f"{100 * fill:g}"}
        line |= {f"met, {way}": aimed(row) for way, row in zip(WAYS, (flat, seasonal))}
        lines.append(line | {"stock at equal fill, %": shown(seasonal)})
    return {"season-real": markdown(pd.DataFrame(lines))}


@click.command()
@click.argument("names", nargs=-1)
@click.option("--small", is_flag=True, help="Only the first items of each set.")
@click.option("--jobs", type=click.IntRange(1), default=1, show_default=True)
@click.option(
    "--out",
    type=click.Path(dir_okay=False, path_type=Path),
    help="Write the rows as CSV.",
)
def main(names: Sequence[str], small: bool, jobs: int, out: Path | None) -> None:
    """Compare plans by month with plans that know of no season, on real series."""
    rows = []
    for name, of in sets().items():
        if not names or name in names:
            rows += study(of.part(SMALL) if small else of, jobs)
    table = pd.DataFrame(rows)
    if out:
        table.to_csv(out, index=False, float_format="%.6g")
    click.echo(table.to_string())


if __name__ == "__main__":
    main()
