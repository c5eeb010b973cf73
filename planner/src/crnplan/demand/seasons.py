"""The seasons that a history is tested for: of the calendar, or of a stated number of periods."""
from __future__ import annotations

import datetime
import functools
from collections.abc import Iterator, Sequence
from typing import NamedTuple

import numpy as np
from dateutil.easter import easter

from ..chances import Floats, Whole
from ..read.dates import first_day, period_of
from ..remarks import Remark

# The seasons of dated periods: their names, with how many periods each has.
CALENDAR: dict[str | None, dict[str, int]] = {
    None: {},
    "day": {"weekday": 7, "season": 365},
    "week": {"season": 52},
    "month": {"season": 12},
}
YEARS = 2  # of a season, before it is tested
# How many parts the year has by whose index demand is planned, and how many days each of them; 0 for months.
PARTS_OF_YEAR = {"day": 26, "week": 26, "month": 12}
DAYS_OF_PART = {"day": 14, "week": 14, "month": 0}
QUARTER = 13  # weeks, of months of 4, 4 and 5
BEFORE_EASTER, AROUND_EASTER = 2, 4  # weeks before that of Easter, and around it in all
MOST_PARTS, PARTS = 7, 4  # A longer season is divided into so many parts.


def easters(first: int, size: int) -> Whole:
    """Returns a row for each Easter whose weeks are among so many: the places of the two weeks before that of Easter, of
    that, and of the one after it."""
    years = range(
        first_day(first, "week").year, first_day(first + size, "week").year + 1
    )
    weeks = np.array([period_of(easter(year), "week") for year in years])
    starts = weeks - first - BEFORE_EASTER
    starts = starts[(starts >= 0) & (starts <= size - AROUND_EASTER)]
    return np.add.outer(starts, np.arange(AROUND_EASTER))


class Calendar(NamedTuple):
    """How many times as high as usual rates are by the calendar, beside the season: in each of the 13 weeks of a quarter, by
    their numbers, and in those around Easter. Both are empty if nothing is seen of them.
    """

    quarter: tuple[float, ...] = ()
    easter: tuple[float, ...] = ()

    def factors(self, first: int, size: int) -> Floats:
        """Returns how many times as high the rate of each of so many periods is. They are weeks, if any differs."""
        start, more = first - AROUND_EASTER, size + 2 * AROUND_EASTER
        factors = np.ones(more)
        if self.easter:
            factors[easters(start, more)] = self.easter
        if self.quarter:
            weeks = np.arange(start, start + more)
            factors *= np.array(self.quarter)[weeks % QUARTER]
        return factors[AROUND_EASTER:-AROUND_EASTER]


class Season(NamedTuple):
    """A season of a history: its name, how many periods it has, the part of each period, how many parts there are, and
    of what: weekdays, quarters or places in the season."""

    name: str
    length: int
    part_of: Whole
    parts: int
    unit: str

    def at(self, places: Sequence[int]) -> Season:
        """Returns the season of some of the periods alone, by their places from 0."""
        return self._replace(part_of=self.part_of[[*places]])

    @property
    def is_whole(self) -> bool:
        """Returns whether each part has a period."""
        return len(np.unique(self.part_of)) == self.parts

    def ends(self, part: int) -> tuple[int, int]:
        """Returns the first and the last weekday, quarter or place of a part, from 1 on."""
        length = self.length if self.unit == "place" else self.parts
        return -(-part * length // self.parts) + 1, -(
            -(part + 1) * length // self.parts
        )


def middles(every: str, first: int, size: int) -> Iterator[datetime.date]:
    """Yields the day by which each of so many periods belongs to a part of the year: of weeks their Thursday, else the
    first."""
    middle = datetime.timedelta(3 if every == "week" else 0)
    for place in range(size):
        yield first_day(first + place, every) + middle


@functools.lru_cache(256)
def months_of(every: str, first: int, size: int) -> Whole:
    """Returns the month of the year of each of so many periods, 0 for January. A week belongs to the month of its
    Thursday."""
    return np.array([day.month - 1 for day in middles(every, first, size)], int)


@functools.lru_cache(256)
def parts_of(every: str, first: int, size: int) -> Whole:
    """Returns the part of the year of each of so many periods, from 0 on: a month, or of days and weeks 14 days from
    1 January on, of which the last part has one or two more. A week belongs to the part of its Thursday.
    """
    length = DAYS_OF_PART[every]
    if not length:
        return months_of(every, first, size)
    days = [day.timetuple().tm_yday - 1 for day in middles(every, first, size)]
    return np.minimum(np.array(days, int) // length, PARTS_OF_YEAR[every] - 1)


@functools.lru_cache(256)
def season_of(
    name: str, length: int, every: str | None, first: int, size: int
) -> Season:
    """Returns a season of the calendar; without dates one that begins with the first period."""
    if every is None:
        parts = PARTS
        if length <= MOST_PARTS:
            parts = length
        return Season(
            name, length, np.arange(size) % length * parts // length, parts, "place"
        )
    if name == "weekday":
        days = [first_day(first + place, every) for place in range(size)]
        return Season(name, length, np.array([day.weekday() for day in days]), 7, name)
    return Season(name, length, months_of(every, first, size) // 3, 4, "quarter")


def seasons_of(
    every: str | None, first: int, size: int, length: int | None
) -> tuple[list[Season], list[Remark]]:
    """Returns the seasons that so many periods are tested for, and remarks on those for which they are too few. One of
    a named length, of 2 periods or more, takes the place of those of the calendar.
    """
    lengths, calendar = CALENDAR[every], every
    if length is not None:
        lengths, calendar = {"season": length}, None
    if not lengths:
        return [], [Remark("season untested without dates")]
    seasons = list[Season]()
    untested = list[Remark]()
    for name, own in lengths.items():
        if size >= YEARS * own:
            seasons.append(season_of(name, own, calendar, first, size))
        else:
            untested.append(
                Remark(
                    "season untested",
                    {"season": name, "periods": YEARS * own, "unit": every or "period"},
                )
            )
    return seasons, untested
