"""Plans items by the season of their class, or of their own: their counts without it, and laws of the coming year."""
from __future__ import annotations

import datetime
import itertools
import math
from collections import defaultdict
from collections.abc import Iterable, Iterator, Mapping, Sequence
from dataclasses import dataclass, field, replace
from typing import NamedTuple

import numpy as np

from ..chances import Floats
from ..demand.fitted import FittedLaw
from ..demand.index import (
    FLAT,
    Index,
    Years,
    class_index,
    in_years,
    own_alarms,
    own_index,
)
from ..demand.rate import at_rate, without_rate
from ..demand.quarter import quarter_of
from ..demand.seasons import (
    CALENDAR,
    DAYS_OF_PART,
    PARTS_OF_YEAR,
    YEARS,
    Calendar,
    easters,
    parts_of,
)
from ..demand.standing_out import Amounts, HighWeeks, standing_out
from ..law import Law
from ..read.dates import first_day
from ..read.item import Item
from ..remarks import Remark


class Stretch(NamedTuple):
    """Coming periods of one part of the year: the numbers of the first, and of the one after the last."""

    first: int
    end: int

    def days(self, every: str) -> tuple[datetime.date, datetime.date]:
        """Returns its first and its last day."""
        after = first_day(self.end, every)
        return first_day(self.first, every), after - datetime.timedelta(1)


def coming_year(
    every: str, first: int, lead: int = 0, calendar: Calendar = Calendar()
) -> list[Stretch]:
    """Returns the coming year from a period on, by its parts: in one, orders cover the same weeks of a quarter and around
    Easter, each its own and those of a lead time more."""
    year = CALENDAR[every]["season"]
    parts = parts_of(every, first, year).tolist()
    factors = calendar.factors(first, year + lead)
    covered = np.lib.stride_tricks.sliding_window_view(factors, lead + 1).tolist()
    stretches = list[Stretch]()
    keys = [*zip(parts, covered)]
    for _, periods in itertools.groupby(range(year), keys.__getitem__):
        places = [*periods]
        stretches.append(Stretch(first + places[0], first + places[-1] + 1))
    return stretches


def by_period(every: str, item: Item, index: Index) -> Floats:
    """Returns the rate of each period of the record of an item."""
    return index.rates(every, item.first, len(item.counts))


@dataclass(frozen=True)
class InSeason:
    """How an item is planned by its season: the item as it was read, the index, whether that is its own, the law of
    demand at the mean index of its record, that mean, the mean lead time in periods, the parts of the coming year, the one
    for which the plan is, and of how many promoted periods the index knows nothing.
    """

    item: Item
    index: Index
    is_own: bool
    every: str
    law: FittedLaw
    mean: float
    lead: int
    year: tuple[Stretch, ...]
    stretch: Stretch
    promoted: int = 0

    def rates(self, size: int) -> Floats:
        """Returns the rate of each of so many periods from the stretch on, in units of the mean one of the record."""
        first = self.stretch.first
        return self.index.rates(self.every, first, size) / self.mean

    @property
    def factor(self) -> float:
        """Returns the mean rate of the periods that orders of the stretch have to cover: each its own and those of a lead
        time more."""
        first, end = self.stretch
        periods = end - first
        covered = np.convolve(np.ones(periods), np.ones(self.lead + 1))
        return float(covered @ self.rates(len(covered)) / covered.sum())

    def of(self, law: Law) -> Law:
        """Returns a law of demand without the season as it is in the stretch."""
        return at_rate(law, self.factor)

    @property
    def by_period(self) -> Floats:
        """Returns the rate by period of the record, in units of its mean."""
        return by_period(self.every, self.item, self.index) / self.mean

    @property
    def part(self) -> int:
        """Returns the part of the year, from 0 on."""
        return int(parts_of(self.every, self.stretch.first, 1)[0])

    @property
    def days(self) -> int:
        """Returns how many days the parts of the year have; 0 if they are months."""
        return DAYS_OF_PART[self.every]

    @property
    def as_sold(self) -> FittedLaw:
        """Returns the law of what is sold in the stretch itself."""
        first, end = self.stretch
        mean = float(self.rates(end - first).mean())
        return self.law.like(at_rate(self.law, mean))

    @property
    def sold(self) -> tuple[int, ...]:
        """Returns the known demands of the record in the same part of each year."""
        parts = parts_of(self.every, self.item.first, len(self.item.counts))
        places = (it for it in self.item.known_places if parts[it] == self.part)
        return tuple(self.item.counts[place] for place in places)

    @property
    def remarks(self) -> Iterator[Remark]:
        """Yields what is to be said of it."""
        values, calendar = self.index.values, self.index.calendar
        if calendar.quarter:
            most, least = max(calendar.quarter), min(calendar.quarter)
            yield Remark("quarter planned", {"most": most, "least": least})
        if calendar.easter:
            yield Remark("Easter planned", {"most": max(calendar.easter)})
        if max(values) == min(values):
            return
        yield Remark(
            "season planned",
            {
                "is_own": self.is_own,
                "years": self.index.years,
                "promoted": self.promoted,
                "days": self.days,
                "most": max(values),
                "part_most": values.index(max(values)),
                "least": min(values),
                "part_least": values.index(min(values)),
            },
        )


@dataclass(frozen=True)
class Seasons:
    """The seasons of a catalogue whose periods are `every`, by class: of those that have one. Items without a class are
    one, whose name is empty. `promoted` has by class the numbers of the weeks that stand out, as promotions do: no season
    is learned from these. `own` has the p value up to which items have a season of their own, by class: of those whose
    items differ.
    """

    every: str
    classes: Mapping[str, Index]
    promoted: Mapping[str, tuple[int, ...]] = field(default_factory=dict)
    own: Mapping[str, float] = field(default_factory=dict)

    @classmethod
    def of(cls, every: str, items: Iterable[Item], is_marked: bool = False) -> Seasons:
        """Learns the seasons of the classes of items. If rows do not mark promotions, the weeks that stand out in a class
        are taken for promoted."""
        groups = defaultdict[str, list[Item]](list)
        for item in items:
            groups[item.group].append(item)
        promoted, classes = dict[str, tuple[int, ...]](), dict[str, Index]()
        alarms = dict[str, float]()
        for name in sorted(groups):
            high, own = HighWeeks(), groups[name]
            calendar = Calendar()
            if every == "week":
                calendar, high = calendar_of(own)
            if is_marked:
                high = HighWeeks()
            index = index_without(every, own, high, calendar)
            alarm = own_alarms(
                [years_without(every, item, high.promoted, calendar) for item in own]
            )
            if high.promoted:
                promoted[name] = high.promoted
            if index:
                classes[name] = index
            if alarm:
                alarms[name] = alarm
        return cls(every, classes, promoted, alarms)

    def as_of(self, items: Iterable[Item]) -> Seasons | None:
        """Returns the seasons of the same classes as shorter records of their items show them: see `in_years`. None if none
        of these has a year."""
        groups = defaultdict[str, list[Years]](list)
        for item in items:
            weeks = self.promoted.get(item.group, ())
            groups[item.group].append(years_without(self.every, item, weeks))
        classes = dict[str, Index]()
        for name, index in self.classes.items():
            shorter = in_years(index, groups[name])
            if shorter:
                classes[name] = shorter
        return replace(self, classes=classes, own={}) if classes else None

    def promotions(self, item: Item) -> set[int]:
        """Returns the places of the promoted periods of an item."""
        return promotions_of(item, self.promoted.get(item.group, ()))

    def of_item(self, item: Item) -> Index | None:
        """Returns the index of an item: its own if that is clear, else that of its class; None without a season."""
        weeks, index = self.promoted.get(item.group, ()), self.classes.get(item.group)
        calendar = index.calendar if index else Calendar()
        years = years_without(self.every, item, weeks, calendar)
        return own_index(years, index, self.own.get(item.group, 0.0))

    def is_own(self, item: Item, index: Index) -> bool:
        """Returns whether the index of an item is not that of its class."""
        return index is not self.classes.get(item.group)

    def flat(self, item: Item, index: Index, seed: int) -> Item:
        """Returns an item with counts that it might have had without its season, drawn at random. It is counted in boxes
        in which the coming year is within the range of a law."""
        random = np.random.default_rng(seed)
        rates, known = by_period(self.every, item, index), item.known_places
        mean = mean_rate(item, rates)
        counts = np.rint(np.array(item.counts) * mean / rates).astype(int)
        own = [item.counts[place] for place in known]
        counts[known] = without_rate(own, rates[known], random)
        calendar = index.calendar
        rate = max(calendar.quarter, default=1.0) * max(calendar.easter, default=1.0)
        most = float(counts.max(initial=0)) * max(index.values) * rate / mean
        return replace(item, counts=tuple(counts.tolist()), coming=math.ceil(most))

    def in_season(
        self, item: Item, index: Index, law: FittedLaw, lead: Law
    ) -> InSeason:
        """Returns how an item is planned for the first part of the year after its record, by the law of its demand without
        the season, and by that of its lead time."""
        # A review less often than in each period has half of the time between two more to cover, in the mean.
        periods = round(float(lead.mean) + (item.review - 1) / 2)
        end = item.first + len(item.counts)
        year = coming_year(self.every, end, periods, index.calendar)
        return InSeason(
            item,
            index,
            self.is_own(item, index),
            self.every,
            law,
            mean_rate(item, by_period(self.every, item, index)),
            periods,
            tuple(year),
            year[0],
            len(self.promotions(item)),
        )


def mean_rate(item: Item, rates: Floats) -> float:
    """Returns the mean of rates of the periods of a record over those that are known; 1 if none is."""
    known = item.known_places
    return float(rates[known].mean()) if known else 1.0


def amounts_of(item: Item) -> Amounts:
    """Returns the demand of an item by week, NaN where it is not known, or marked as promoted."""
    amounts = np.array(item.counts, float)
    amounts[[*item.unknown, *item.promoted]] = np.nan
    return Amounts(item.first, amounts)


def calendar_of(items: Sequence[Item]) -> tuple[Calendar, HighWeeks]:
    """Returns what moves a class of weekly items beside its season, and the weeks that stand out otherwise."""
    amounts = [*map(amounts_of, items)]
    calendar = Calendar(quarter_of(amounts))
    for first, by_week in amounts:
        by_week /= calendar.factors(first, len(by_week))
    high = standing_out(amounts)
    return calendar._replace(easter=high.easter), high


def promotions_of(item: Item, weeks: Sequence[int]) -> set[int]:
    """Returns the places of the promoted periods of an item: those of its rows, and weeks by their numbers."""
    places = {week - item.first for week in weeks} & {*range(len(item.counts))}
    return places.union(item.promoted)


def years_without(
    every: str, item: Item, weeks: Sequence[int], calendar: Calendar = Calendar()
) -> Years:
    """Returns the years of an item without what a calendar moves, in which its promoted periods, weeks by their numbers, and
    those around an Easter that moves it count as unknown."""
    places, size = promotions_of(item, weeks).union(item.unknown), len(item.counts)
    if calendar.easter:
        places.update(easters(item.first, size).ravel().tolist())
    counts = np.array(item.counts) / calendar.factors(item.first, size)
    return Years.of(counts.tolist(), every, item.first, sorted(places))


def index_without(
    every: str, items: Sequence[Item], high: HighWeeks, calendar: Calendar
) -> Index | None:
    """Returns the season of a class without its promoted weeks, and what moves it beside; None if it has neither.
    Promotions that happen to be in one week of each year are no season, so without the others it must be seen with them
    out too, or with all weeks in.
    """

    def without(weeks: Sequence[int]) -> Index | None:
        return class_index(
            [years_without(every, item, weeks, calendar) for item in items]
        )

    index = without(high.promoted)
    if index and high.promoted and high.recurring:
        is_sure = without(high.promoted + high.recurring) or without(())
        index = index if is_sure else None
    if index is None and any(calendar):
        index = Index((FLAT,) * PARTS_OF_YEAR[every], 1.0, 0.0, YEARS)
    return index and index._replace(calendar=calendar)


def whole_years(every: str, periods: int) -> int:
    """Returns how many whole years so many periods have."""
    return periods // CALENDAR[every]["season"]
