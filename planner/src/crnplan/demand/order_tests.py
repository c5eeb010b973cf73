"""Tests whether the periods of a history are independent, in any order, and says what each test has found."""
from __future__ import annotations

import math
from collections.abc import Sequence
from dataclasses import dataclass, replace
from functools import cached_property

import numpy as np

from ..chances import Floats, Whole
from ..read.dates import first_day, period_name
from ..remarks import Value
from .permutation import (
    Orders,
    autocorrelations,
    centred,
    step_weights,
)
from .seasons import Season

FALSE_ALARMS = 0.05  # of all tests of a history together, at most
LEAST_PERIODS = 8  # for the tests
LEVELS = ("trend", "shift")
Effect = tuple[float, dict[str, Value]]  # its size, and the facts for its words


@dataclass(frozen=True)
class OrderTest:
    """A test of a history: its p value, the size of what it found, and the facts of that.

    The size is the autocorrelation of neighbours; half of the mean's change over the record, as a share of the mean, of
    a trend; the mean after it over that before, less 1, of a shift; and the amplitude, as a share of the mean, of a
    season.
    """

    name: str
    p: float
    size: float
    facts: dict[str, Value]


@dataclass(frozen=True)
class TestedHistory:
    """What is checked: numbers, the seasons that they are many enough for, the number of the first period, and `every`
    (day, week or month, None without dates). The differences between parts of the seasons that are `taken` out are not
    in the numbers that are `left`, which keep the mean. `known` has the places of the numbers' periods, from 0, rising, if
    others between them are not known. If the numbers are without a season, `sold` has those of the record, and `rates`
    those at which they were.
    """

    numbers: Sequence[int]
    seasons: Sequence[Season]
    every: str | None = None
    first: int = 1
    taken: tuple[str, ...] = ()
    known: Sequence[int] | None = None
    sold: Sequence[int] | None = None
    rates: Floats | None = None

    @cached_property
    def places(self) -> Whole:
        """Returns the places of the periods, from 0."""
        if self.known is None:
            return np.arange(len(self.numbers))
        return np.array(self.known, int)

    def number(self, place: int) -> int:
        """Returns the number of the period of one of the numbers."""
        return self.first + int(self.places[place])

    def name(self, place: int) -> str:
        """Returns the name of a period: its date, or its number."""
        number = self.number(place)
        return period_name(number, self.every) if self.every else f"period {number}"

    @cached_property
    def left(self) -> Floats:
        """Returns the numbers, without the seasons that are taken out."""
        numbers = np.array(self.numbers, dtype=float)
        mean = numbers.mean()
        for season in self.seasons:
            if season.name in self.taken:
                numbers += mean - _means(season, numbers)[season.part_of]
        return np.round(numbers, 9)

    def autocorrelation(self) -> Effect:
        """Returns the autocorrelation of neighbours. The facts have the largest one too, if it is of another lag."""
        by_lag = autocorrelations(centred(self.left), self.places)
        lag = int(np.argmax(np.abs(by_lag)))
        at_1 = float(by_lag[0])
        return at_1, {"at_1": at_1, "lag": lag + 1, "at_lag": float(by_lag[lag])}

    def trend(self) -> Effect:
        """Returns half of the rise along the straight line through a history, as a share of the mean. The facts have
        how much the mean of the last third is above that of the first; None if the first third has no demand.
        """
        numbers = self.left
        time = centred(self.places.astype(float))
        third = len(numbers) // 3
        rise = float(time @ numbers / (time @ time) * (time[-1] - time[0]) / 2)
        return rise / float(numbers.mean()), {
            "change": _change(numbers[:third], numbers[-third:])
        }

    def shift(self) -> Effect:
        """Returns the mean after the step that explains most over the mean before it, less 1."""
        sums = np.cumsum(centred(self.left))
        place = 1 + int(np.argmax(sums**2 * step_weights(len(sums))))
        change = _change(self.left[:place], self.left[place:])
        since = None
        if self.every:
            since = first_day(self.number(place), self.every).isoformat()
        size = math.inf if change is None else change
        return size, {"change": change, "name": self.name(place), "since": since}

    def season(self, season: Season) -> Effect:
        """Returns the amplitude of a sine whose means over the parts of a season vary as those of the history."""
        means = _means(season, self.left) / self.left.mean()
        width = math.pi / season.parts
        averaged = 1.0
        if season.length > season.parts:  # a sine within a part
            averaged = math.sin(width) / width
        most = int(means.argmax())
        least = int(means.argmin())
        ends = zip(
            ("most_first", "most_last", "least_first", "least_last"),
            season.ends(most) + season.ends(least),
        )
        return math.sqrt(2 * means.var()) / averaged, {
            "most": float(means[most]),
            "least": float(means[least]),
            **dict(ends),
            "unit": season.unit,
            "length": season.length,
        }


def _means(season: Season, numbers: Floats) -> Floats:
    return np.bincount(season.part_of, numbers) / np.bincount(season.part_of)


def _change(before: Floats, after: Floats) -> float | None:
    """Returns how much a mean is above another, as a share; None if that is 0."""
    return float(after.mean() / before.mean()) - 1 if before.mean() > 0 else None


def tests_of(facts: TestedHistory, in_full: bool = True) -> tuple[OrderTest, ...]:
    """Returns the tests of a history. It has none if it is short or all its numbers are equal.

    Only `in_full` are there tests if none warns, and p values of those that don't warn; else these are 1, and all takes a few
    milliseconds. If a season is seen, a trend and a shift are looked for in what is left without it.
    """
    if len(facts.numbers) < LEAST_PERIODS or len({*facts.numbers}) == 1:
        return ()
    seasons = {season.name: season.part_of for season in facts.seasons}
    orders = Orders(facts.numbers, seasons, facts.places)
    level = FALSE_ALARMS / len(orders.names)
    most = 1.0 if in_full else level
    if not (p_values := orders.p_values(most)):
        return ()
    rest = replace(
        facts, taken=tuple(name for name in seasons if p_values.get(name, 1.0) <= level)
    )
    if rest.taken:
        left = dict[str, float]()
        if np.ptp(rest.left):
            left = Orders(rest.left, {}, facts.places).p_values(most)
        p_values |= {name: left.get(name, 1.0) for name in LEVELS}
    effects = {
        "autocorrelation": facts.autocorrelation(),
        "trend": rest.trend(),
        "shift": rest.shift(),
        **{season.name: facts.season(season) for season in facts.seasons},
    }
    return tuple(
        OrderTest(name, p_values.get(name, 1.0), *effects[name])
        for name in orders.names
    )
