"""Says by the past of a catalogue at which fill rates its plans aim, and what they cost beside their promise.

Plans of items with a wanted fill rate have an aim. Of those with a backlog cost it says what plans cost beside what
theory promised.
"""
from __future__ import annotations

import itertools
import math
from collections.abc import Callable, Sequence
from dataclasses import dataclass
from typing import Any, TypeVar

import numpy as np

from ..chances import Floats

# The fill rates whose policies are tried on the past.
FILLS = 0.9, 0.95, 0.97, 0.98, 0.9875, 0.9925, 0.9965, 0.9985, 0.9995
LOGS = np.log1p(-np.array(FILLS))
MOST = 0.999  # An aim is no higher: what is unmet there, more stock hardly meets.
CLASSES = ("slow", "fast")
LEAST_CLASS = 15  # Smaller classes have what all items have.
Known = TypeVar("Known")  # of a class, by its trials


@dataclass(frozen=True)
class Trial:
    """What an item's policies for `FILLS` did not meet at once in periods that their laws had not seen, in units of the
    mean of its demand. Beside it are that mean in items a period, and how many periods they were.
    """

    mean: float
    periods: int
    unmet: tuple[float, ...]


@dataclass(frozen=True)
class CostTrial:
    """What an item's policies cost in periods that their laws had not seen, and what they had `promised` by theory for
    these, in units of what it costs to hold a period's mean demand. Beside it are that mean in items, and how many
    periods they were."""

    mean: float
    periods: int
    promised: float
    cost: float


def classed(
    trials: Sequence[Any], known_of: Callable[[Sequence[Any]], Known]
) -> tuple[float, tuple[Known, ...]]:
    """Returns the median of the mean demand of items, and what is known by the trials of slow ones, which have up to that,
    and of fast ones. A class of fewer than 15 has all of them."""
    means = np.array([trial.mean for trial in trials])
    speed, classes = float(np.median(means)), list[Known]()
    for is_in in (means <= speed, means > speed):
        own = [*itertools.compress(trials, is_in)]
        classes.append(known_of(own if len(own) >= LEAST_CLASS else trials))
    return speed, tuple(classes)


def is_fast(counts: Sequence[float], speed: float) -> bool:
    """Returns whether the mean of the demands of an item is above the median of all."""
    return float(np.mean(counts)) > speed


@dataclass(frozen=True)
class Tried:
    """The trials of a class of items: how many items and periods of items there were, and the shares of demand that
    policies for `FILLS` did not meet at once. All items weigh alike."""

    items: int
    periods: int
    unmet: tuple[float, ...]

    @classmethod
    def of(cls, trials: Sequence[Trial]) -> Tried:
        """Adds up trials, of which there is at least one."""
        periods, shares = 0, list[float]()
        for trial in trials:
            periods += trial.periods
        for column in zip(*(trial.unmet for trial in trials)):
            # Rounded once: the order of the trials does not matter.
            shares.append(math.fsum(column) / periods)
        return cls(len(trials), periods, tuple(shares))

    @property
    def falling(self) -> Floats:
        """Returns the shares that are not met, of which none is above the one of a lower fill rate."""
        return np.minimum.accumulate(self.unmet)

    def aim(self, wanted: float) -> float:
        """Returns the fill rate whose policies met the wanted one: between those of `FILLS` by the logarithm of what it
        leaves unmet. It is at least the wanted one, and at most 99.9% if that is less.
        """
        log = np.interp(1 - wanted, self.falling[::-1], LOGS[::-1])
        return max(wanted, min(-math.expm1(float(log)), MOST))

    def met(self, rate: float) -> float:
        """Returns the share of demand that policies for a fill rate met at once."""
        return 1 - float(np.interp(-math.log1p(-rate), -LOGS, self.falling))


@dataclass(frozen=True)
class Aims:
    """What the past of a catalogue says of each class: items whose mean demand is up to `speed`, the median, are slow."""

    speed: float
    classes: tuple[Tried, ...]

    @classmethod
    def of(cls, trials: Sequence[Trial]) -> Aims:
        """Learns from trials. A class of fewer than 15 items has those of all."""
        return cls(*classed(trials, Tried.of))

    def of_item(self, counts: Sequence[float]) -> Tried:
        """Returns what is known of the class of an item."""
        return self.classes[is_fast(counts, self.speed)]

    def aim(self, counts: Sequence[float], wanted: float) -> float:
        """Returns the fill rate at which an item aims that wants one."""
        return self.of_item(counts).aim(wanted)


@dataclass(frozen=True)
class Overrun:
    """What the plans of a class of items cost in periods that their laws had not seen, as so many `times` what they had
    promised, with the standard error of that over items; and how many items and periods of items there were.
    """

    items: int
    periods: int
    times: float
    error: float

    @classmethod
    def of(cls, trials: Sequence[CostTrial]) -> Overrun:
        """Adds up trials, of which there are at least two. All items weigh alike. The error is that of a ratio of two
        sums (Cochran, Sampling Techniques, 1977, section 6.4)."""
        costs = np.array([trial.cost for trial in trials])
        promised = np.array([trial.promised for trial in trials])
        times = math.fsum(costs) / math.fsum(promised)
        spread = float(np.std(costs - times * promised, ddof=1))
        error = spread * math.sqrt(len(trials)) / math.fsum(promised)
        return cls(len(trials), sum(one.periods for one in trials), times, error)


@dataclass(frozen=True)
class Overruns:
    """What the past of a catalogue says of the costs of each class: items whose mean demand is up to `speed`, the median,
    are slow."""

    speed: float
    classes: tuple[Overrun, ...]

    @classmethod
    def of(cls, trials: Sequence[CostTrial]) -> Overruns:
        """Learns from trials. A class of fewer than 15 items has those of all."""
        return cls(*classed(trials, Overrun.of))

    def of_item(self, counts: Sequence[float]) -> Overrun:
        """Returns what is known of the class of an item."""
        return self.classes[is_fast(counts, self.speed)]
