"""Finds the weeks in which a class of items is asked for far more than in the weeks around them, as in a promotion.

The demand of each item is taken beside its mean, and its square root, whose variance hardly depends on the level
(Anscombe, The transformation of Poisson, binomial and negative-binomial data, 1948). The mean of these over the items
of a class is compared with its running median (Tukey, Exploratory Data Analysis, 1977, section 7). Distances from that
are in units of their median absolute deviation (Hampel, The influence curve and its role in robust estimation, 1974). A
week that is high in each year is one of a season. The study planner/studies/promotions.py measures how many promoted
weeks are found, and how many others.

Easter moves between 22 March and 25 April (Bell and Hillmer, Modeling time series with calendar variation, 1983). A week
that stands out at the same distance from it in each year is none of a season, if that explains more of the squares than the
same weeks of each year do. The study planner/studies/calendars.py measures how often it errs.
"""
from __future__ import annotations

import math
from collections.abc import Sequence
from typing import NamedTuple

import numpy as np

from ..chances import Floats, Whole
from ..read.cells import Flags
from .index import LEAST_ITEMS, shrunk
from .seasons import CALENDAR, YEARS, easters

AROUND = 6  # weeks before a week, and after it, whose median it is compared with
BOUND = 4.0  # deviations above that
NORMAL = 1.4826  # deviations of a normal law in a median absolute one
LEAST_LIFT = 1.5  # times the usual demand: less hardly moves the index of a month
ASKED = 0.5  # Items with fewer weeks with demand say little of a single week.
LEAST_ROOT = 0.1  # that a median counts as: a hundredth of the mean
YEAR = CALENDAR["week"]["season"]


class Amounts(NamedTuple):
    """The demand of an item: the number of the first week, and the amount of each, NaN where it is not known."""

    first: int
    by_week: Floats


def class_means(items: Sequence[Amounts], power: float = 1.0) -> tuple[int, Floats]:
    """Returns the number of the first week of some items, and for each week the mean over items of a power of demand beside
    its mean; NaN for a week of fewer than 10 items."""
    first = min(item.first for item in items)
    size = max(item.first + len(item.by_week) for item in items) - first
    sums, sizes = np.zeros(size), np.zeros(size)
    for item in items:
        known = np.flatnonzero(np.isfinite(item.by_week))
        amounts = item.by_week[known]
        asked = np.count_nonzero(amounts)
        if asked and asked >= ASKED * len(amounts):
            places = known + item.first - first
            sums[places] += (amounts / amounts.mean()) ** power
            sizes[places] += 1
    means = sums / np.maximum(sizes, 1)
    return first, np.where(sizes < LEAST_ITEMS, np.nan, means)


class HighWeeks(NamedTuple):
    """The numbers of the weeks that stand out in a class: those of promotions, and those that do in each year; and how many
    times the usual the weeks around Easter have, if one of them stands out in each year.
    """

    promoted: tuple[int, ...] = ()
    recurring: tuple[int, ...] = ()
    easter: tuple[float, ...] = ()


def in_each_year(is_high: Flags) -> Flags:
    """Returns which of some weeks are high in each year of two or more."""
    size = len(is_high)
    years = -(-size // YEAR)
    by_year = np.pad(is_high, (0, years * YEAR - size)).reshape(years, YEAR)
    there = np.pad(np.ones(size, bool), (0, years * YEAR - size)).reshape(years, YEAR)
    always = (by_year | ~there).all(axis=0) & (there.sum(axis=0) > 1)
    return np.tile(always, years)[:size]


def lifts_of(means: Floats) -> Floats:
    """Returns the means of weeks beside the median of those around them; 1 for weeks that are not known."""
    places = np.flatnonzero(np.isfinite(means))
    lifts = np.ones(len(means))
    if len(places):
        padded = np.pad(means[places], AROUND, constant_values=np.nan)
        around = np.lib.stride_tricks.sliding_window_view(padded, 2 * AROUND + 1)
        usual = np.maximum(np.nanmedian(around, axis=1), LEAST_ROOT)
        lifts[places] = means[places] / usual
    return lifts


def easter_of(
    rows: Whole, far: Floats, is_high: Flags, is_lifted: Flags
) -> tuple[float, ...]:
    """Returns how many times the usual each week around Easter has, shrunk by its error, by the places of these weeks and how
    far each week is from the usual: 1 for those that are not lifted at each Easter. Empty if none is, if there are fewer
    than two, or if means of the same weeks of each year explain more.
    """
    is_seen = is_lifted[rows].all(axis=0) & is_high[rows].any(axis=0)
    if len(rows) < YEARS or not is_seen.any():
        return ()
    moving = len(rows) * float(np.square(far[rows].mean(axis=0)).sum())
    fixed = 0.0
    for week in np.unique(rows % YEAR):
        own = far[week::YEAR]
        fixed += float(own.sum()) ** 2 / len(own)
    if moving <= fixed:
        return ()
    mean, share = shrunk(far[rows])
    return tuple(np.where(is_seen, 1 + share * mean, 1.0).tolist())


def standing_out(items: Sequence[Amounts]) -> HighWeeks:
    """Returns the weeks that stand out in a class of items; none if fewer than 10 items have demand in half of their
    weeks. In the other years a week that recurs need only be as high as `LEAST_LIFT`.
    """
    if len(items) < LEAST_ITEMS:
        return HighWeeks()
    first, roots = class_means(items, 0.5)
    lifts, is_known = lifts_of(roots), np.isfinite(roots)
    if not is_known.any():
        return HighWeeks()
    middle = np.median(lifts[is_known])
    bound = middle + BOUND * NORMAL * np.median(np.abs(lifts[is_known] - middle))
    is_lifted = lifts > math.sqrt(LEAST_LIFT)
    is_high = is_lifted & (lifts > bound)
    rows, (_, means) = easters(first, len(lifts)), class_means(items)
    easter = easter_of(rows, lifts_of(means) - 1, is_high, is_lifted)
    if easter:
        is_high[rows] = False
    is_recurring = is_high & in_each_year(is_lifted)
    promoted = numbers(is_high & ~is_recurring, first)
    return HighWeeks(promoted, numbers(is_recurring, first), easter)


def numbers(flags: Flags, first: int) -> tuple[int, ...]:
    """Returns the numbers of weeks, of which the first has a number."""
    weeks: list[int] = (np.flatnonzero(flags) + first).tolist()
    return tuple(weeks)
