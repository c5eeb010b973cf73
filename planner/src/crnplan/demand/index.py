"""Estimates the season of a class or of an item as an index by part of the year, and tests whether there is one.

Parts are two weeks long; of records by month, months. The index of a part is the mean of the ratios of its demand to
that of its year (Makridakis, Wheelwright and Hyndman, Forecasting: Methods and Applications, third edition, 1998, section
3/4), over the items of a class (Withycombe, Forecasting with combined seasonal indices, 1989). It is shrunk by its error
(Miller and Williams, Shrinkage estimators of time series seasonal factors and their effect on forecasting accuracy, 2003). Items of a class move together, so its
error is the one between years, not between items. Some may differ from it: the more of a class clearly do, the less
each of them has to (Benjamini and Hochberg, Controlling the false discovery rate, 1995).

The test asks whether years are alike. What differs from one year to the next has independent Fourier coefficients, each
about normal, whatever its spectrum (Brillinger, Time Series: Data Analysis and Theory, 1981, section 4.4). So the mean
over years, beside the scatter between them, has an F law (Scheffé, The Analysis of Variance, 1959, section 3.1): of some
frequencies together, as if they scattered alike. That sees far more seasons in two years than a test of each. If they do
not, as of long waves, there are a few more false alarms. So waves once and twice a year are tested together, and by
themselves faster ones, which show peaks of a few weeks; the lower p value counts twice (Bonferroni). A line through the
year is taken out first, as growth gives one to each year. The study planner/studies/seasons.py measures how often it
errs.
"""
from __future__ import annotations

import functools
import math
from collections.abc import Sequence
from typing import NamedTuple

import numpy as np
from scipy import special

from ..chances import Floats, Whole
from .seasons import CALENDAR, PARTS_OF_YEAR, YEARS, Calendar, parts_of

SLOW, FAST = 2, 6  # the most waves a year that are tested together
# The p value up to which the test sees a season of a class (the study finds at most 2% false alarms with it), and one of
# an item of its own.
FALSE_ALARMS, OWN_ALARMS = 0.01, 0.001
OWN_YEARS = 3
# Of the items of a class that are seen to differ from it, at most such a share does not, in the mean.
FALSE_OWN = 0.05
OWN_ASKED = 0.5  # Items with fewer periods with demand have no season of their own: it would be wild.
LEAST_ITEMS = 10  # of a class: the study has no fewer
# The least root mean square of a season that is planned: that of a sine from 0.9 to 1.1. One from 0.85 to 1.15 costs at
# most 1% if it is not planned (planner/studies/dependence.py).
LEAST_SWING = 0.07
LEAST_INDEX = 0.2  # Lower ones would blow up what little is asked for then.
FLAT = 1.0  # the index of each part without a season


def filled(amounts: Floats, cells: Whole) -> Floats:
    """Returns amounts with the mean of the others of its cell in place of each NaN, which stays if there are none."""
    is_known = np.isfinite(amounts)
    if is_known.all():
        return amounts
    most = int(cells.max()) + 1
    sums = np.bincount(cells[is_known], amounts[is_known], most)
    sizes = np.bincount(cells[is_known], minlength=most)
    means = np.divide(sums, sizes, out=np.full(most, np.nan), where=sizes > 0)
    return np.where(is_known, amounts, means[cells])


class Years(NamedTuple):
    """The whole years at the end of a record, the last one first: a row for each year with the ratios of the mean demand
    of its parts, from January, to that of the year, and which share of its periods has demand. A year without demand has
    ratios of 0 and a share of 0."""

    ratios: Floats
    asked: Floats

    @classmethod
    def of(
        cls,
        counts: Sequence[float],
        every: str,
        first: int,
        unknown: Sequence[int] = (),
    ) -> Years:
        """Divides a record by day, week or month, whose first period has a number, into years of 365 days, 52 weeks or 12
        months. Periods at `unknown` places count as the others of their part, or else of their year.
        """
        year = CALENDAR[every]["season"]
        years = len(counts) // year
        start = len(counts) - years * year
        parts = PARTS_OF_YEAR[every]
        within = parts_of(every, first, len(counts))[start:]
        cells = np.repeat(np.arange(years), year) * parts + within
        amounts = np.array(counts, float)
        amounts[[*unknown]] = np.nan
        amounts = filled(filled(amounts[start:], cells), cells // parts)
        amounts = np.nan_to_num(amounts).reshape(years, year)
        sums = np.bincount(cells, amounts.ravel(), years * parts)
        sizes = np.bincount(cells, minlength=years * parts)
        means = (sums / sizes).reshape(years, parts)
        whole = amounts.mean(axis=1, keepdims=True)
        ratios = np.divide(means, whole, out=np.zeros_like(means), where=whole > 0)
        return cls(ratios[::-1], (amounts > 0).mean(axis=1)[::-1])


class Index(NamedTuple):
    """A season: the index of each part of the year from January, whose mean is 1; the p value of the test that there is
    none; which share of what was seen is left after shrinking; in how many years it was seen; and what moves rates beside
    it.
    """

    values: tuple[float, ...]
    chance: float
    share: float
    years: int
    calendar: Calendar = Calendar()

    def rates(self, every: str, first: int, size: int) -> Floats:
        """Returns the rate of each of so many periods, in units of the mean of a year."""
        parts = parts_of(every, first, size)
        values: Floats = np.array(self.values)[parts]
        return values * self.calendar.factors(first, size)


def pooled(items: Sequence[Years]) -> Floats:
    """Returns the ratios of a class in each year, the last one first: means over its items, which weigh by their periods
    with demand. A year that fewer than half of the items have is left out."""
    rows = list[Floats]()
    most = max((len(item.asked) for item in items), default=0)
    for year in range(most):
        there = [item for item in items if len(item.asked) > year]
        weights = np.array([item.asked[year] for item in there])
        if 2 * len(there) < len(items) or not weights.any():
            break
        rows.append(weights @ [item.ratios[year] for item in there] / weights.sum())
    return np.array(rows)


@functools.lru_cache
def waves(parts: int) -> tuple[Floats, Floats]:
    """Returns a column for the cosine and one for the sine of each frequency over the parts of a year, without the mean
    and the line through the year, and at right angles to each other: of slow waves, and of fast ones.
    """
    time = (np.arange(parts) + 0.5) / parts
    columns = [np.ones(parts), time]
    for frequency in range(1, min(FAST, parts // 3) + 1):
        angle = 2 * math.pi * frequency * time
        columns += [np.cos(angle), np.sin(angle)]
    square, _ = np.linalg.qr(np.transpose(columns))
    slow = 2 + 2 * SLOW
    return square[:, 2:slow], square[:, slow:]


def chance_in(parts: Floats) -> float:
    """Returns the p value of what some waves have in each year."""
    years, columns = parts.shape
    mean = parts.mean(axis=0)
    alike = years * float((mean**2).sum())
    scatter = float(((parts - mean) ** 2).sum())
    if not scatter:  # years that are the same, as those without demand
        return float(not alike)
    degrees = columns * (years - 1)
    return float(special.fdtrc(columns, degrees, (years - 1) * alike / scatter))


def chance_of(far: Floats) -> float:
    """Returns the p value of distances from what is expected, a row for each of two or more years: the chance that years
    which have nothing in common are as much alike."""
    chances = [chance_in(far @ columns) for columns in waves(far.shape[1])]
    return min(1.0, len(chances) * min(chances))


def shrunk(far: Floats) -> tuple[Floats, float]:
    """Returns the mean of distances from what is expected, a row for each of two or more years, and the share of it that is
    left after shrinking by its error."""
    mean = far.mean(axis=0)
    seen = float((mean**2).mean())
    error = float(((far - mean) ** 2).mean()) / (len(far) - 1)
    return mean, max(0.0, 1 - error / seen) if seen else 0.0


def index_of(ratios: Floats, expected: Floats | float = FLAT) -> Index:
    """Returns the season of ratios, a row for each of two or more years, as far as it differs from what is expected: of
    a class from 1, of an item from the season of its class. The test and the shrinking are by that difference.
    """
    far = ratios - expected
    mean, share = shrunk(far)
    values = np.maximum(expected + share * mean, LEAST_INDEX)
    values /= values.mean()
    return Index(tuple(values.tolist()), chance_of(far), share, len(ratios))


def differs(index: Index, expected: Floats | float) -> bool:
    """Returns whether an index varies enough beside an expected one to be planned."""
    far = np.array(index.values) - expected
    return float((far**2).mean()) >= LEAST_SWING**2


def class_index(items: Sequence[Years]) -> Index | None:
    """Returns the season of a class; None if the test sees none, it hardly varies, or there are fewer than 10 items or
    two years."""
    known = [item for item in items if len(item.asked) >= YEARS]
    if len(known) < LEAST_ITEMS:
        return None
    index = index_of(pooled(known))
    is_seen = index.chance <= FALSE_ALARMS and differs(index, FLAT)
    return index if is_seen else None


def in_years(index: Index, items: Sequence[Years]) -> Index | None:
    """Returns the season of a class as fewer years of its items show it, shrunk by the error that all years have seen; None
    without a year. As errors are independent from year to year, that of fewer is so much larger.
    """
    ratios = pooled([item for item in items if len(item.asked)])
    if not len(ratios):
        return None
    error = (1 - index.share) * index.years / len(ratios)
    share = index.share / (index.share + error)
    values = np.maximum(FLAT + share * (ratios.mean(axis=0) - FLAT), LEAST_INDEX)
    values /= values.mean()
    return Index(tuple(values.tolist()), index.chance, share, len(ratios))


def has_own(item: Years) -> bool:
    """Returns whether the record of an item says enough of a season of its own."""
    return len(item.asked) >= YEARS and bool(item.asked.min() >= OWN_ASKED)


def own_alarms(items: Sequence[Years]) -> float:
    """Returns the p value up to which the items of a class are seen to have a season of their own, by how they differ from
    the means of the class in each year; 0 if none does, or if fewer than 10 items can be tested.
    """
    means = pooled(items)
    if len(means) < YEARS:
        return 0.0
    chances = list[float]()
    for item in filter(has_own, items):
        years = min(len(item.asked), len(means))
        chances.append(chance_of(item.ratios[:years] - means[:years]))
    if len(chances) < LEAST_ITEMS:
        return 0.0
    rising = np.sort(chances)
    bounds = FALSE_OWN * np.arange(1, len(rising) + 1) / len(rising)
    return float(bounds[rising <= bounds].max(initial=0.0))


def own_index(item: Years, of_class: Index | None, alarms: float = 0.0) -> Index | None:
    """Returns the season of an item: its own if it has demand in half of the periods of each of two years or more, and
    clearly another season than its class; else that of its class. Clear is a p value up to `alarms`, that of the class,
    and from three years on up to 0.001."""
    if len(item.asked) >= OWN_YEARS:
        alarms = max(alarms, OWN_ALARMS)
    if not alarms or not has_own(item):
        return of_class
    expected = np.array(of_class.values) if of_class else np.full(1, FLAT)
    index = index_of(item.ratios, expected)
    if index.chance > alarms or not differs(index, expected):
        return of_class
    return index._replace(calendar=of_class.calendar) if of_class else index
