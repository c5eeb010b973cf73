"""Rules of thumb that plan an item with few lines each: what crnplan has to beat.

Each says what is expected of the weeks that an order covers, a lead time and one more, then how much safety that needs,
once for each of `AIMS`. An order is for four weeks, which is best for the costs of `fair.py`.

- `mean, normal` and `smoothing, normal`: the mean of the record, or exponential smoothing, with a normal safety stock
  (Silver, Pyke and Thomas, Inventory and Production Management in Supply Chains, fourth edition, 2017, chapter 6).
- `mean, NB` and `smoothing, NB`: the same with negative binomial sums; and if two years of a class agree on a season, the
  level times an index of the class by fortnight.
- `empirical sums`: the sums of the record over so many weeks are the law.
- `weeks of cover`: so many weeks of the last half year's mean more than an order covers.
"""
from __future__ import annotations

from collections.abc import Callable, Sequence
from typing import NamedTuple

import numpy as np
from scipy.special import gammaln

from crnplan.chances import Floats, Whole
from crnplan.plan.backtest.rules import safety_factors
from planner.studies.fair import BEFORE, COVER

YEAR = 52
# The fill rates at which rules aim, so that each realized one that is looked at is met by some.
AIMS = (0.5, 0.7, 0.8, 0.87, 0.92, 0.95, 0.97, 0.98, 0.9875, 0.9925, 0.9965, 0.9985)
AIMS = (*AIMS, 0.9995)
MORE = (-1, -0.5, 0, 0.5, 1, 1.5, 2, 3, 4, 6, 9, 14, 20)  # weeks of cover
SMOOTHING = 0.1
AGREE = 0.6  # the correlation of two years from which a class has a season
DRAWS = 400
LEAST = 1e-3


class Known(NamedTuple):
    """What is known of an item: its sales by week, the week of the year of the first, lead times in weeks, and the index of
    its class by week of the year, all 1 without a season."""

    counts: Floats
    first: int
    leads: Sequence[int]
    index: Floats

    def weights(self, first: int, weeks: int) -> Floats:
        """Returns the index of some weeks, counted from the first of the record."""
        places = (self.first + first + np.arange(weeks)) % YEAR
        return np.asarray(self.index[places])


class Coming(NamedTuple):
    """What is expected of the weeks that an order covers, and of an order: the mean and the variance of their sum, how many
    weeks they are, and the quantity."""

    mean: float
    variance: float
    weeks: float
    quantity: float


def index_of(counts: Floats) -> Floats:
    """Returns the index of a class by fortnight, from the sales of its items over two years: 1 throughout unless both agree."""
    means = counts.mean(axis=1, keepdims=True)
    total = (counts / np.maximum(means, LEAST)).mean(axis=0)
    if len(total) < 2 * YEAR:
        return np.ones(YEAR)
    years = total[: 2 * YEAR].reshape(2, YEAR // 2, 2).sum(axis=2)
    if np.corrcoef(years)[0, 1] < AGREE:
        return np.ones(YEAR)
    index = years.sum(axis=0) / years.sum(axis=0).mean()
    return np.maximum(np.repeat(index, 2), 0.05)


def smoothed(demands: Floats) -> Floats:
    """Returns what exponential smoothing expects of each week, and of the one after the last."""
    level = float(demands[:BEFORE].mean())
    levels = [level]
    for place, demand in enumerate(demands):
        if place >= BEFORE:
            level += SMOOTHING * (demand - level)
        levels.append(level)
    return np.array(levels)


def expected(known: Known, week: int, smooths: bool) -> Coming:
    """Returns what is expected from a coming week on, counted from the end of the record."""
    periods = len(known.counts)
    weights = known.weights(0, periods)
    levels = np.full(periods + 1, known.counts.sum() / weights.sum())
    if smooths:
        levels = smoothed(known.counts / weights)
    level = max(float(levels[-1]), LEAST)
    means = np.maximum(levels[:-1] * weights, 0.05)
    spread = max(float((np.square(known.counts - means) / means).mean()), 1.02)
    weeks = float(np.mean(known.leads)) + 1
    covered = round(weeks)
    mean = level * known.weights(periods + week, covered).mean() * weeks
    next_order = known.weights(periods + week + covered, COVER)
    far = float(np.var(known.leads)) * level**2
    return Coming(mean, spread * mean + far, weeks, max(1.0, level * next_order.sum()))


def pairs_of(points: Floats, quantity: float) -> Whole:
    """Returns s and S by their s."""
    low = np.maximum(np.ceil(points), 1).astype(int)
    return np.stack([low, low + int(np.ceil(quantity))], axis=1)


def by_normal(coming: Coming) -> Whole:
    """Returns s and S for each aim: what a cycle leaves unmet is a share of its quantity."""
    deviation = np.sqrt(coming.variance)
    factors = safety_factors(AIMS, coming.quantity / deviation)
    return pairs_of(coming.mean + factors * deviation, coming.quantity)


def by_sums(whole: Floats, part: Floats, coming: Coming) -> Whole:
    """Returns s and S for each aim by equally likely sums of the weeks that an order covers, and of these without the last:
    what the last of them leaves unmet if the position is anywhere from s to S."""
    top = whole.max()
    steps = np.quantile(whole, np.linspace(0, 1, 60))
    points = np.unique(np.concatenate([np.linspace(0, top + 1, 80), steps]))

    def short(sums: Floats) -> Floats:
        above = np.clip(sums - points[:, None], 0, None)
        beyond = np.clip(above - coming.quantity, 0, None)
        mean = (above**2 - beyond**2).mean(axis=1)
        return np.asarray(mean / 2 / coming.quantity)

    week = max(float(whole.mean()) / coming.weeks, LEAST)
    unmet = np.minimum.accumulate((short(whole) - short(part)) / week)
    places = np.searchsorted(-unmet, np.array(AIMS) - 1)
    return pairs_of(points[np.minimum(places, len(points) - 1)], coming.quantity)


def by_negative_binomial(coming: Coming) -> Whole:
    """Returns s and S for each aim by quantiles of negative binomial sums."""
    share = 1 - 1 / coming.weeks

    def quantiles(mean: float, variance: float) -> Floats:
        variance = max(variance, 1.02 * mean)
        p = mean / variance
        size, sums = mean * p / (1 - p), np.arange(mean + 12 * np.sqrt(variance) + 10)
        logs = gammaln(sums + size) - gammaln(size) - gammaln(sums + 1)
        chances = np.exp(logs + size * np.log(p) + sums * np.log1p(-p))
        places = (np.arange(DRAWS) + 0.5) / DRAWS
        return np.searchsorted(np.cumsum(chances), places).astype(float)

    whole = quantiles(coming.mean, coming.variance)
    part = quantiles(share * coming.mean, share * coming.variance)
    return by_sums(whole, part, coming)


# Returns s and S for each coming week and aim.
Rule = Callable[[Known, int], Whole]


def rule_of(safety: Callable[[Coming], Whole], smooths: bool, is_flat: bool) -> Rule:
    """Returns a rule by what is expected and a safety stock, perhaps as if there were no season."""

    def rule(known: Known, weeks: int) -> Whole:
        if is_flat or np.ptp(known.index) == 0:
            known = known._replace(index=np.ones(YEAR))
            return np.array([safety(expected(known, 0, smooths))] * weeks)
        return np.array(
            [safety(expected(known, week, smooths)) for week in range(weeks)]
        )

    return rule


def empirical(known: Known, weeks: int) -> Whole:
    coming = expected(known._replace(index=np.ones(YEAR)), 0, False)
    covered = min(round(coming.weeks), len(known.counts))
    whole = np.convolve(known.counts, np.ones(covered), "valid")
    part = np.convolve(known.counts, np.ones(max(1, covered - 1)), "valid")
    return np.array([by_sums(whole, part[: len(whole)], coming)] * weeks)


def cover(known: Known, weeks: int) -> Whole:
    last = known._replace(counts=known.counts[-YEAR // 2 :], index=np.ones(YEAR))
    coming = expected(last, 0, False)
    points = coming.mean / coming.weeks * (coming.weeks + np.array(MORE))
    return np.array([pairs_of(points, coming.quantity)] * weeks)


RULES: dict[str, Rule] = {
    "mean, normal": rule_of(by_normal, False, True),
    "smoothing, normal": rule_of(by_normal, True, True),
    "mean, NB": rule_of(by_negative_binomial, False, False),
    "smoothing, NB": rule_of(by_negative_binomial, True, False),
    "empirical sums": empirical,
    "weeks of cover": cover,
}
