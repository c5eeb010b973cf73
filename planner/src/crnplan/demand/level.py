"""Smooths the level of demand, and says how far what comes in a class follows it, in place of the mean of the record.

Exponential smoothing is that of Silver, Pyke and Thomas, Inventory and Production Management in Supply Chains, fourth
edition, 2017, chapter 4: the best forecast of a level that walks at random (Muth, Optimal properties of exponentially
weighted forecasts, 1960). If a level stands still, the mean of the record is better. So of each class it is asked what
came: the mean of the next periods beside the mean before, in a regression through 0 on the smoothed level beside that
mean. Its slope is the weight of the smoothed level, as a credibility (Bühlmann and Gisler, A Course in Credibility Theory
and its Applications, 2005, section 3). Items of a class move together, so its error is that between blocks of periods,
not between items (Liang and Zeger, Longitudinal data analysis using generalized linear models, 1986). The study
planner/studies/moving.py measures what that gains.
"""
from __future__ import annotations

from collections.abc import Iterator, Sequence
from typing import NamedTuple

import numpy as np
from scipy.special import stdtr

from ..chances import Floats
from .index import LEAST_ITEMS

SMOOTHING = 0.1  # the weight of the last period, for mean and squared error
FIRST = 13  # periods from which both begin
LEAST_PERIODS = 2 * FIRST  # of a record whose level is followed
AHEAD = 4  # periods of a block that is forecast
# The p value up to which a class is seen to follow its smoothed level.
FALSE_ALARMS = 0.025
# The least and the most that a level has moved: beyond, the record says too little of what comes.
LEAST_FACTOR, MOST_FACTOR = 0.2, 5.0


def smoothed(demands: Sequence[int]) -> Iterator[tuple[float, float]]:
    """Yields the mean and the squared error that are forecast for each period. Of the first ones both are those of
    these periods."""
    first = demands[:FIRST]
    mean = sum(first) / len(first)
    square = sum((demand - mean) ** 2 for demand in first) / max(1, len(first) - 1)
    for place, demand in enumerate(demands):
        yield mean, square
        if place >= FIRST:
            error = demand - mean
            square += SMOOTHING * (error**2 - square)
            mean += SMOOTHING * error


def smoothed_means(counts: Sequence[int]) -> Floats:
    """Returns the mean that is forecast for each period, and for the one after the last."""
    # The 0 stands for the period after the last: it is forecast, and not counted.
    return np.array([mean for mean, _ in smoothed([*counts, 0])])


class BlockSums(NamedTuple):
    """How an item moved in blocks of 4 periods, the last one first: sums of the product of what came and what was
    smoothed, and of the square of the latter. Both are beside the mean before the block, and in units of it.
    """

    products: Floats
    squares: Floats

    @classmethod
    def of(cls, counts: Sequence[int]) -> BlockSums:
        """Looks at the blocks of the second half of a record, of which those without demand before them count nothing.
        An item weighs the less the more its demand varies from period to period. A short record has no blocks.
        """
        periods = len(counts)
        known, means = np.array(counts, float), smoothed_means(counts)
        if periods < LEAST_PERIODS or not known.any():
            return cls(np.empty(0), np.empty(0))
        starts = np.arange(periods - AHEAD, periods // 2 - 1, -AHEAD)
        sums = np.append(0, np.cumsum(known))
        before = sums[starts] / starts
        came = (sums[starts + AHEAD] - sums[starts]) / AHEAD
        is_asked = before > 0
        unit = np.where(is_asked, before, 1)
        smooth = np.where(is_asked, means[starts] - before, 0) / unit
        weight = 1 / (1 + known.var() / known.mean() ** 2)
        return cls(weight * smooth * (came - before) / unit, weight * smooth * smooth)


def weight_of(items: Sequence[BlockSums]) -> float:
    """Returns the weight of the smoothed level of a class, from 0 to 1, shrunk by its error: 0 unless it is clearly above
    that, and for fewer than 10 items."""
    known = [item for item in items if len(item.squares)]
    if len(known) < LEAST_ITEMS:
        return 0.0
    blocks = max(len(item.squares) for item in known)
    products, squares = np.zeros((2, blocks))
    for item in known:
        products[: len(item.products)] += item.products
        squares[: len(item.squares)] += item.squares
    whole = squares.sum()
    if not whole:
        return 0.0
    slope = float(products.sum() / whole)
    far = products - slope * squares
    square = float((far**2).sum() / whole**2 * blocks / (blocks - 1))
    if (
        slope <= 0
        # The error is 0 if all blocks agree.
        or stdtr(blocks - 1, -slope / max(square, 1e-12) ** 0.5) > FALSE_ALARMS
    ):
        return 0.0
    return min(1.0, slope * max(0.0, 1 - square / slope**2))


def factor_of(counts: Sequence[int], weight: float) -> float:
    """Returns how many times its mean in the record the demand of an item is at its level now: the smoothed level counts
    with a weight, the mean with the rest. It is 1 for a short record, or one without demand.
    """
    mean = sum(counts) / max(1, len(counts))
    if len(counts) < LEAST_PERIODS or not mean:
        return 1.0
    factor = 1 + weight * (float(smoothed_means(counts)[-1]) / mean - 1)
    return min(max(factor, LEAST_FACTOR), MOST_FACTOR)
