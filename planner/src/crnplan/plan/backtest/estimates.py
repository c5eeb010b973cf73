"""Figures of many items with their standard errors.

Items move together, and the periods of an item follow from one another. So errors are those of clusters in two ways:
items, and blocks of periods with all items. Source: Cameron, Gelbach and Miller, Robust inference with multiway
clustering, Journal of Business and Economic Statistics 29, 2011.
"""
from __future__ import annotations

import math
from dataclasses import dataclass, replace
from functools import cached_property

import numpy as np

from ...chances import Floats, Whole
from ...decide.verdicts import t_quantile

NO_BLOCK = -1  # of weeks in a random order, which have no time in common
MANY = 1_000_000  # degrees of freedom
# Of intervals, this share does not hold the figure. So of catalogues whose promise holds, this share at most is said to
# break it: half of it for each part of a miss.
ALARM = 0.05


@dataclass(frozen=True)
class Estimate:
    """A figure, its standard error, how many of these both ends of its interval are away, and the degrees of freedom from
    which that follows."""

    value: float
    error: float
    quantile: float
    freedom: int = MANY

    def at(self, alarm: float) -> Estimate:
        """Returns the same with an interval that does not hold the figure with another chance."""
        quantile = t_quantile(alarm, self.freedom)
        return replace(self, quantile=quantile)

    @property
    def low(self) -> float:
        return self.value - self.quantile * self.error

    @property
    def high(self) -> float:
        return self.value + self.quantile * self.error


@dataclass(frozen=True)
class Ratio:
    """A ratio of two sums, as the parts that items add to both in a period: with their item and their block."""

    above: Floats
    below: Floats
    items: Whole
    blocks: Whole

    @cached_property
    def total(self) -> float:
        """Returns what stands below the line, added exactly."""
        return math.fsum(self.below.tolist())

    @cached_property
    def value(self) -> float:
        """Returns the ratio; nan if nothing is below the line."""
        return math.fsum(self.above.tolist()) / self.total if self.total else math.nan

    @property
    def influence(self) -> Floats:
        """Returns by how much each part moves the ratio from that of all others."""
        moved: Floats = (self.above - self.value * self.below) / self.total
        return moved

    @property
    def estimate(self) -> Estimate:
        return Estimate(self.value, *error_of(self.influence, self.items, self.blocks))

    def less(self, other: Ratio) -> Estimate:
        """Returns what this ratio is above another one of the same items."""
        influence = np.concatenate([self.influence, -other.influence])
        items = np.concatenate([self.items, other.items])
        blocks = np.concatenate([self.blocks, other.blocks])
        return Estimate(self.value - other.value, *error_of(influence, items, blocks))


def squares(influence: Floats, clusters: Whole) -> float:
    """Returns the sum of the squares of clusters, as for a sample of them."""
    sums = np.bincount(np.unique(clusters, return_inverse=True)[1], influence)
    return float((sums**2).sum()) * len(sums) / max(1, len(sums) - 1)


def error_of(
    influence: Floats, items: Whole, blocks: Whole
) -> tuple[float, float, int]:
    """Returns the standard error of a sum of parts, the quantile of its interval, and the degrees of freedom: the variance
    of items, and what the items of a block have in common."""
    timed, several = blocks != NO_BLOCK, [len(np.unique(items))]
    common = 0.0
    if timed.any():
        pairs = items * (blocks.max() + 1) + blocks
        common = squares(influence[timed], blocks[timed])
        common -= squares(influence[timed], pairs[timed])
        several.append(len(np.unique(blocks[timed])))
    freedom = max(1, min(several) - 1)
    error = math.sqrt(squares(influence, items) + max(0.0, common))
    return error, t_quantile(ALARM, freedom), freedom
