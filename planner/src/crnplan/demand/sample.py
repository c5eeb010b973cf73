"""Counts observed whole numbers, what laws are fitted to, and checks whether they look like those of a law.

A check of a fitted law by the histories that it would bring is a predictive check (Gelman and others, Bayesian Data
Analysis, third edition, section 6.3). The law was fitted to the history itself, so the shares of a right law are far
from the ends, and the bounds are higher than those of a test.
"""
from __future__ import annotations

import functools
import math
from collections.abc import Iterable
from dataclasses import dataclass
from functools import cached_property
from typing import NamedTuple

import numpy as np

from ..chances import Floats, Whole

# A pack is recognised after so many demands above 0, if they all have its divisor by luck with a chance of 2^-8.
PACKED = 3
PACK_BITS = 8.0
TIMES, SEED = 199, 1  # of drawn histories
ROUNDING = 1e-9  # Histories with the same counts vary as much and are as far, however their sums are rounded.


@dataclass(frozen=True, eq=False)
class Sample:
    """Observed whole numbers from 0, perhaps none: the distinct ones, rising, and how often each was seen."""

    values: Whole
    counts: Whole

    @classmethod
    def of(cls, numbers: Iterable[int]) -> Sample:
        seen = np.fromiter(numbers, np.int64)
        return cls(*np.unique(seen, return_counts=True))

    @cached_property
    def size(self) -> int:
        """Returns how many numbers there are."""
        return int(self.counts.sum())

    @cached_property
    def total(self) -> int:
        return int(self.values @ self.counts)

    @property
    def most(self) -> int:
        return int(self.values[-1]) if self.size else 0

    @property
    def mean(self) -> float:
        return self.total / self.size

    @cached_property
    def squares(self) -> float:
        """Returns the sum of the squared distances from the mean."""
        return float(self.counts @ (self.values - self.mean) ** 2)

    @property
    def variance(self) -> float:
        """Returns the unbiased variance; 0 for a single number."""
        return self.squares / max(self.size - 1, 1)

    @cached_property
    def above(self) -> Whole:
        """Returns how many numbers are above 0, 1 and so on, below the largest one."""
        return self.size - np.cumsum(np.bincount(self.values, self.counts))[:-1]

    @property
    def zeros(self) -> int:
        """Returns how many numbers are 0."""
        return int(self.counts[0]) if self.size and self.values[0] == 0 else 0

    @property
    def demands(self) -> int:
        """Returns how many numbers are above 0."""
        return self.size - self.zeros

    @cached_property
    def excess(self) -> Sample:
        """Returns the numbers above 0, less 1."""
        above = self.values > 0
        return Sample(self.values[above] - 1, self.counts[above])

    @cached_property
    def pack(self) -> int:
        """Returns the size of the pack of which all demands are multiples, if that is no luck; else 1."""
        divisor = int(np.gcd.reduce(self.values)) if self.demands >= PACKED else 1
        return divisor if self.demands * math.log2(divisor) >= PACK_BITS else 1

    @property
    def packs(self) -> Sample:
        """Returns the numbers, counted in packs."""
        return Sample(self.values // self.pack, self.counts)

    @property
    def law(self) -> Floats:
        """Returns the shares of 0, 1, 2 and so on."""
        return np.bincount(self.values, self.counts) / max(self.size, 1)


class Shares(NamedTuple):
    """The shares of histories of a law that vary at least as much as the real one, at most as much, that are at least
    as far from the law, and whose largest demand is at most the real one, and at least.
    """

    as_much: float
    as_little: float
    as_far: float
    as_low: float
    as_high: float

    @property
    def passes(self) -> bool:
        """Returns whether the history looks like one of the law."""
        return all(share > least for share, least in zip(self, LEAST))


# Below one of these the real history is unlike those of the law.
LEAST = Shares(0.05, 0.05, 0.30, 0.10, 0.05)


class Summed(NamedTuple):
    """A law, summed up: the chances up to each number, and from each on those and their products with the former."""

    below: Floats
    tails: Floats
    means: Floats

    @classmethod
    def of(cls, chances: Floats) -> Summed:
        below = np.cumsum(chances)
        return cls(
            below, *(np.cumsum(its[::-1])[::-1] for its in (chances, chances * below))
        )


def distances(histories: Whole, law: Summed) -> Floats:
    """Returns how far histories are from a law, by Cramer and von Mises, but for what all have in common: their size
    times the mean of the squared chances below. Each row has the rising numbers of a history.

    Source: Choulakian, Lockhart and Stephens, Cramer-von Mises statistics for discrete distributions, 1994. The sum
    over all cells of the squared distance is split by the numbers, each of which counts from its cell on.
    """
    size = histories.shape[1]
    weights = (2 * np.arange(size) + 1) / size
    return np.asarray(
        law.tails[histories] @ weights - 2 * law.means[histories].sum(axis=1)
    )


@functools.lru_cache(maxsize=8)
def uniforms(size: int) -> tuple[Floats, Whole]:
    """Returns uniform numbers, rising, for all drawn histories of a size, and the places of those of each history among
    them: rows that rise too."""
    rows = np.sort(np.random.default_rng(SEED).random((TIMES, size)), axis=1)
    ranks = np.argsort(np.argsort(rows, axis=None))
    return np.sort(rows, axis=None), ranks.reshape(rows.shape)


def drawn(below: Floats, rising: Floats) -> Whole:
    """Returns numbers that are drawn from a law, by its chances up to each number and by rising uniform numbers. None is
    above the last number of the law."""
    ends = np.append(np.searchsorted(rising, below[:-1]), len(rising))
    return np.repeat(np.arange(len(ends)), np.diff(ends, prepend=0))


def shares_of(sample: Sample, chances: Floats) -> Shares:
    """Returns the shares of a sample under a law. The same sample and law have the same shares."""
    law = np.zeros(max(len(chances), sample.most + 1))
    law[: len(chances)] = chances / chances.sum()
    summed = Summed.of(law)
    size = sample.size
    below = summed.below
    rising, ranks = uniforms(size)
    histories = drawn(below[: len(chances)], rising)[ranks]
    sums = histories.sum(axis=1)
    squares = size * np.einsum("ij,ij->i", histories, histories) - sums**2
    own = size * sample.squares
    far = distances(histories, summed)
    common = size * float(law @ below**2)
    own_far = float(distances(np.repeat(sample.values, sample.counts)[None], summed)[0])
    alike = (
        squares >= own * (1 - ROUNDING),
        squares <= own * (1 + ROUNDING),
        far + common >= (own_far + common) * (1 - ROUNDING),
    )
    as_much, as_little, as_far = (
        float((holds.sum() + 1) / (TIMES + 1)) for holds in alike
    )  # with the history itself
    before = below[sample.most - 1] if sample.most else 0.0
    return Shares(
        as_much,
        as_little,
        as_far,
        float(below[sample.most] ** sample.size),
        float(1 - before**sample.size),
    )
