"""Counts with laws of demand on a grid: likelihoods of histories, and the prior that makes them most likely.

A period has demand with a chance, the share. A demand has the size 1 + N, where N is a negative binomial number of mean
m and variance m + m^2 / k. A cell of the grid is an interval of the share's logit, one of the logarithm of m, and a
value of k, the dispersion. Within a cell all points are as likely, so that an item with a long history is not rounded
to the middle of a cell. Cells of m and k are counted together: all dispersions of the first m, then of the second, and
so on. The likelihood of a history is the product of one of the share and one of the law of sizes.

The prior that makes the histories most likely is a mixture of few points (Kiefer and Wolfowitz, Consistency of the
maximum likelihood estimator in the presence of infinitely many incidental parameters, 1956; Laird, Nonparametric
maximum likelihood estimation of a mixing distribution, 1978); on a grid it is found by EM (Koenker and Mizera, Convex
optimization, shape constraints, compound decisions, and empirical Bayes rules, 2014). It follows the histories too
closely, so after each step a part of each cell goes to its neighbours (Silverman, Jones, Wilson and Nychka, A smoothed
EM approach to indirect estimation problems, 1990).
"""
from __future__ import annotations

import math
from collections.abc import Iterable, Sequence
from functools import cache
from typing import NamedTuple

import numpy as np
from scipy import special

from ..chances import DEMANDS, Floats, Whole, blurred
from ..formats import MOST_DEMAND
from .count_laws import ways
from .sample import Sample

LOGITS = (-5.5, 6.5)  # of the share: from 0.4% to 99.8% of periods
MEANS = (0.05, 100.0)  # of m
DISPERSIONS = np.array([0.4, 0.7, 1.0, 1.6, 3.0, 6.0, 15.0, 60.0])
SHARE_CELLS = 24
MEAN_CELLS = 24
SIZE_CELLS = MEAN_CELLS * len(DISPERSIONS)
SHARE_POINTS, MEAN_POINTS = 10, 8  # in a cell
SHAPE = (SHARE_CELLS, MEAN_CELLS, len(DISPERSIONS))
FLAT: Floats = np.full((SHARE_CELLS, SIZE_CELLS), 1 / (SHARE_CELLS * SIZE_CELLS))
MOST_SIZE = 1 + MEANS[1]  # the greatest mean size of a demand
LEAST_TAIL = 1e-9  # what is cut off the law of a size
CHUNK = 250  # histories that are computed with at once: as many as a processor's cache has room for
LEAST_LIKELIHOOD = 1e-30  # Smaller ones count for nothing; their products would be denormal numbers, which are slow.
STEPS = 100  # of the estimate of a prior
BLUR = 0.05  # the part of a cell that goes to each neighbour along each axis


def points(low: float, high: float, cells: int, within: int) -> Floats:
    """Returns points in equal steps, a row for each cell: the middles of equal parts of the cells."""
    places = np.arange(cells * within).reshape(cells, within) + 0.5
    return low + (high - low) * places / (cells * within)


SHARES: Floats = special.expit(points(*LOGITS, SHARE_CELLS, SHARE_POINTS))
# The mean of a size less 1 at each point of the cells of sizes, and the dispersion of these cells.
SIZE_MEANS: Floats = np.repeat(
    np.exp(points(math.log(MEANS[0]), math.log(MEANS[1]), MEAN_CELLS, MEAN_POINTS)),
    len(DISPERSIONS),
    axis=0,
)
SIZE_DISPERSIONS: Floats = np.tile(DISPERSIONS, MEAN_CELLS)[:, None]
# The logarithm of the chance of N = n is rises(n) + STARTS + n * SLOPES.
STARTS: Floats = SIZE_DISPERSIONS * np.log(
    SIZE_DISPERSIONS / (SIZE_DISPERSIONS + SIZE_MEANS)
)
SLOPES: Floats = np.log(SIZE_MEANS / (SIZE_DISPERSIONS + SIZE_MEANS))


@cache
def rises() -> Floats:
    """Returns of the logarithm of each number's chance, in rows, what depends on the dispersion alone, in columns."""
    return ways(DEMANDS[:, None], DISPERSIONS)


@cache
def size_laws() -> tuple[Floats, ...]:
    """Returns the laws of sizes: for each cell of sizes a row for each point, with the chances of 1, 2 and so on."""
    chances = SIZE_DISPERSIONS / (SIZE_DISPERSIONS + SIZE_MEANS)
    widths = (
        np.ceil(special.nbdtrik(1 - LEAST_TAIL, SIZE_DISPERSIONS, chances))
        .max(axis=1)
        .astype(int)
        + 1
    )
    laws = []
    for cell, width in enumerate(np.minimum(widths, MOST_DEMAND)):
        logarithms = rises()[:width, cell % len(DISPERSIONS)] + np.outer(
            SLOPES[cell], DEMANDS[:width]
        )
        laws.append(special.softmax(logarithms, axis=1))
    return tuple(laws)


def _scaled(logarithms: Floats) -> Floats:
    """Returns likelihoods of which the greatest of each history is 1, in the place of their logarithms. All but
    impossible points have 0."""
    logarithms -= logarithms.max(axis=(1, 2), keepdims=True)
    likelihoods: Floats = np.exp(logarithms, out=logarithms)
    likelihoods *= likelihoods >= LEAST_LIKELIHOOD
    return likelihoods


def _columns(counts: Iterable[tuple[int, int]]) -> Floats:
    """Returns two columns with an entry for each history, to be computed with cells and points."""
    return np.array([*counts], dtype=float).T[:, :, None, None]


def share_likelihoods(samples: Sequence[Sample]) -> Floats:
    """Returns the likelihoods of the share: histories, cells, points."""
    demands, zeros = _columns((sample.demands, sample.zeros) for sample in samples)
    return _scaled(demands * np.log(SHARES) + zeros * np.log1p(-SHARES))


def size_likelihoods(samples: Sequence[Sample]) -> Floats:
    """Returns the likelihoods of the law of sizes: histories, cells, points."""
    sizes = [sample.excess for sample in samples]
    demands, excess = _columns((its.size, its.total) for its in sizes)
    logarithms = demands * STARTS
    logarithms += np.tile(
        np.array([its.counts @ rises()[its.values] for its in sizes]), (1, MEAN_CELLS)
    )[:, :, None]
    logarithms += excess * SLOPES
    return _scaled(logarithms)


class CellLikelihoods(NamedTuple):
    """Likelihoods of cells, the means over their points: `sizes` has a row for each history, `shares` one for a group.
    A group has as many periods and demands, and so the same likelihoods of the share. `starts` has the row of `sizes`
    that each group starts at, `groups` the group of each history."""

    shares: Floats
    sizes: Floats
    starts: Whole
    groups: Whole

    @classmethod
    def of(cls, samples: Sequence[Sample]) -> CellLikelihoods:
        """Computes the likelihoods of histories, of which those of a group stand together."""
        starts, groups = np.unique(
            [group_of(sample) for sample in samples],
            axis=0,
            return_index=True,
            return_inverse=True,
        )[1:]
        shares = share_likelihoods([samples[start] for start in starts])
        return cls(
            shares.mean(axis=2),
            size_likelihoods(samples).mean(axis=2),
            starts,
            groups.ravel(),
        )

    def marginal(self, prior: Floats) -> Floats:
        """Returns the likelihood of each history under a prior (cells of the share, cells of sizes).

        A product of matrices would have other last bits with each library of linear algebra, and with some is slower.
        """
        rows = np.einsum("ij,jk->ik", self.shares, prior)
        return np.asarray(np.einsum("ij,ij->i", rows[self.groups], self.sizes))

    def expected(self, prior: Floats) -> Floats:
        """Returns the sum of the likelihoods of each cell, each over that of its history under a prior."""
        weighed = self.sizes / self.marginal(prior)[:, None]
        likely = np.add.reduceat(weighed, self.starts)
        return np.asarray(np.einsum("ij,ik->jk", self.shares, likely))


def group_of(sample: Sample) -> tuple[int, int]:
    """Returns the periods of a history, and those with demand."""
    return sample.size, sample.demands


def chunks_of(samples: Iterable[Sample]) -> list[CellLikelihoods]:
    """Computes the likelihoods of histories by group, and within a group in their order."""
    every = sorted(samples, key=group_of)
    return [
        CellLikelihoods.of(every[start : start + CHUNK])
        for start in range(0, len(every), CHUNK)
    ]


def marginal(chunks: Iterable[CellLikelihoods], prior: Floats) -> Floats:
    """Returns the likelihood of each history under a prior (cells of the share, cells of sizes)."""
    return np.concatenate([cells.marginal(prior) for cells in chunks])


def estimated(
    chunks: Sequence[CellLikelihoods],
    start: Floats,
    pull: Floats,
    *,
    steps: int = STEPS,
    blur: float = BLUR,
) -> Floats:
    """Returns the prior after so many steps, each the mean of the posterior laws of all histories, blurred. `pull` is a
    prior times the number of items that it counts for. No cell that has some of it gets the chance 0.
    """
    prior = start
    for _ in range(steps):
        expected = pull.copy()
        for cells in chunks:
            expected += prior * cells.expected(prior)
        shaped = (expected / expected.sum()).reshape(SHAPE)
        for axis in range(len(SHAPE)):
            shaped = blurred(shaped, blur, axis)
        prior = shaped.reshape(start.shape)
    return prior
