"""Tests by permutations whether the order of a history matters.

If periods are independent and of one law, all orders of a history are equally likely. So the share of drawn orders
whose statistic is at least that of the history, which counts among them, is a p value: whatever the law, with ties and
zeros (Good, Permutation, Parametric, and Bootstrap Tests of Hypotheses, third edition, 2005, chapter 3; Davison and
Hinkley, Bootstrap Methods and their Application, 1997, section 4.3). The study planner/studies/warnings.py measures how
often the tests warn, with an effect and without. All figures are rounded and unproved.
"""
from __future__ import annotations

import functools
import math
from collections.abc import Iterator, Mapping, Sequence
from typing import Any

import numpy as np
import numpy.typing as npt

from ..chances import Floats, Whole

Places = npt.NDArray[np.integer[Any]]

TESTS = ("autocorrelation", "trend", "shift")  # and one of each season
SEED = 1  # fixed: a history has the same p values each time
TIMES = 1199  # orders; with the history there are 1,200, of which 5% over 2, 3, 4 or 5 tests is a whole number
LAGS = 3  # More of them see less of a dependence between neighbours. Seasons, trends and shifts have their own tests.
EDGE = 0.1  # the share of the periods at either end in which no shift is looked for
MOST_CELLS = 1 << 18  # of the orders that are in memory at a time
AT_ONCE = 100  # orders that are looked at before a test is left
KEPT = 8  # such parts of the drawn orders, for further histories of as many periods
ROUNDING = 1e-9  # Orders whose statistics differ by less are as suspicious.


def centred(rows: Floats) -> Floats:
    """Returns the distances from the mean of each row."""
    return np.asarray(rows - rows.mean(axis=-1, keepdims=True))


def autocorrelations(far: Floats, places: Whole) -> Floats:
    """Returns the autocorrelations at the lags 1, 2 and so on, by the distances from the mean, of periods at some places
    from 0. Those of periods that are not known count for nothing: the sum over the pairs that are is scaled to that of
    all (Dunsmuir and Robinson, Estimation of time series models in the presence of missing data, 1981).
    """
    spread, seen = np.zeros((2, places[-1] + 1))
    spread[places], seen[places] = far, 1
    products = list[float]()
    for lag in range(1, LAGS + 1):
        pairs = seen[lag:] @ seen[:-lag]
        share = (len(far) - lag) / pairs if pairs else 0.0
        products.append(share * (spread[lag:] @ spread[:-lag]))
    return products / (far @ far)


def step_weights(size: int) -> Floats:
    """Returns by what the square of the sum of the distances up to each period is multiplied: the sum of squares that a
    step after it explains. Its share of all squares rises with the difference of the means before and after it, divided
    by its standard error. Near both ends no shift is looked for.
    """
    weights = np.zeros(size)
    edge = max(1, math.ceil(EDGE * size))
    before = np.arange(edge, size - edge + 1)
    weights[before - 1] = size / (before * (size - before))
    return weights


def between_parts(ranks: Floats, part_of: Whole) -> Floats:
    """Returns for each row of ranks the sum over the parts of a season of their squared sum over the number of periods."""
    of_part = part_of[:, None] == np.unique(part_of)
    sums = ranks @ of_part.astype(float)
    return np.asarray(sums**2 @ (1 / of_part.sum(axis=0)))


def statistics_in(
    far: Floats, ranks: Floats, orders: Places, parts: Whole, places: Whole
) -> Floats:
    """Returns a row of statistics for each order of a history, whose numbers and ranks are at distances from their mean.
    Its periods are those at some places from 0, rising; the others are not known, and no neighbours:

    - that of Ljung and Box (On a measure of lack of fit in time series models, 1978, section 1), with three lags, each
      by the pairs of periods that there are;
    - the square of Spearman's rank correlation with time (Lehmann, Nonparametrics, 1975, chapter 7);
    - the greatest share of the squares that one step explains: it orders histories as the largest standardised
      difference of means (Hawkins, Testing a sequence of observations for a shift in location, 1977);
    - for each row of parts, with that of each period, the statistic of Kruskal and Wallis (Use of ranks in
      one-criterion variance analysis, 1952), with ties.
    """
    size = len(far)
    numbers, ranked = far[orders], ranks[orders]
    squares, rank_squares = far @ far, ranks @ ranks
    seen = np.zeros(places[-1] + 1)
    seen[places] = 1.0
    spread = np.zeros((len(orders), len(seen)))
    spread[:, places] = numbers
    boxed = np.zeros(len(orders))
    for lag in range(1, LAGS + 1):
        products = np.einsum("ij,ij->i", spread[:, lag:], spread[:, :-lag])
        boxed += products**2 / max(1.0, float(seen[lag:] @ seen[:-lag]))
    time = centred(places.astype(float))
    steps = np.cumsum(numbers, axis=1) ** 2 * step_weights(size)
    return np.transpose(
        [
            boxed * size * (size + 2) / squares**2,
            (ranked @ time) ** 2 / (time @ time * rank_squares),
            steps.max(axis=1) / squares,
            *(
                (size - 1) / rank_squares * between_parts(ranked, part_of)
                for part_of in parts
            ),
        ]
    )


def in_order(size: int) -> Places:
    """Returns the places of a history in their own order, as the only row of an array."""
    return np.arange(size, dtype=np.uint16)[None]


class Permutations:
    """Drawn orders of the places of so many periods, from the number of the first of them on. A history has at most
    65,536 periods; small numbers are read faster."""

    def __init__(self, size: int, first: int) -> None:
        self.random = np.random.default_rng([SEED, first])
        self.rows = np.empty((0, size), np.uint16)

    def orders(self, start: int, end: int) -> Places:
        """Returns some of them, in rows. They are drawn as they are needed, always the same."""
        known, size = self.rows.shape
        if end > known:
            more = (
                max(end, min(2 * known, TIMES, MOST_CELLS // size)) - known
            )  # so that few rows are copied again
            places = np.tile(np.arange(size, dtype=np.uint16), (more, 1))
            self.rows = np.vstack([self.rows, self.random.permuted(places, axis=1)])
        return self.rows[start:end]


drawn_orders = functools.lru_cache(KEPT)(Permutations)


class Orders:
    """A history and drawn orders of it. A season has the part of each period. The periods are at some places in time
    from 0, rising, by default one after another."""

    def __init__(
        self,
        numbers: Sequence[int] | Floats,
        seasons: Mapping[str, Whole],
        places: Whole | None = None,
    ) -> None:
        _, codes, counts = np.unique(numbers, return_inverse=True, return_counts=True)
        ranks = np.cumsum(counts) - counts / 2 - len(numbers) / 2
        self.names = *TESTS, *seasons
        self.far = centred(np.array(numbers, float))
        self.ranks = ranks[codes]
        self.parts = np.array([*seasons.values()], int).reshape(-1, len(numbers))
        self.places = np.arange(len(numbers)) if places is None else places

    def orders(self, at_once: int) -> Iterator[Places]:
        """Yields the order of the history, and then drawn ones, so many in each array."""
        size = len(self.far)
        yield in_order(size)
        many = max(1, MOST_CELLS // size)
        for first in range(0, TIMES, many):
            drawn = drawn_orders(size, first)
            count = min(many, TIMES - first)
            for start in range(0, count, at_once):
                yield drawn.orders(start, min(start + at_once, count))

    def statistics(self, at_once: int = TIMES) -> Iterator[Floats]:
        """Yields rows of the statistics of these orders, each with those of `names`."""
        for orders in self.orders(at_once):
            yield statistics_in(self.far, self.ranks, orders, self.parts, self.places)

    def p_values(self, level: float) -> dict[str, float]:
        """Returns the p values of all tests that have one of at most a level. Tests are left when enough orders are as
        suspicious."""
        most = math.floor(level * (TIMES + 1) * (1 + ROUNDING))
        counts = np.zeros(len(self.names), int)
        least: Any = None
        for rows in self.statistics(AT_ONCE):
            least = rows[0] * (1 - ROUNDING) if least is None else least
            counts += (rows >= least).sum(axis=0)
            if counts.min() > most:
                break
        return {
            name: count / (TIMES + 1)
            for name, count in zip(self.names, counts.tolist())
            if count <= most
        }
