"""Tests of the permutation tests: statistics against scipy and by their formulas, p values against all orders."""
from __future__ import annotations

import itertools
import math
from typing import Any

import numpy as np
import pytest
from hypothesis import given, settings, strategies as st
from scipy import stats

from crnplan.chances import Floats
from crnplan.demand import permutation
from crnplan.demand.permutation import Orders, centred
from planner.studies.warnings import p_value, statistics_of

ALL_ORDERS = [*itertools.permutations([0, 5, 2, 0, 9, 1])]
SEASONS = {"season": np.array([0, 1, 0, 1, 0, 1])}
KINDS = Orders(ALL_ORDERS[0], SEASONS).names


def statistics(rows: Any, parts: Any = (), places: Any = None) -> Floats:
    """Returns the statistics of rows, which have the same numbers, by the parts of a season if there are some."""
    first = np.array(rows[0], dtype=float)
    orders = np.argsort(np.argsort(rows, axis=1, kind="stable"), axis=1)
    orders = np.argsort(first, kind="stable")[orders]
    part_of = np.array(parts, int).reshape(-1, len(first))
    ranks = centred(stats.rankdata(first))
    places = np.arange(len(first)) if places is None else places
    return permutation.statistics_in(centred(first), ranks, orders, part_of, places)


@settings(max_examples=60)
@given(
    numbers=st.lists(st.integers(0, 30), min_size=10, max_size=40).filter(np.ptp),
    length=st.integers(2, 5),
)
def test_statistics(numbers: list[int], length: int) -> None:
    """They are those of Ljung and Box, Spearman (squared), the best split's squares, and Kruskal and Wallis."""
    size, far = len(numbers), np.array(numbers) - np.mean(numbers)
    expected = dict.fromkeys(("autocorrelation", "shift"), 0.0)
    for lag in (1, 2, 3):
        found = far[lag:] @ far[:-lag] / (far @ far)
        expected["autocorrelation"] += size * (size + 2) * found**2 / (size - lag)
    least = math.ceil(size / 10)
    for place in range(least, size - least + 1):
        means = [far[:place].mean(), far[place:].mean()]
        squares = np.square(means) @ [place, size - place] / (far @ far)
        expected["shift"] = max(expected["shift"], squares)
    expected["trend"] = stats.spearmanr(numbers, range(size))[0] ** 2
    sides = [numbers[it::length] for it in range(length)]
    expected["season"] = stats.kruskal(*sides).statistic
    (row,) = statistics([numbers], np.arange(size) % length)
    found = dict(zip(KINDS, row.tolist()))
    assert found == pytest.approx(expected, abs=1e-12)


@settings(max_examples=40)
@given(
    numbers=st.lists(st.integers(0, 30), min_size=10, max_size=30).filter(np.ptp),
    seed=st.integers(0, 999),
)
def test_gaps_are_no_neighbours(numbers: list[int], seed: int) -> None:
    """With unknown periods, products are of pairs that are known, and ranks are correlated with true times; a split and
    a season see the known periods alone."""
    size = len(numbers)
    places = np.random.default_rng(seed).choice(2 * size, size, replace=False)
    places = np.sort(places) - places.min()
    far = dict(zip(places.tolist(), (np.array(numbers) - np.mean(numbers)).tolist()))
    boxed = 0.0
    for lag in (1, 2, 3):
        pairs = [far[it] * far[it + lag] for it in far if it + lag in far]
        boxed += sum(pairs) ** 2 / max(len(pairs), 1)
    boxed *= size * (size + 2) / sum(it**2 for it in far.values()) ** 2
    trend = stats.pearsonr(stats.rankdata(numbers), places)[0] ** 2
    (row,) = statistics([numbers], np.arange(size) % 3, places)
    (close,) = statistics([numbers], np.arange(size) % 3)
    assert row[:2] == pytest.approx([boxed, trend], abs=1e-12)
    assert row[2:].tolist() == close[2:].tolist()


@pytest.mark.parametrize("kind", KINDS)
def test_p_values_of_all_orders(kind: str, drawn: dict[str, Floats]) -> None:
    """Over all 720 orders of a history, a p value by all orders is exact; one by drawn orders is near to it.

    If all orders are equally likely, the share of those with p at most a is at most a, and a itself where a is such a p
    value.
    """
    every = statistics(ALL_ORDERS, SEASONS["season"])[:, KINDS.index(kind)]
    exact = (every >= every[:, None] * (1 - 1e-9)).mean(axis=1)
    for attained in np.unique(exact):
        assert (exact <= attained + 1e-9).mean() == pytest.approx(attained)
    error = np.sqrt(exact * (1 - exact) / 1200)
    assert (np.abs(drawn[kind] - exact) <= 5 * error + 1 / 1200).all()
    for level in (0.05, 0.1, 0.3, 0.5):
        assert np.mean(drawn[kind] <= level) <= level + 0.03


@pytest.fixture(scope="module")
def drawn() -> dict[str, Floats]:
    """Returns the p value by drawn orders of each order of the tiny history, by test."""
    found = np.zeros((len(KINDS), len(ALL_ORDERS)))
    for at, order in enumerate(ALL_ORDERS):
        its = statistics_of(order, SEASONS)
        found[:, at] = [p_value(its[kind]) for kind in KINDS]
    return dict(zip(KINDS, found))


@pytest.mark.parametrize(
    "statistics, p",
    [
        ([3.0, 1, 2, 3], 0.5),
        ([4.0, 1, 2, 3], 0.25),
        ([1 / 3 + 1e-15, 1 / 3, 0.1, 0.2], 0.5),
        ([0.0] * 5, 1),
    ],
)
def test_p_value_counts_the_history(statistics: list[float], p: float) -> None:
    """Equal statistics count, also if rounded differently."""
    assert p_value(np.array(statistics)) == p


def test_orders() -> None:
    """Each order has all numbers, and is there once."""
    numbers = [*range(30)]
    drawn = np.concatenate([*Orders(numbers, {}).orders(40)])
    assert drawn.shape == (1200, 30) and drawn[0].tolist() == numbers
    assert (np.sort(drawn, axis=1) == numbers).all()
    assert len(np.unique(drawn, axis=0)) == 1200
    # Each number comes to each place about as often: the statistic has 29^2 degrees of freedom.
    counts, _, _ = np.histogram2d(drawn[1:].ravel(), numbers * 1199, bins=30)
    squares = ((counts - 1199 / 30) ** 2 / (1199 / 30)).sum()
    assert stats.chi2.sf(squares, 29**2) > 1e-4


@pytest.mark.parametrize(
    "numbers",
    [[*range(6, 0, -1)], [3, 0, 0, 9, 1, 0, 2, 2], [0, 1] * 12],
    ids=["falling", "few", "turns"],
)
def test_seen_at_a_level(numbers: list[int]) -> None:
    """A test is seen at its own p value and above, and not below it, though not all orders are looked at."""
    seasons = {"season": np.arange(len(numbers)) % 2}
    orders = Orders(numbers, seasons)
    for name, statistics in statistics_of(numbers, seasons).items():
        p = p_value(statistics)
        assert orders.p_values(p)[name] == orders.p_values(p + 1 / 1200)[name] == p
        assert name not in orders.p_values(p - 1 / 1200)
