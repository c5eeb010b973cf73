"""Tests of laws and counts at another rate: against laws of scipy, sums by hand, and many draws."""
from __future__ import annotations

import numpy as np
import pytest
from scipy import stats

from crnplan.demand.rate import at_rate, without_rate
from crnplan.formats import MOST_DEMAND
from crnplan.law import Law

UNIT = 1 / 65_536  # of a tail of a law
TIME = np.arange(104)
RATES = 1 + 0.8 * np.sin(2 * np.pi * TIME / 52)


def law_of(known: stats.rv_discrete) -> Law:
    return Law.of_chances(known.pmf(np.arange(400)))


def tails(law: Law, most: int = 400) -> np.ndarray:
    """Returns the chances to be at least 0, 1, 2 and so on."""
    chances = np.bincount(law.values, law.weights, most) / law.size
    return np.cumsum(chances[::-1])[::-1]


@pytest.mark.parametrize("factor", [0.3, 1.5, 2.7])
def test_families_stay(factor: float) -> None:
    """A negative binomial law keeps its p, and a Poisson law is one; of independent parts of a time that is exact."""
    for law, moved in (
        (stats.nbinom(3, 0.2), stats.nbinom(3 * factor, 0.2)),
        (stats.poisson(20), stats.poisson(20 * factor)),
    ):
        expected = moved.sf(np.arange(-1, 399))
        assert tails(at_rate(law_of(law), factor)) == pytest.approx(expected, abs=1e-3)


def test_less_spread_than_poisson() -> None:
    """Demand of 5 in each period has 7 or 8 tries of 7.5, and demand of 10 in each 20 of 20."""
    fives = at_rate(Law((5,), (1,)), 1.5)
    assert float(fives.mean) == pytest.approx(7.5, abs=1e-3)
    assert tails(fives)[:9] == pytest.approx(
        stats.binom(8, 7.5 / 8).sf(np.arange(-1, 8)), abs=UNIT
    )
    assert at_rate(Law((10,), (1,)), 2).chances == {20: 1.0}


def test_rare_demands_keep_their_sizes() -> None:
    """By hand: of a law with 8 of 10 periods without demand, half as often, and twice and a half."""
    rare = Law((0, 20, 50), (8, 1, 1))
    assert at_rate(rare, 0.5).chances == pytest.approx(
        {0: 0.9, 20: 0.05, 50: 0.05}, abs=UNIT
    )
    once, half = np.zeros((2, 151))
    once[[0, 20, 50]] = 0.8, 0.1, 0.1
    half[[0, 20, 50]] = 0.9, 0.05, 0.05
    expected = np.convolve(np.convolve(once, once)[:151], half)[:151]
    moved = at_rate(rare, 2.5)
    assert float(moved.mean) == pytest.approx(17.5, abs=0.01)
    assert tails(moved, 151) == pytest.approx(np.cumsum(expected[::-1])[::-1], abs=UNIT)


def test_ends_of_rates() -> None:
    """At its own rate a law is as it is, at none there is no demand, and a law of no demand has none at any."""
    law, none = Law((0, 3), (1, 1)), Law((0,), (1,))
    assert at_rate(law, 1) is law and at_rate(none, 3) is none
    assert at_rate(law, 0).chances == {0: 1.0}
    assert max(at_rate(Law((9_000,), (1,)), 3).values) == MOST_DEMAND


@pytest.mark.parametrize("size, mean", [(3, 12), (0.05, 2), (50, 400)])
def test_counts_at_one_rate(size: float, mean: float) -> None:
    """Demand whose rate goes up and down is, at one rate, as if it had stood still: by mean, spread and periods without
    demand, of steady items as of lumps. The sum of each record stays, and so does the order of its demands.
    """
    random = np.random.default_rng(7)
    share = size / (size + mean)
    flat = stats.nbinom(size, share)
    drawn = list[int]()
    for _ in range(200):
        counts = random.negative_binomial(size * RATES, share)
        moved = without_rate(counts.tolist(), RATES, random)
        assert sum(moved) == counts.sum() and len(moved) == len(counts)
        drawn += moved
    assert np.mean(drawn) == pytest.approx(flat.mean(), rel=0.06)
    assert np.var(drawn) == pytest.approx(flat.var(), rel=0.12)
    assert np.mean(np.array(drawn) == 0) == pytest.approx(flat.pmf(0), abs=0.02)


def test_counts_of_equal_rates() -> None:
    """At equal rates counts are as they are, and so is a record without demand, or of no period."""
    random = np.random.default_rng(7)
    for counts in ((3, 0, 9), (0, 0, 0), ()):
        assert without_rate(counts, np.full(len(counts), 2.5), random) == counts


def test_demand_stays_in_its_time() -> None:
    """Of four periods the last has half of the rate: its demand comes in the last two parts, the rest before."""
    random = np.random.default_rng(7)
    moved = without_rate((0, 0, 0, 40), np.array([1, 1, 1, 3.0]), random)
    assert moved[:2] == (0, 0) and moved[2] + moved[3] == 40
