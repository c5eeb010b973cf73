"""Tests of the guard, which asks whether histories drawn from a law look like the real one."""
from __future__ import annotations

import numpy as np
import pytest
from hypothesis import given, settings, strategies as st
from scipy import stats

from crnplan.demand import sample as guard
from crnplan.demand.sample import Sample, shares_of


@settings(max_examples=50, deadline=None)
@given(
    st.lists(st.integers(0, 9), min_size=8, max_size=8).filter(any),
    st.integers(2, 9),
    st.data(),
)
def test_distances_by_definition(
    weights: list[int], size: int, data: st.DataObject
) -> None:
    """They are sums over all cells."""
    row = st.lists(st.integers(0, 7), min_size=size, max_size=size)
    rows = np.sort(data.draw(st.lists(row, min_size=1, max_size=4)))
    chances = np.array(weights) / sum(weights)
    below = np.cumsum(chances)
    shares = (rows[:, :, None] <= np.arange(8)).mean(axis=1)
    expected = size * ((shares - below) ** 2 - below**2) @ chances
    found = guard.distances(rows, guard.Summed.of(chances))
    assert found == pytest.approx(expected, abs=1e-12)


@pytest.mark.parametrize(
    "chances",
    [[0.5, 0.5], [0.6, 0.0, 0.3, 0.1, 0.0], [0.1] * 10, [0.9, 0.03, 0.03, 0.04]],
    ids=["two", "gaps", "even", "rare"],
)
def test_drawn_histories(chances: list[float]) -> None:
    """Each number is drawn by its uniform number, none above the last that has a chance. All of them are uniform, those
    of a history stand in rising order, and each is there once."""
    law, (rising, ranks) = np.trim_zeros(np.array(chances)), guard.uniforms(12)
    rising = np.append(rising[:-1], 1 - 1e-16)
    below = np.cumsum(law)
    expected = (rising[:, None] >= below[:-1]).sum(axis=1)
    assert guard.drawn(below, rising).tolist() == expected.tolist()
    assert sorted(ranks.ravel()) == [*range(len(rising))]
    assert (np.diff(ranks, axis=1) > 0).all() and (np.diff(rising) > 0).all()
    assert stats.kstest(guard.uniforms(12)[0], "uniform").pvalue > 0.01
    assert abs(np.corrcoef(ranks[:, 0], ranks[:, -1])[0, 1]) < 0.25


def test_verdicts() -> None:
    """The guard lets a history of its law pass, and no other."""
    random = np.random.default_rng(11)
    law = stats.poisson.pmf(np.arange(60), 10)
    for draw, least, most in (
        (lambda: random.poisson(10, 100), 15, 40),
        (lambda: random.negative_binomial(5, 1 / 3, 100), 0, 0),
        (lambda: random.binomial(13, 10 / 13, 100), 0, 0),
        (lambda: random.choice([7, 13], 100), 0, 0),
    ):
        passed = sum(shares_of(Sample.of(draw()), law).passes for _ in range(40))
        assert least <= passed <= most


def test_shares() -> None:
    """Shares are those of histories drawn from the law: of variances, distances, and the largest demand."""
    data = np.rint(np.random.default_rng(3).normal(200, 27, 60)).astype(int)
    law = stats.norm.pdf(np.arange(400), 200, 25)
    shares = shares_of(Sample.of(data), law)
    expected = stats.chi2.sf(59 * (data.var(ddof=1) / 25**2), 59)
    assert shares.as_much == pytest.approx(expected, abs=0.1)
    assert shares.as_much + shares.as_little == pytest.approx(1, abs=0.02)
    assert shares == shares_of(Sample.of(data), law)
    shares = shares_of(Sample.of([0, 1] * 13), np.array([0.5, 0.5]))
    assert shares.as_far == 1 and shares.as_much < 0.4 and shares.as_little == 1
    one = shares_of(Sample.of([0] * 9 + [1]), np.array([0.7, 0.3]))
    exact = stats.binom(10, 0.3)  # as far are 0, 1 and 5 or more of ten
    assert one.as_far == pytest.approx(exact.cdf(1) + exact.sf(4), abs=0.1)
    # The largest of five is at most 12 with the fifth power of the chance of one.
    law = stats.geom(1 / 7, -1)
    low, high = law.cdf(12) ** 5, 1 - law.cdf(11) ** 5
    found = shares_of(Sample.of([3, 0, 12, 5, 9]), law.pmf(np.arange(199)))
    assert found[3:] == pytest.approx((low, high), abs=0.01)
    even = Sample.of(np.tile(np.arange(1, 13), 10).tolist())
    *_, low, high = shares_of(even, stats.geom.pmf(np.arange(400) + 1, 1 / 7.5))
    assert low < 0.001 and high > 0.999
    largest = shares_of(Sample.of([0, 0]), np.array([0.5, 0.5]))[3:]
    assert largest == pytest.approx((0.25, 1.0))


@pytest.mark.parametrize("place", range(5), ids=guard.Shares._fields)
def test_each_share_decides(place: int) -> None:
    """Bounds are 5% of the variances, 30% of the distances, 10% and 5% of the largest."""
    shares = np.array([0.05, 0.05, 0.30, 0.10, 0.05]) + 0.001
    assert guard.Shares(*shares).passes
    shares[place] -= 0.001
    assert not guard.Shares(*shares).passes
