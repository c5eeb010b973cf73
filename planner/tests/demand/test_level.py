"""Tests the level of demand: smoothing and what a class says of it by hand, beside a t test, and on planted histories."""
from __future__ import annotations

import numpy as np
import pytest
from scipy import stats

from crnplan.demand.index import LEAST_ITEMS
from crnplan.demand.level import (
    FALSE_ALARMS,
    FIRST,
    LEAST_FACTOR,
    MOST_FACTOR,
    BlockSums,
    factor_of,
    smoothed,
    weight_of,
)

# A level that doubles after 13 periods: what is smoothed has come that far after so many more.
JUMP = [10] * FIRST + [20] * FIRST


def reached(periods: int) -> float:
    return 20 - 10 * 0.9**periods


def test_smoothing_by_hand() -> None:
    """After periods of 10, a demand of 20 moves the mean by a tenth of 10, and the squared error by a tenth of 100."""
    steps = [*smoothed([10] * FIRST + [20, 10])]
    assert steps[: FIRST + 1] == [(10, 0)] * (FIRST + 1)
    assert steps[FIRST + 1] == pytest.approx((11, 10))


def test_moves_by_hand() -> None:
    """Blocks begin 4, 8 and 12 periods before the end, with 9, 5 and 1 periods at the new level before them. The record
    has a mean of 15 and a variance of 25, so the item weighs 9 / 10."""
    moves = BlockSums.of(JUMP)
    for place, known in enumerate((9, 5, 1)):
        before = (130 + 20 * known) / (FIRST + known)
        smooth, came = reached(known) / before - 1, 20 / before - 1
        assert moves.products[place] == pytest.approx(0.9 * smooth * came)
        assert moves.squares[place] == pytest.approx(0.9 * smooth**2)
    assert len(moves.products) == len(moves.squares) == 3


def test_records_that_say_nothing() -> None:
    """A short record has no blocks, nor has one without demand; a block without demand before it counts nothing."""
    assert not len(BlockSums.of(JUMP[1:]).squares)
    assert not len(BlockSums.of([0] * 40).squares)
    late = BlockSums.of([0] * 22 + [5] * 4)
    assert late.products.tolist() == late.squares.tolist() == [0, 0, 0]
    assert weight_of([late] * LEAST_ITEMS) == 0


def of_slopes(slopes: list[float]) -> list[BlockSums]:
    """Returns items whose blocks have these slopes, and are as large."""
    return [BlockSums(np.array(slopes), np.ones(len(slopes)))] * LEAST_ITEMS


@pytest.mark.parametrize("slopes", [[0.5, 0.7, 0.6, 0.4], [0.9, 0.1, 0.4, -0.1]])
def test_weight_beside_a_t_test(slopes: list[float]) -> None:
    """If blocks are as large, the slope is their mean, and its error that of a mean. The slope is shrunk by that, or 0
    if a t test does not tell it from 0."""
    test = stats.ttest_1samp(slopes, 0, alternative="greater")
    mean, error = np.mean(slopes), stats.sem(slopes)
    is_clear = test.pvalue <= FALSE_ALARMS
    expected = mean * (1 - (error / mean) ** 2) if is_clear else 0.0
    assert weight_of(of_slopes(slopes)) == pytest.approx(expected)
    assert is_clear == (slopes[0] == 0.5)


def test_ends_of_a_weight() -> None:
    """It is at most 1, at least 0, and 0 of fewer than 10 items; items of shorter records have fewer blocks."""
    steep = of_slopes([1.4, 1.5, 1.6])
    assert weight_of(steep) == 1
    assert weight_of(steep[1:]) == 0
    assert weight_of(of_slopes([-0.5, -0.6, -0.4])) == 0
    short = BlockSums(np.array([0.5]), np.ones(1))
    sums = of_slopes([0.5, 0.5, 0.5])
    assert weight_of([*sums, short]) == pytest.approx(0.5)


def planted(level: float, seed: int) -> list[BlockSums]:
    """Returns items of 104 periods whose level is so many times as high from some period of their second half on."""
    random = np.random.default_rng(seed)
    items = list[BlockSums]()
    for _ in range(20):
        means = np.full(104, random.lognormal(2, 0.5))
        means[random.integers(40, 90) :] *= level
        items.append(BlockSums.of(random.poisson(means).tolist()))
    return items


def test_planted_levels() -> None:
    """A class whose level stands still is at its mean; one whose items have jumped follows."""
    steady = [weight_of(planted(1.0, seed)) for seed in range(40)]
    assert np.mean(np.array(steady) > 0) <= 0.05
    assert min(weight_of(planted(2.0, seed)) for seed in range(5)) > 0.7


def test_jump_in_common() -> None:
    """If all items jump at once, all that says so is the few blocks after it."""
    random, items = np.random.default_rng(3), list[BlockSums]()
    for mean in random.lognormal(2, 0.5, 20):
        means = np.repeat([mean, 2 * mean], 52)
        items.append(BlockSums.of(random.poisson(means).tolist()))
    assert weight_of(items) > 0.7


def test_factor_by_hand() -> None:
    """The mean of the record is 15; what is smoothed counts with the weight. Short records stay at their mean."""
    smooth = reached(FIRST)
    assert factor_of(JUMP, 1.0) == pytest.approx(smooth / 15)
    assert factor_of(JUMP, 0.5) == pytest.approx((smooth + 15) / 30)
    assert factor_of(JUMP, 0.0) == factor_of(JUMP[1:], 1.0) == 1
    assert factor_of([0] * 40, 1.0) == factor_of([], 1.0) == 1


def test_ends_of_a_factor() -> None:
    assert factor_of([10] * FIRST + [0] * 60, 1.0) == LEAST_FACTOR
    assert factor_of([0] * 300 + [9] * 30, 1.0) == MOST_FACTOR
