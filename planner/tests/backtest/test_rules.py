"""Tests the rules of thumb: the book's table of the loss, and rules by hand."""
from __future__ import annotations

import math
from fractions import Fraction

import numpy as np
import pytest

from crnplan.plan.backtest.rules import (
    COVERS,
    MOST_FACTOR,
    Forecast,
    averaged,
    cover_levels,
    loss,
    normal_levels,
    safety_factors,
    smoothed_last,
    wanted_share,
)
from planner.tests.plan.items import item_of


@pytest.mark.parametrize(
    "factor, expected",
    [(0.0, 0.3989), (0.5, 0.1978), (1.0, 0.08332), (2.0, 0.008491), (-1.0, 1.08332)],
)
def test_loss(factor: float, expected: float) -> None:
    """The loss of a standard normal number is that of the tables in books on inventory."""
    assert loss(np.array(factor)) == pytest.approx(expected, abs=6e-5)


@pytest.mark.parametrize("share", [0.6, 0.9, 0.98])
@pytest.mark.parametrize("quantity", [0.05, 1.0, 20.0])
def test_safety_factor_meets_the_share(share: float, quantity: float) -> None:
    """Integrates the chance that a standard normal demand is above the position, over all positions of a cycle."""
    ((factor,), cells) = safety_factors([share], quantity), 20_000
    chances = [
        math.erfc((factor + quantity * (place + 0.5) / cells) / math.sqrt(2)) / 2
        for place in range(cells)
    ]
    assert sum(chances) / cells == pytest.approx(1 - share, abs=1e-5)


def test_safety_factor_has_ends() -> None:
    """A share that no factor reaches gets about the largest, or the least."""
    most, least = safety_factors([1.0, 0.0], 1.0)
    assert 7 < most <= MOST_FACTOR
    assert least == pytest.approx(-MOST_FACTOR, abs=1e-6)


def test_level_without_spread() -> None:
    """A steady demand of 9 with a lead time of 2 needs 27, and orders of sqrt(2 * 50 * 9 / 0.25) = 60 items."""
    item, demands = item_of(setup=Fraction(50), holding=Fraction(1, 4)), [9] * 30
    for forecast in (averaged(demands), smoothed_last(demands)):
        assert forecast == (9, 0)
        assert normal_levels(item, [0.9, 0.5], forecast, 2.0, 0.0) == [(27, 87)] * 2


def test_safety_stock_by_hand() -> None:
    """A mean of 4 and a variance of 16 over three periods have a deviation of the root of 48. A lead time whose variance is
    2 adds 32 to its square."""
    item = item_of(setup=Fraction(50), holding=Fraction(1, 4))
    for variance, square in ((0.0, 48), (2.0, 80)):
        ((factor,), deviation) = (
            safety_factors([0.9], 40 / square**0.5),
            square**0.5,
        )
        expected = math.ceil(12 + factor * deviation)
        levels = normal_levels(item, [0.9], Forecast(4, 16), 2.0, variance)
        assert levels == [(expected, expected + 40)]


def test_forecasts_by_hand() -> None:
    """The mean of 2, 4 and 9 is 5, and their squares from that are 26, over two. Thirteen weeks of 5 and one of 15 are
    smoothed to 6, with a tenth of the square of 10."""
    assert averaged([2, 4, 9]) == (5, 13)
    assert smoothed_last([5] * 13 + [15]) == pytest.approx((6, 10))


def test_cover_by_hand() -> None:
    """Of the last 26 weeks the mean is 3: a lead time of 2, a review and some weeks more are covered."""
    item = item_of(setup=Fraction(6), holding=Fraction(1))
    levels = cover_levels(item, [50] * 9 + [2, 4] * 13, 2.0)
    assert levels == [(9 + 3 * more, 15 + 3 * more) for more in COVERS]


def test_wanted_share() -> None:
    """The share is the wanted fill rate, or backlog over backlog and holding."""
    assert wanted_share(item_of(fill=Fraction(49, 50))) == 0.98
    assert wanted_share(item_of(holding=Fraction(1), backlog=Fraction(9))) == 0.9
