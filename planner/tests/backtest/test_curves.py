"""Tests the stock at one fill rate: by hand, its parts by small changes, and its error by repeated catalogues."""
from __future__ import annotations

import math
from collections.abc import Sequence
from typing import Any

import numpy as np
import pytest

from crnplan.plan.backtest.curves import Curve
from crnplan.plan.backtest.one import Backtest
from crnplan.plan.backtest.sums import Sums, moves_of, sums_of
from planner.tests.backtest.test_sums import DEMAND, PERIODS, made, outcome

# What three aims leave unmet, and their stock.
SHARES, STOCKS = (0.2, 0.1, 0.02), (10, 20, 40)


def curve_of(shares: Sequence[float], stocks: Sequence[float]) -> Curve:
    """Returns the curve of one part, whose demand is 1."""
    rows = ([np.array([figure]) for figure in row] for row in (shares, stocks))
    return Curve(np.array([1.0]), *rows)


@pytest.mark.parametrize(
    "share, stock",
    [(0.2, 10), (0.1, 20), (0.02, 40), (0.141831, 15), (0.21, None), (0.019, None)],
)
def test_stock_by_hand(share: float, stock: float | None) -> None:
    """Between two aims 5% of what is read are added to all shares: 1.05 times 0.141831 is the geometric mean of 0.2 and
    0.1, each with 0.05 times 0.141831. Beyond the aims there is no stock."""
    reading = curve_of(SHARES, STOCKS).at(share)
    assert (reading and reading.stock) == (stock and pytest.approx(stock, rel=1e-5))


def test_nothing_unmet_is_read() -> None:
    """An aim that leaves nothing unmet ends a curve as any other: 0.205, 0.105 and 0.005 are as 41, 21 and 1. A share of
    nothing is not read."""
    reading = curve_of((0.2, 0.0), (10, 20)).at(0.1)
    assert reading
    assert reading.stock == pytest.approx(10 + 10 * math.log(41 / 21) / math.log(41))
    assert curve_of((0.2, 0.0), (10, 20)).at(0) is None


def test_aims_that_are_the_same() -> None:
    """If two aims leave as much unmet, the stock is that of the lower one."""
    reading = curve_of((0.1, 0.1), (10, 20)).at(0.1)
    assert reading
    assert reading.stock == 10


def test_parts_by_small_changes() -> None:
    """If a part counts more by a millionth, the stock moves by a millionth of what the part moves it."""
    random = np.random.default_rng(5)
    asked = random.uniform(1, 3, 8)
    unmet = [asked * random.uniform(0.5, 1, 8) * share for share in (0.4, 0.2, 0.1)]
    stocks = [random.uniform(1, 2, 8) * more for more in (1, 2, 4)]
    whole, share = Curve(asked, unmet, stocks).at(0.12), 0.12
    assert whole
    for place in range(8):
        weights = np.ones(8)
        weights[place] += 1e-6
        rows = ([weights * row for row in rows] for rows in (unmet, stocks))
        more = Curve(weights * asked, *rows).at(share)
        assert more
        change = (more.stock - whole.stock) / 1e-6
        assert change == pytest.approx(whole.parts[place], rel=1e-4)
    assert whole.parts.sum() == pytest.approx(whole.stock)


def traced(
    random: np.random.Generator, level: float, stock: float, own: int = 1
) -> Any:
    """Returns what a method comes to whose aims miss shares of demand by chance, with stocks of an item's own. By itself
    it has one of these aims."""
    unmet, stocks = list[tuple[int, ...]](), list[tuple[int, ...]]()
    draws = random.random(PERIODS)
    for share, more in zip(SHARES, STOCKS):
        unmet.append(tuple((DEMAND * (draws < share)).tolist()))
        levels = stock * more * level + random.integers(0, 3, PERIODS)
        stocks.append(tuple(np.rint(levels).astype(int).tolist()))
    rows = {"unmet_by_aim": (*unmet,), "stocks_by_aim": (*stocks,)}
    return outcome(unmet[own], stocks=stocks[own], **rows)


def catalogue(
    ratio: float, seed: int, own: int = 1, planned: int = 1, items: int = 40
) -> list[Backtest]:
    """Returns tests of items whose smoothing needs a multiple of the plan's stock. Both have an aim by themselves."""
    random, tests = np.random.default_rng(seed), list[Backtest]()
    for place in range(items):
        level = random.uniform(0.5, 2)
        plan = traced(random, level, 1, planned)
        facts = dict.fromkeys(("today", "averaged", "cover"))
        other = traced(random, level, ratio, own)
        tests.append(made(plan.unmet, place, planned=plan, smoothed=other, **facts))
    return tests


@pytest.mark.parametrize("own", [0, 1, 2])
@pytest.mark.parametrize("planned", [0, 1, 2])
@pytest.mark.parametrize(
    "ratio, gains, losses",
    [(0.7, ["smoothed"], []), (1.0, [], []), (1.5, [], ["smoothed"])],
    ids=["cheaper", "the same", "dearer"],
)
def test_what_planted_ways_need(
    ratio: float, gains: list[str], losses: list[str], own: int, planned: int
) -> None:
    """A way needs less if its stock and orders cost less where both meet as much at once, whatever both meet by
    themselves: meeting more by more stock alone gains nothing."""
    sums = Sums.of("", catalogue(ratio, 7, own, planned, 160))
    assert [gain.code for gain in sums.gains] == gains
    assert [loss.code for loss in sums.losses] == losses


def test_gain_by_hand() -> None:
    """The facts of a gain are percent of what stock and orders cost: of 2 times 15 and 10 times 0.5, a smaller stock by 6
    is 12 in 35."""
    rows = {"unmet_by_aim": ((1,) * PERIODS, (0,) * PERIODS)}
    half = (0, 1) * (PERIODS // 2)
    plan = outcome(half, **rows, stocks_by_aim=((15,) * PERIODS,) * 2)
    other = outcome([0] * PERIODS, **rows, stocks_by_aim=((9,) * PERIODS,) * 2)
    facts: dict[str, Any] = {"planned": plan, "smoothed": other, "today": None}
    sums = Sums.of("", [made(half, it, **facts) for it in range(12)])
    (gain,) = sums.gains
    figures = {"stock": -40.0, "spent": -100 * 12 / 35, "fill": 95.0}
    assert {name: gain.facts[name] for name in figures} == pytest.approx(figures)


def test_better_ways_come_first() -> None:
    random, tests = np.random.default_rng(2), list[Backtest]()
    ratios = {"planned": 1.0, "today": 0.5, "averaged": 0.9, "smoothed": 0.7}
    ratios |= {"cover": 1.5, "alike": 1.3}
    for place in range(300):
        level = random.uniform(0.5, 2)
        ran = {name: traced(random, level, own) for name, own in ratios.items()}
        tests.append(made(ran["planned"].unmet, place, **ran))
    sums = Sums.of("", tests)
    assert [gain.code for gain in sums.gains] == ["today", "smoothed", "averaged"]
    assert [loss.code for loss in sums.losses] == ["alike", "cover"]


def test_false_gains_are_rare() -> None:
    """Of catalogues with a way that needs as much stock, and meets as much, at most 7 in 150 are said to need less: 2.5%,
    and chance."""
    gained = sum(bool(Sums.of("", catalogue(1, seed)).gains) for seed in range(150))
    assert gained <= 10


def test_small_classes_by_hand() -> None:
    """Classes of 12 and 11 items move by 20 and by 0 points, all items by the mean of these, weighed."""
    tests = list[Backtest]()
    for place in range(23):
        unmet = [1] * 28 + [3 if place < 12 else 1] * 24
        tests.append(made(unmet, place, group="ab"[place // 12]))
    moves = moves_of(sums_of(tests))
    assert moves
    expected = {"classes": 2, "least": 30, "moved": 10, "whole": 20 * 12 / 23}
    assert moves.facts == pytest.approx(expected)
    assert moves_of(sums_of(made([1] * 52, it) for it in range(12))) is None


def test_error_of_equal_fill_is_that_of_repeated_catalogues() -> None:
    """Over many catalogues the errors are on average as the figures spread, about the true share of stock."""
    equal = [
        Sums.of("", catalogue(0.8, seed)).equal["smoothed"].stock for seed in range(150)
    ]
    values = [estimate.value for estimate in equal]
    assert np.mean(values) == pytest.approx(-0.2, abs=0.01)
    errors = [estimate.error for estimate in equal]
    assert np.mean(errors) == pytest.approx(np.std(values), rel=0.15)


def beside(planned: Sequence[int], other: Sequence[int]) -> Any:
    """Returns what smoothing comes to beside the plan, if the two aims of each leave so much unmet of a demand of 10, with
    stocks of 10 and 20, and of 30 and 60."""
    known = dict[str, Any]()
    for name, unmet, stock in (("planned", planned, 10), ("smoothed", other, 30)):
        rows = tuple((each,) * PERIODS for each in unmet)
        stocks = (stock,) * PERIODS, (2 * stock,) * PERIODS
        known[name] = outcome(rows[0], unmet_by_aim=rows, stocks_by_aim=stocks)
    tests = [made(known["planned"].unmet, it, **known) for it in range(12)]
    return Sums.of("", tests).equal.get("smoothed")


@pytest.mark.parametrize(
    "planned, other, fill, stock",
    [
        ((1, 0), (1, 0), 0.95, 2.0),
        ((3, 1), (4, 2), 0.8, None),
        ((4, 2), (2, 1), 0.8, 0.5),
        ((4, 3), (2, 1), None, None),
    ],
    ids=["as promised", "as near as both get", "at two ends", "nothing in common"],
)
def test_methods_are_compared_where_both_get(
    planned: Sequence[int],
    other: Sequence[int],
    fill: float | None,
    stock: float | None,
) -> None:
    """95% is promised. If a method gets to no more than 80% by its last aim, both are compared there; where the plan
    has its last aim and smoothing its first one, that is 20 beside 30."""
    equal = beside(planned, other)
    assert (equal and equal.fill) == (fill and pytest.approx(fill))
    if stock:
        assert equal.stock.value == pytest.approx(stock)


def test_methods_without_aims_are_not_compared() -> None:
    unmet = [2] * PERIODS
    assert Sums.of("", [made(unmet, it) for it in range(12)]).equal == {}


def test_figures_side_by_side_by_hand() -> None:
    """Smoothing has stock and orders half as many again as the plan."""
    plan = outcome([2] * PERIODS, stocks=(4,) * PERIODS, orders=0.2)
    other = outcome([1, 2] * (PERIODS // 2), stocks=(6,) * PERIODS, orders=0.3)
    facts: dict[str, Any] = {"planned": plan, "smoothed": other}
    sums = Sums.of("", [made([2] * PERIODS, it, **facts) for it in range(12)])
    assert sums.stock["smoothed"].value == pytest.approx(0.5)
    assert sums.orders["planned"] == pytest.approx(0.2)
    assert sums.orders["smoothed"] == pytest.approx(0.3)
    assert sums.drift and sums.drift.value == 0


def test_drift_by_hand() -> None:
    """Of a demand of 10, 1 is unmet in the first seven blocks and 3 in the other six: 20 points more."""
    unmet = [1] * 28 + [3] * 24
    drift = Sums.of("", [made(unmet, place) for place in range(12)]).drift
    assert drift and drift.value == pytest.approx(0.2)
    silent = (DEMAND,) * 20 + (0,) * 32
    tests = [made([0] * PERIODS, place, demands=silent) for place in range(12)]
    assert Sums.of("", tests).drift is None
