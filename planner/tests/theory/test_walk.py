"""Tests sums and tails of laws with direct sums, and the lows and heights of a walk with its steps one by one."""
from __future__ import annotations

from collections import defaultdict
from collections.abc import Mapping

import numpy as np
import pytest
from hypothesis import given, settings, strategies as st

from crnplan.law import Law
from crnplan.theory.walk import (
    MOST_PRODUCTS,
    NOTHING,
    LatticeLaw,
    Surplus,
    convolved,
    cut,
    factors_of,
    figures_at,
    power_of,
    renewal_sequence,
    room_for,
    sum_of,
    summed,
)
from planner.tests.theory.scenarios import table

MOST_HEIGHT = 300
WAYS = pytest.mark.parametrize("way", ["__call__", "__wrapped__"])
Chances = Mapping[int, float]


def law_of(low: int, weights: list[int]) -> LatticeLaw:
    return LatticeLaw(low, np.array(weights) / sum(weights))


WEIGHTS = st.lists(st.integers(1, 1000), min_size=1, max_size=12)
LAWS = st.builds(law_of, st.integers(-20, 20), WEIGHTS)
TABLES = st.dictionaries(
    st.integers(0, 10_000), st.integers(0, 65_536), min_size=1, max_size=9
).filter(lambda weights: any(weights.values()))


def as_dict(law: LatticeLaw) -> Chances:
    return dict(zip(law.cells.tolist(), law.chances.tolist()))


def direct_sum(left: Chances, right: Chances) -> Chances:
    """Returns the chances of the sum of two independent numbers, pair by pair."""
    total: dict[int, float] = defaultdict(float)
    for value, chance in left.items():
        for other, its in right.items():
            total[value + other] += chance * its
    return total


@given(LAWS, LAWS, st.integers(0, 7))
def test_sums_equal_direct_sums(
    left: LatticeLaw, right: LatticeLaw, count: int
) -> None:
    chances, total = as_dict(left), as_dict(NOTHING)
    wanted = direct_sum(chances, as_dict(right))
    assert as_dict(sum_of(left, right)) == pytest.approx(wanted, abs=1e-14)
    assert as_dict(left.reflected.reflected) == chances
    assert as_dict(left.reflected) == {-cell: its for cell, its in chances.items()}
    for _ in range(count):
        total = direct_sum(total, chances)
    power = as_dict(power_of(left, count))
    assert total == pytest.approx({it: power.get(it, 0.0) for it in total}, abs=1e-13)


@pytest.mark.parametrize("left, right", [(240, 208), (900, 700), (4000, 13)])
def test_a_convolution_by_transform_equals_the_direct_sum(
    left: int, right: int
) -> None:
    random = np.random.default_rng(left)
    first, second = random.random(left), random.random(right)
    assert left * right > MOST_PRODUCTS - 100
    assert convolved(first, second) == pytest.approx(
        np.convolve(first, second), rel=1e-12
    )


@given(TABLES, st.integers(1, 700))
def test_a_lattice_keeps_mean_and_sum(weights: dict[int, int], step: int) -> None:
    table = Law.of(weights)
    law = LatticeLaw.of(table, step)
    assert law.mean * step == pytest.approx(float(table.mean), rel=1e-9, abs=1e-9)
    assert law.chances.sum() == pytest.approx(1)
    if not np.mod(table.values, step).any():
        places = np.array(table.values) // step - law.low
        found = law.chances[places]
        assert found == pytest.approx([*table.chances.values()])


@given(LAWS, st.integers(1, 9), st.integers(-300, 300))
def test_surpluses_equal_direct_sums(law: LatticeLaw, step: int, level: int) -> None:
    surplus, levels = Surplus(law, step), np.array([level, level + 1])
    left = levels[:, None] - law.cells * step
    held, lacking = np.maximum(left, 0), np.maximum(-left, 0)
    found = surplus.costs(levels, 1, 0), surplus.costs(levels, 0, 1)
    assert found[0] == pytest.approx(held @ law.chances, abs=1e-9)
    assert found[1] == pytest.approx(lacking @ law.chances, abs=1e-9)


@given(st.integers(1, 1 << 20))
def test_the_room_of_a_transform(size: int) -> None:
    rooms = np.outer([1, 3, 5], 1 << np.arange(24))
    assert room_for(size) == rooms[rooms >= size].min()


def walked(net: LatticeLaw) -> tuple[np.ndarray, np.ndarray]:
    """Returns how often each height above a low is visited before the next low, and the law of the fall to that low."""
    visits, falls = np.zeros(MOST_HEIGHT), np.zeros(net.high + 1)
    heights: Chances = {0: 1.0}
    while heights:
        after = defaultdict(float)
        for height, chance in heights.items():
            visits[height] += chance
            for step, share in as_dict(net).items():
                to = height - step
                if to < 0:
                    falls[-to] += chance * share
                elif to < MOST_HEIGHT and chance * share > 1e-17:
                    after[to] += chance * share
        heights = after
    return visits, falls


def check_factors(net: LatticeLaw) -> None:
    """Compares the factors with the walk."""
    visits, falls = walked(net)
    found, found_falls = factors_of(net)
    both = min(len(found), MOST_HEIGHT)
    assert found[:both] == pytest.approx(visits[:both], abs=1e-9)
    assert visits[both:] == pytest.approx(0, abs=1e-9)
    assert found_falls == pytest.approx(falls, abs=1e-9)


@pytest.mark.parametrize("weight", [2, 65_535])
def test_the_walk_with_returns(weight: int) -> None:
    back = LatticeLaw.of(table({0: weight, 1: 1}), 1).reflected
    demand = LatticeLaw.of(table({0: 3, 1: 2, 4: 2}), 1)
    check_factors(sum_of(demand, back))


@settings(max_examples=40)
@given(
    st.lists(st.integers(0, 9), min_size=2, max_size=6),
    st.lists(st.integers(0, 2), min_size=1, max_size=3),
)
def test_any_walk_that_falls(demand: list[int], back: list[int]) -> None:
    down, up = (law_of(0, [9 - sum(it) % 3, *it]) for it in (demand, back))
    net = sum_of(down, up.reflected)
    if net.mean > 0.5:
        check_factors(net)


def renewed(weights: list[int], count: int) -> tuple[np.ndarray, np.ndarray]:
    """Returns the law of a fall, and the chances of so many places to be a low: sums over the last fall."""
    falls, chances = np.array([0.0, *weights]) / sum(weights), np.zeros(count)
    chances[0] = 1.0
    for place in range(1, count):
        last = np.arange(1, min(place, len(weights)) + 1)
        chances[place] = falls[last] @ chances[place - last]
    return falls, chances


@given(
    st.lists(st.integers(0, 9), min_size=1, max_size=5).filter(any),
    st.integers(0, 40),
    st.integers(0, 40),
)
def test_lows_are_a_renewal_sequence(
    weights: list[int], first: int, count: int
) -> None:
    most = first + count + 1
    falls, chances = renewed(weights, most)
    lows = renewal_sequence(chances[: first + 1], falls, most)
    assert lows == pytest.approx(chances, abs=1e-14)


@WAYS
@pytest.mark.parametrize("known, count", [(1, 9), (40, 700)])
@pytest.mark.parametrize("weights", [[1], [0, 0, 3, 0, 1], [*range(1, 80)]], ids=len)
def test_lows_that_become_equal(
    weights: list[int], known: int, count: int, way: str
) -> None:
    """Lows whose chances differ by less than 1e-13 of them are all equal."""
    falls, chances = renewed(weights, count)
    lows = getattr(renewal_sequence, way)(chances[:known], falls, count)
    assert lows == pytest.approx(chances, rel=1e-12)


@WAYS
@pytest.mark.parametrize("step", [1, 3])
def test_sums_and_figures(step: int, way: str) -> None:
    """A law loses its all but impossible ends. Its sums, and the figures of levels, are sums over its cells one by one:
    what is taken with the demand of a period, and before that, here two cells less."""
    cells = LatticeLaw.of(Law((2, 3, 7, 40), (2, 3, 1, 4)), step).between(0, 40)
    low, chances = cut(np.array([-1e-19, 1e-19, *cells, -1e-18, 1e-18]))
    is_wide = step > 1
    assert low == 4 - 2 * is_wide
    assert len(chances) == 40 // step - low + 3 + is_wide
    assert chances.sum() == pytest.approx(1)
    assert chances == pytest.approx(cells[low - 2 :][: len(chances)])
    below, taken = summed(chances, low, step)
    amounts = step * (low + np.arange(len(chances)))
    assert below == pytest.approx(np.cumsum([0, *chances]))
    assert taken == pytest.approx(np.cumsum([0, *amounts * chances]))
    before, levels = summed(chances, low - 2, step), np.arange(-20, 99)
    words = levels, step, low, below, taken, low - 2, *before, 3, 7
    found = getattr(figures_at, way)(*words)
    left = levels[:, None] - amounts
    held = np.maximum(left, 0) @ chances
    owed = np.maximum(-left, 0) @ chances
    owed_before = np.maximum(-2 * step - left, 0) @ chances
    expected = 3 * held + 7 * owed, owed - owed_before, (left >= 0) @ chances, held
    assert found == pytest.approx(np.array(expected), abs=1e-12)
