"""Tests the searches for the best policies against all policies one by one, and their loops as they are compiled and as
they are written."""
from __future__ import annotations

import functools
from collections.abc import Iterator, Sequence
from typing import Any

import numpy as np
import pytest

from crnplan.chances import Floats
from crnplan.money import Costs
from crnplan.runs import Scenario
from crnplan.theory import every_gap, points
from crnplan.theory.every_gap import GAIN, best_policies
from crnplan.theory.feasible import ALL, Feasible
from crnplan.theory.lattice import shape_of, theory_on
from crnplan.theory.figures import STOCK_LEFT, UNMET
from crnplan.theory.long_run import LongRun
from planner.tests.conftest import cases_beside, leave_as_written
from planner.tests.theory.long_run_costs import fills_of, shortfall_of
from planner.tests.theory.scenarios import Pair, means_by_level, scenario_of

FINER = cases_beside(__file__)
# Costs of an order, of an item in stock, and of one that is not met at once, by case.
RATES = np.array([(30, 1), (90, 1), (30, 4), (0, 1)], float)
PRICES = 10.0 ** np.arange(-3, 5)
CASES = np.vstack([np.repeat(RATES, len(PRICES), axis=0).T, np.tile(PRICES, 4)])
LUMPY, SMOOTH = ((0, 1, 6), (5, 4, 1)), ((1, 2, 3, 4), (1, 2, 2, 1))
BOUNDS = (ALL, Feasible(3, 40), Feasible(0, 20), Feasible(30, 70))


@functools.cache
def theory_by(
    demand: Pair, step: int, lead: Pair = ((2,), (1,)), back: Pair | None = None
) -> tuple[LongRun, Scenario]:
    """Returns the theory of a scenario on a lattice of some step."""
    scenario = scenario_of(demand, lead, back, Costs(30, 0, 1, 9))
    return theory_on(scenario, shape_of(scenario), step, step == 1), scenario


def late_theory(demand: Pair, back: Pair | None, step: int) -> tuple[LongRun, Scenario]:
    """Returns the theory of a scenario with several lead times."""
    return theory_by(demand, step, ((1, 2, 4), (1, 2, 1)), back)


def pairs_of(theory: LongRun) -> Iterator[tuple[int, int]]:
    """Yields the gaps and levels, in items, of all policies that may be best."""
    step, feasible = theory.step, theory.feasible
    for gap in theory.every_gap(0, theory.most).tolist():
        least = theory.items(gap) + feasible.least_point
        most = max(least, step * (gap + theory.after.high + 1))
        yield gap, least
        for cell in range(least // step + 1, most // step + 2):
            yield gap, min(step * cell, feasible.most_level)


def figures_at(theory: LongRun, gap: int, level: int) -> Floats:
    """Returns stock, unmet demand and orders of a policy: sums over the lows, between two cells a mean."""
    lows, step = theory.lows_of(gap), theory.step
    cell, rest = divmod(level, step)
    means = []
    for first in (cell, cell + 1):
        figures = theory.figures_from(step * (first - np.arange(gap + 1)))
        means.append(figures[[STOCK_LEFT, UNMET]] @ lows / lows.sum())
    below, above = means
    between = below + rest / step * (above - below)
    return np.array([*between, 1 / (theory.span * lows.sum())])


@pytest.mark.parametrize("feasible", BOUNDS, ids=str)
@pytest.mark.parametrize("demand, step", [(LUMPY, 1), (SMOOTH, 1), (LUMPY, 3)])
def test_best_of_all(demand: Pair, step: int, feasible: Feasible) -> None:
    """Costs no more than any policy, and has the figures of its own."""
    theory = theory_by(demand, step)[0].within(feasible)
    every = {pair: figures_at(theory, *pair) for pair in pairs_of(theory)}
    gaps, (levels, stock, unmet, orders) = best_policies(theory, CASES)
    best = [*zip(gaps.tolist(), levels.astype(int).tolist())]
    for gap, level in best:
        assert feasible.has(level - theory.items(gap), level)
    own = np.array([every[pair] for pair in best])
    assert np.allclose(np.transpose([stock, unmet, orders]), own, 1e-11, 1e-14)
    order, holding, price = CASES
    costs = order * orders + holding * stock + price * unmet
    least = np.array([*every.values()]) @ [holding, price, order]
    assert (costs <= least.min(axis=0) * (1 + 1e-11)).all()


@pytest.mark.parametrize("leads", [1, 3])
@pytest.mark.parametrize(
    "step, feasible", [(1, ALL), (3, BOUNDS[1]), (1, BOUNDS[3])], ids=str
)
def test_ways(
    step: int, feasible: Feasible, leads: int, monkeypatch: pytest.MonkeyPatch
) -> None:
    """Finds the same as it is written and as it is compiled."""
    plain, late = theory_by(LUMPY, step), late_theory(LUMPY, None, step)
    theory = (plain if leads == 1 else late)[0].within(feasible)
    gaps, figures = best_policies(theory, CASES)
    leave_as_written(monkeypatch, every_gap, points)
    others, same = best_policies(theory, CASES)
    assert others.tolist() == gaps.tolist() and np.allclose(same, figures, 1e-12, 1e-12)


@pytest.fixture(params=["compiled", "as written"])
def each_way(request: pytest.FixtureRequest, monkeypatch: pytest.MonkeyPatch) -> None:
    """Has the loops run as they are compiled, then as they are written."""
    if request.param == "as written":
        leave_as_written(monkeypatch, every_gap, points)


@pytest.mark.usefixtures("each_way")
def test_vertices_by_hand() -> None:
    """A point that meets no more demand is none, nor one above the line through others, nor one behind the dearest, nor
    one before the best of the lowest price. Levels between two cells have means."""
    sums = np.array([np.arange(6.0), [9.0, 9.0, 5.0, 4.0, 1.0, 0.9]])

    def vertices(*prices: float, levels: Sequence[float] = range(6)) -> list[int]:
        kept, rows = np.zeros(6, int), np.empty((3, 6))
        size = points.vertices_of(
            2 * sums, 2.0, np.array(levels, float), np.array(prices), rows, kept
        )
        return kept[:size].tolist()

    assert vertices(0.1, 9.0) == [0, 4, 5]
    assert vertices(0.1, 0.1) == [0]
    lowest = (0.49, 0.51, 9.9, 10.1)
    found = [vertices(least, 9.0) for least in lowest]
    assert found == [[0, 4, 5], [4, 5], [4, 5], [5]]
    # At 3.75, 1.75 is not met: above the line from 2 to 4, and below that to 5.
    assert vertices(0.1, 9.0, levels=(2.0, 3.75, 4.0)) == [0, 2]
    assert vertices(0.1, 9.0, levels=(2.0, 3.75, 5.0)) == [0, 1, 2]


def finer(places: Sequence[int], gaps: int, *costs: Sequence[float]) -> list[int]:
    """Returns what `finer` does, of cases with costs by place; all places have equal gaps."""
    ordered = np.ascontiguousarray(np.transpose(costs), float)
    halves = every_gap.finer(np.array(places), np.full(len(places), gaps), ordered)
    return [int(half) for half in halves]


@pytest.mark.usefixtures("each_way")
@pytest.mark.parametrize("gaps, costs, halves", FINER["cases"])
def test_finer_by_hand(gaps: int, costs: list[list[float]], halves: list[int]) -> None:
    places = FINER["equal" if len(costs[0]) == 7 else "places"]
    assert finer(places, gaps, *costs) == halves


def test_finer_of_a_parabola() -> None:
    """With its least of 100, lines meet 32/7 and 8/3 times its bend below that: 0.005 is free."""
    places, halves = FINER["places"], []
    for bend in (1e-4, 1.5e-3, 2e-3):
        costs = 100 + bend * (np.array(places) - 8) ** 2
        halves.append(finer(places, 6400, costs.tolist()))
    assert halves == [[2, 16], [2, 6, 16], [2, 6, 9, 16]]
    # 4 is too wide beside the best one.
    costs = 100 + 1e-4 * (np.array(places) - 8) ** 2
    assert finer(places, 3 * 64, costs.tolist()) == [2, 6, 16]


@functools.cache
def figures_by_level(demand: Pair, back: Pair | None, step: int, gap: int) -> Floats:
    """Returns stock, unmet demand and orders with a gap, by level in cells: of a chain that shares no code with theory,
    if the lattice is exact."""
    theory, scenario = late_theory(demand, back, step)
    if not theory.exact:
        least = -(-(theory.items(gap) + theory.feasible.least_point) // step)
        count = max(least, gap + theory.beside + theory.after.high) + 2
        stock, unmet = means_by_level(theory, gap, count)[[STOCK_LEFT, UNMET]]
        return np.array([stock, unmet, np.full(len(stock), 1 / theory.periods(gap))])
    short, levels = shortfall_of(scenario, gap), np.arange(110)
    left = levels[:, None] - short.least - np.arange(len(short.chances))
    stock = np.maximum(left, 0) @ short.chances
    unmet = float(scenario.demand.mean) * (1 - fills_of(scenario, short, levels))
    return np.array([stock, unmet, np.full(len(levels), short.orders)])


@pytest.mark.parametrize("feasible", BOUNDS, ids=str)
@pytest.mark.parametrize(
    "demand, back, step",
    [
        (LUMPY, None, 1),
        (SMOOTH, None, 1),
        (SMOOTH, None, 3),
        (SMOOTH, ((0, 1), (3, 1)), 1),
    ],
    ids=["lumpy", "smooth", "step", "back"],
)
def test_search_with_several_lead_times(
    demand: Pair, back: Pair | None, step: int, feasible: Feasible
) -> None:
    """Has the figures of its policies. No other costs less by more than a share."""
    theory = late_theory(demand, back, step)[0].within(feasible)
    gaps, (levels, *figures) = best_policies(theory, CASES)
    least, (order, holding, price) = np.full(len(gaps), np.inf), CASES
    for gap in theory.every_gap(0, theory.most).tolist():
        table = figures_by_level(demand, back, step, gap)
        cells = step * np.arange(table.shape[1])
        mine = np.arange(theory.items(gap) + feasible.least_point, cells[-1])
        mine = mine[(mine <= feasible.most_level) | (mine == mine[0])]
        by_level = np.array([np.interp(mine, cells, row) for row in table])
        totals = by_level.T @ [holding, price, order]
        least = np.minimum(least, totals.min(axis=0))
        here = gaps == gap
        assert {*levels[here].tolist()} <= {*mine.tolist()}
        own = by_level[:, np.searchsorted(mine, levels[here])]
        assert np.allclose(np.array(figures)[:, here], own, 1e-8, 1e-8)
    costs = order * figures[2] + holding * figures[0] + price * figures[1]
    assert (costs <= least * (1 + GAIN) + 1e-6).all()


def test_gaps_are_left_out(monkeypatch: pytest.MonkeyPatch) -> None:
    """Looks at a grid, and then at no gap that is best for no price."""
    looks, compare = list[tuple[int, int]](), every_gap.compare_gaps

    def counted(*words: Any) -> int:
        looks.append((compare(*words), words[4].shape[1]))
        return looks[-1][0]

    monkeypatch.setattr(every_gap, "compare_gaps", counted)
    theory, _ = theory_by(((0, 1, 2), (1, 2, 1)), 1)
    best_policies(theory, CASES[:, :8] * [[100], [1], [1]])
    (grid, most), (looked_at, gaps) = looks
    assert 0 < grid <= most < 0.6 * gaps and 0 < looked_at < 0.6 * gaps
