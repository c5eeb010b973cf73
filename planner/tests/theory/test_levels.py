"""Tests the loop that finds the levels of gaps, as it is compiled and as it is written, beside all levels."""
from __future__ import annotations

import math

import numpy as np
import pytest

from crnplan.money import Costs
from crnplan.theory import levels, long_run
from crnplan.theory.feasible import ALL, Feasible
from crnplan.theory.lattice import shape_of, theory_on
from crnplan.theory.long_run import LongRun, Sought
from planner.tests.conftest import leave_as_written
from planner.tests.theory.long_run_costs import cost_of, shortfall_of
from planner.tests.theory.scenarios import Weights, means_by_level, scenario_of

LOOPS = (levels, long_run)
DEMAND, COSTS = {1: 1, 2: 2, 3: 1}, Costs(900, 0, 1, 9)
CELLS = 121


def best_of_gap(theory: LongRun, gap: int, share: float) -> tuple[int, float]:
    """Returns the cheapest feasible level of a gap that is enough, and its cost, by all levels; -1 if there is none."""
    feasible, most = theory.feasible, theory.step * (CELLS - 1)
    cost, unmet, *_ = means_by_level(theory, gap, CELLS)
    least = theory.items(gap) + feasible.least_point
    items = np.arange(least, min(most, feasible.most_level) + 1)
    cells = items / theory.step
    costs = np.interp(cells, np.arange(CELLS), cost)
    lacking = np.interp(cells, np.arange(CELLS), unmet)
    costs[lacking > theory.allowed(share) * (1 + 1e-9)] = math.inf
    if costs.min(initial=math.inf) == math.inf:
        return -1, math.inf
    return items[costs.argmin()], theory.setup / theory.periods(gap) + costs.min()


@pytest.mark.parametrize(
    "lead, back",
    [([5], None), ([1, 4], None), ([1, 2], {0: 3, 1: 1})],
    ids=["one lead time", "two", "returns"],
)
@pytest.mark.parametrize(
    "step, most_walked, feasible",
    [
        (1, 1000, ALL),
        (1, 30, ALL),
        (3, 1000, ALL),
        (3, 30, ALL),
        (1, 1000, Feasible(3, 20)),
        (3, 1000, Feasible(26, 70)),
    ],
    ids=str,
)
@pytest.mark.parametrize(
    "share, is_compiled", [(0.0, True), (0.95, True), (0.95, False)]
)
def test_each_gap_beside_all_its_levels(
    step: int,
    most_walked: int,
    feasible: Feasible,
    share: float,
    is_compiled: bool,
    lead: Weights,
    back: Weights | None,
    monkeypatch: pytest.MonkeyPatch,
) -> None:
    """Of each gap that is looked at the level is the cheapest feasible one that is enough, and no other gap costs less:
    also with equal lows from some place on.
    """
    scenario = scenario_of(DEMAND, lead, back, COSTS)
    theory = theory_on(scenario, shape_of(scenario), step, step == 1, feasible)
    gaps = theory.every_gap(0, 60)
    tops, costs = np.transpose([best_of_gap(theory, it, share) for it in gaps.tolist()])
    monkeypatch.setattr(long_run, "MOST_WALKED", most_walked)
    if not is_compiled:
        leave_as_written(monkeypatch, *LOOPS)
    for known in (math.inf, costs.min()):
        own_tops, own_costs = theory.levels_of(gaps, Sought(share), known)
        looked = np.isfinite(own_costs)
        assert own_tops[looked].tolist() == tops[looked].tolist()
        assert own_costs[looked] == pytest.approx(costs[looked], rel=1e-9)
        assert own_costs.min() == pytest.approx(costs.min(), rel=1e-9)
    if feasible == ALL:
        assert looked.sum() < 0.9 * len(gaps)


def test_levels_that_no_bound_allows() -> None:
    """No level is chosen above the cut, nor if the greatest level lies below the least that is allowed."""
    cheaper_of = levels.cheaper_of.__wrapped__
    none = -1, math.inf
    lows = levels.Lows(np.zeros((3, 4)), np.zeros((3, 4)), False, np.ones(1))
    for bounds, level, least in (
        (levels.Bounds(0, 1, 60, cut=5), 10, 0),
        (levels.Bounds(0, 1, 3, cut=60), 3, 10),
    ):
        assert cheaper_of(lows, bounds, level, least, math.inf, 0.0) == none


@pytest.mark.usefixtures("each_way")
def test_a_level_below_the_best_must_hold_too() -> None:
    """Below the level that is best, the greatest one is only chosen if the chance of its cell is enough."""
    chances = np.array([0.2, 0.5, 0.7, 0.9])
    table = np.array([np.arange(4.0), np.zeros(4), chances])
    lows = levels.Lows(table, np.zeros((6, 4)), False, np.ones(1))
    bounds = levels.Bounds(0, 10, 25, cut=60)
    for held, chosen in ((0.7, 25), (0.71, -1)):
        assert levels.cheaper_of(lows, bounds, 30, 0, math.inf, held)[0] == chosen


@pytest.mark.usefixtures("each_way")
def test_fixed_levels_of_gaps() -> None:
    """The cost of a fixed level of a gap is that of the policy, as it is computed by itself."""
    scenario, gaps = scenario_of(DEMAND, [2], None, COSTS), np.array([5, 9])
    theory = theory_on(scenario, shape_of(scenario), 1, True, ALL)
    sought = Sought(fixed=lambda gaps: (np.full(len(gaps), 6), gaps + 6))
    tops, costs = theory.levels_of(gaps, sought)
    assert tops.tolist() == [11, 15]
    for gap, cost in zip(gaps.tolist(), costs):
        wanted = cost_of(scenario, shortfall_of(scenario, gap), gap + 6)
        assert cost == pytest.approx(wanted, rel=1e-6)
