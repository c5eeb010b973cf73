"""All pairs (s,S) of a scenario up to a level, with figures by a second theory, beside which searches are judged."""
from __future__ import annotations

import math

import numpy as np
import pytest

from crnplan.runs import Scenario
from crnplan.theory.feasible import Feasible
from crnplan.theory.lattice import lattice_of, shape_of, theory_on
from crnplan.theory.long_run import Candidate, LongRun
from planner.tests.theory.long_run_costs import (
    costs_of,
    fills_of,
    held_of,
    shortfall_of,
)


def all_pairs(scenario: Scenario, most: int) -> np.recarray:
    """Returns a row with cost, share of demand met, share of periods without a shortage, s and S for each pair up to a
    level.

    Holding costs at least s + (S - s) / 2 less the mean demand of a lead time and a period: a wider pair costs more.
    """
    columns = []
    for gap in range(most + 1):
        short, levels = shortfall_of(scenario, gap), np.arange(gap, most + 1)
        shares = fills_of(scenario, short, levels), held_of(short, levels)
        costs = costs_of(scenario, short, levels)
        columns.append([costs, *shares, levels - gap, levels])
    return np.rec.fromarrays(np.hstack(columns), names="cost, met, held, s, S")


def theory_within(scenario: Scenario, feasible: Feasible) -> LongRun:
    """Returns the theory of a scenario that is counted item by item, or pack by pack, with its feasible policies."""
    shape = shape_of(scenario)
    step, exact = lattice_of(scenario, shape, 4)
    assert exact
    return theory_on(scenario, shape, step, exact, feasible)


def kept_of(pairs: np.recarray, feasible: Feasible) -> np.recarray:
    """Returns the feasible ones of some pairs."""
    gap = pairs.S - pairs.s
    is_kept = gap <= feasible.most_gap
    is_kept &= (pairs.s >= feasible.least_point) & (pairs.S <= feasible.most_level)
    return pairs[is_kept]


def check(
    found: Candidate, pairs: np.recarray, share: float = 0.0, of: str = "met"
) -> None:
    """Compares a policy with the cheapest of the pairs that meet a share of demand, or of periods."""
    allowed = pairs[pairs[of] >= share - 1e-9]
    assert (found.cost == math.inf) == (not len(allowed))
    if len(allowed):
        own = allowed[(allowed.s == found.point) & (allowed.S == found.level)]
        assert own.cost[0] == pytest.approx(found.cost, abs=1e-6)
        assert found.cost <= allowed.cost.min() + 1e-6 * max(1, found.cost)
