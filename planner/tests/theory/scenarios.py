"""Scenarios for the tests of the theory, as far as it looks at them."""
from __future__ import annotations

from collections.abc import Mapping, Sequence

import numpy as np
from hypothesis import strategies as st
from scipy import stats

from crnplan.chances import Floats
from crnplan.law import Law
from crnplan.money import Costs
from crnplan.runs import Scenario
from crnplan.theory.lattice import theories_of
from crnplan.theory.long_run import LongRun

# What makes a law: weights by value, values that are equally likely, or values and weights.
Weights = Law | Mapping[int, int] | Sequence[int]
Pair = tuple[Sequence[int], Sequence[int]]
COSTS = Costs(7, 2, 1, 4)
# Zheng and Federgruen (1991), table I: Poisson means with s, S and the cost. Setup costs 64, holding 1 and backlog 9.
# They order at s too, so s is one below crnsim's. Orders arrive at once.
PUBLISHED = [
    (10, 6, 40, "35.022"),
    (15, 10, 49, "42.698"),
    (20, 14, 62, "49.173"),
    (25, 19, 56, "54.262"),
]
# Lead times of some tests, and their names.
LEADS = {"one lead time": [2], "several": [1, 3]}


def table(weights: Weights | Pair) -> Law:
    if isinstance(weights, Law):
        return weights
    if isinstance(weights, Mapping):
        return Law.of(weights)
    if isinstance(weights, tuple):
        return Law(*map(tuple, weights))
    return Law.of_numbers(weights)


def scenario_of(
    demand: Weights | Pair,
    lead: Weights | Pair = range(1, 2),
    back: Weights | Pair | None = None,
    costs: Costs = COSTS,
    levels: tuple[int, int] | None = (1, 5),
) -> Scenario:
    """Returns a scenario with one policy of these levels. Orders arrive by default after one period."""
    tables = table(demand), table(lead), table(back) if back else None
    return Scenario.of_laws(*tables, costs, levels, 0, 1, 1, "crnsim")


def published(mean: int) -> Scenario:
    """Returns the scenario of `PUBLISHED` with this mean demand, to the last of 15 decimals of its weights."""
    weights = np.rint(1e15 * stats.poisson.pmf(range(100), mean)).astype(int)
    return scenario_of((range(100), weights.tolist()), [0], costs=Costs(64, 0, 1, 9))


def large(
    demands: Sequence[int], weights: Sequence[int], leads: Sequence[int], setup: int
) -> Scenario:
    """Returns a scenario with large costs and, as today's policy, the widest gap that there is."""
    costs = Costs(setup, 1, 1, 10_000)
    return scenario_of((demands, weights), list(leads), None, costs, (0, 1_000_000))


def laws(values: st.SearchStrategy[int], most: int) -> st.SearchStrategy[Weights]:
    """Returns the weights of laws of up to so many values."""
    return st.dictionaries(values, st.integers(1, 9), min_size=1, max_size=most)


def theory_of(scenario: Scenario) -> LongRun:
    """Returns the theory of a scenario that is counted item by item, or pack by pack."""
    theory, coarse = theories_of(scenario)
    assert coarse is None
    return theory


def means_by_level(theory: LongRun, gap: int, count: int) -> Floats:
    """Returns the means over the lows of a gap of the rows of `figures_from`, with each level from 0 on, in cells."""
    (lows,) = theory.lows_below([gap])
    below = np.arange(len(lows)) - theory.above
    levels = theory.step * (np.arange(count)[:, None] - below)
    figures = theory.figures_from(levels.ravel()).reshape(4, *levels.shape)
    return np.asarray(figures @ lows)
