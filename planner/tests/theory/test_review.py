"""Tests theory with a review in one of several periods: figures by a Markov chain, period by period, and searches by all
pairs."""
from __future__ import annotations

import dataclasses
import itertools

import numpy as np
import pytest
from hypothesis import given, settings, strategies as st

from crnplan.money import Costs
from crnplan.runs import Scenario
from crnplan.theory.every_gap import best_policies
from crnplan.theory.lattice import shape_of, theory_on
from planner.tests.theory.chain import by_chain
from planner.tests.theory.scenarios import Weights, laws, scenario_of, table, theory_of


def reviewed(scenario: Scenario, review: int) -> Scenario:
    return dataclasses.replace(scenario, review=review)


def check_figures(scenario: Scenario) -> None:
    (policy,), theory = scenario.policies, theory_of(scenario)
    found = theory.figures(policy.s, policy.S)
    cost, fill, short, stock, orders, _ = by_chain(scenario)
    assert [*found] == pytest.approx([cost, fill, short, stock, orders], abs=1e-7)


@pytest.mark.parametrize("review", [2, 3, 5])
@pytest.mark.parametrize(
    "demand, lead, back",
    [
        ({0: 3, 1: 2, 4: 1}, [1], None),
        ({0: 3, 6: 1}, [2], None),
        ({0: 3, 1: 2, 3: 1}, [1, 3], None),
        ({0: 1, 2: 1}, [1, 2, 4], None),
        ({0: 4, 1: 3, 3: 2}, [1], {0: 4, 1: 1}),
        ({0: 4, 1: 3, 3: 2}, [1, 2], {0: 4, 1: 1}),
    ],
    ids=str,
)
def test_figures_are_those_of_a_chain(
    demand: Weights, lead: Weights, back: Weights | None, review: int
) -> None:
    for levels in ((3, 9), (6, 6)):
        check_figures(reviewed(scenario_of(demand, lead, back, levels=levels), review))


@settings(max_examples=15, deadline=None)
@given(
    demand=laws(st.integers(0, 4), 3).filter(max),
    lead=laws(st.integers(1, 3), 2),
    point=st.integers(0, 9),
    gap=st.integers(0, 6),
    review=st.integers(2, 4),
)
def test_figures_of_any_small_scenario(
    demand: Weights, lead: Weights, point: int, gap: int, review: int
) -> None:
    check_figures(
        reviewed(scenario_of(demand, lead, levels=(point, point + gap)), review)
    )


SCENARIOS = (
    scenario_of({0: 5, 1: 3, 4: 2}, [2], costs=Costs(20, 0, 2, 9)),
    scenario_of({0: 5, 1: 3, 4: 2}, [1, 3], costs=Costs(12, 0, 2, 9)),
    scenario_of({0: 5, 3: 1}, [1, 2], costs=Costs(60, 0, 2, 5)),
    scenario_of({0: 3, 1: 3, 2: 2}, [2], {0: 5, 1: 1}, costs=Costs(9, 0, 2, 9)),
    scenario_of({0: 3, 1: 3, 2: 2}, [1, 2], {0: 5, 1: 1}, costs=Costs(9, 0, 2, 9)),
)


@pytest.mark.parametrize("periods", [False, True], ids=["demand", "periods"])
@pytest.mark.parametrize("review", [2, 4])
@pytest.mark.parametrize("scenario", SCENARIOS, ids=range(len(SCENARIOS)))
def test_the_cheapest_of_all_pairs(
    scenario: Scenario, review: int, periods: bool
) -> None:
    """No pair costs less that meets as much: theory's figures of pairs are those of a chain."""
    theory = theory_of(reviewed(scenario, review)).counting(periods)
    for share in (0.0, 0.9, 0.98):
        best, least = theory.best(share), np.inf
        most = best.level + 25
        for s, S in itertools.combinations_with_replacement(range(most), 2):
            figures = theory.figures(s, S)
            if theory.met(figures) >= share - 1e-9:
                least = min(least, figures.cost)
        assert best.cost == pytest.approx(least, rel=1e-9)


@pytest.mark.parametrize("scenario", SCENARIOS[:3], ids=range(3))
def test_the_best_by_prices(scenario: Scenario) -> None:
    """The best for a price of what is not met at once is that of all pairs, with stock and orders as they are."""
    theory = theory_of(reviewed(scenario, 3))
    prices = np.array([0.5, 4.0, 30.0])
    rates = np.tile([[20.0], [2.0]], 3)
    _, found = best_policies(theory, np.vstack([rates, prices]))
    costs = rates[0] * found[3] + rates[1] * found[1] + prices * found[2]
    mean = float(table(scenario.demand).mean)
    rows = []
    for s, S in itertools.combinations_with_replacement(range(50), 2):
        its = theory.figures(s, S)
        rows.append((its.orders, its.stock, mean * (1 - its.fill)))
    by_pair = np.array(rows) @ np.vstack([rates, prices])
    assert costs == pytest.approx(by_pair.min(axis=0), rel=1e-6)


@pytest.mark.parametrize("lead", [[2], [1, 3]], ids=str)
def test_a_coarse_lattice(lead: Weights) -> None:
    """Figures on a lattice of 3 items are near those of single items."""
    demand = {value: 1 + value % 5 for value in range(41)}
    scenario = reviewed(scenario_of(demand, lead, costs=Costs(700, 0, 1, 20)), 4)
    exact = theory_of(scenario)
    best = exact.best(0.95)
    rough = theory_on(scenario, shape_of(scenario), 3, False)
    near, own = rough.figures(*best.levels), exact.figures(*best.levels)
    assert [*near] == pytest.approx([*own], rel=0.01, abs=0.004)
