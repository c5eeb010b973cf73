"""Tests orders that are rounded up to packs and to a smallest order: figures, and the best of all policies."""
from __future__ import annotations

import dataclasses
import itertools

import numpy as np
import pytest

from crnplan.money import Costs
from crnplan.policies import Lot, Policy
from crnplan.runs import Scenario
from crnplan.theory.every_gap import best_policies
from crnplan.theory.lattice import lattice_of, shape_of, theory_on
from crnplan.theory.long_run import LongRun
from planner.tests.theory import chain
from planner.tests.theory.scenarios import Weights, scenario_of

FEW, SIXES = {0: 5, 1: 2, 4: 1}, {0: 3, 6: 2, 12: 1}
COSTS = Costs(30, 0, 1, 19)
LOTS = Lot(5), Lot(12), Lot(1, 6), Lot(3, 7)


def scenario_with(
    lot: Lot,
    demand: Weights = FEW,
    lead: Weights = {2: 1},
    back: Weights | None = None,
    review: int = 1,
) -> Scenario:
    scenario = scenario_of(demand, lead, back, COSTS)
    return dataclasses.replace(scenario, lot=lot, review=review)


def theory_of(scenario: Scenario) -> LongRun:
    shape = shape_of(scenario)
    step, exact = lattice_of(scenario, shape, 20)
    assert exact
    return theory_on(scenario, shape, step, exact)


@pytest.mark.parametrize("levels", [(3, 3), (3, 9), (4, 6)], ids=str)
@pytest.mark.parametrize(
    "scenario",
    [
        *map(scenario_with, LOTS),
        scenario_with(Lot(10), SIXES),  # counted in twos
        scenario_with(Lot(6), SIXES),  # which are packs by themselves
        scenario_with(Lot(1, 8), SIXES),
        scenario_with(Lot(5), back={0: 9, 1: 1}),
        scenario_with(Lot(4, 6), back={0: 9, 1: 1}, review=2),
        scenario_with(Lot(12), lead={1: 1, 3: 1}),  # no two orders are under way
    ],
    ids=range(10),
)
def test_figures_are_those_of_a_chain(
    scenario: Scenario, levels: tuple[int, int]
) -> None:
    """With one lead time they are exact, and with several if no two orders are under way."""
    found = theory_of(scenario).figures(*levels)
    own = scenario.with_policies([Policy("own", *levels)])
    assert found == pytest.approx(chain.by_chain(own)[:5], rel=1e-9)


def test_positions_of_packs_are_equally_likely() -> None:
    """With s = S, an order of packs of Q leaves the position at each of Q places as often, whatever is asked for."""
    for demand in (FEW, {0: 1, 3: 1}, {1: 5, 2: 1}):
        for pack in (2, 5, 7):
            theory = theory_of(scenario_with(Lot(pack), demand))
            (row,) = theory.lows_below([0])
            assert row == pytest.approx(np.full(pack, 1 / pack), rel=1e-9)


def test_several_lead_times_are_close() -> None:
    """If orders overtake one another, theory leaves out where earlier cycles began: by less than half a percent here."""
    for lot, level in itertools.product(LOTS, (3, 6)):
        scenario = scenario_with(lot, lead={1: 1, 3: 1})
        found = theory_of(scenario).figures(3, level)
        own = scenario.with_policies([Policy("own", 3, level)])
        assert found == pytest.approx(chain.by_chain(own)[:5], rel=5e-3)


def simulated(demand: Weights, lot: Lot, s: int, S: int, seed: int) -> np.ndarray:
    """Returns fill, stock and orders of a period, a row for each of 4,000 shops over 400 weeks after 100 others. An order
    takes two weeks."""
    random, shops = np.random.default_rng(seed), 4_000
    values = np.repeat([*demand], [*demand.values()])
    stock, due, sums = (
        np.full(shops, S),
        np.zeros((2, shops), int),
        np.zeros((4, shops)),
    )
    for week in range(500):
        position = stock + due.sum(axis=0)
        order = np.where(position < s, np.maximum(S - position, lot.least), 0)
        order += -order % lot.pack
        stock = stock + due[0]
        due = np.array([due[1], order])
        asked = random.choice(values, shops)
        met = np.clip(stock, 0, asked)
        stock = stock - asked
        if week >= 100:
            sums += asked, met, np.maximum(stock, 0), order > 0
    return np.array([sums[1] / sums[0].mean(), sums[2] / 400, sums[3] / 400])


@pytest.mark.parametrize("lot", [Lot(24), Lot(7), Lot(1, 15), Lot(6, 20)], ids=str)
def test_figures_beside_a_simulation(lot: Lot) -> None:
    """Theory is within four standard errors of 4,000 simulated shops, errors of at most 1% of each figure."""
    theory = theory_of(scenario_with(lot))
    for levels in ((5, 5), (5, 11)):
        rows = simulated(FEW, lot, *levels, seed=lot.pack)
        means, errors = rows.mean(axis=1), rows.std(axis=1) / np.sqrt(4_000)
        figures = theory.figures(*levels)
        far = abs(means - [figures.fill, figures.stock, figures.orders]) / errors
        assert far.max() < 4
        assert (errors < 0.01 * means).all()


@pytest.mark.parametrize("lead", [{2: 1}, {1: 1, 3: 1}], ids=str)
@pytest.mark.parametrize("lot", [*LOTS, Lot(25)], ids=str)
def test_the_best_of_all_pairs(lot: Lot, lead: Weights) -> None:
    """No pair of levels costs less: of all, of those that meet a share, and by a price of what is not met."""
    theory = theory_of(scenario_with(lot, lead=lead))
    pairs = [(s, S) for s in range(20) for S in range(s, s + 30)]
    figures = np.array([theory.figures(*pair) for pair in pairs])
    cost, fill, _, stock, orders = figures.T
    assert theory.best().cost == pytest.approx(cost.min(), rel=1e-9)
    assert theory.best(0.95).cost == pytest.approx(cost[fill >= 0.95].min(), rel=1e-9)
    _, (_, *own) = best_policies(theory, np.array([[30.0], [1.0], [50.0]]))
    by_price = 30 * orders + stock + 50 * (1 - fill) * theory.asked
    held, unmet, often = np.ravel(own)
    found = 30 * often + held + 50 * unmet
    assert found == pytest.approx(by_price.min(), rel=1e-9)
