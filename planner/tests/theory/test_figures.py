"""Tests figures with a Markov chain, published optima and a second theory, lattices, and scenarios without a theory."""
from __future__ import annotations

import math
from collections.abc import Mapping, Sequence

import numpy as np
import pytest
from hypothesis import given, settings, strategies as st

from crnplan.policies import Policy
from crnplan.money import Costs
from crnplan.runs import Scenario
from crnplan.theory.grid import gap_grid
from crnplan.theory.lattice import NoTheory, shape_of, theories_of, theory_on
from crnplan.theory.long_run import FEW, LongRun
from crnplan.theory.many_laws import figures_of_laws
from planner.tests.theory.chain import by_chain
from planner.tests.theory.long_run_costs import cost_of, costs_of, shortfall_of
from planner.tests.theory.scenarios import (
    PUBLISHED,
    Weights,
    laws,
    published,
    scenario_of,
    table,
    theory_of,
)

# Demands, lead times and returns.
CHAINS = [
    ({0: 3, 1: 2, 3: 1}, [1], None),
    ([0, 2], [3], None),
    ({0: 3, 1: 2, 3: 1}, [1, 2, 2], None),
    ({1: 2, 2: 1}, [1, 3], None),
    ({0: 2, 3: 1}, [1, 2, 4], None),
    ([1, 3], [1, 2], {0: 2, 1: 1}),
    ([0, 3], [2], {0: 4, 1: 2, 2: 1}),
]
LEVELS = [(0, 0), (0, 6), (2, 5), (3, 3), (1, 8), (6, 8)]
# A grid of gaps finds a first policy whose S costs more than that policy does.
STEEP = [
    scenario_of({6: 5, 7: 9}, costs=Costs(500, 0, 3, 10000)),
    scenario_of({28: 2, 32: 1}, [2], costs=Costs(5000, 0, 3, 10000)),
]


def check_figures(scenario: Scenario) -> None:
    """Compares the figures of the policies with those of the chain, each alone and all under one law."""
    theory = theory_of(scenario)
    expected = []
    for policy in scenario.policies:
        alone = by_chain(scenario.with_policies([policy]))
        position = theory.mean_position(policy.s, policy.S)
        assert [*theory.figures(policy.s, policy.S), position] == pytest.approx(
            alone, abs=1e-7
        )
        expected.append(alone)
    pairs = [(scenario.demand, scenario.lead)]
    found = figures_of_laws(scenario, pairs, scenario.policies)
    cost, fill, *_ = np.transpose(expected)
    assert found.cost[0] == pytest.approx(cost, abs=1e-7)
    assert found.fill[0] == pytest.approx(fill, abs=1e-7)


@pytest.mark.parametrize("demand, lead, back", CHAINS)
def test_figures_are_those_of_a_chain(
    demand: Weights, lead: Weights, back: Weights | None
) -> None:
    scenario = scenario_of(demand, lead, back, levels=None)
    policies = [Policy.of_levels(*pair) for pair in LEVELS]
    check_figures(scenario.with_policies(policies))


@given(demand=laws(st.integers(1, 5), 3), lead=laws(st.integers(1, 3), 2))
def test_what_is_never_met_at_once(demand: Weights, lead: Weights) -> None:
    """Without stock nothing is met at once and each period is short: exactly so, however sums are rounded."""
    figures = theory_of(scenario_of(demand, lead)).figures(0, 0)
    assert [figures.fill, figures.short] == pytest.approx([0, 1], abs=1e-12)
    assert figures.fill >= 0
    assert figures.short <= 1


@settings(max_examples=30)
@given(
    demand=laws(st.integers(0, 5), 3).filter(max),
    lead=laws(st.integers(1, 3), 2),
    back=st.none() | laws(st.integers(0, 1), 2),
    point=st.integers(0, 6),
    gap=st.integers(0, 6),
    costs=st.builds(Costs, *[st.integers(0, 50)] * 2, *[st.integers(1, 50)] * 2),
)
def test_figures_of_any_small_scenario(
    demand: Weights,
    lead: Weights,
    back: Weights | None,
    point: int,
    gap: int,
    costs: Costs,
) -> None:
    if back and 2 * table(back).mean > table(demand).mean:
        back = None
    check_figures(scenario_of(demand, lead, back, costs, (point, point + gap)))


def test_halves_of_a_mean_position() -> None:
    """If each period asks for one item, the position after a review is each depth up to the gap as often. A mean of so
    many and a half is that to the last bit, since a run starts from the nearest whole number.
    """
    theory = theory_of(scenario_of([1]))
    for gap in range(60):
        assert theory.mean_position(10, 10 + gap) == 9 + gap / 2


@pytest.mark.parametrize("mean, point, level, cost", PUBLISHED)
def test_a_published_optimum(mean: int, point: int, level: int, cost: str) -> None:
    best = LongRun(published(mean), 1, True, 150).best()
    assert (f"{best.cost:.3f}", best.point - 1, best.level) == (cost, point, level)


@pytest.mark.parametrize("scenario", STEEP, ids=["lead time 1", "lead time 2"])
def test_the_best_if_the_first_found_has_a_high_level(scenario: Scenario) -> None:
    theory = theory_of(scenario)
    assert theory.has_one_lead
    first = theory.cheapest_of_gaps(gap_grid(theory.most)[::FEW], 0.0)
    best = theory.best()
    assert theory.figures_from(np.array([first.level]))[0, 0] > first.cost
    gap, near = best.level - best.point, np.arange(-20, 20)
    least = math.inf
    for other in gap + near:
        short = shortfall_of(scenario, int(other))
        least = min(least, costs_of(scenario, short, best.level + near).min())
    assert best.cost == pytest.approx(least, abs=1e-6)
    own = cost_of(scenario, shortfall_of(scenario, gap), best.level)
    assert own == pytest.approx(least, abs=1e-6)


DEMAND = {value: 1 + value % 7 for value in range(61)}
# The first has a gap of less than a cell.
POLICIES = [(90, 92), (100, 260), (131, 294), (160, 223), (140, 249), (150, 301)]


@pytest.mark.parametrize(
    "lead, back",
    [([3], None), ([1, 4], None), ([2], {0: 3, 5: 2, 13: 1})],
    ids=["one lead time", "two lead times", "returns"],
)
def test_a_coarse_lattice(lead: Weights, back: Weights | None) -> None:
    """Steps of 4 items are no further from exact costs than steps of 8 move them at most."""
    scenario = scenario_of(DEMAND, lead, back, Costs(900, 0, 1, 12), (100, 260))
    shape = shape_of(scenario)
    theories = [theory_on(scenario, shape, step, step == 1) for step in (1, 4, 8)]
    costs = [[it.figures(*levels).cost for levels in POLICIES] for it in theories]
    true, near, far = np.array(costs)
    errors = abs(near - true) / true
    told = max(abs(far - near) / near)
    assert max(errors) <= told < 0.04
    assert max(errors[1:]) < 0.0035
    exact, fine, _ = theories
    best = fine.best()
    assert best.cost == fine.figures(best.point, best.level).cost
    assert exact.best().cost == pytest.approx(best.cost, rel=told)


@settings(max_examples=20)
@given(
    st.integers(2, 40),
    st.lists(st.integers(1, 9), min_size=2, max_size=5),
    st.sampled_from([[1], [2, 3]]),
)
def test_a_common_factor_changes_the_unit_alone(
    factor: int, weights: Sequence[int], lead: Weights
) -> None:
    """Counts in boxes of some items have the figures of counts in items, but for the stock."""

    def figures(times: int) -> list[float]:
        demand = range(0, times * len(weights), times), weights
        scenario = scenario_of(demand, lead, costs=Costs(60 * times, 0, 2, 9))
        fine, coarse = theories_of(scenario)
        assert (fine.step, coarse) == (times, None)
        cost, fill, short, stock, orders = fine.figures(3 * times, 8 * times)
        return [cost / times, fill, short, stock / times, orders]

    assert figures(factor) == pytest.approx(figures(1), rel=1e-9)


SAME = {0: 1, 1: 2, 2: 1}
FREE = "is 0, so there is no best policy: stock, or being short, costs nothing; give it a cost above 0"
REFUSED: Mapping[str, tuple[Scenario, tuple[str, ...], str]] = {
    "no holding": (
        scenario_of(SAME, costs=Costs(1, 1, 0, 1)),
        ("costs", "holding"),
        f"the cost holding {FREE}",
    ),
    "no backlog": (
        scenario_of(SAME, costs=Costs(1, 1, 1, 0)),
        ("costs", "backlog"),
        f"the cost backlog {FREE}",
    ),
    "all comes back": (
        scenario_of(SAME, back=SAME),
        ("demand",),
        "on average 1 items come back and 1 are asked for in a period, so there is nothing to order in the long run; "
        "look at the tables demand and returns",
    ),
    "no demand": (
        scenario_of([0]),
        ("demand",),
        "no item is ever asked for; give a demand above 0 a weight",
    ),
    "too far apart": (
        scenario_of({0: 30000, 1: 30001}, back=[0, 1]),
        (),
        "the numbers of this scenario are too far apart for the theory's tables: what comes back is nearly what is "
        "asked for, or one order lasts for far too long; compare policies of your own by runs",
    ),
}


@pytest.mark.parametrize("scenario, path, said", REFUSED.values(), ids=REFUSED)
def test_a_scenario_without_a_theory(
    scenario: Scenario, path: tuple[str, ...], said: str
) -> None:
    with pytest.raises(NoTheory) as refused:
        theories_of(scenario)
    assert (str(refused.value), refused.value.path) == (said, path)


def test_a_wide_policy_takes_a_coarser_lattice() -> None:
    scenario = scenario_of(DEMAND, [1, 9], levels=(0, 99))
    wide = scenario_of(DEMAND, [1, 9], levels=(0, 10**6))
    step = theories_of(wide)[0].step
    assert theories_of(scenario)[0].step == 1 < step
    assert theories_of(scenario, 10**6)[0].step == step
    costs = Costs(10**8, 1, 1, 10_000)
    scenario = scenario_of(range(10_001), [32], None, costs, (0, 1_000_000))
    fine, coarse = theories_of(scenario)
    assert coarse is not None and fine.step > 1 and coarse.step == 2 * fine.step
    assert fine.demand.mean * fine.step == pytest.approx(5000)
    # The variance of a uniform law of 10,001 numbers, and what steps add at most.
    spread = math.sqrt((10_001**2 - 1) / 12)
    assert spread <= fine.deviation <= math.sqrt(spread**2 + fine.step**2 / 4)
