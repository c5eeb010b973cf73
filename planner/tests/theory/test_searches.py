"""Tests the searches with all pairs (s,S) up to levels that cost more for sure, within bounds and without any."""
from __future__ import annotations

import math
import random

import numpy as np
import pytest

from crnplan.money import Costs
from crnplan.runs import Scenario
from crnplan.theory.feasible import ALL, Feasible
from crnplan.theory.grid import search
from crnplan.theory.lattice import shape_of, theory_on
from crnplan.theory.long_run import NO_POLICY
from crnplan.theory.many_laws import Promises
from crnplan.theory.suggestions import MOST_EXCESS
from planner.tests.theory.all_pairs import all_pairs, check, kept_of, theory_within
from planner.tests.theory.chain import by_chain
from planner.tests.theory.scenarios import (
    LEADS,
    Weights,
    scenario_of,
    table,
    theory_of,
)

SHARES = (0.0, 0.5, 0.9, 0.98)
NUMBERS = (0, 3, 12)
MANY = {value: 1 + value % 5 for value in range(41)}
EACH_LEAD = pytest.mark.parametrize("lead", LEADS.values(), ids=LEADS)
EACH_SEED = pytest.mark.parametrize("seed", range(4))


def check_searches(scenario: Scenario, *feasible: Feasible) -> None:
    """Checks that no feasible pair costs less: with a share of demand or of periods, with s, and with S. The fullest
    meets most."""
    free = theory_of(scenario)
    tops = [free.counting(periods).best(SHARES[-1]).level for periods in (True, False)]
    tops += [free.best_with_point(number).level for number in NUMBERS]
    pairs = all_pairs(scenario, max(*tops, 30) + 20)
    for cost, _, _, point, level in pairs.tolist():
        assert free.widest(cost, point) >= free.gap_of(point, level)
    for its in (ALL, *feasible):
        theory, kept = theory_within(scenario, its), kept_of(pairs, its)
        assert len(kept) == sum(map(its.allows, pairs.s, pairs.S))
        for share in SHARES:
            check(theory.best(share), kept, share)
            check(theory.counting(True).best(share), kept, share, "held")
        for number in NUMBERS:
            check(theory.best_with_point(number), kept[kept.s == number])
            check(theory.best_with_level(number), kept[kept.S == number])
        if its.most_level <= 24 and len(kept):
            fullest = theory.fullest()
            own = kept[(kept.s == fullest.point) & (kept.S == fullest.level)]
            assert own.met[0] == pytest.approx(kept.met.max(), abs=1e-9)
            assert own.held[0] == pytest.approx(kept.held.max(), abs=1e-9)


@pytest.mark.parametrize(
    "demand, lead, costs",
    [
        ({0: 3, 6: 1}, [2], Costs(20, 0, 2, 9)),
        ({0: 3, 6: 1}, [1, 3], Costs(20, 0, 2, 9)),
        ({0: 5, 1: 3, 5: 2}, [2], Costs(20, 0, 2, 9)),
        ({0: 5, 1: 3, 5: 2}, [1, 2, 4], Costs(20, 0, 2, 9)),
        ([1], [1], Costs(0, 0, 2, 1)),
        ({0: 5, 3: 1, 7: 1}, [1], Costs(60, 0, 2, 1)),
        ({0: 9, 5: 1, 7: 1}, [1], Costs(60, 0, 9, 1)),
    ],
)
def test_the_cheapest_of_all_pairs(
    demand: Weights, lead: Weights, costs: Costs
) -> None:
    check_searches(scenario_of(demand, lead, costs=costs), Feasible(2, 10))


@EACH_SEED
def test_the_cheapest_of_feasible_pairs(seed: int) -> None:
    """Demands of up to three numbers, some in packs, with one lead time or several, some with returns; bounds of all
    kinds, some together."""
    source = random.Random(seed)
    for _ in range(4):
        pack = source.choice([1, 1, 1, 2, 3, 6])
        demand = {source.randint(1, 2) * pack: 9}
        for _ in range(3):
            number = source.randint(0, max(1, 7 // pack)) * pack
            demand[number] = source.randint(1, 9)
        is_enough = table(demand).mean > pack / 2
        back = {0: 5, pack: 1} if source.random() < 0.2 and is_enough else None
        lead = source.choice([[1], [2], [3], [1, 3], [2, 4], [1, 2, 4]])
        rates = source.randint(2, 9), source.randint(1, 40)
        scenario = scenario_of(
            demand, lead, back, Costs(source.randint(0, 60), 0, *rates)
        )
        its = []
        for _ in range(6):
            point = source.randint(0, 6)
            level = source.choice(
                [10**6, source.randint(3, 24), source.randint(6, 24)]
            )
            most_gap = source.choice([10**6, source.randint(0, 9)])
            its.append(Feasible(point, level, most_gap))
        check_searches(scenario, *its)


@EACH_LEAD
@pytest.mark.parametrize(
    "feasible",
    [
        Feasible(1, 4),
        Feasible(2, 9),
        Feasible(0, 8),
        Feasible(0, 11),
        Feasible(most_gap=3),
        Feasible(most_gap=14),
        Feasible(0, 60, 7),
    ],
    ids=str,
)
def test_few_feasible_pairs_on_a_coarse_lattice(
    feasible: Feasible, lead: Weights
) -> None:
    """Policies are found within bounds that are narrower than a cell, also the fullest."""
    scenario = scenario_of(MANY, lead)
    theory = theory_on(scenario, shape_of(scenario), 10, False, feasible)
    for found in (theory.best(), theory.fullest()):
        assert found.cost < math.inf and feasible.allows(found.point, found.level)


@EACH_LEAD
@pytest.mark.parametrize(
    "feasible",
    [Feasible(3), Feasible(1, 14), Feasible(most_gap=5)],
    ids=str,
)
def test_promises_within_bounds(feasible: Feasible, lead: Weights) -> None:
    """A promise is feasible, and kept under enough laws: of its gap, no smaller feasible S keeps it. It costs no more
    than with the gap of the policy that promises nothing."""
    demands = [table({0: 1 + 3 * it, 1: 3, 4: 1}) for it in range(5)]
    scenario = scenario_of(demands[2], lead, costs=Costs(30, 0, 2, 11))
    theory, share = theory_within(scenario, feasible), 0.9
    plain = theory.best(share)
    width = plain.level - plain.point
    laws = [(demand, scenario.lead) for demand in demands]
    promises = Promises(scenario, theory, width, laws, [share], 0.8)
    found = promises.cheapest(plain, share)

    def is_kept(point: int, level: int) -> bool:
        kept = 0
        for demand in demands:
            fill = by_chain(scenario_of(demand, lead, levels=(point, level)))[1]
            kept += fill >= share - 1e-9
        return kept >= 4

    assert feasible.allows(found.point, found.level)
    assert is_kept(found.point, found.level)
    gap = found.level - found.point
    own = theory.cheapest_of_gaps([gap], share).level
    lower = found.point - 1, found.level - 1
    assert found.level == own or not is_kept(*lower)
    above = own + 1 if own < feasible.most_level else 0
    assert promises.policy(gap, own + 1, share).level == above
    for level in range(plain.level, feasible.most_level + 1):
        if is_kept(level - width, level):
            assert found.cost <= theory.figures(level - width, level).cost + 1e-9
            break


@EACH_LEAD
@pytest.mark.parametrize(
    "costs, widest",
    [(Costs(700, 0, 1, 5), 400), (Costs(9000, 0, 1, 2), 1200)],
    ids=["s above 0", "s of 0"],
)
@pytest.mark.parametrize("step, share", [(3, 0), (10, 0), (3, 0.95), (10, 0.995)])
@pytest.mark.parametrize("periods", [False, True], ids=["demand", "periods"])
def test_the_best_of_a_lattice(
    periods: bool, step: int, share: float, lead: Weights, costs: Costs, widest: int
) -> None:
    """No policy that meets as much costs less: with each gap, the cheapest and levels near the best are tried."""
    scenario = scenario_of(MANY, lead, costs=costs)
    theory = theory_on(scenario, shape_of(scenario), step, False).counting(periods)
    found, gaps = theory.best(share), range(widest // step)
    level, gap = found.level, theory.gap_of(found.point, found.level)
    assert share or (found.point < step) == (costs.backlog == 2)
    assert theory.met(theory.figures_of_gap(gap, level)) >= share - 1e-9
    theory.rows_of(np.array(gaps))
    least = math.inf
    for gap in gaps:
        own = theory.cheapest_of_gaps([gap], share).level
        for top in (level - 1, level, level + 1, theory.items(gap), own):
            if theory.met(theory.figures_of_gap(gap, top)) >= share - 1e-9:
                least = min(least, theory.policy(gap, top).cost)
    off = MOST_EXCESS / 100 if theory.is_searched else 1e-9
    assert found.cost == pytest.approx(least, rel=off)


@EACH_LEAD
@pytest.mark.parametrize(
    "demand, setup", [([5, 7], 0), ([0, 4, 9], 5), ([0, 4, 9], 10), ([0, 4, 9], 30)]
)
def test_the_first_of_equal_gaps(demand: Weights, setup: int, lead: Weights) -> None:
    """If the position never stands between two places, a gap up to the first of them is as good as a wider one."""
    theory = theory_of(scenario_of(demand, lead, costs=Costs(setup, 0, 2, 9)))
    found = theory.best()
    gap, level = found.level - found.point, found.level
    costs = [theory.figures(level - it, level).cost for it in range(gap + 2)]
    assert costs[gap + 1] == pytest.approx(found.cost, rel=1e-12)
    assert min(costs[:gap], default=math.inf) > found.cost * (1 + 1e-9)


def test_where_a_search_goes_wrong() -> None:
    """A finer grid ends in a wrong valley, a cycle may be far longer, or lead times take too long."""
    theory = theory_of(scenario_of({3: 6, 8: 2}, [3], costs=Costs(30, 0, 1, 9)))
    by_gap = [theory.cheapest_of_gaps([gap], 0.98) for gap in range(200)]
    found = theory.best(0.98).cost
    assert found == pytest.approx(min(by_gap).cost, rel=1e-12)
    assert search(lambda gaps: map(by_gap.__getitem__, gaps), 40).cost > 1.02 * found
    theory = theory_of(scenario_of([0, 1], [8], costs=Costs(1, 0, 1, 5000)))
    found = theory.best_with_point(0)
    assert found.level > theory.most
    costs = [theory.figures(0, level).cost for level in range(2 * found.level)]
    assert found.cost == pytest.approx(min(costs), rel=1e-12)
    least = 0.0
    for most, is_searched in ((6, False), (61, True)):
        demand = {it: 1 + it % 7 for it in range(most)}
        theory = theory_of(scenario_of(demand, [1, 9], costs=Costs(9, 0, 1, 9)))
        assert theory.best().cost > least and theory.is_searched == is_searched
        least = theory.best().cost


@pytest.mark.parametrize("share", [0, 0.98])
def test_the_greatest_level(share: float) -> None:
    """If S = 1,000,000 is too little for the best gap, a policy with that S may be the best, and is."""
    costs = Costs(10**8, 0, 1, 10_000)
    scenario = scenario_of([9_000, 10_000], [32], costs=costs)
    theory = theory_on(scenario, shape_of(scenario), 900, False)
    found, at_end, below = theory.best(share), math.inf, math.inf
    for gap in range(10**6 // 900):
        if theory.figures_of_gap(gap, 10**6).fill >= share:
            at_end = min(at_end, theory.policy(gap, 10**6).cost)
        below = min(below, theory.cheapest_of_gaps([gap], share).cost)
    assert found.level == 10**6 and found.cost == pytest.approx(at_end, rel=1e-9)
    assert found.cost < below


def test_no_policy_within_the_range() -> None:
    """Finds no policy if each period asks for 5 items, orders take 2 periods, and S is at most 14."""
    scenario = scenario_of([5], [2])
    theory = theory_of(scenario).within(Feasible(most_level=14))
    laws = [(scenario.demand, scenario.lead)]
    promises = Promises(scenario, theory, 0, laws, [0.98])
    assert theory.best(0.98) == NO_POLICY
    assert theory.cheapest_of_gaps([0, 3], 0.98) == NO_POLICY
    assert promises.cheapest(NO_POLICY, 0.98) == NO_POLICY
