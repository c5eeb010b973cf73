"""Tests the long run under many laws, and policies that promise a fill rate with all pairs (s,S) under all laws."""
from __future__ import annotations

from collections.abc import Sequence
from dataclasses import replace
from typing import Any

import numpy as np
import pytest
from hypothesis import given, settings, strategies as st

import crnplan as crn
from crnplan.theory import many_laws
from crnplan.theory.lattice import NoTheory, shape_of, theories_of, theory_on
from crnplan.theory.many_laws import (
    LawFigures,
    Promises,
    figures_of_laws,
)
from crnplan.theory.suggestions import (
    FILLS,
    SuggestedPolicies,
    chosen_policies,
    suggestions_of,
)
from crnplan.sentences import sentence
from planner.tests.theory.chain import by_chain
from planner.tests.theory.long_run_costs import costs_of, fills_of, shortfall_of
from planner.tests.theory.scenarios import Weights, scenario_of, table

POLICIES = [crn.Policy.of_levels(*it) for it in [(0, 6), (2, 5), (3, 3), (6, 8)]]
# Laws of 0 to 40 items that lie on no lattice.
WIDE = dict(enumerate([9, 3, 7, 1, 4] * 8 + [1]))
FALLING = {value: 41 - value for value in range(41)}
SPARSE = {0: 5, 1: 3, 2: 2, 5: 1}
COSTS = crn.Costs(30, 0, 2, 9)
LEVELS = np.arange(130)
ENOUGH = 1e-9


def figures(
    scenario: crn.Scenario, policies: Sequence[crn.Policy] = POLICIES
) -> LawFigures:
    return figures_of_laws(scenario, [(scenario.demand, scenario.lead)], policies)


def test_coarse_lattice(monkeypatch: pytest.MonkeyPatch) -> None:
    """If cells are few, steps are coarser, and costs are about the same."""
    scenario = scenario_of(WIDE, {1: 2, 2: 3, 5: 1}, costs=crn.Costs(900, 1, 1, 9))
    policies = [crn.Policy.of_levels(60, 60 + gap) for gap in (0, 50, 80)]
    monkeypatch.setattr(many_laws, "MOST_WORK", 1e9)
    fine = figures(scenario, policies)
    monkeypatch.setattr(many_laws, "LEAST_ROOM", 100)
    monkeypatch.setattr(many_laws, "MOST_WORK", 1)
    coarse = figures(scenario, policies)
    assert 0 < np.abs(coarse.cost / fine.cost - 1).max() < 0.2
    monkeypatch.setattr(many_laws, "LEAST_ROOM", 5)
    assert many_laws.run_of(scenario, shape_of(scenario), 80) is None


def test_laws_in_order() -> None:
    """Each law has a row, but for one without a long run."""
    one = table([1])
    pairs = [
        (table([0, 2]), one),
        (table({0: 3, 1: 1}), one),
        (table({0: 1, 3: 2}), table([1, 3])),
    ]
    scenario = scenario_of([0, 2], [1], [0, 1])
    found = figures_of_laws(scenario, pairs, POLICIES)
    assert found.cost.shape == found.fill.shape == (2, 4)
    for costs, place in zip(found.cost, (0, 2), strict=True):
        demand, lead = pairs[place]
        for cost, policy in zip(costs, POLICIES):
            own = replace(scenario, demand=demand, lead=lead, policies=(policy,))
            assert cost == pytest.approx(by_chain(own)[0], abs=1e-7)
    with pytest.raises(NoTheory, match="no law of demand has a long run"):
        figures_of_laws(scenario, pairs[1:2], POLICIES)
    with pytest.raises(NoTheory, match="holding"):
        figures(scenario_of([0, 1], costs=crn.Costs(1, 1, 0, 1)))


def laws_near(weights: Weights, count: int, seed: int) -> list[crn.Law]:
    """Returns laws whose weights lie around those of a law."""
    law, random = table(weights), np.random.default_rng(seed)
    drawn = random.gamma(law.weights, size=(count, len(law.weights)))
    rows = 1 + (1000 * drawn).astype(int)
    return [crn.Law(law.values, tuple(row)) for row in rows.tolist()]


def test_shortfalls_of_many_laws() -> None:
    """Those of a Markov chain, some with later orders. What is made for other costs is taken, unless its lattice is another
    one."""
    scenario = scenario_of(SPARSE, costs=COSTS)
    leads = [table({1: 2, 3: 1}), table({1: 2, 4: 1}), table([2])] * 10
    laws = [*zip(laws_near(SPARSE, 30, 1), leads)]
    own = [replace(scenario, demand=law, lead=lead) for law, lead in laws]
    theories = [theory_on(it, shape_of(it), 1, True) for it in own]
    for place, theory in enumerate(theories):
        theory.lows_below([place % 4, 7])
    assert [sorted(it.shorts) for it in theories[:3]] == [[0, 7], [1, 7], []]
    for it, theory in zip(own[:8], theories):
        for gap in theory.shorts:
            short, law = shortfall_of(it, gap), theory.below(gap)
            most = short.least + len(short.chances) - 1
            assert law.between(short.least, most) == pytest.approx(short.chances)
    dear = replace(scenario, costs=crn.Costs(90, 0, 1, 20))
    made = dict(enumerate(theories))
    found = figures_of_laws(dear, laws, POLICIES, made=made)
    alone = figures_of_laws(dear, laws, POLICIES)
    assert found.cost == pytest.approx(alone.cost)
    coarse = {0: theory_on(own[0], shape_of(own[0]), 2, False)}
    other = figures_of_laws(dear, laws[:1], POLICIES, made=coarse)
    assert other.cost == pytest.approx(alone.cost[:1], rel=1e-12)


def promises_of(
    scenario: crn.Scenario,
    laws: Sequence[crn.Law],
    leads: Sequence[crn.Law] = (),
    share: float = 0.8,
) -> tuple[Promises, SuggestedPolicies]:
    """Returns what policies promise under a share of laws, and the policies that are suggested by that."""
    theory, _ = theories_of(scenario)
    best, fills = theory.best(), [*FILLS.values()]
    gap = theory.gap_of(*best.levels)
    pairs = zip(laws, leads or [scenario.lead] * len(laws))
    promises = Promises(scenario, theory, gap, pairs, fills, share)
    return promises, chosen_policies(scenario, theory, best, promises)


def promised(
    scenario: crn.Scenario, laws: Sequence[crn.Law], *words: Any
) -> dict[str, tuple[int, int]]:
    """Returns the levels of the policies that promise a fill rate, by its name; also if it is the plain one's twin."""
    levels = {}
    _, found = promises_of(scenario, laws, *words)
    for policy, reasons in found.policies.values():
        for name, share in FILLS.items():
            if f"at least {100 * share:g}% under" in "; ".join(map(sentence, reasons)):
                levels[name] = (policy.s, policy.S)
    return levels


class Gap:
    """The costs of a gap with each level, its fill rates, and those under each of some laws: a row for each."""

    def __init__(
        self,
        scenario: crn.Scenario,
        gap: int,
        laws: Sequence[crn.Law],
        leads: Sequence[crn.Law] = (),
    ) -> None:
        short = shortfall_of(scenario, gap)
        self.costs = costs_of(scenario, short, LEVELS)
        self.own = fills_of(scenario, short, LEVELS)
        self.gap, fills = gap, []
        for law, lead in zip(laws, leads or [scenario.lead] * len(laws)):
            other = replace(scenario, demand=law, lead=lead)
            fills.append(fills_of(other, shortfall_of(other, gap), LEVELS))
        self.fills = np.array(fills)

    def is_enough(self, fill: float, share: float) -> np.ndarray:
        """Returns whether each level has a fill rate, and has it under a share of the laws."""
        kept = (self.fills >= fill - ENOUGH).mean(axis=0) >= share - ENOUGH
        return kept & (self.own >= fill - ENOUGH) & (LEVELS >= self.gap)


@settings(max_examples=6)
@given(
    demand=st.sampled_from([SPARSE, {0: 6, 4: 2, 8: 1}, {0: 9, 1: 3, 7: 1}]),
    lead=st.sampled_from([table([2]), table({1: 2, 3: 1})]),
    share=st.sampled_from([0.5, 0.8, 0.9, 1.0]),
    seed=st.integers(0, 99),
    by_leads=st.booleans(),
)
def test_a_promise_is_kept_and_no_smaller_level_keeps_it(
    demand: Weights, lead: crn.Law, share: float, seed: int, by_leads: bool
) -> None:
    scenario, laws = scenario_of(demand, lead, costs=COSTS), laws_near(demand, 10, seed)
    leads = laws_near(lead, 10, seed) if by_leads else []
    found = promised(scenario, laws, leads, share)
    assert found.keys() == FILLS.keys()
    for name, (point, level) in found.items():
        gap = Gap(scenario, level - point, laws, leads)
        is_enough = gap.is_enough(FILLS[name], share)
        assert is_enough[level]
        assert gap.costs[level] <= gap.costs[is_enough].min() + 1e-7


@pytest.mark.parametrize("lead", [[2], {1: 2, 3: 1}], ids=["one lead time", "two"])
def test_the_gap_is_a_good_one(lead: Weights) -> None:
    """No gap promises as much for a cost that is 2% less, in a few cases by all pairs."""
    scenario, laws = scenario_of(SPARSE, lead, costs=COSTS), laws_near(SPARSE, 10, 3)
    gaps = [Gap(scenario, gap, laws) for gap in range(40)]
    for name, (point, level) in promised(scenario, laws).items():
        cost = gaps[level - point].costs[level]
        for gap in gaps:
            enough = gap.costs[gap.is_enough(FILLS[name], 0.8)]
            assert cost <= 1.02 * enough.min(initial=np.inf)


def test_the_texts_and_the_ends() -> None:
    """A promise has its cost beside the plain policy: none if all laws are alike. One law has no long run."""
    demand = {value: 31 - value for value in range(31)}
    scenario = scenario_of(demand, [2], costs=COSTS)
    promises, found = promises_of(scenario, laws_near(demand, 10, 1), share=0.9)
    rows = {
        policy.name: (policy, reasons) for policy, reasons in found.policies.values()
    }
    names, theory = [*rows], promises.theory
    for name, share in FILLS.items():
        plain, sure = (
            theory.figures(policy.s, policy.S)
            for policy, _ in (rows[f"fill_{name}"], rows[f"sure_{name}"])
        )
        assert names.index(f"sure_{name}") == names.index(f"fill_{name}") + 1
        assert sentence(rows[f"sure_{name}"][1][0]) == (
            f"the cheapest with a fill rate of at least {100 * share:g}% under 90% of the laws "
            f"that the history allows, for {sure.cost / plain.cost - 1:.1%} more"
        )
        assert sure.cost > plain.cost and sure.fill > plain.fill
    assert promises.exact and not promises.lacking
    assert len(names) == 16 and found.left_out
    scenario = scenario_of(SPARSE, [1, 2], costs=COSTS)
    plain_rows = suggestions_of(scenario).rows
    _, sure = promises_of(scenario, [scenario.demand] * 5)
    assert len(plain_rows) == len(sure.policies)
    for one, (policy, reasons) in zip(plain_rows, sure.policies.values()):
        assert one.policy == policy
        is_free = "for 0.0% more" in "; ".join(map(sentence, reasons))
        assert is_free or not policy.name.startswith("fill")
    scenario = scenario_of(SPARSE, back={0: 2, 1: 1}, costs=COSTS)
    laws = [scenario.demand] * 3 + [table({0: 9, 1: 1})]
    assert len(promised(scenario, laws, (), 0.75)) == len(FILLS)
    assert not promised(scenario, laws, (), 0.76)
    assert promises_of(scenario, laws)[0].lacking == 1


def test_a_coarser_lattice_promises_about_the_same(
    monkeypatch: pytest.MonkeyPatch,
) -> None:
    scenario, laws = scenario_of(FALLING, [2], costs=COSTS), laws_near(FALLING, 10, 2)
    fine = promised(scenario, laws)
    monkeypatch.setattr(many_laws, "MOST_LEVELS", 100)
    promises, _ = promises_of(scenario, laws)
    assert not promises.exact and promises.step > 1
    for name, (point, level) in promised(scenario, laws).items():
        fills = Gap(scenario, level - point, laws).fills[:, level]
        assert np.sort(fills)[2] == pytest.approx(FILLS[name], abs=0.003)
        assert level == pytest.approx(fine[name][1], rel=0.1)
