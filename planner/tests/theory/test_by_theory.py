"""Tests figures of stated policies by theory, and scenarios without a policy of today."""
from __future__ import annotations

from pathlib import Path
from typing import Any

import pandas as pd
import pytest

import crnplan as crn
from planner.tests.theory.scenarios import PUBLISHED, published

COSTS: dict[str, Any] = {"setup": 12.5, "holding": 0.1, "backlog": 2}
DEMAND, LEAD = {0: 3, 5: 2}, [2, 3, 2]


@pytest.fixture(scope="module")
def bare() -> crn.Scenario:
    """Returns a scenario without a policy, and without a stock at the start."""
    return crn.Scenario.of(DEMAND, LEAD, **COSTS)


@pytest.mark.parametrize("mean, point, level, cost", PUBLISHED)
def test_published_costs(mean: int, point: int, level: int, cost: str) -> None:
    """The cost of a stated policy is that of a table of the literature, which orders at s too."""
    frame = published(mean).theory({"published": (point + 1, level)}).frame
    assert f"{frame.loc['published', 'cost']:.3f}" == cost


def test_a_figure_by_hand() -> None:
    """With a demand of 2 in each period, orders that take one period, and s = S = 4, the stock ends at 0 or above."""
    scenario = crn.Scenario.of({2: 1}, [1], setup=5, holding=1, backlog=9, unit=3)
    found = scenario.theory([(4, 4), (2, 4), (2, 2)])
    assert found.frame.loc["s4_S4"].to_list() == [4, 4, 5, 1, 0, 0, 1]
    assert found.frame.loc["s2_S2"].to_list() == [2, 2, 5 + 2 * 9, 0, 1, 0, 1]
    assert [*found.frame.columns] == "s S cost fill short stock orders".split()
    assert "which adds 6.00 to each policy" in found.notes
    assert "exact but for rounding" in found.text


def test_policies_of_theory(bare: crn.Scenario) -> None:
    """Policies are taken as `run` takes them, each once, or those of the scenario; without any it is refused."""
    with pytest.raises(crn.Refused, match="the scenario has no policy; give policies"):
        bare.theory()
    today = crn.Scenario.of(DEMAND, LEAD, today=(6, 25), **COSTS)
    assert [*today.theory().frame.index] == ["today"]
    table = pd.DataFrame({"policy": ["a", "b"], "s": [6, 8], "S": [25, 30]})
    two = today.theory(table)
    assert [*two.frame.index] == ["a", "b"]
    assert two.frame.loc["a", "cost"] == today.theory().frame.loc["today", "cost"]
    assert len(bare.theory([(6, 25), (6, 25)]).frame) == 1
    suggested = today.suggest()
    again = today.theory(suggested).frame
    shared = [*again.columns]
    pd.testing.assert_frame_equal(again, suggested.frame.set_index("policy")[shared])


def test_rough_figures_say_so() -> None:
    """Figures on a lattice have about the relative error of their costs."""
    wide = {0: 1, **{9_000 + 7 * place: 1 for place in range(60)}}
    found = crn.Scenario.of(wide, [9], setup=900, holding=1, backlog=90).theory(
        [(50_000, 200_000)]
    )
    assert found.error is not None and 0 < found.error < 0.05
    assert "error: " in found.notes and "exact" not in found.notes


def test_the_best_policy_whatever_it_is_called(bare: crn.Scenario) -> None:
    """It is that of today if this is the best, and else one of its own."""
    best = bare.suggest().best
    assert best.name == "best"
    today = crn.Scenario.of(DEMAND, LEAD, today=(best.s, best.S), **COSTS).suggest()
    assert "best" not in {*today.frame["policy"]}
    assert today.best == crn.Policy("today", best.s, best.S)
    costs = bare.theory([best, (best.s + 1, best.S), (best.s, best.S + 1)])
    assert costs.frame["cost"].idxmin() == "best"


def test_without_a_policy_of_today(bare: crn.Scenario, program: Path) -> None:
    """The first policy that is run is the base, and the stock at the start is halfway between its levels, if none is
    stated."""
    assert bare.policies == ()
    assert {*bare.suggest().frame["policy"]}.isdisjoint({"today", "same_s", "same_S"})
    assert "today's initial" not in bare.suggest().notes
    assert crn.Scenario.parse(bare.suggest().toml()).initial == bare.suggest().initial
    report = bare.run([(6, 25), (8, 30)], program=program)
    assert [*report.frame.index] == ["s6_S25", "s8_S30"]
    today = crn.Scenario.of(DEMAND, LEAD, today=(6, 25), **COSTS)
    same = today.run([(8, 30)], program=program)
    assert [*report.frame["total"]] == [*same.frame["total"]]
    stated = crn.Scenario.of(DEMAND, LEAD, initial=40, **COSTS)
    assert stated.run([(6, 25)], program=program).scenario.initial == 40
    assert bare.changed(policies=[(6, 25)]).initial == 15
    assert bare.changed(periods=52).changed(initial=7).started().initial == 7
    with pytest.raises(crn.ScenarioError, match="there are 0 policies"):
        bare.run(program=program)
    with pytest.raises(crn.ScenarioError, match="there are 0 policies"):
        bare.changed(policies=[])
    with pytest.raises(crn.ScenarioError, match="periods"):
        crn.Scenario.of(DEMAND, LEAD, periods=0, **COSTS)
    with pytest.raises(crn.Refused, match="the scenario has no policy"):
        assert bare.base


def test_changed_amounts_of_money(bare: crn.Scenario) -> None:
    """They are given as to `of`: the scale follows from all of them. With `costs` too it is not known which are meant."""
    changed = bare.changed(backlog="2.05", setup=10)
    again = crn.Scenario.of(DEMAND, LEAD, **{**COSTS, "backlog": 2.05, "setup": 10})
    assert (changed.costs, changed.scale) == (again.costs, again.scale)
    assert changed.costs == crn.Costs(1000, 0, 10, 205)
    assert bare.changed(costs={"backlog": 19}).costs == crn.Costs(125, 0, 1, 19)
    assert bare.changed(costs={"backlog": 19}, periods=9).scale == 10
    with pytest.raises(crn.Refused, match="costs and backlog are both given"):
        bare.changed(backlog=2, costs={"setup": 1})
    with pytest.raises(crn.Refused, match="costs: setup: 'x' is not an amount"):
        bare.changed(setup="x")
