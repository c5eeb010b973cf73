"""Tests of the doubt about laws: by hand, and by the theory of one law."""
from __future__ import annotations

import dataclasses

import numpy as np
import pytest

import crnplan as crn
from crnplan.decide.doubt import Doubt
from crnplan.demand.posterior import allowed_laws, allowed_leads
from crnplan.theory.lattice import theories_of
from crnplan.theory.many_laws import LawFigures, figures_of_laws
from planner.tests.conftest import cases_beside

CASES = cases_beside(__file__)
HISTORY = [0, 3, 1, 9, 0, 0, 2, 5, 14, 1, 0, 4, 2, 2, 7, 0, 1, 3, 21, 0, 6, 1]
LEADS = [2, 3, 2, 4]


@pytest.fixture
def part() -> crn.Scenario:
    laws = crn.fit_demand(HISTORY, method="auto"), crn.fit_lead(LEADS)
    costs = {"setup": 100, "holding": 1, "backlog": 9}
    part = crn.Scenario.of(*laws, **costs, today=(15, 40), periods=26, replications=16)
    return part.changed(policies={"today": (15, 40), "low": (8, 30)})


@pytest.fixture
def by_hand(part: crn.Scenario) -> Doubt:
    """Returns a doubt with figures that are easy to follow: five laws, two policies."""
    cost = np.array([[100.0, 102], [110, 100], [100, 100], [121, 110], [100, 125]])
    fill = np.array(
        [[0.95, 0.9], [0.96, 0.91], [0.97, 0.92], [0.98, 0.93], [0.99, 0.94]]
    )
    return Doubt(part.policies, LawFigures(cost, fill))


def test_columns(by_hand: Doubt) -> None:
    """Regrets by hand are 0, 10, 0, 10, 0 and 2, 0, 0, 0, 25 percent."""
    assert list(by_hand.frame.index) == ["today", "low"]
    table = by_hand.table.records
    for row, wanted in zip(table, CASES["rows"], strict=True):
        assert {name: row[name] for name in wanted} == pytest.approx(wanted)
    assert [*by_hand.frame] == [*list(table[0])[1:]]
    assert "\ntoday   15  40  106.20   4.00%     10.00%     60%  97.00%" in by_hand.text


def test_figures_are_those_of_each_law(part: crn.Scenario) -> None:
    demands, leads = (
        allowed_laws(HISTORY, times=12, seed=3),
        allowed_leads(LEADS, times=12, seed=3),
    )
    laws = [*zip(demands, leads)]
    found = Doubt(part.policies, figures_of_laws(part, laws, part.policies))
    theories = [
        theories_of(dataclasses.replace(part, demand=demand, lead=lead), 100)[0]
        for demand, lead in laws
    ]
    costs, fills = np.transpose(
        [
            [theory.figures(it.s, it.S)[:2] for it in part.policies]
            for theory in theories
        ],
        (2, 0, 1),
    )
    rows = {row["policy"]: row for row in found.table.records}
    for at, policy in enumerate(part.policies):
        assert rows[policy.name]["cost"] == pytest.approx(costs[:, at].mean(), rel=1e-6)
        assert rows[policy.name]["fill"] == pytest.approx(fills[:, at].mean(), rel=1e-6)
        regret = costs[:, at] / costs.min(axis=1) - 1
        assert rows[policy.name]["regret"] == pytest.approx(regret.mean(), abs=1e-6)
    back = part.changed(returns={0: 1, 6: 1})
    demands = allowed_laws(HISTORY, times=30)
    some = figures_of_laws(back, [(it, part.lead) for it in demands], part.policies)
    assert 0 < len(some.cost) < 30
