"""Tests what is said where an order that waits until items are owed would cost much less than the best with s from 0."""
from __future__ import annotations

import dataclasses
from collections.abc import Mapping
from typing import Any

import numpy as np
import pytest
from scipy.stats import poisson

import crnplan as crn
from crnplan.theory.lattice import theories_of
from crnplan.theory.suggestions import suggestions_of

DEMAND = crn.Law.of_chances(poisson.pmf(np.arange(40), 2))
WIDEST, LOWEST, HIGHEST = 180, -70, 110
# Costs of an order, an item in stock and an item owed; the lead time, and of how much more is said.
CASES: dict[str, tuple[tuple[int, int, int], int, float]] = {
    "far below": ((500, 1, 4), 1, 0.0335),
    "below": ((500, 1, 5), 1, 0.0181),
    "long lead": ((500, 1, 3), 3, 0.0161),
    "cheap backlog": ((2_000, 1, 1), 1, 0.3467),
    "at 0": ((500, 1, 9), 1, 0.0),
    "above 0": ((64, 1, 9), 1, 0.0),
}


def scenario_of(
    costs: tuple[int, int, int], leads: Mapping[int, int], **words: Any
) -> crn.Scenario:
    named = dict(zip(("setup", "holding", "backlog"), costs))
    return crn.Scenario.of(DEMAND, leads, today=(1, 5), **named, **words)


def by_brute_force(
    costs: tuple[int, int, int], lead: int
) -> dict[tuple[int, int], float]:
    """Returns the cost of each pair (s, S) by the renewal equation: the chance of each low below S, and the expected stock
    and backlog at the end of the period in which an order of that low arrives."""
    setup, holding, backlog = costs
    chances = np.zeros(41)
    chances[[*DEMAND.values]] = np.array(DEMAND.weights) / DEMAND.size
    ahead = np.ones(1)
    for _ in range(lead + 1):
        ahead = np.convolve(ahead, chances)
    lows = np.zeros(WIDEST + 1)
    for low in range(WIDEST + 1):
        falls = np.arange(1, min(low, 40) + 1)
        lows[low] = ((low == 0) + chances[falls] @ lows[low - falls]) / (1 - chances[0])
    ends = np.arange(LOWEST, HIGHEST + 1)[:, None] - np.arange(len(ahead))
    cost = (holding * np.maximum(ends, 0) + backlog * np.maximum(-ends, 0)) @ ahead
    found = {}
    for S in range(HIGHEST + 1):
        least = max(LOWEST, S - WIDEST)
        own = cost[least - LOWEST : S - LOWEST + 1][::-1]
        sums = np.cumsum(lows[: len(own)]), np.cumsum(own * lows[: len(own)])
        for gap in range(len(own)):
            found[S - gap, S] = (setup + sums[1][gap]) / sums[0][gap]
    return found


@pytest.mark.parametrize("name", CASES)
def test_as_by_brute_force(name: str) -> None:
    """The best policies with s from 0, and with any s, are those of brute force, and so is what is said of these."""
    costs, lead, more = CASES[name]
    scenario = scenario_of(costs, {lead: 1})
    found = by_brute_force(costs, lead)
    plain = min((cost, pair) for pair, cost in found.items() if pair[0] >= 0)
    free = min((cost, pair) for pair, cost in found.items())
    theory, _ = theories_of(scenario)
    for best, wanted in ((theory.best(), plain), (_below(scenario), free)):
        assert best[1:] == wanted[1] and best[0] == pytest.approx(wanted[0], rel=1e-9)
    assert plain[0] / free[0] - 1 == pytest.approx(more, abs=5e-5)
    notes = scenario.suggest().notes
    assert ("s below 0" in notes) == (more > 0.001)
    if more > 0.001:
        s, S = free[1]
        assert f"at s = {s} and S = {S}, would cost less: the best here costs" in notes
        assert f"costs {100 * more:.2f}% more, as no scenario has s below 0" in notes


def _below(scenario: crn.Scenario) -> Any:
    theory, _ = theories_of(scenario)
    return theory.best_below_0(theory.best())


@pytest.mark.parametrize("review", [1, 3])
@pytest.mark.parametrize(
    "leads, returns",
    [({1: 1, 3: 1}, None), ({1: 1}, {0: 3, 1: 1})],
    ids=["leads", "returns"],
)
def test_several_leads_reviews_and_returns(
    leads: Mapping[int, int], returns: Mapping[int, int] | None, review: int
) -> None:
    """The search finds the least of the figures of all policies near it."""
    scenario = scenario_of((500, 1, 4), leads, returns=returns)
    scenario = dataclasses.replace(scenario, review=review)
    theory, _ = theories_of(scenario)
    pairs = [(s, S) for s in range(-12, 4) for S in range(30, 60)]
    wanted = min((theory.figures(*pair).cost, pair) for pair in pairs)
    best = _below(scenario)
    assert best[1:] == wanted[1] and best[0] == pytest.approx(wanted[0], rel=1e-9)
    assert best[1] < 0


def test_what_hardly_differs_is_not_said() -> None:
    """Costs of orders by which it is 0.1% more, or just less."""
    said = {}
    for setup in (180, 190, 200, 210):
        scenario = scenario_of((setup, 1, 5), {1: 1})
        theory, _ = theories_of(scenario)
        more = theory.best().cost / _below(scenario).cost - 1
        said[more] = any(
            it.code == "s below 0" for it in suggestions_of(scenario).remarks
        )
    assert [said[more] for more in said] == [more > 0.001 for more in said]
    assert {*said.values()} == {True, False}
