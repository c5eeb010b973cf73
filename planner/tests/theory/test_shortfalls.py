"""Tests the loops of theory with several lead times, as they are compiled and as they are written."""
from __future__ import annotations

import numpy as np
import pytest

from crnplan.money import Costs
from crnplan.theory import shortfalls
from crnplan.theory.lattice import shape_of, theory_on
from crnplan.theory.shortfalls import FAR
from planner.tests.theory.long_run_costs import costs_of, fills_of, shortfall_of
from planner.tests.theory.scenarios import (
    LEADS,
    Weights,
    means_by_level,
    scenario_of,
    theory_of,
)

LOOPS = (shortfalls,)
DEMAND, BACK = {0: 3, 1: 2, 3: 1}, {0: 3, 1: 1}


@pytest.mark.usefixtures("each_way")
@pytest.mark.parametrize(
    "back, lead",
    [(None, [1, 2, 4]), (None, [2, 3]), (BACK, [1, 2, 4])],
    ids=["three lead times", "two", "returns"],
)
def test_shortfalls_are_those_of_a_chain(back: Weights | None, lead: Weights) -> None:
    """Some gaps follow one another, and some are far from the one before."""
    scenario, gaps = scenario_of(DEMAND, lead, back), [0, 1, 2, FAR + 1, FAR + 8]
    theory = theory_of(scenario)
    theory.rows_of(np.array(gaps))
    for gap in gaps:
        found, wanted = theory.below(gap), shortfall_of(scenario, gap)
        low = min(found.low, wanted.least)
        high = max(found.high, wanted.least + len(wanted.chances) - 1)
        chances = np.zeros(high - low + 1)
        chances[wanted.least - low :][: len(wanted.chances)] = wanted.chances
        assert found.between(low, high) == pytest.approx(chances, abs=1e-9)


@pytest.mark.parametrize(
    "back, lead",
    [(None, [1, 2, 4]), (None, [4, 5]), ({0: 5, 1: 3, 2: 1}, [1, 3])],
    ids=["three lead times", "late", "returns"],
)
def test_stocks_are_those_of_a_chain(back: Weights | None, lead: Weights) -> None:
    """How far the stock is below S, before the demand of a period and after it; demand may be above 0 in each."""
    scenario, gaps = scenario_of({1: 3, 3: 2, 4: 1}, lead, back), [0, 2, FAR + 3]
    tables, low = theory_of(scenario).shortfalls.stocks(np.array(gaps))
    for gap, before, after in zip(gaps, *tables):
        wanted = shortfall_of(scenario, gap)
        for row, chances in ((before, wanted.before), (after, wanted.chances)):
            places = wanted.least - low + np.arange(len(chances))
            is_there = (places >= 0) & (places < len(row))
            found = np.where(is_there, row[np.clip(places, 0, len(row) - 1)], 0)
            assert found * wanted.orders == pytest.approx(chances, abs=1e-9)
            assert row.sum() * wanted.orders == pytest.approx(1)


@pytest.mark.parametrize("lead", LEADS.values(), ids=LEADS)
@pytest.mark.parametrize("step", [1, 3])
def test_least_levels_with_fills(step: int, lead: Weights) -> None:
    """They are the first ones of all that meet shares of demand at once, whatever they cost."""
    scenario, shares = scenario_of(DEMAND, lead), [0.0, 0.6, 0.99]
    theory = theory_on(scenario, shape_of(scenario), step, step == 1)
    for gap, found in theory.levels_with_fill([0, 1, 2, 9, 25], shares):
        unmet = means_by_level(theory, gap, 60)[1]
        by_item = np.interp(np.arange(60 * step) / step, np.arange(60), unmet)
        for level, share in zip(found, shares):
            is_enough = by_item <= (1 - share) * theory.asked + 1e-9
            assert level == is_enough.argmax()


@pytest.mark.parametrize("share", [0.0, 0.9])
@pytest.mark.parametrize(
    "back, lead",
    [(None, [2]), (None, [1, 2, 4]), (BACK, [1, 3])],
    ids=["one lead time", "three", "returns"],
)
def test_floors_of_costs(back: Weights | None, lead: Weights, share: float) -> None:
    """No policy of a gap costs less. With one lead time the best one costs no more."""
    scenario = scenario_of(DEMAND, lead, back, Costs(20, 0, 2, 9))
    gaps, levels = np.array([0, 1, 4, 20]), np.arange(50)
    for gap, floor in zip(gaps.tolist(), theory_of(scenario).floors(share, gaps)):
        short = shortfall_of(scenario, gap)
        is_enough = fills_of(scenario, short, levels) >= share - 1e-9
        lowest = costs_of(scenario, short, levels)[is_enough].min()
        assert 0.5 * lowest < floor <= lowest + 1e-9
        if lead == [2] and not share:
            assert floor == pytest.approx(lowest)
