"""Tests that a policy on periods that have happened costs what crnsim says on the same draws, to the unit."""
from __future__ import annotations

from collections.abc import Iterator
from itertools import repeat
from pathlib import Path
from typing import Any

import numpy as np
import pytest
from hypothesis import given, settings, strategies as st

from crnplan.crnsim.periods import Realization, Rates, periods_of
from crnplan.runs import Scenario
from planner.tests.crnsim.slow import scenarios
from tests.program import oracle

STEADY = Realization(
    [3] * 4, [0] * 4, [1] * 4
)  # as in the checkpoint of docs/FORMATS.md


def pasts(scenario: Scenario, box: int) -> Iterator[Realization]:
    """Yields what each replication of a scenario draws, by the second program of the tests, in boxes."""
    drawn = oracle.Scenario(scenario.toml())
    for replication in range(scenario.replications):
        demands, leads, returns = (
            np.array(drawn.draws(replication, stream))
            for stream in ("demand", "lead", "returns")
        )
        back = returns if scenario.returns else 0 * demands
        yield Realization(
            (box * demands).tolist(), (box * back).tolist(), leads.tolist()
        )


def totals(scenario: Scenario, box: int = 1) -> list[Any]:
    """Returns the total cost of each policy if `box` items are counted as one, as the box of its rates costs."""
    costs, found = scenario.costs, list[Any]()
    rates = Rates(costs.setup, costs.unit, costs.holding, costs.backlog)
    for policy in scenario.policies:
        levels = [(box * policy.s, box * policy.S)] * scenario.periods
        total: Any = 0
        for past in pasts(scenario, box):
            for period in periods_of(past, levels, box * scenario.initial):
                ordered, stock = period.ordered // box, period.stock // box
                total += period._replace(ordered=ordered, stock=stock).cost(rates)
        found.append(total)
    return found


@given(scenario=scenarios(), box=st.integers(1, 3))
@settings(max_examples=150)
def test_total_is_that_of_crnsim(program: Path, scenario: Scenario, box: int) -> None:
    """The totals are those of crnsim to the unit, in boxes too."""
    report = scenario.run(program=str(program))
    assert totals(scenario, box) == [row.total for row in report.rows]


@pytest.mark.parametrize(
    "levels, stocks, ordered, cost",
    [
        ((5, 10), [7, 4, 1, 4], [0, 0, 6, 0], 35),
        ((4, 10), [7, 4, 1, -2], [0, 0, 0, 9], 45),
    ],
)
def test_periods_of_the_page(
    levels: tuple[int, int], stocks: list[int], ordered: list[int], cost: int
) -> None:
    """From a stock of 10, 3 are taken in each period. The costs are those of the checkpoint in docs/FORMATS.md."""
    periods = periods_of(STEADY, repeat(levels, 4), 10)
    assert [period.stock for period in periods] == stocks
    assert [period.ordered for period in periods] == ordered
    assert sum(period.cost(Rates(7, 2, 1, 4)) for period in periods) == cost


def test_unmet_demand() -> None:
    """What is owed already is not unmet again, and what customers give back is sold in its period.

    From a stock of 2, demands of 3 and 4 leave 1 and 4 unmet. Then 6 come back, of which 5 go to those who wait: 1 is
    left to sell, and 4 of a demand of 5 are unmet.
    """
    past = Realization([3, 4, 5], [0, 0, 6], [9, 9, 9])
    assert [period.unmet for period in periods_of(past, repeat((0, 0), 3), 2)] == [
        1,
        4,
        4,
    ]


def test_levels_may_change() -> None:
    """A policy whose levels change orders by those of the period: up to 10, and after a refit up to 20."""
    past = Realization([1, 1, 1], [0, 0, 0], [1, 1, 1])
    periods = periods_of(past, [(5, 10), (0, 0), (10, 20)], 4)
    assert [period.ordered for period in periods] == [6, 0, 12]
    assert [period.stock for period in periods] == [3, 8, 7]
