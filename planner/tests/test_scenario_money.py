"""Tests that all figures of a scenario are in the money that it was made from, and what goes to the program is whole."""
from __future__ import annotations

import math
from collections.abc import Callable
from fractions import Fraction
from pathlib import Path
from typing import Any

import pytest

import crnplan as crn
from crnplan.table import TableCell, Result

# The amounts of one scenario are a tenth of those of the other, and both have the same whole numbers.
TENTHS: dict[str, Any] = {"setup": 12, "unit": "0.3", "holding": 1, "backlog": 9.5}
WHOLE = {"setup": 120, "unit": 3, "holding": 10, "backlog": 95}
LAWS: dict[str, Any] = {"demand": {0: 3, 5: 2, 9: 1}, "lead": [2, 3, 2]}
MORE = {"today": (10, 40), "periods": 12, "replications": 3}
POLICIES = {"best": (14, 24), "late": (2, 20)}
# By how much one of money counts, in units that have money.
POWERS = {"money": 1, "squared money": 2}


def made(costs: dict[str, Any]) -> crn.Scenario:
    return crn.Scenario.of(**LAWS, **costs, **MORE).changed(
        policies={"today": (10, 40), **POLICIES}
    )


CALLS: dict[str, Callable[[crn.Scenario, Path], Result]] = {
    "suggest": lambda it, program: it.suggest(),
    "theory": lambda it, program: it.theory(),
    "run": lambda it, program: it.run(program=program),
    "run, decided": lambda it, program: it.run(program=program).decide(),
    "long run": lambda it, program: it.long_run(keys=2, program=program),
    "long run, decided": lambda it, program: it.long_run(
        keys=2, program=program
    ).decide(),
}


def in_tenths(cell: TableCell, power: int) -> Any:
    """Returns a cell of the scenario in whole money, in the money of the other."""
    if cell is None or isinstance(cell, str):
        return cell
    return cell / (10 ** power if isinstance(cell, float) else Fraction(10) ** power)


@pytest.mark.parametrize("name", CALLS)
def test_figures_are_in_the_money_of_the_call(name: str, program: Path) -> None:
    """Amounts are a tenth of those of the same scenario in whole money, squares a hundredth, and all else is equal."""
    tenths, whole = (CALLS[name](made(it), program).table for it in (TENTHS, WHOLE))
    assert tenths.names == whole.names
    for places in zip(tenths.columns, zip(*tenths.rows), zip(*whole.rows)):
        column, found, wanted = places
        power = POWERS.get(column.unit.partition(" a ")[0], 0)
        for one, other in zip(found, (in_tenths(cell, power) for cell in wanted)):
            is_close = isinstance(one, float) and math.isclose(
                one, other, rel_tol=1e-9, abs_tol=1e-9
            )
            assert is_close or one == other or one != one, column.name


def test_cost_by_hand() -> None:
    """A demand of one and an order in each period: three are left in stock, a quarter each, and an order costs 12.50."""
    costs: Any = {"setup": "12.50", "holding": 0.25, "backlog": 9}
    theory = crn.Scenario.of([1], [1], **costs).theory([(5, 5)])
    assert theory.frame["cost"].to_list() == [pytest.approx(13.25, rel=1e-12)]


def test_what_the_program_has_is_whole(program: Path) -> None:
    """Costs, TOML and reports as CSV are in its whole numbers; tables have fractions."""
    tenths, whole = made(TENTHS), made(WHOLE)
    report, other = (it.run(program=program) for it in (tenths, whole))
    assert tenths.costs == whole.costs and report.text == other.text
    assert report.frame["total"].astype(float).to_list() == pytest.approx(
        (other.frame["total"] / 10).to_list()
    )
    head, _, suggested = tenths.suggest().toml().partition("\n")
    assert head == "# Costs: 10 for one unit of money"
    assert suggested == whole.suggest().toml()


def test_notes_are_in_the_money_of_the_call(program: Path) -> None:
    """So are amounts in sentences: 0.30 for an item, of which 19/6 are asked for in a period."""
    tenths, whole = made(TENTHS), made(WHOLE)
    assert "which adds 0.95 to each policy" in tenths.theory().notes
    assert "which adds 0.95 to each policy" in tenths.suggest().notes
    assert "which adds 9.50 to each policy" in whole.theory().notes
