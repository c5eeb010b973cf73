"""Tests that a number that is NaN is unknown or refused wherever numbers come in, and never 0. Means are those of pandas,
which leaves NaN out."""
from __future__ import annotations

from collections.abc import Callable
from pathlib import Path
from typing import Any

import numpy as np
import pandas as pd
import pytest

import crnplan as crn
from crnplan.errors import Refused
from planner.tests.plan.items import ALONE as FAST
from planner.tests.planned_tables import whole_frame
from planner.tests.read.catalogues import MASTER, items_of

WEEKS = pd.date_range("2024-01-01", periods=104, freq="W-MON")
DEMAND = pd.Series([3.0, 0, 9, 1] * 26, WEEKS, name="A")
DEMAND.iloc[10:30] = np.nan
MASTERS = pd.DataFrame([{"item": "A", **MASTER, "stock": "9"}])
LONG = pd.DataFrame({"item": "A", "date": WEEKS, "quantity": [*DEMAND]})
COSTS: dict[str, Any] = {"setup": 1, "holding": 1, "backlog": 2, "today": (1, 2)}
NAN = float("nan")


@pytest.fixture(scope="module")
def plan(program: Path) -> crn.Plan:
    runs = {"periods": 8, "replications": 2, "program": program}
    return crn.plan(LONG, MASTERS, today="2026-02-01", **FAST, **runs)


def test_a_plan_has_the_mean_of_the_known_weeks(plan: crn.Plan) -> None:
    """20 of 104 weeks are unknown. It is said, and the law has the mean that pandas gives."""
    decision = whole_frame(plan).set_index("item").loc["A"]
    law = plan.item("A").words.question.demand
    assert float(law.mean) == decision.demand == DEMAND.mean() == 3.25
    assert decision.periods == DEMAND.count() == 84
    assert "the demand of 20 of 104 weeks is not known" in decision.warnings
    assert "demand is not known: 1, with 20 such periods" in plan.text


FRAMES: dict[str, object] = {
    "rows": LONG,
    "nullable": LONG.assign(quantity=LONG.quantity.astype("Int64")),
    "decimals": LONG.assign(quantity=LONG.quantity.astype(object)),
    "Series by day": DEMAND,
    "Series by week": DEMAND.to_period("W-SUN"),
}


@pytest.mark.parametrize("name", FRAMES)
def test_a_catalogue_has_unknown_weeks(name: str) -> None:
    demand: Any = FRAMES[name]
    item = items_of(crn.read_catalogue(demand, MASTERS, today="2026-02-01"))["A"]
    assert item.unknown == (*range(10, 30),)
    assert np.mean(item.known.counts) == DEMAND.mean()


NUMBERS: dict[str, object] = {
    "array": DEMAND.to_numpy(),
    "list": [*DEMAND],
    "None": [None if it != it else it for it in DEMAND],
    "Series": DEMAND,
    "periods": DEMAND.to_period("W-SUN"),
    "nullable": DEMAND.astype("Int64"),
}


@pytest.mark.parametrize("name", NUMBERS)
def test_fits_and_checks_leave_it_out(name: str) -> None:
    """A law has the mean of the known periods, and checks count these."""
    numbers: Any = NUMBERS[name]
    law = crn.fit_demand(numbers, method="empirical")
    assert float(law.mean) == DEMAND.mean()
    assert crn.check_history(numbers).periods == DEMAND.count()
    known = [int(it) for it in DEMAND.dropna()]
    assert law.table == crn.Law.of_numbers(known)


REFUSED: dict[str, tuple[Callable[[], object], str]] = {
    "lead times": (
        lambda: crn.fit_lead([1, NAN]),
        "leads: entry 2: nan is not a whole number; leave it out",
    ),
    "law": (lambda: crn.Law.of_numbers([1, NAN]), "entry 2: nan is not a whole"),
    "scenario": (
        lambda: crn.Scenario.of([1, NAN], [1], **COSTS),
        "demand: entry 2: nan is not a whole number",
    ),
    "cost": (
        lambda: crn.Scenario.of([1], [1], **{**COSTS, "setup": NAN}),
        "costs: setup: nan is not an amount",
    ),
    "columns of weeks beside zeros": (
        lambda: crn.read_catalogue(DEMAND.to_frame().assign(B=DEMAND).T, MASTERS),
        "an empty cell may be no demand, or demand that is not known; say empty=none",
    ),
}


@pytest.mark.parametrize("name", REFUSED)
def test_refused(name: str) -> None:
    call, why = REFUSED[name]
    with pytest.raises(Refused, match=why):
        call()


def test_a_stock_that_is_not_known_is_no_stock_of_0(plan: crn.Plan) -> None:
    """A row of stock or of what is on order without a number is rejected."""
    stock = pd.Series([9.0], ["A"])
    for tables in ([stock * NAN], [stock, stock * NAN]):
        orders = plan.orders_today(*tables)
        assert "0 used + 1 rejected" in orders.text
    master = MASTERS.assign(holding=NAN)
    rejects = crn.read_catalogue(LONG, master, today="2026-02-01").rejects
    assert [*rejects[rejects.kind == "item"]["column"]] == ["holding"]
