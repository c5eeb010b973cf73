"""Tests that arguments of public calls take what means the same, or are refused with what to do."""
from __future__ import annotations

import datetime
from collections.abc import Callable, Mapping
from pathlib import Path
from typing import Any, NamedTuple

import numpy as np
import pandas as pd
import pytest

import crnplan as crn
from crnplan.errors import Refused

WEEKS = pd.date_range("2025-01-06", periods=60, freq="W-MON")
SALES = pd.DataFrame({"item": 1, "date": WEEKS, "quantity": [3, 0, 5, 1] * 15})
MASTERS = pd.DataFrame(
    [[1, 45.0, 1.0, 10.0, 2, 4.0, 5, 20, 9]],
    columns=["item", "setup", "holding", "backlog", "lead (weeks)"]
    + ["price", "s", "S", "stock"],
)
FAST: dict[str, Any] = {
    "fit": "empirical",
    "borrow": "none",
    "season": "none",
    "periods": 8,
    "replications": 2,
    "jobs": 1,
}
DEMAND = [1, 2, 0, 3, 1, 0, 2] * 5
Called = tuple[Callable[..., Any], dict[str, Any]]


@pytest.fixture(scope="module")
def plan(program: Path) -> crn.Plan:
    return crn.plan(SALES, MASTERS, program=program, **FAST)


@pytest.fixture(scope="module")
def scenario() -> crn.Scenario:
    costs: Any = {"setup": 32, "holding": 1, "backlog": 5, "today": (20, 40)}
    return crn.Scenario.of([1, 2], [1], periods=8, replications=2, **costs)


@pytest.fixture(scope="module")
def calls(
    plan: crn.Plan, scenario: crn.Scenario, program: Path
) -> Mapping[str, Called]:
    """Returns public calls by name, each with arguments by which it works."""
    tables = {"sales": SALES, "masters": MASTERS}
    stock = pd.DataFrame({"item": [1], "stock": [3]})
    fast = {"fit": "empirical", "borrow": "none", "every": 4, "jobs": 1}
    costs = {"setup": 32, "holding": 1, "backlog": 5, "today": (20, 40)}
    laws = {"demand": [1], "lead": [1], "returns": [0, 1], "key": "x"}
    changes = {"periods": 5, "costs": {"setup": 3}, "policies": [(1, 2)], **laws}
    run = {"scenario": scenario, "program": program}
    return {
        "plan": (crn.plan, {**tables, "program": program, **FAST}),
        "read_catalogue": (crn.read_catalogue, {"demand": SALES, "items": MASTERS}),
        "backtest": (crn.backtest, {**tables, **fast}),
        "open_plan": (crn.open_plan, {"folder": plan.path}),
        "exchange_curve": (crn.exchange_curve, {"folder": plan.path, "jobs": 1}),
        "curve": (plan.curve, {"jobs": 1}),
        "item": (plan.item, {"name": 1}),
        "orders_today": (plan.orders_today, {"stock": stock}),
        "of": (crn.Scenario.of, {"demand": [1, 2], "lead": [1], **costs}),
        "changed": (scenario.changed, changes),
        "fit_demand": (crn.fit_demand, {"demand": DEMAND}),
        "run": (scenario.run, {"program": program}),
        "long_run": (scenario.long_run, {"program": program, "keys": 2}),
        "report": (crn.report, {"folder": plan.path, "program": program}),
        "read_config": (crn.read_config, {"path": plan.path / "found.toml"}),
    }


class Same(NamedTuple):
    """Two values of an argument that mean the same."""

    call: str
    argument: str
    odd: Any
    usual: Any


SAME = [
    Same("plan", "periods", np.int64(9), 9),
    Same("plan", "replications", np.float64(3), 3),
    Same("plan", "seed", np.int64(7), "7"),
    Same("plan", "today", "2026-02-01", datetime.date(2026, 2, 1)),
    Same("plan", "today", np.datetime64("2026-02-01"), datetime.date(2026, 2, 1)),
    Same("plan", "end", pd.Timestamp("2026-02-01 13:00"), "2026-02-01"),
    Same("plan", "confidence", "80%", 0.8),
    Same("plan", "sales", SALES.to_dict("list"), SALES),
    Same("plan", "sales", SALES.to_dict("records"), SALES),
    Same("plan", "date_formats", "%Y-%m-%d", ("%Y-%m-%d",)),
    Same("plan", "columns", {"demand": {"item": "item"}}, None),
    Same("plan", "at_least", None, None),
    Same("curve", "fill", "97%", 0.97),
    Same("item", "name", np.int64(1), "1"),
    Same("item", "name", 1.0, "1"),
    Same("orders_today", "stock", pd.Series([3], index=[1]), None),
    Same("orders_today", "stock", {1: 3}, None),
    Same("orders_today", "placed", {1: 0}, pd.DataFrame({"item": [1], "quantity": 0})),
    Same("orders_today", "date", pd.Timestamp("2026-03-02 13:00"), "2026-03-02"),
    Same("fit_demand", "box", np.int64(2), 2),
]


@pytest.mark.parametrize("same", SAME, ids=lambda it: f"{it.call}-{it.argument}")
def test_what_means_the_same(same: Same, calls: Mapping[str, Called]) -> None:
    """A value of another type whose meaning is clear gives the same text as the usual one."""
    function, given = calls[same.call]
    texts = []
    for value in (same.odd, same.usual):
        words = {**given, same.argument: value}
        if value is None and same.argument in given:
            words[same.argument] = given[same.argument]
        found = function(**words)
        texts.append(getattr(found, "text", found))
    assert texts[0] == texts[1]


REFUSED: list[tuple[str, dict[str, Any], str]] = [
    ("plan", {"sales": None}, "sales is missing"),
    ("plan", {"sales": SALES.to_numpy()}, "sales: ndarray is no table with headings"),
    ("plan", {"sales": {"item": [1], "date": [2, 3]}}, "sales: no table: All arrays"),
    ("plan", {"masters": pd.Series([1])}, "masters: a Series is no table"),
    ("plan", {"jobs": -1}, "jobs: -1 is not from 1 to 1,024"),
    ("plan", {"periods": 2.5}, "periods: 2.5 is not a whole number"),
    ("plan", {"net": 1}, "net: 1 is neither true nor false"),
    ("plan", {"every": 7}, "every: 7 is not one of day, week, month"),
    ("plan", {"today": 20260201}, "today: 20260201 is no date"),
    ("plan", {"currency": float("nan")}, "currency: nan is not known"),
    ("plan", {"out": ""}, "out: '' is no path"),
    ("plan", {"out": "a\0b"}, "out: 'a.x00b' is no path"),
    (
        "plan",
        {"columns": ["item"]},
        "columns: 'item' is no table; write values by name",
    ),
    ("plan", {"factors": {"KAR": 1.5}}, "factors: KAR: 1.5 is not a whole number"),
    ("plan", {"statuses": {"Z3": 3}}, "statuses: Z3: 3 is not one of active"),
    (
        "plan",
        {"columns": {"demand": {"item": []}}},
        "columns: demand.item: .. is no name",
    ),
    ("plan", {"laws": {1: 5}}, "laws: no table: If using all scalar"),
    ("curve", {"fill": 97}, "fill: 97 may be 97% or 97 as a share"),
    ("orders_today", {"supplier_min": {"B": "x"}}, "supplier_min: B: 'x' is no cost"),
    ("of", {"key": 5}, "key: 5 is no key; give a text"),
    ("changed", {"costs": 5}, "costs: 5 is no dict"),
    ("changed", {"policies": 5}, "policies: 5 is no list"),
    ("long_run", {"keys": 2.5}, "keys: 2.5 is not a whole number"),
    ("long_run", {"keys": 1}, "keys=1: the long run takes 2 to 256 keys"),
    ("report", {"orders": 5}, "orders: 5 is no OrdersToday"),
    ("read_catalogue", {"demand": [1, 2]}, "demand: list is no table with headings"),
]


@pytest.mark.parametrize("name, words, why", REFUSED, ids=lambda it: str(it)[:40])
def test_refused(
    name: str, words: dict[str, Any], why: str, calls: Mapping[str, Called]
) -> None:
    function, given = calls[name]
    with pytest.raises(Refused, match=f"^{why}"):
        function(**{**given, **words})


def test_an_argument_that_is_none() -> None:
    with pytest.raises(TypeError, match=r"^plan\(\) got an unexpected keyword"):
        crn.plan(SALES, MASTERS, colour=3)  # type: ignore[call-arg]
