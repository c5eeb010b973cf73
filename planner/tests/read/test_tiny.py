"""Tests tables of a few rows: whatever stands in them, the outcome is a result, or a refusal that says why."""
from __future__ import annotations

import datetime
from pathlib import Path
from typing import Any

import pandas as pd
import pytest
from hypothesis import given, settings, strategies as st

import crnplan as crn
from crnplan.errors import Refused

DAY = datetime.date(2024, 1, 1)
COSTS = {"setup": 20, "holding per week": 1, "fill": "95%", "price": 3}
MASTERS = pd.DataFrame({"item": ["A", "B"], "lead (weeks)": 2, **COSTS})
# Distances in days: within a period, near, about a year, and decades.
GAPS = st.sampled_from([0, 1, 6, 7, 31, 365, 366, 367, 371, 400, 731, 3_660])
AMOUNTS = st.sampled_from([0, 1, 1, 3, 12, 1_000, 1_000_000, -2])
ROWS = st.lists(
    st.tuples(st.sampled_from("AAAB"), GAPS, AMOUNTS), min_size=1, max_size=5
)
EVERY = st.sampled_from(["day", "week", "month"])


def table_of(rows: list[tuple[str, int, int]]) -> pd.DataFrame:
    """Returns movements, each so many days after the one before."""
    day, table = DAY, []
    for item, gap, amount in rows:
        day += datetime.timedelta(gap)
        table.append({"item": item, "date": str(day), "quantity": amount})
    return pd.DataFrame(table)


def read(sales: pd.DataFrame, **words: Any) -> crn.Catalogue:
    return crn.read_catalogue(sales, MASTERS, today=datetime.date(2064, 1, 1), **words)


@pytest.mark.parametrize(
    ("days", "periods"),
    [
        (["2024-01-01", "2025-01-06"], 54),
        (["2024-01-01", "2034-01-02"], 523),
        (["2024-01-01", "2025-01-06", "2026-02-02"], 110),
        (["2024-01-01", "2024-01-08", "2025-02-03"], 2),
        (["2024-01-01", "2025-02-03", "2025-02-10"], 2),
    ],
)
def test_days_that_are_far_apart(days: list[str], periods: int) -> None:
    """A row far from the others has a wrong date only if most rows are near one another; else the record has them all."""
    catalogue = read(pd.DataFrame({"item": "A", "date": days, "quantity": 3}))
    with catalogue.opened() as opened:
        first, stop = opened.fact("periods")
        rejected = [out for out in opened.rejects() if out.kind == "row"]
    assert stop - first == periods
    assert len(rejected) == (periods == 2)


@settings(max_examples=150)
@given(ROWS, EVERY, st.booleans(), st.sampled_from([1, 13]))
def test_tiny_catalogues(
    rows: list[tuple[str, int, int]], every: str, net: bool, least: int
) -> None:
    """Each row of a few is used, or left out with its reason, alone or with its item."""
    units = {"items": {"holding": "week", "lead": "week"}}
    try:
        catalogue = read(table_of(rows), every=every, net=net, least=least, units=units)
    except Refused as why:
        assert str(why)
        return
    counts = catalogue.counts["files"]["demand"]
    left_out = counts["rejected"] + counts["with_item"]
    assert counts["read"] == counts["used"] + left_out == len(rows)
    assert not catalogue.missing


@settings(max_examples=25)
@given(ROWS, st.sampled_from([1, 13]))
def test_tiny_plans(
    program: Path, rows: list[tuple[str, int, int]], least: int
) -> None:
    """What is read of a few rows is planned, or refused; no item is left for a fault of ours."""
    sales = table_of(rows)
    try:
        plan = crn.plan(
            sales,
            MASTERS,
            least=least,
            net=True,
            periods=64,
            replications=2,
            jobs=1,
            program=program,
            today=datetime.date(2064, 1, 1),
        )
    except Refused as why:
        assert str(why)
        return
    assert (
        plan.totals.broken == 0
        and len(plan.decisions) + sum(plan.rejects.kind == "item") == 2
    )
