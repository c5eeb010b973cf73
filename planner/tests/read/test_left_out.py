"""Tests that a call warns if most items that it should plan are left out, and a command says so by its status."""
from __future__ import annotations

import warnings
from pathlib import Path
from typing import Any, NamedTuple

import pandas as pd
import pytest

import crnplan as crn
from planner.tests.conftest import Command
from planner.tests.read.catalogues import TODAY, Master, MASTER, demand_of, masters_of

BAD = {**MASTER, "setup": "x"}
ENDED = {**BAD, "status": "stopped"}
LOST = "2 of 3 items to plan were left out, more than half"
FAST: dict[str, Any] = {
    "fit": "empirical",
    "borrow": "none",
    "season": "none",
    "periods": 8,
    "replications": 2,
    "jobs": 1,
    "today": TODAY,
}


class Case(NamedTuple):
    """Masters of items A, B and so on, the items with demand, words, and what is said."""

    masters: list[Master]
    asked: str
    words: dict[str, Any]
    said: str


CASES = {
    "most": Case([MASTER, BAD, BAD], "ABC", {}, LOST),
    "half": Case([MASTER, BAD], "AB", {}, ""),
    "ended by their status": Case([MASTER, ENDED, ENDED], "ABC", {}, ""),
    "ended, of which few are left": Case(
        [{**MASTER, "status": "stopped"}] * 3 + [MASTER, BAD, BAD], "ABCDEF", {}, LOST
    ),
    "without demand": Case([MASTER, BAD, BAD], "A", {}, ""),
    "without masters": Case([MASTER], "ABCD", {}, ""),
    "none with masters": Case(
        [MASTER], "BC", {}, "2 of 2 items to plan were left out, more than half"
    ),
    "of another place": Case(
        [{**MASTER, "plant": "1"}, {**BAD, "plant": "2"}, {**BAD, "plant": "2"}],
        "ABC",
        {"where": {"plant": "1"}},
        "",
    ),
}


def tables_of(case: Case) -> tuple[pd.DataFrame, pd.DataFrame]:
    return demand_of(*case.asked), masters_of(*case.masters)


@pytest.mark.parametrize("name", CASES)
def test_a_call_warns(name: str) -> None:
    """Items count that have masters and demand, and that no status ends; without any, all that are left out."""
    case = CASES[name]
    with warnings.catch_warnings(record=True) as heard:
        warnings.simplefilter("always")
        read = crn.read_catalogue(*tables_of(case), today=TODAY, jobs=1, **case.words)
    lines = [f"{case.said}; `rejects` says why: correct the tables"] * bool(case.said)
    assert [str(warning.message) for warning in heard] == lines
    assert {warning.filename for warning in heard} <= {__file__}
    assert repr(read).endswith(f", {case.said})" if case.said else "sqlite')")


def test_a_plan_warns(program: Path) -> None:
    """So do a plan and tests on the past; a plan says it in its own line."""
    tables = tables_of(CASES["most"])
    with pytest.warns(UserWarning, match=LOST):
        plan = crn.plan(*tables, program=program, **FAST)
    assert repr(plan).endswith(f" a week, {LOST})")
    with pytest.warns(UserWarning, match=LOST):
        crn.backtest(*tables, record=8, every=4, jobs=1, fit="empirical", borrow="none")


def test_the_command_ends_with_1(tmp_path: Path, crnplan: Command) -> None:
    """It says what to do, and that it may be allowed."""
    names = "demand.csv", "items.csv"
    for name, table in zip(names, tables_of(CASES["most"])):
        table.to_csv(tmp_path / name, index=False)
    files = *(tmp_path / name for name in names), "--check"
    answer = crnplan("plan", *files)
    assert answer.status == 1
    assert f"{LOST}; correct the files, or say --anyway" in answer.errors
    assert crnplan("plan", *files, "--anyway").status == 0
