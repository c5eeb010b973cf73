"""Tests what becomes of a test on the past if it is made again from longer records, or was made by an older version."""
from __future__ import annotations

import contextlib
import json
from pathlib import Path
from typing import Any

import numpy as np
import pandas as pd

import crnplan as package
from crnplan.plan.aims import Trial
from crnplan.plan.backtest.catalogue import OLD, TESTED, TESTS, past_of
from crnplan.plan.backtest.one import Backtest
from crnplan.plan.catalogue import planned_folder
from crnplan.store.stored import Store
from planner.tests.plan.items import SHORT, START

ITEMS, RECORD, WEEKS = 36, 26, 78
WALK: dict[str, Any] = {"record": RECORD, "every": 19, "window": 13, "jobs": 1}
WAYS: dict[str, Any] = {"fit": "empirical", "borrow": "none"}


def write(folder: Path, items: int = ITEMS) -> list[Path]:
    """Writes the two tables of items that want 95%, with demand whose largest weeks a short record does not show."""
    random, rows, masters = np.random.default_rng(3), list[Any](), list[Any]()
    days = pd.date_range(START, periods=WEEKS, freq="7D").date
    for place in range(items):
        item = f"I-{place:02}"
        counts = 1 + random.negative_binomial(1, 1 / (4 + place % 7), WEEKS)
        rows += [(item, *row) for row in zip(days, counts.tolist())]
        masters.append((item, 20, 1, 0.95, 2))
    paths = [folder / "demand.csv", folder / "items.csv"]
    headings = "item,date,quantity", "item,setup,holding,fill,lead (weeks)"
    for path, heading, table in zip(paths, headings, (rows, masters)):
        frame = pd.DataFrame(table, columns=heading.split(","))
        frame.to_csv(path, index=False)
    return paths


def test_other_records_are_tried_anew(tmp_path: Path) -> None:
    """Tested again from longer records, corrected plans are those of a test that is made anew."""
    tables, walk = write(tmp_path), WALK | {"record": 40}
    words = WAYS | {"correct": True}
    package.backtest(*tables, out=tmp_path / "past", **WALK, **words)
    again = package.backtest(*tables, out=tmp_path / "past", **walk, **words)
    anew = package.backtest(*tables, out=tmp_path / "anew", **walk, **words)
    assert again.table.csv == anew.table.csv
    assert again.text == anew.text


def test_few_items_are_not_corrected(tmp_path: Path) -> None:
    """If fewer items than are needed can be tried on their records, plans are those without a correction, and that is said."""
    tables = write(tmp_path, 8)
    corrected, plain = (
        package.backtest(*tables, correct=correct, **WALK, **WAYS)
        for correct in (True, False)
    )
    assert "plans are not corrected: 8 items" in corrected.text
    assert corrected.table.csv == plain.table.csv


def test_tests_that_are_not_of_the_plan(tmp_path: Path) -> None:
    """A test that was broken off says nothing. One of an older version, of other settings, or of other rows than the plan
    is old."""
    plan, tables = tmp_path / "plan", write(tmp_path, 8)
    package.plan(*tables, out=plan, jobs=1, **WAYS, **SHORT)
    package.backtest(*tables, out=plan, **WALK, **WAYS, **SHORT)

    def past() -> object:
        with planned_folder(plan) as planned:
            return past_of(planned)

    with contextlib.closing(Store(plan / TESTS, Backtest)) as tests:
        common, settings = json.loads(tests.fact(TESTED) or "")
        assert past() != OLD and past() is not None
        for fact in ([common, settings | {"window": 26}, {}, {}], ["", settings]):
            tests.keep_facts({TESTED: json.dumps(fact)})
            assert past() == OLD
        tests.keep_facts({TESTED: json.dumps([common, settings, {}, {}])})
        assert past() != OLD
    (plan / TESTS).unlink()
    Store(plan / TESTS, Backtest).close()
    assert past() is None
    (plan / TESTS).unlink()
    with contextlib.closing(Store(plan / TESTS, Trial)) as older:
        older.keep_facts({TESTED: "[]"})
    assert past() == OLD
