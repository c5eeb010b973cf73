"""Reads a plan whole: each item's decision with its details, and the exact figures of its run."""
from __future__ import annotations

from pathlib import Path

import pandas as pd

from crnplan.plan.answer import Answer, CheckRun
from crnplan.plan.catalogue import planned_folder
from crnplan.planned import Plan
from crnplan.read.item import Item
from planner.tests.conftest import rows_of

DECISIONS, DETAILS = "decisions.csv", "details.csv"


def whole_rows(folder: Path) -> dict[str, dict[str, str]]:
    """Returns the rows of a plan by item, as its files have them."""
    decisions, details = rows_of(folder / DECISIONS), rows_of(folder / DETAILS)
    assert [*details] == [*decisions]
    return {name: row | details[name] for name, row in decisions.items()}


def whole_table(folder: Path) -> pd.DataFrame:
    """Returns the rows of a plan by item, as pandas reads its files."""
    first, rest = (
        pd.read_csv(folder / name, index_col="item") for name in (DECISIONS, DETAILS)
    )
    return first.join(rest)


def whole_frame(plan: Plan) -> pd.DataFrame:
    """Returns the rows of a plan."""
    return plan.decisions.merge(plan.details, on="item")


def runs_of(folder: Path) -> dict[str, tuple[Item, CheckRun]]:
    """Returns the items of a plan that were run, each with its exact figures."""
    runs = dict[str, tuple[Item, CheckRun]]()
    with planned_folder(folder) as plan:
        for item, answer in plan.answers():
            if isinstance(answer, Answer) and answer.run:
                runs[item.name] = item, answer.run
    return runs
