"""Tests the keys of items in frames: those of the caller come back, with their type."""
from __future__ import annotations

from collections.abc import Callable
from pathlib import Path
from typing import Any

import numpy as np
import pandas as pd
import pytest

import crnplan as crn
from planner.tests.conftest import shared
from planner.tests.plan.items import QUICK as WORDS, START, several, tables_of

KEYS = {f"I-{place:03}": 4711 + place for place in range(4)}


def tables() -> tuple[pd.DataFrame, pd.DataFrame]:
    """Returns sales and masters of three items that are planned, and one without a price of an order."""
    sales, masters = tables_of(several(4))
    masters = masters.assign(stock=[30, 0, 9, 0], price=2)
    masters.loc[3, "setup"] = None
    return tuple(table.assign(item=table["item"].map(KEYS)) for table in (sales, masters))  # type: ignore[return-value]


@pytest.fixture(scope="module")
def path(tmp_path_factory: pytest.TempPathFactory, program: Path) -> Path:
    """Returns the folder of a plan of items whose names are numbers, after an earlier one, which nobody changes."""

    def make(room: Path) -> None:
        sales, masters = tables()
        words = {**WORDS, "program": program}
        crn.plan(sales, masters, out=room / "before", **words)
        crn.plan(sales, masters, out=room / "plan", after=room / "before", **words)

    return shared(tmp_path_factory, "keys", make) / "plan"


def orders(plan: crn.Plan) -> crn.OrdersToday:
    stock = pd.DataFrame({"item": [4711, 4712, 4714, 99], "stock": [0, 1, 5, 5]})
    return plan.orders_today(stock, date=START + pd.Timedelta(weeks=60))


FRAMES: dict[str, Callable[[crn.Plan], pd.DataFrame]] = {
    "decisions": lambda plan: plan.decisions,
    "details": lambda plan: plan.details,
    "changes": lambda plan: plan.changes,
    "levels": lambda plan: plan.levels,
    "orders": lambda plan: orders(plan).frame,
    "left out of orders": lambda plan: orders(plan).left_out,
    "policies": lambda plan: plan.curve().policies,
    "rejects": lambda plan: plan.rejects,
    "backtest": lambda plan: crn.backtest(*tables(), record=52, every=4, jobs=1).frame,
}


@pytest.mark.parametrize("name", FRAMES)
def test_keys_come_back(name: str, path: Path) -> None:
    """Whole numbers that name items are so in each frame, also of a plan that is opened: frames can be merged."""
    frame = FRAMES[name](crn.open_plan(path))
    assert str(frame["item"].dtype) in ("int64", "Int64")
    assert {*frame["item"].dropna()} <= {*KEYS.values(), 99}
    _, masters = tables()
    merged = frame.dropna(subset=["item"]).merge(masters, on="item")
    assert len(merged) == frame["item"].isin(masters["item"]).sum()
    assert name == "levels" or len(merged)


@pytest.mark.parametrize("key", [4711, np.int64(4711), "4711", 4711.0])
def test_an_item_is_found_by_its_key(key: Any, path: Path, program: Path) -> None:
    plan = crn.open_plan(path, program=program)
    row = plan.decisions.set_index("item").loc[4711]
    assert plan.item(key).frame.loc["chosen", "s"] == row.s_chosen
    with pytest.raises(crn.Refused, match="item '4714' is left out"):
        plan.item(KEYS["I-003"])


def test_files_have_texts(path: Path) -> None:
    """A file names items by texts, as it does if texts name them."""
    lines = (path / "decisions.csv").read_text("utf-8").splitlines()
    assert [line.split(",")[0] for line in lines] == ["item", "4711", "4712", "4713"]


@pytest.mark.parametrize(
    "names, kind",
    [
        ([17, 18], "int64"),
        (pd.array([17, 18], "Int64"), "Int64"),
        (np.array([17, 18], "uint8"), "uint8"),
        ([17.0, 18.0], "int64"),
        (pd.Series([17, 18], dtype=object), "int64"),
        (pd.Categorical([17, 18]), "int64"),
        (["17", "18"], "object"),
        (["0017", "18"], "object"),
    ],
)
def test_type_of_keys(names: Any, kind: str) -> None:
    """The type is that of the column of the masters. Numbers that are no keys stay texts."""
    sales, masters = tables_of(several(2))
    masters = masters.assign(item=names, setup=None)
    sales["item"] = sales["item"].map(dict(zip(["I-000", "I-001"], names)))
    column = crn.read_catalogue(sales, masters).rejects["item"]
    assert [*column] == [*names]
    assert str(column.dtype) == kind


def test_keys_among_other_names() -> None:
    """A row without an item has none, and a name that is no key stays the text that it is: 0018 is not 18."""
    sales, masters = tables_of(several(2))
    masters = masters.assign(item=[17, 18], setup=None)
    more = pd.DataFrame({"item": [None], "date": [START], "quantity": [1]})
    sales["item"] = sales["item"].map({"I-000": 17, "I-001": 18})
    none = crn.read_catalogue(pd.concat([sales, more]), masters).rejects["item"]
    assert str(none.dtype) == "Int64"
    assert {*none.dropna()} == {17, 18}
    assert none.isna().sum() == 1
    other = crn.read_catalogue(
        pd.concat([sales, more.assign(item="0018")]), masters
    ).rejects["item"]
    assert {*other} == {17, 18, "0018"}
