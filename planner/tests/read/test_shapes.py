"""Tests that demand in each shape in which an analyst has it is read as the same rows: wide frames and files, Series,
indexes without names, and columns that are named by their periods."""
from __future__ import annotations

import re
from collections.abc import Callable
from pathlib import Path

import numpy as np
import pandas as pd
import pytest

import crnplan as crn
from crnplan.errors import RefusedFaults
from planner.tests.read.catalogues import MASTER, items_of

WEEKS = pd.date_range("2025-01-06", periods=30, freq="W-MON")
PERIODS = WEEKS.to_period("W-SUN")
ITEMS = [f"A-{place}" for place in range(4)]
TODAY = "2026-02-01"
# Demand with a row for each week and a column for each item, which is refused, and the same with a row for each movement, or
# for each item.
TURNED = pd.DataFrame(
    np.random.default_rng(7).integers(1, 40, (30, 4)), WEEKS, pd.Index(ITEMS)
)
TURNED.iloc[3:5, 1] = 0
LONG = TURNED.rename_axis("date").reset_index().melt("date", var_name="item")
LONG = LONG.rename(columns={"value": "quantity"})[["item", "date", "quantity"]]
WIDE = TURNED.T
Shape = Callable[[Path], object]


def masters(*names: str) -> pd.DataFrame:
    return pd.DataFrame([{"item": name, **MASTER} for name in names or ITEMS])


def read(demand: object, *names: str, **words: object) -> crn.Catalogue:
    tables = demand, masters(*names)
    return crn.read_catalogue(*tables, today=TODAY, **words)  # type: ignore[arg-type]


def facts(catalogue: crn.Catalogue) -> dict[str, tuple[int, tuple[int, ...]]]:
    return {it.name: (it.first, it.counts) for it in items_of(catalogue).values()}


def written(folder: Path, frame: pd.DataFrame, **words: object) -> Path:
    frame.to_csv(folder / "demand.csv", **words)  # type: ignore[call-overload]
    return folder / "demand.csv"


def named(name: str, cells: object) -> pd.DataFrame:
    """Returns the rows as SKU, a column of dates of this name, and Units."""
    long = LONG.assign(date=cells).set_axis(["SKU", name, "Units"], axis=1)
    return long


DAYS = LONG.date.dt.strftime("%Y-%m-%d")
SHAPES: dict[str, Shape] = {
    "wide, index named": lambda _: WIDE.rename_axis("item"),
    "wide, index unnamed": lambda _: WIDE,
    "wide, item as column": lambda _: WIDE.rename_axis("SKU").reset_index(),
    "wide, texts": lambda _: WIDE.set_axis(WEEKS.strftime("%Y-%m-%d"), axis=1),
    "wide, periods": lambda _: WIDE.set_axis(PERIODS, axis=1),
    "wide file without a name": lambda folder: written(folder, WIDE),
    "date as index": lambda _: LONG.set_index("date"),
    "date as index and column": lambda _: LONG.set_index("date", drop=False),
    "item and date as both": lambda _: LONG.set_index(["item", "date"], drop=False),
    "date as unnamed index": lambda _: LONG.set_index("date").rename_axis(None),
    "periods": lambda _: LONG.assign(date=LONG.date.dt.to_period("W-SUN")),
    "one Series by two keys": lambda _: LONG.set_index(["item", "date"]).quantity,
    "Week, days": lambda _: named("Week", DAYS),
    "Week, timestamps": lambda _: named("Week", LONG.date),
    "Week, ISO weeks": lambda _: named("Week", LONG.date.dt.strftime("%G-W%V")),
    "Week, numbers": lambda _: named("Week", LONG.date.dt.strftime("%G%V").astype(int)),
    "KW": lambda _: named("KW", LONG.date.dt.strftime("%V/%G")),
    "Week beginning": lambda _: named("Week beginning", DAYS),
}


@pytest.mark.parametrize("name", SHAPES)
def test_same_in_each_shape(name: str, tmp_path: Path) -> None:
    """Each shape has the items of the rows, and nothing is rejected."""
    found = read(SHAPES[name](tmp_path))
    assert facts(found) == facts(read(LONG))
    assert found.rejects.empty and len(facts(found)) == 4


@pytest.mark.parametrize("index", [WEEKS, PERIODS], ids=["days", "periods"])
def test_one_series_is_one_item(index: pd.Index) -> None:
    """It has the name of the item. Without one the item is not known."""
    series = pd.Series([*TURNED["A-2"]], index, name="A-2")
    wanted = {"A-2": facts(read(LONG))["A-2"]}
    assert facts(read(series, "A-2")) == wanted
    with pytest.raises(crn.Refused, match="^demand: the Series has no name, so its it"):
        read(series.rename(None), "A-2")


def test_months_in_a_column() -> None:
    months = pd.period_range("2023-01", periods=36, freq="M")
    demand = pd.DataFrame({"SKU": "A", "Month": months, "Units": range(1, 37)})
    every = {"items": {"holding": "week", "backlog": "week"}}
    found = read(demand, "A", every="month", units=every)
    assert items_of(found)["A"].counts == (*range(1, 37),)


# What is said of a table that has a column for each item, which is not read.
COLUMNS_OF_ITEMS = (
    'no column looks like the item; say columns={"demand": {"item": "NAME"}}, or swap rows and columns if items are '
    "columns; the columns are: "
)
REFUSED: dict[str, tuple[pd.DataFrame, dict[str, object], str]] = {
    "numbers of weeks": (
        named("Week", [*range(1, 31)] * 4),
        {},
        "'1' is the number of a week without its year, or that of a period of the rec",
    ),
    "another period": (
        LONG.assign(date=LONG.date.dt.to_period("M")),
        {},
        "'2025-01' is a month, and the periods are weeks; say every=month, or write d",
    ),
    "weeks from another day": (
        LONG.assign(date=LONG.date.dt.to_period("W-MON")),
        {},
        "is a week that does not begin on a Monday, and weeks are ISO weeks; write d",
    ),
    "weeks for days": (
        LONG.assign(date=LONG.date.dt.to_period("W-SUN")),
        {
            "every": "day",
            "units": {"items": dict.fromkeys(("holding", "backlog"), "day")},
        },
        "is a week, and the periods are days; say every=week, or write days",
    ),
    "two columns of periods": (
        LONG.rename(columns={"date": "Week"}).assign(Month=1),
        {},
        "the columns 'Week' and 'Month' may both be the date",
    ),
    "a column for each item": (TURNED, {}, COLUMNS_OF_ITEMS),
    "a column for each item, named": (TURNED.rename_axis("week"), {}, COLUMNS_OF_ITEMS),
    "a column for each item, as a file": (
        TURNED.rename_axis("").reset_index(),
        {},
        COLUMNS_OF_ITEMS,
    ),
    "a column that is stated": (
        TURNED.rename_axis("date"),
        {"columns": {"demand": {"item": "A-1"}}},
        "no column looks like the quantity",
    ),
    "places as index": (
        WIDE.reset_index(drop=True),
        {},
        "no column looks like the item",
    ),
    "no dates": (TURNED.reset_index(drop=True), {}, "no column looks like the date"),
}


@pytest.mark.parametrize("name", REFUSED)
def test_refused(name: str) -> None:
    demand, words, why = REFUSED[name]
    with pytest.raises(RefusedFaults, match=re.escape(why)):
        read(demand, **words)


def test_an_index_unlike_its_column() -> None:
    """An index that says something else than the column of its name is refused."""
    shifted = LONG.set_axis(pd.Index(LONG.date.shift(1), name="date"))
    said = (
        "demand: the index and the column 'date' differ; give one of them another name"
    )
    with pytest.raises(crn.Refused, match=said):
        read(shifted)


def test_few_columns_are_named() -> None:
    """Of 81 columns the first five are named, and how many more there are."""
    names = [f"I{place}" for place in range(80)]
    table = pd.DataFrame(1, WEEKS, names).rename_axis("x").reset_index()
    with pytest.raises(RefusedFaults) as refused:
        read(table)
    said = str(refused.value).splitlines()
    assert all(it.endswith("are: x, I0, I1, I2, I3 and 76 more") for it in said)
    assert max(map(len, said)) < 180
