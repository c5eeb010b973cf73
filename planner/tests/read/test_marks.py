"""Tests the rows that `where` chooses, and what is said of columns of places and states. pandas adds up the source."""
from __future__ import annotations

import io
import re
from pathlib import Path
from typing import Any

import pandas as pd
import pytest

import crnplan as crn
from crnplan.read.marks import Condition, conditions_of, ticked, use_of
from crnplan.read.items import Reading
from crnplan.read.stock import Holdings, read_holdings
from crnplan.catalogues import Catalogue
from crnplan.sentences import advised, sentence
from planner.tests.read.catalogues import cases_of, items_of, read_text

CASES = cases_of("marks")
MASTERS = "item,setup,holding (per week),backlog (per week),lead (weeks)\nA,20,0.06,0.9,2\nB,20,0.06,0.9,2\n"
# The same with places, of which item A has two.
PLACED = (
    MASTERS.replace("(weeks)", "(weeks),Plant").replace(",0.9,2", ",0.9,2,Main")
    + "A,30,0.06,0.9,3,North\n"
)
PLACES = ["Main", "North", "Outlet"]


@pytest.fixture
def frame() -> pd.DataFrame:
    """Returns movements of two items in three places and of three states."""
    table = pd.DataFrame({"date": pd.date_range("2025-01-06", periods=180).astype(str)})
    place = table.index
    states = ["Shipped", "Shipped", "Shipped", "Cancelled", "Draft"]
    table.insert(0, "item", place.map(lambda row: "AB"[row % 2]))
    table["quantity"] = 1 + place % 7
    table["Location Code"] = place.map(lambda row: PLACES[row % 3])
    table["Status"] = place.map(lambda row: states[row % 5])
    return table


def read(
    folder: Path, frame: pd.DataFrame, masters: str = MASTERS, **words: Any
) -> Catalogue:
    return read_text(folder, frame.to_csv(index=False).encode(), masters, **words)


def sold(catalogue: Catalogue) -> dict[str, int]:
    """Returns the demand of each item."""
    return {name: sum(item.counts) for name, item in items_of(catalogue).items()}


def sums(frame: pd.DataFrame) -> dict[str, int]:
    totals = frame.groupby("item").quantity.sum()
    return {str(name): int(total) for name, total in totals.items()}


@pytest.mark.parametrize("where, places, states", CASES["where"], ids=str)
def test_rows_that_are_taken(
    tmp_path: Path, frame: pd.DataFrame, where: Any, places: Any, states: Any
) -> None:
    """Takes the rows with one of the values of each column, and counts the others."""
    taken = frame
    for column, values in (("Location Code", places), ("Status", states)):
        if values != "all":
            taken = taken[taken[column].isin(values)]
    catalogue = read(tmp_path, frame, where=where)
    assert sold(catalogue) == sums(taken)
    counts = catalogue.counts["files"]["demand"]
    assert (counts["read"], counts["used"]) == (len(frame), len(taken))
    assert counts["other"] == len(frame) - len(taken)
    assert counts["rejected"] == counts["with_item"] == 0 and catalogue.missing == []


def test_other_rows_decide_nothing(tmp_path: Path, frame: pd.DataFrame) -> None:
    """The record, the decimal sign and the items are those of the rows that are taken; others are not rejected."""
    frame.loc[len(frame)] = ["Z", "2026-10-01", "1,5", "North", "Shipped"]
    frame.loc[len(frame)] = ["", "no date", "x", "North", "Shipped"]
    catalogue = read(tmp_path, frame, where="Location Code=Main")
    taken = frame[frame["Location Code"] == "Main"]
    assert sold(catalogue) == sums(taken) and catalogue.rejects.empty
    assert f"the record: {taken.date.min()} to {taken.date.max()}" in catalogue.found
    assert catalogue.counts["files"]["demand"]["other"] == len(frame) - len(taken)


def test_masters_by_place(tmp_path: Path, frame: pd.DataFrame) -> None:
    """Masters of several places are refused with advice, and chosen by place."""
    rejects = read(tmp_path, frame, PLACED).rejects
    (row,) = rejects[rejects.kind == "item"].itertuples()
    reason = "there are 2 masters of several places, in lines 2, 4: column 'Plant' has Main: 1, North: 1"
    assert (row.item, row.reason) == ("A", reason)
    assert row.advice == 'say where={"Plant": "Main"} to take one'
    chosen = read(tmp_path, frame, PLACED, where=["items.Plant=North"])
    assert chosen.counts["files"]["items"]["other"] == 2
    (item,) = items_of(chosen).values()
    assert (item.name, item.setup, item.leads) == ("A", 30, (3,))
    same = read(tmp_path, frame, PLACED.replace("North", "Main"))
    (reason,) = same.rejects.reason
    assert reason == "there are 2 masters that differ, in lines 2, 4"


def test_places_of_demand_alone(tmp_path: Path, frame: pd.DataFrame) -> None:
    """A column that both tables have may be meant of one."""
    masters = PLACED.replace("Plant", "Location Code").replace("A,20", "C,20")
    there = frame[frame["Location Code"] == "North"]
    where = "demand.Location Code=North"
    assert sold(read(tmp_path, frame, masters, where=where)) == {**sums(there), "C": 0}


def test_places_and_states_are_said(tmp_path: Path, frame: pd.DataFrame) -> None:
    """Rows of several places and states are summed with a word, but not if `where` names the column."""
    said = read(tmp_path, frame).said
    assert (
        "demand.csv: 2 items have rows of several places, and all are summed: column 'Location Code' has Main: 60, "
        'North: 60, Outlet: 60. say where={"demand": {"Location Code": "Main"}} to take one alone'
    ) in said
    states = "column 'Status' has 3 values, and all rows count: Shipped: 108, Cancelled: 36, Draft: 36"
    assert f"demand.csv: {states}" in "\n".join(said)
    where = {"Location Code": PLACES, "Status": "Shipped"}
    apart = frame.assign(**{"Location Code": frame.item, "Status": "Shipped"})
    for catalogue in (read(tmp_path, frame, where=where), read(tmp_path, apart)):
        text = "\n".join(catalogue.said)
        assert "places" not in text and "Status" not in text


@pytest.mark.parametrize("where, said", CASES["refused"])
def test_conditions_that_cannot_be_met(
    tmp_path: Path, frame: pd.DataFrame, where: str, said: str
) -> None:
    """A column that no table has, and a text that is no condition, are refused."""
    with pytest.raises(crn.Refused, match=said):
        read(tmp_path, frame, where=where)


def test_a_column_that_is_there_twice(tmp_path: Path, frame: pd.DataFrame) -> None:
    frame.insert(0, "Status", "x", allow_duplicates=True)
    said = "more than one column 'Status', which where names; rename all but one"
    with pytest.raises(crn.Refused, match=said):
        read(tmp_path, frame, where="Status=Shipped")


def test_conditions() -> None:
    """A file stands before the first point if it is one; values may have signs of equality."""
    assert Condition.of("demand.Loc.=A=1") == ("demand", "Loc.", "A=1")
    assert Condition.of("Loc.x = 1") == ("", "Loc.x", "1")
    assert Condition.of("on_order.State=") == ("on_order", "State", "")
    assert conditions_of({"a": 1, "b": ["x", "y"]}) == ("a=1", "b=x", "b=y")


@pytest.mark.parametrize("kind, column, values, taken", CASES["columns"])
def test_columns_that_are_asked_about(
    tmp_path: Path, frame: pd.DataFrame, kind: str, column: str, values: Any, taken: Any
) -> None:
    """A column that may say which rows count, or counts something else, is asked about until `where` takes some or all."""
    tables = {"demand": frame, "items": pd.read_csv(io.StringIO(MASTERS))}
    table = tables[kind]
    table[column] = [values[row % 3 % 2] for row in table.index]
    masters = tables["items"].to_csv(index=False)
    where = {kind: {column: taken}} if taken else ()
    if taken:
        with pytest.raises(crn.Refused, match=re.escape(repr(column))):
            read(tmp_path, frame, masters)
    tables[kind] = table[table[column].isin(taken or values)]
    known = tables["demand"].merge(tables["items"].item)
    assert sold(read(tmp_path, frame, masters, where=where)) == sums(known)


@pytest.mark.parametrize("use", CASES["uses"])
def test_watched_names(use: str) -> None:
    assert {use_of(name) for name in CASES["uses"][use]} == {use}


def holdings(folder: Path, **words: Any) -> Holdings:
    """Reads a table of stock of the items A and B in two places."""
    path, known = folder / "stock.csv", dict.fromkeys("AB")
    text = "item,stock,Warehouse\nA,1,Main\nA,2,North\nB,4,Main\nB,8,Main\n"
    path.write_text(text, "utf-8")
    return read_holdings({"stock": path, "on_order": None}, Reading(**words), known)


def on_hand(read: Holdings) -> dict[str, int]:
    return {name: int(hand.stock) for name, hand in (read.on_hand or {}).items()}


def test_stock_of_places(tmp_path: Path) -> None:
    """Stocks of places are summed, and it is said over which; or they are those of one place."""
    summed = holdings(tmp_path)
    assert on_hand(summed) == {"A": 3, "B": 12}
    (remark,) = summed.remarks
    said = "stock.csv: 1 items have rows of several places, and all are summed: column 'Warehouse' has Main: 3, North: 1"
    assert sentence(remark) == said
    advice = 'say where={"stock": {"Warehouse": "Main"}} to take one alone'
    assert advised(remark).endswith(advice)
    main = holdings(tmp_path, where=("Warehouse=Main",))
    assert on_hand(main) == {"A": 1, "B": 12} and main.remarks == ()
    assert main.counts["stock"]["other"] == 1
    with pytest.raises(crn.Refused, match="no table has the column 'Lager'"):
        holdings(tmp_path, where=("Lager=Main",))
    kept = holdings(tmp_path, where=("Lager=Main",), is_where_needed=False)
    assert on_hand(kept) == {"A": 3, "B": 12}


@pytest.mark.parametrize(
    "cells, said",
    [
        (("yes", "no"), {"yes"}),
        (("yes", "yes"), set()),
        (("yes", "no", "later"), set()),
        (("1", "0"), set()),
    ],
)
def test_ticked_cells(cells: tuple[str, ...], said: set[str]) -> None:
    """A column is ticked if all of its cells say yes or no in words, and some say each."""
    assert ticked(cells) == said
