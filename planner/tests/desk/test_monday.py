"""Tests of a Monday morning: from the files of three companies to the orders of each supplier, by two commands of at most
eight options. What is sold, on hand, on order and worth is added up here from what the files were made of."""
from __future__ import annotations

import math
import re
from pathlib import Path

import pandas as pd
import pytest

from crnplan.plan.catalogue import planned_folder
from planner.tests.conftest import Command
from planner.tests.desk.monday import ALL, EXPORTS, MONDAY, SUPPLIERS, Export

MOST_OPTIONS = 8


def options_of(*words: object) -> int:
    """Returns how many options a command has."""
    return sum(str(word).startswith("--") for word in words)


def place_of(name: str) -> int:
    """Returns the place of a part by its name in a system."""
    return int(re.sub(r"\D", "", name))


def by_place(path: Path) -> pd.DataFrame:
    table = pd.read_csv(path, dtype={"item": str})
    return table.set_index(table["item"].map(place_of))


def due_by(decisions: pd.DataFrame) -> dict[int, int]:
    """Returns how many items of each part are to be ordered, in whole packs."""
    due = {}
    for part in ALL:
        row, position = decisions.loc[part.place], part.stock + part.on_order
        if position < row.s_chosen:
            packs = math.ceil((row.S_chosen - position) / part.pack)
            due[part.place] = packs * part.pack
    return due


def ordered(export: Export, folder: Path, crnplan: Command, program: Path) -> str:
    """Plans the files of a company, writes the orders of the day, and returns what is said of these."""
    plan, orders = folder / "plan", folder / "orders"
    planning = [*export.planning, "--out", plan]
    day = [*export.today, "--date", str(MONDAY), "--out", orders]
    files = export.demand, export.masters
    planned = crnplan("plan", *files, *planning, "--program", program)
    assert planned.status == 0, planned.errors
    listed = crnplan("today", plan, *day)
    assert listed.status == 0, listed.errors
    assert max(options_of(*planning), options_of(*day)) <= MOST_OPTIONS
    return listed.output


@pytest.mark.parametrize("company", EXPORTS)
def test_from_files_to_suppliers(
    company: str, crnplan: Command, program: Path, tmp_path: Path
) -> None:
    """Two commands lead from the files of a company to a file of orders for each supplier, with nothing lost."""
    export, is_japanese = EXPORTS[company](tmp_path), company == "japanese"
    said = ordered(export, tmp_path, crnplan, program)
    with planned_folder(tmp_path / "plan") as folder:
        items = [*folder.read.items()]
    counts = {place_of(item.name): sum(item.counts) for item in items}
    for part in ALL:
        returned = sum(part.returns) if is_japanese else 0
        assert counts.pop(part.place) == sum(part.sales) - returned
    assert not counts

    due = due_by(by_place(tmp_path / "plan/decisions.csv"))
    paths = sorted((tmp_path / "orders").glob("today_supplier_*.csv"))
    placed = pd.concat([by_place(path) for path in paths])
    assert placed.placed.to_dict() == due and due
    for place, row in placed.iterrows():
        worth = due[place] * ALL[place].cents / (1 if is_japanese else 100)
        assert row["value"] == pytest.approx(worth)
        assert row.supplier.endswith(str(place % SUPPLIERS))
    assert f"{MONDAY}: {len(due)} orders, worth {export.currency} " in said


def test_words_of_a_plan_are_said_again(
    crnplan: Command, program: Path, tmp_path: Path
) -> None:
    """A file of words has those of the plan too: files of the day need no column that only the plan's files have. Another
    column is refused."""
    export, config = EXPORTS["warehouses"](tmp_path), tmp_path / "words.toml"
    said = ordered(export, tmp_path, crnplan, program)
    day = [*export.today, "--date", str(MONDAY)]
    words = ["today", tmp_path / "plan", *day, "--config", config]
    config.write_text('[catalogue]\nwhere = ["Warehouse=Main", "Type=Sale"]\n')
    assert crnplan(*words).output == said
    config.write_text('[catalogue]\nwhere = ["Warehouse=Main", "Kind=Sale"]\n')
    assert crnplan(*words).refuses("no table has the column 'Kind'")
