"""Tests of the way from the files of three systems to a plan, today's orders and a workbook, in a command each. pandas
adds up what the files have."""
from __future__ import annotations

from pathlib import Path

import pandas as pd
import pytest

from crnplan.plan.catalogue import planned_folder
from planner.tests.conftest import Command
from planner.tests.desk.exports import NEW, PARTS, SYSTEMS, WEEKS

CENT = 0.005
TODAY = "2026-11-27"


def sold_by(system: str) -> list[int]:
    """Returns how many items of each part are sold; SAP cancels the first movement."""
    sold = [sum(count for _, count in part.sales) for part in PARTS]
    if system == "sap":
        sold[0] -= PARTS[0].sales[0][1]
    return sold


def check_orders(plan: Path, today: Path, parts: pd.DataFrame) -> pd.Series[float]:
    """Checks today's orders by the levels of the plan, and returns what each is worth."""
    orders, decisions = (
        pd.read_csv(path, dtype={"item": str}, index_col="item")
        for path in (today / "today_orders.csv", plan / "decisions.csv")
    )
    unknown = orders.index[orders.placed.isna()]
    assert [int(name[-3:]) for name in unknown] == [NEW]
    parts, orders = parts.loc[decisions.index], orders.drop(unknown)
    due = parts.stock < decisions.s_chosen
    assert {*orders.index} == {*parts.index[due]}
    assert pd.read_csv(plan / "details.csv").periods.max() == WEEKS
    wanted = (decisions.S_chosen - parts.stock)[orders.index]
    assert (orders.S - orders.position == wanted).all() and (
        orders.placed >= wanted
    ).all()
    worth = orders.placed * parts.price[orders.index]
    assert (orders.value - worth).abs().max() < CENT
    return orders.value


def check_book(path: Path, plan: Path, items: pd.Index, worth: float) -> None:
    """Checks that the workbook of a plan has its sums, and each item."""
    decisions = pd.read_csv(plan / "decisions.csv", dtype={"item": str})
    sheets = pd.read_excel(path, sheet_name=None, dtype={"item": str})
    shown, most = sheets["Decisions"], CENT * len(decisions)
    assert [*shown.item] == [*decisions.item]
    assert shown.saving.sum() == pytest.approx(decisions.saving.sum(), abs=most)
    saved = sheets["Summary"].set_index("figure").chosen["saved a week"]
    assert saved == pytest.approx(shown.saving.sum())
    ordered = sheets["Without what is on order"].value.sum()
    assert ordered == pytest.approx(worth)
    assert {*sheets["Left out"].item.dropna()} | {*decisions.item} >= {*items}


@pytest.mark.parametrize("system", SYSTEMS)
def test_from_two_files_to_orders_and_a_workbook(
    system: str, crnplan: Command, program: Path, tmp_path: Path
) -> None:
    """What is sold, stocked and ordered adds up to the cent, whatever the system writes."""
    export, plan = SYSTEMS[system](tmp_path, PARTS), tmp_path / "plan"
    words = [
        *export.words,
        *"--set setup=45 --set holding_rate=20% --program".split(),
        program,
    ]
    planned = crnplan("plan", export.demand, export.masters, *words, "--out", plan)
    assert planned.status == 0 and f"saved: {export.currency} " in planned.output
    with planned_folder(plan) as folder:
        items = [*folder.read.items()]
    facts, sold = {}, sold_by(system)
    for item in items:
        part = PARTS[int("".join(filter(str.isdigit, item.name)))]
        assert sum(item.counts) == sold[part.place]
        facts[item.name] = {"stock": part.stock, "price": part.cents / 100}
    parts = pd.DataFrame.from_dict(facts, orient="index")

    today, book = tmp_path / "today", tmp_path / "plan.xlsx"
    listed = crnplan("today", plan, "--date", TODAY, "--out", today)
    values = check_orders(plan, today, parts)
    worth = f"{len(values)} orders, worth {export.currency} {values.sum():,.2f}"
    said = f"{TODAY}: {worth}, without what is on order\n"
    assert said in listed.output
    assert crnplan("report", plan, "--xlsx", book, "--program", program).status == 0
    check_book(book, plan, parts.index, values.sum())
