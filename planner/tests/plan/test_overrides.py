"""Tests what a planner sets of items: levels, or that nothing is ordered. It is read, kept, ordered by, and costed."""
from __future__ import annotations

import datetime
from fractions import Fraction
from pathlib import Path
from typing import Any

import pandas as pd
import pytest

import crnplan as crn
from crnplan.plan.one import plan_one
from crnplan.read.overrides import DO_NOT_ORDER, SET_LEVELS, Override
from planner.tests.conftest import Command, cases_beside, rows_of
from planner.tests.plan.items import SHORT
from planner.tests.plan.test_bounds import asked, figures_of
from planner.tests.planned_tables import whole_frame, whole_rows

CASES = cases_beside(__file__)
MONDAY = datetime.date(2024, 1, 1)
WEEKS = 40
END = MONDAY + datetime.timedelta(weeks=WEEKS, days=-1)
QUICK: dict[str, Any] = {
    **SHORT,
    "fit": "empirical",
    "jobs": 1,
    "end": END,
}
SET = pd.DataFrame(
    [
        ("A", "5", "17", "", "agreed with sales"),
        ("B", "", "", "do not order", "quality stop"),
        ("D", "2", "4", "", "a spare part"),
    ],
    columns=["item", "s", "S", "override", "reason"],
)


def tables_of(**columns: list[object]) -> tuple[pd.DataFrame, pd.DataFrame]:
    """Returns demand and masters of A, B and C, which are asked for, and of D, which is not; perhaps with more columns
    of the masters."""
    rows = [
        (name, MONDAY + datetime.timedelta(weeks=week), 1 + (week * place) % 4)
        for place, name in enumerate("ABC", 1)
        for week in range(0, WEEKS, place)
    ]
    masters = pd.DataFrame(
        {
            "item": [*"ABCD"],
            "setup": 20,
            "holding": 0.2,
            "backlog": 3,
            "lead (weeks)": 2,
            "s": 1,
            "S": 9,
            "price": 5,
            "stock": [4, 0, 0, 1],
        }
        | columns
    )
    return pd.DataFrame(rows, columns=["item", "date", "quantity"]), masters


def plan_of(
    program: Path,
    overrides: pd.DataFrame | None = None,
    columns: dict[str, list[object]] = {},
    **words: Any,
) -> crn.Plan:
    return crn.plan(
        *tables_of(**columns),
        overrides=overrides,
        program=program,
        **{**QUICK, **words},
    )


def set_in(plan: crn.Plan) -> dict[str, tuple[object, ...]]:
    """Returns what is set in a plan by item: its kind, s, S and the reason."""
    rows = whole_frame(plan).set_index("item")[
        ["override", "s_override", "S_override", "override_reason"]
    ]
    return {
        name: tuple(None if pd.isna(cell) else cell for cell in row)
        for name, row in rows.dropna(how="all").T.items()
        if row["override"]
    }


def test_levels_of_a_planner(program: Path) -> None:
    """What a planner sets is shown with what it costs beside the chosen policy, and is ordered by. What is not to be
    ordered is in no sum and no order."""
    free, plan = plan_of(program), plan_of(program, SET)
    before, rows = (whole_frame(it).set_index("item") for it in (free, plan))
    assert set_in(free) == {}
    assert set_in(plan) == {
        "A": (SET_LEVELS, 5, 17, "agreed with sales"),
        "B": (DO_NOT_ORDER, None, None, "quality stop"),
        "D": (SET_LEVELS, 2, 4, "a spare part"),
    }
    assert rows["verdict"].to_dict() == {
        **before["verdict"].to_dict(),
        "B": "do not order",
    }
    assert (
        rows.loc["A", ["s_chosen", "S_chosen"]]
        == before.loc["A", ["s_chosen", "S_chosen"]]
    ).all()
    for name in ("saving", "cost_chosen", "value_chosen"):
        assert plan.totals[name] == pytest.approx(
            before.loc[["A", "C"], name].sum(), rel=1e-9
        )
    assert plan.totals["override_cost"] == pytest.approx(rows.loc["A", "cost_override"])
    assert "1 items, which cost" in plan.text
    assert "+ 1 do not order" in plan.text
    orders = plan.orders_today(date=END + datetime.timedelta(1)).frame.set_index("item")
    assert orders.loc["A", ["s", "S", "placed"]].tolist() == [5, 17, 13]
    assert orders.loc["D", ["s", "S", "placed"]].tolist() == [2, 4, 3]
    assert "B" not in orders.index
    assert "its planner has set s and S" in orders.loc["A", "why"]
    lists = plan.orders_today(date=END + datetime.timedelta(1)).lists
    stopped = lists[~lists.list.isin(["above", "dead", "owed"])].set_index("item")
    assert stopped["list"].to_dict() == {"B": "do not order"}
    assert "quality stop" in stopped.loc["B", "why"]
    assert "set" in rows.loc["A", "warnings"]


def test_what_levels_of_a_planner_cost(program: Path) -> None:
    """They cost more than the chosen policy as a second computation says, also in boxes."""
    override = Override(SET_LEVELS, 2, 30, "why")
    answer = plan_one(asked(override=override), str(program))
    (cost, fill), (least, _) = (
        figures_of(asked(), levels) for levels in ((2, 30), answer.chosen.levels)
    )
    assert answer.override
    assert answer.override.levels == (2, 30)
    assert answer.override.fill == pytest.approx(fill, rel=1e-9)
    assert answer.override_cost == pytest.approx(cost - least, rel=1e-6)
    assert cost > least
    boxed = plan_one(
        asked(
            counts=tuple(5_000 * count for count in asked().item.counts),
            levels=(20_000, 50_000),
            setup=Fraction(30),
            holding=Fraction(1, 5_000),
            backlog=Fraction(19, 5_000),
            override=Override(SET_LEVELS, 9_999, 60_001),
        ),
        str(program),
    )
    assert boxed.override
    assert boxed.override.levels == (9_999, 60_001)


def test_overrides_are_kept(program: Path, tmp_path: Path) -> None:
    """A later plan has those of the earlier one, until its table says otherwise; a row with nothing ends one."""
    first = plan_of(program, SET, out=tmp_path / "first")
    second = plan_of(program, out=tmp_path / "second", after=tmp_path / "first")
    assert set_in(second) == set_in(first)
    changed = pd.DataFrame(
        {"item": ["B", "A"], "s": ["", "1"], "S": ["", "2"], "reason": ["", "new"]}
    )
    third = plan_of(program, changed, out=tmp_path / "third", after=tmp_path / "second")
    assert set_in(third) == {
        "A": (SET_LEVELS, 1, 2, "new"),
        "D": (SET_LEVELS, 2, 4, "a spare part"),
    }
    assert third.decisions.set_index("item").loc["B", "verdict"] != "do not order"
    assert set_in(plan_of(program, out=tmp_path / "fourth")) == {}


def test_overrides_of_masters(program: Path, tmp_path: Path) -> None:
    """Columns of the masters say it too, and count before an earlier plan."""
    columns = CASES["masters"]
    plan_of(program, SET, out=tmp_path / "first")
    plan = plan_of(
        program, None, columns, out=tmp_path / "second", after=tmp_path / "first"
    )
    assert set_in(plan) == {
        "A": (SET_LEVELS, 3, 8, "by hand"),
        "B": (DO_NOT_ORDER, None, None, "quality stop"),
        "C": (DO_NOT_ORDER, None, None, ""),
        "D": (SET_LEVELS, 2, 4, "a spare part"),
    }
    with pytest.raises(
        crn.Refused, match="item 'A' has another override in the masters"
    ):
        plan_of(program, SET, columns)


@pytest.mark.parametrize("rows, said", CASES["refused"], ids=str)
def test_rows_that_can_not_be_read(
    rows: list[list[str]], said: str, program: Path
) -> None:
    """All of a table is read, or nothing is planned by it."""
    with pytest.raises(crn.Refused, match=said):
        plan_of(program, pd.DataFrame(rows, columns=["item", "s", "S", "override"]))


def test_levels_in_packs(program: Path) -> None:
    """A heading says what levels count."""
    plan = plan_of(
        program,
        pd.DataFrame({"item": ["A"], "s (pack of 12)": ["1"], "S (pack of 12)": ["2"]}),
    )
    assert set_in(plan) == {"A": (SET_LEVELS, 12, 24, "")}


def test_overrides_of_masters_that_can_not_be_read() -> None:
    """An item is left out whose override can't be read."""
    tables = tables_of(**CASES["refused_masters"])
    rejects = crn.read_catalogue(*tables, end=END).rejects.set_index("item")
    assert {*rejects.index} == {*"ABCD"}
    assert [rejects.loc[name, "column"] for name in "AD"] == ["S_override", "Override"]


def test_overrides_by_the_command(
    crnplan: Command, program: Path, tmp_path: Path
) -> None:
    """An option names the file. Items that are not in the catalogue are named in rejects.csv."""
    for name, table in zip(("demand", "items"), tables_of()):
        table.to_csv(tmp_path / f"{name}.csv", index=False)
    pd.concat([SET, pd.DataFrame({"item": ["Z"], "s": ["1"], "S": ["2"]})]).to_csv(
        tmp_path / "set.csv", index=False
    )
    files = tmp_path / "demand.csv", tmp_path / "items.csv"
    words = f"overrides={tmp_path}/set.csv --out {tmp_path}/plan --jobs 1 --set to={END} --program {program}"
    assert crnplan("plan", *files, *words.split()).status == 0
    row = whole_rows(tmp_path / "plan")["A"]
    assert (row["s_override"], row["S_override"]) == ("5", "17")
    assert float(row["cost_override"]) > 0
    out = rows_of(tmp_path / "plan/rejects.csv", kind="item")["Z"]
    assert (out["file"], out["line"]) == ("set.csv", "5")
    page = (tmp_path / "plan/report.html").read_text("utf-8")
    assert "override" in page
    assert "its planner has set (5, 17): agreed with sales" in page
