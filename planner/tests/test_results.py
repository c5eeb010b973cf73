"""Tests what all results have in common: pickles, equality, how they show themselves, and in a notebook."""
from __future__ import annotations

import pickle
import re
import shutil
from collections.abc import Callable, Mapping
from dataclasses import replace
from fractions import Fraction
from pathlib import Path

import pandas as pd
import pytest

import crnplan as crn
from crnplan.planned import ItemFigures
from crnplan.show.catalogue_tables import DECISION_COLUMNS
from crnplan.table import DataTable, Result, number, text, whole
from planner.tests.conftest import shared
from planner.tests.plan.items import QUICK as WORDS, START, several, tables_of


def tables() -> tuple[pd.DataFrame, pd.DataFrame]:
    sales, masters = tables_of(several(4))
    return sales, masters.assign(stock=[30, 0, 9, 0], price=2)


@pytest.fixture(scope="module")
def path(tmp_path_factory: pytest.TempPathFactory, program: Path) -> Path:
    """Returns the folder of a plan of four items, which nobody changes."""

    def make(room: Path) -> None:
        crn.plan(*tables(), out=room / "plan", program=program, **WORDS)

    return shared(tmp_path_factory, "results", make) / "plan"


@pytest.fixture(scope="module")
def results(path: Path, program: Path) -> Mapping[str, Result]:
    """Returns a result of each kind."""
    plan = crn.open_plan(path, program=program)
    item = plan.item("I-000")
    scenario = crn.Scenario.of(
        [1, 2, 0, 3] * 10, [2], setup=45, holding=1, backlog=9, today=(3, 9)
    )
    theory = scenario.suggest()
    report = scenario.run(theory.frame, program=program)
    return {
        "plan": plan,
        "item": item,
        "doubt": item.doubt(),
        "curve": plan.curve(jobs=1),
        "orders": plan.orders_today(date=START + pd.Timedelta(weeks=60)),
        "backtest": crn.backtest(*tables(), record=52, every=4, jobs=1),
        "suggestions": theory,
        "report": report,
        "decide": report.decide(),
        "long run": scenario.long_run(theory.frame, program=program),
    }


KINDS = """plan item doubt curve orders backtest suggestions report decide""".split()
KINDS += ["long run"]


@pytest.mark.parametrize("kind", KINDS)
def test_pickles(kind: str, results: Mapping[str, Result]) -> None:
    """A result that was pickled has the same tables and texts, and is equal."""
    result = results[kind]
    again = pickle.loads(pickle.dumps(result))
    pd.testing.assert_frame_equal(again.frame, result.frame)
    assert again.text == result.text
    assert again._repr_html_() == result._repr_html_()
    assert again == result
    assert hash(again) == hash(result)
    assert [other for other in KINDS if results[other] == again] == [kind]


def test_a_pickled_curve_needs_no_folder(
    path: Path, tmp_path: Path, program: Path
) -> None:
    """A curve that was pickled has all its tables, also if the folder of its plan is gone."""
    folder = Path(shutil.copytree(path, tmp_path / "plan"))
    curve = crn.open_plan(folder, program=program).curve(fill=0.9, jobs=1)
    data, policies = pickle.dumps(curve), curve.policies
    shutil.rmtree(folder)
    again = pickle.loads(data)
    pd.testing.assert_frame_equal(again.policies, policies)
    assert again.table.names == curve.table.names
    assert again.policies.left_out.isna().all()
    assert again.text == curve.text


def test_a_curve_outlives_its_plan(program: Path) -> None:
    """The curve of a plan without a folder of its own has its tables when the plan is gone."""
    curve = crn.plan(*tables(), program=program, **WORDS).curve(jobs=1)
    assert [*curve.policies["item"]] == ["I-000", "I-001", "I-002", "I-003"]
    assert "4 items are on the curve" in curve.text


def test_what_is_in_a_temporary_folder_is_not_pickled(program: Path) -> None:
    """Refuses at once, and says what to do."""
    plan = crn.plan(*tables(), program=program, **WORDS)
    with pytest.raises(crn.Refused, match="plan with out=FOLDER, which keeps it"):
        pickle.dumps(plan)
    with pytest.raises(crn.Refused, match="pickle the tables, and read them where"):
        pickle.dumps(crn.read_catalogue(*tables()))


ASKED: dict[str, Callable[[crn.Plan], object]] = {
    "frame": lambda plan: plan.frame,
    "text": lambda plan: plan.text,
    "totals": lambda plan: plan.totals,
    "controls": lambda plan: plan.controls,
    "rejects": lambda plan: plan.rejects,
    "item": lambda plan: plan.item("I-000"),
    "curve": lambda plan: plan.curve(),
    "orders": lambda plan: plan.orders_today(),
    "report": lambda plan: plan.report(),
}


@pytest.mark.parametrize("asked", ASKED)
def test_a_plan_whose_folder_is_gone(asked: str, path: Path, tmp_path: Path) -> None:
    """A pickle has the path of the folder. If that is gone, it is said in words of Python what to do."""
    folder = Path(shutil.copytree(path, tmp_path / "plan"))
    again = pickle.loads(pickle.dumps(crn.open_plan(folder)))
    assert again == crn.open_plan(path)
    shutil.rmtree(folder)
    gone = pickle.loads(pickle.dumps(again))
    with pytest.raises(crn.Refused) as refused:
        ASKED[asked](gone)
    assert str(refused.value) == (
        f"{folder}: the folder of this plan is gone; plan again with out=FOLDER, or call open_plan(FOLDER) if it was "
        "moved"
    )
    assert repr(gone) == f"Plan({refused.value})"
    assert gone._repr_html_() == f"<p>{refused.value}</p>\n"
    assert not folder.exists()


def test_a_relative_folder_is_found_from_elsewhere(
    path: Path, tmp_path: Path, monkeypatch: pytest.MonkeyPatch
) -> None:
    monkeypatch.chdir(path.parent)
    data = pickle.dumps(crn.open_plan("plan"))
    monkeypatch.chdir(tmp_path)
    assert len(pickle.loads(data).decisions) == 4


def test_equal_plans_are_equal(path: Path, program: Path) -> None:
    """Plans of the same tables are equal in whatever folder. One of other tables is not, nor is another value."""
    one = crn.plan(*tables(), program=program, **WORDS)
    assert one == crn.open_plan(path)
    sales, masters = tables()
    assert one != crn.plan(sales[1:], masters, program=program, **WORDS)
    less = crn.plan(sales, masters.assign(setup=21), program=program, **WORDS)
    assert one != less
    assert one != "plan"


def test_representations(results: Mapping[str, Result]) -> None:
    """Each is one line: what a plan or an item comes to, and how many rows others have."""
    plan, item = results["plan"], results["item"]
    saving = plan.frame["saving"].sum()
    assert repr(plan) == f"Plan(4 items, 60 weeks, saves {saving:,.2f} a week)"
    row = item.frame.loc["chosen"]
    assert repr(item) == (
        f"PlannedItem(I-000: s {row.s}, S {row.S}, costs {row.cost:.2f} a week)"
    )
    doubt = results["doubt"]
    assert repr(doubt) == f"ItemFigures({len(doubt.frame)} rows)"
    assert repr(results["report"].table).startswith(
        f"DataTable({len(results['report'].frame)} rows of policy, s, S, total, "
    )
    assert repr(DataTable([text("item", "its name")], iter([["A"]]))) == (
        "DataTable(rows of item)"
    )
    assert repr(replace(results["report"], rows=results["report"].rows[:1])) == (  # type: ignore[type-var]
        "Report(1 row)"
    )
    assert all("\n" not in repr(result) for result in results.values())


def cells_of(page: str) -> list[list[str]]:
    """Returns the cells of a table of HTML, its heading first."""
    return [
        re.findall(r"<t[hd][^>]*>(.*?)</t[hd]>", row)
        for row in re.findall("<tr>.*?</tr>", page, re.DOTALL)
    ]


def test_notebooks_show_few_rows_and_columns() -> None:
    """Of 5,000 items a line, the first rows, and how many more there are: no more than 50 kB."""
    columns = [column.name for column in DECISION_COLUMNS]
    rows = [
        ["x" * 500 if column.is_text else 0.25 for column in DECISION_COLUMNS]
    ] * 5_000
    page = ItemFigures(DataTable(DECISION_COLUMNS, rows))._repr_html_()
    heading, *shown = cells_of(page)
    assert heading == columns[:8]
    assert len(shown) == 10
    assert shown[0][0] == "x" * 60 + " .."
    assert page.startswith("<p>5,000 rows</p>")
    assert (
        f"</table>\n<p>and 4,990 more rows and {len(columns) - 8} more columns, in frame</p>"
        in page
    )
    assert len(page.encode()) < 50_000


def test_notebooks_show_what_matters_of_a_plan(results: Mapping[str, Result]) -> None:
    """A plan shows its totals, and of items the levels and the saving."""
    plan = results["plan"]
    page = plan._repr_html_()
    heading, *rows = cells_of(page)
    assert f"<p>{repr(plan)[5:-1]}</p>" in page
    assert heading == (
        "item s_chosen S_chosen saving verdict s_today S_today fill_chosen".split()
    )
    first = plan.frame.iloc[0]
    assert rows[0][3] == f"{first.saving:,.2f}"
    assert rows[0][-1] == f"{first.fill_chosen:.1%}"


COLUMNS = (
    text("policy", "its name"),
    number("cost", "money a period", "its cost", "money"),
    number("value", "money", "of stock", ".4g", "money"),
    number("fill", "share", "of demand", ".10g"),
    number("chance", "share", "of it", ".5g", ".3%"),
    number("orders", "orders a period", "of it", ".10g"),
    number("stock", "items", "of it", ".10g"),
    whole("s", "items", "of it"),
)
ROW = ["A", 26.031, 1234.5, 0.9274034045, 0.9274034045, 0.0712345, 1234.5678, 1234]


@pytest.mark.parametrize(
    "currency, money",
    [
        ("", ["26.03", "1,234.50"]),
        ("JPY", ["26", "1,234"]),
        ("KWD", ["26.031", "1,234.500"]),
    ],
)
def test_notebooks_show_figures_as_pages(currency: str, money: list[str]) -> None:
    """Money has the decimals of its currency, or cents, shares are in percent, and other figures are rounded."""
    table = DataTable(COLUMNS, [ROW], decimals=0, currency=currency)
    _, row = cells_of(ItemFigures(table)._repr_html_())
    assert row == ["A", *money, "92.7%", "92.740%", "0.0712", "1,234.57", "1234"]


def test_a_number_of_a_fraction_is_shown_as_it_is() -> None:
    """An exact figure, and one that is missing, are shown as a text has them."""
    from crnplan.table import exact

    table = DataTable([exact("mean", "items", "of it")], [[Fraction(7, 2)], [None]])
    assert cells_of(ItemFigures(table)._repr_html_()) == [["mean"], ["7/2"], ["-"]]


def test_the_scenario_of_an_item(path: Path, program: Path) -> None:
    """It is run as another one is: its first policy is that of today."""
    item = crn.open_plan(path, program=program).item("I-000")
    scenario = item.scenario
    _, masters = tables()
    assert (scenario.base.s, scenario.base.S) == (masters["s"][0], masters["S"][0])
    cost = scenario.theory().frame["cost"]
    assert {"today", "chosen"} <= {*cost.index}
    assert cost["chosen"] == pytest.approx(item.frame.loc["chosen", "theory_cost"])


def test_the_text_of_checks() -> None:
    """It has the lines of what is to be said, or that nothing is."""
    checks = crn.check_history([1, 2, 0, 3] * 20)
    assert checks.text == "\n".join([*checks.lines, ""])
    assert "not independent" in checks.text
    assert replace(checks, warnings=(), notes=(), largest=(), unknown=()).text == (
        "demand: there is nothing to be said of it\n"
    )


def test_a_frame_of_totals(path: Path) -> None:
    plan = crn.open_plan(path)
    totals = plan.totals.frame.set_index("figure")["value"]
    assert totals["saving"] == pytest.approx(plan.decisions["saving"].sum())
