"""Tests the public interface: its names, imports and types, and plans as a notebook makes them, without a file."""
from __future__ import annotations

import ast
import importlib
import inspect
import subprocess
import sys
import typing
from collections.abc import Iterator
from fractions import Fraction
from pathlib import Path
from types import ModuleType

import click
import numpy
import pandas as pd
import pytest

import crnplan as crn
from crnplan import catalogues
from crnplan.drawing.pictures import Picture
from crnplan.cli import COMMANDS, Spelling, group
from crnplan.table import Result
from planner.tests.conftest import (
    OF_THE_DESK,
    Command,
    HEAVY,
    cases_beside,
    heavy_of,
)
from planner.tests.plan.items import QUICK
from planner.tests.planned_tables import whole_frame

CASES = cases_beside(__file__)


@pytest.mark.parametrize("name", crn.__all__)
def test_public_name(name: str) -> None:
    """Each public name is there, twice, with a docstring. Others are those of modules, or none."""
    found = getattr(crn, name)
    assert getattr(crn, name) is found
    assert name in dir(crn)
    assert not isinstance(found, ModuleType)
    assert name == "__version__" or found.__doc__
    assert importlib.import_module("crnplan.formats") is crn.formats
    with pytest.raises(
        AttributeError, match=f"module 'crnplan' has no attribute '{name}s'"
    ):
        getattr(crn, f"{name}s")


def test_names_for_checkers_of_types() -> None:
    """The imports that checkers of types read are those that are made when a name is used."""
    tree = ast.parse(Path(crn.__file__).read_text("utf-8"))
    imports = {
        name.asname: node.module
        for node in ast.walk(tree)
        if isinstance(node, ast.ImportFrom)
        for name in node.names
        if name.asname
    }
    assert imports == {
        name: module for module, names in crn._NAMES.items() for name in names
    }
    assert [*crn.__all__] == ["__version__", *imports]


def test_imports_no_heavy_library() -> None:
    """The light parts import none of the libraries that take long."""
    code = (
        "import crnplan, crnplan.cli, crnplan.formats, crnplan.cli.scenarios, crnplan.cli.plans\n"
        "from crnplan import Scenario, find_program; import sys; print(*sys.modules)"
    )
    loaded = subprocess.run(
        [sys.executable, "-c", code], capture_output=True, text=True, check=True
    ).stdout.split()
    assert "crnplan" in loaded
    assert not {it.split(".")[0] for it in loaded} & HEAVY


def test_only_the_desk_loads_its_libraries() -> None:
    """No module outside of it does, whatever else that loads."""
    code = "import importlib, sys; [*map(importlib.import_module, sys.argv[1:])]; print(*sys.modules)"
    source = Path(crn.__file__).parent
    files = [it.relative_to(source) for it in source.rglob("*.py")]
    parts = [it.with_suffix("").parts for it in files if it.stem != "__main__"]
    others = [".".join(["crnplan", *it]) for it in parts if it[0] != "desk"]
    loaded = subprocess.run(
        [sys.executable, "-c", code, *others],
        capture_output=True,
        text=True,
        check=True,
    ).stdout.split()
    assert {*others} - {*loaded} == set()
    assert {*loaded} & OF_THE_DESK == set()


def test_version(crnplan: Command) -> None:
    """It is said at once: no library that takes long is loaded for it."""
    assert crnplan("--version") == (0, f"crnplan {crn.__version__}\n", "")
    assert heavy_of("--version") == set()


@pytest.mark.parametrize("name", COMMANDS)
def test_command(name: str) -> None:
    command = group.get_command(click.Context(group), name)
    assert command
    assert command.help
    assert (command.epilog or "").startswith(f"Example: crnplan {name}")


PARTS = """runs decide.long_run decide.verdicts theory.suggestions theory.many_laws
    demand.posterior demand.borrowing curve.exchange_curve""".split()


def names_of_types() -> dict[str, object]:
    """Returns the names in annotations that modules import for checks of types alone."""
    names: dict[str, object] = {
        "Floats": numpy.ndarray,
        "Whole": numpy.ndarray,
        "Picture": Picture,
        "pd": pd,
        "np": numpy,
        "Client": object,
    }  # that of Dask, whose import takes long
    for part in PARTS:
        its = vars(importlib.import_module(f"crnplan.{part}"))
        names |= {name: it for name, it in its.items() if inspect.isclass(it)}
    return names


def public() -> Iterator[tuple[str, object]]:
    """Yields the public functions, and the classes with their public methods."""
    for name in crn.__all__:
        found = getattr(crn, name)
        if inspect.isclass(found) or inspect.isfunction(found):
            yield name, found
        for part, its in vars(found).items() if inspect.isclass(found) else ():
            function = next(
                (
                    getattr(its, it)
                    for it in ("fget", "func", "__func__")
                    if hasattr(its, it)
                ),
                its,
            )
            if not part.startswith("_") and inspect.isfunction(function):
                yield f"{name}.{part}", function


def has_any(hint: object) -> bool:
    """Returns whether a type is Any, or has it."""
    return hint is typing.Any or any(map(has_any, typing.get_args(hint)))


def test_no_public_name_takes_anything() -> None:
    """Each argument, field and result of the public interface has a type, and none is Any."""
    types = names_of_types()
    hints = {name: typing.get_type_hints(it, None, types) for name, it in public()}
    assert len(hints) > 100
    assert [
        f"{name}: {part}"
        for name, its in hints.items()
        for part, hint in its.items()
        if has_any(hint)
    ] == []


def test_completion(crnplan: Command, monkeypatch: pytest.MonkeyPatch) -> None:
    """A shell gets the commands that begin like a word, and an option its name of what read the files."""
    for name, value in (
        ("_CRNPLAN_COMPLETE", "bash_complete"),
        ("COMP_WORDS", "crnplan wh"),
        ("COMP_CWORD", "1"),
    ):
        monkeypatch.setenv(name, value)
    assert crnplan() == (0, "plain,where\n", "")
    assert Spelling("report")("end", "") == "--set to"


@pytest.mark.parametrize("command, name, spelt", CASES["spelling"])
def test_spelling(command: str, name: str, spelt: str) -> None:
    """An argument is spelt as the option of the command, else as that of catalogue."""
    assert Spelling(command)(name, "x") == spelt


def test_words_of_a_call(few: list[pd.DataFrame]) -> None:
    """Words of reading and planning are shown with their defaults, and one that is misspelt is refused by its name."""
    words = inspect.signature(crn.plan).parameters
    defaults = [words[name].default for name in ("season", "every", "sales")]
    assert defaults == ["auto", "week", inspect.Parameter.empty]
    others = inspect.signature(crn.read_catalogue).parameters
    assert words.keys() - others.keys() >= {"season", "seed"}
    with pytest.raises(
        TypeError, match=r"^plan\(\) got an unexpected keyword argument 'levle'"
    ):
        crn.plan(*few, levle=0.9)


def test_from_a_history_to_a_decision(program: Path) -> None:
    """Each step of a notebook gives what the next one takes, and the figures are exact."""
    history = [3, 0, 1, 0] * 12
    law, lead = crn.fit_demand(history), crn.fit_lead([2, 3, 2, 4])
    part = crn.Scenario.of(
        law, lead, setup=4500, holding=60, backlog=900, today=(15, 30)
    )
    theory = part.suggest().frame
    report = part.run(theory, program=program)
    decision = report.decide().frame

    assert law == crn.fit_demand(history, method="auto")
    assert lead == crn.fit_lead([2, 3, 2, 4], method="auto")
    assert list(theory["policy"])[:2] == ["today", "best"]
    assert list(report.frame.index) == list(theory["policy"])
    assert report._repr_html_().count("<tr>") == len(theory) + 1
    assert report._repr_html_().endswith("<p>and 1 more column, in frame</p>\n")
    assert isinstance(report.frame.loc["best", "per_period"], Fraction)
    assert isinstance(int(report.frame.loc["best", "total"]), int)
    assert set(decision.index) == set(theory["policy"])
    assert decision.loc["best", "verdict"] in {"better", "undecided", "worse"}


SETTINGS = {**QUICK, "replications": 8}
FILES = ("demand", "items", "orders")


@pytest.fixture(scope="module")
def paths(top: Path) -> list[Path]:
    return [top / f"examples/catalogue/{name}.csv" for name in FILES]


@pytest.fixture(scope="module")
def plan(paths: list[Path], program: Path) -> crn.Plan:
    """Returns the plan of these tables, as data frames."""
    frames = (
        pd.read_csv(path, keep_default_na=False, na_values=[""]) for path in paths
    )
    return crn.plan(*frames, program=program, **SETTINGS)


@pytest.fixture
def few() -> list[pd.DataFrame]:
    days = pd.date_range("2026-01-05", periods=20, freq="7D")
    columns = ["item", "setup", "holding", "backlog", "lead (weeks)", "s", "S"]
    masters = pd.DataFrame([("A", 20, 1, 9, 1, 5, 20)], columns=columns)
    return [pd.DataFrame({"item": "A", "date": days, "quantity": 3}), masters]


def test_frames_and_files_give_the_same(
    plan: crn.Plan, paths: list[Path], program: Path, tmp_path: Path
) -> None:
    """Frames give decisions, rejects and totals of files. A number is a seed: another run, the same figures."""
    other = crn.plan(*paths, out=tmp_path / "plan", program=program, **SETTINGS)
    pd.testing.assert_frame_equal(whole_frame(plan), whole_frame(other))
    pd.testing.assert_frame_equal(
        plan.rejects.drop(columns="file"), other.rejects.drop(columns="file")
    )
    assert (
        plan.totals["saving"]
        == other.totals["saving"]
        == pytest.approx(plan.decisions.saving.sum())
    )
    written = pd.read_csv(tmp_path / "plan/decisions.csv")
    assert list(written.columns) == list(plan.decisions.columns)
    assert list(written.item) == list(plan.decisions.item)
    assert (written.saving - plan.decisions.saving).abs().max() <= 0.005 + 1e-9
    assert other.report() == tmp_path / "plan/report.html"
    assert crn.open_plan(tmp_path / "plan").totals == other.totals
    seeded = crn.plan(*paths, seed=7, program=program, **SETTINGS)
    one, other = whole_frame(seeded), whole_frame(plan)
    pd.testing.assert_series_equal(one.saving, other.saving)
    assert (one.run_saving - other.run_saving).abs().max() > 0


def test_nothing_is_written_elsewhere(
    few: list[pd.DataFrame],
    monkeypatch: pytest.MonkeyPatch,
    tmp_path: Path,
    program: Path,
) -> None:
    """Without `out` the folder of work stays empty, and that of the plan goes with the plan."""
    monkeypatch.chdir(tmp_path)
    plan = crn.plan(*few, program=program, **SETTINGS)
    place = plan.path
    assert place.is_dir()
    assert plan.item("A").text
    del plan
    assert not place.exists()
    assert not [*tmp_path.iterdir()]


def test_decisions_are_typed(plan: crn.Plan) -> None:
    """Levels are whole numbers, money is a float, unrounded, what has no figure is missing, and None in plain data."""
    types, rows = plan.decisions.dtypes.astype(str), plan.tree["rows"]
    assert types["s_chosen"] == "Int64"
    assert types["saving"] == "float64"
    assert types["item"] == "object"
    assert plan.decisions.fill_wanted.isna().any()
    assert plan.details.run_low.dtype == float
    assert isinstance(rows, list)
    assert [it["saving"] for it in rows] == list(
        plan.decisions.saving.astype(object).where(plan.decisions.saving.notna(), None)
    )
    assert [it["fill_wanted"] is None for it in rows] == list(
        plan.decisions.fill_wanted.isna()
    )
    with pytest.raises(
        crn.Refused, match="K-122.*s = 6 is above S = 2; interchange them"
    ):
        plan.item("K-122")


@pytest.mark.parametrize("name", ["plan", "item", "doubt", "curve"])
def test_each_result_shows_itself_in_the_same_way(name: str, plan: crn.Plan) -> None:
    """Each has a frame, a text, and a table for a notebook with a heading for each of at most eight columns."""
    item = plan.item("K-102")
    result = {
        "plan": lambda: plan,
        "item": lambda: item,
        "doubt": item.doubt,
        "curve": lambda: plan.curve(fill=0.97),
    }[name]()
    assert isinstance(result, Result)
    assert len(result.frame) > 1
    assert result.text.count("\n") > 5
    assert result._repr_html_().count("<th ") == min(8, len(result.table.names))


def test_items_and_curve_of_a_plan(plan: crn.Plan) -> None:
    """An item has the decisions' figures, a picture, a budget a policy for each item."""
    row = whole_frame(plan).set_index("item").loc["K-102"]
    frame = plan.item("K-102").frame
    for policy in ("today", "chosen"):
        assert frame.loc[policy, "cost"] == row[f"cost_{policy}"]
        assert frame.loc[policy, "s"] == row[f"s_{policy}"]
    run_saving = frame.run_cost["today"] - frame.run_cost["chosen"]
    assert run_saving == pytest.approx(row.run_saving)
    assert "<html" in plan.item("K-102").page
    picture = plan.item("K-102").plot()
    assert picture.title.startswith("Demand")
    curve = plan.curve(fill=0.97)
    assert curve.frame.set_index("point").loc["budget", "fill"] >= 0.97
    assert set(curve.policies.item) <= set(plan.decisions.item)
    assert len(curve.policies) > 30


@pytest.mark.parametrize(
    "words, message",
    [
        ({"level": 2}, "level: 2 may be 2% or 2 as a share; write 2% or 0.02"),
        ({"fit": "best"}, "fit"),
        ({"masters": None}, "masters is missing"),
        ({"borrow": "some"}, "borrow"),
    ],
)
def test_a_refusal_names_the_argument(
    words: dict[str, object], message: str, paths: list[Path]
) -> None:
    """What can't be meant is a ValueError that names the argument, and no option of a command."""
    given = {"sales": paths[0], "masters": paths[1], **words}
    with pytest.raises(ValueError, match=message) as refused:
        crn.plan(**given)  # type: ignore[arg-type]
    assert "--" not in str(refused.value)


def test_rows_that_were_read_and_not_planned(
    few: list[pd.DataFrame],
    tmp_path: Path,
    program: Path,
    monkeypatch: pytest.MonkeyPatch,
) -> None:
    """Refuses an item whose rows have changed since. Raises Lost if counts do not add up."""
    (sales, masters), words = few, {
        **SETTINGS,
        "every": "week",
        "out": tmp_path / "plan",
        "program": program,
    }
    planned = crn.plan(sales, masters, **words)
    assert planned.item("A").table.rows
    with pytest.raises(crn.Refused, match="30"):
        crn.plan(
            sales.assign(quantity=4),
            masters,
            **{**words, "fit": "auto", "borrow": "all"},
        )
    with pytest.raises(crn.Refused, match="'A': it is not planned as its rows are now"):
        planned.item("A")
    monkeypatch.setattr(catalogues, "missing_of", lambda *_: ["items: 1 of 40 is lost"])
    with pytest.raises(catalogues.Lost, match="1 of 40 is lost"):
        crn.plan(*few, out=tmp_path / "plan", program=program, **SETTINGS)
    assert (
        (tmp_path / "plan/summary.txt")
        .read_text()
        .endswith(".\n\nLOST: items: 1 of 40 is lost\n")
    )


def test_a_series_is_never_silently_dense() -> None:
    """Periods that a Series by period lacks count 0, and NaN for nothing. One by dates with gaps is refused."""
    weeks = pd.Series(
        [3, 0, 2, 4],
        pd.PeriodIndex(
            ["2026-01-05", "2026-01-12", "2026-02-02", "2026-02-09"], freq="W-SUN"
        ),
    )
    assert crn.fit_demand(weeks, method="empirical") == crn.fit_demand(
        [3, 0, 0, 0, 2, 4], method="empirical"
    )
    with pytest.raises(ValueError, match="its dates have gaps"):
        crn.fit_demand(weeks.to_timestamp(), method="empirical")
    summed = weeks.to_timestamp().resample("W-MON").sum()
    assert crn.fit_demand(summed, method="empirical") == crn.fit_demand(
        [3, 0, 0, 0, 2, 4], method="empirical"
    )
    with pytest.raises(ValueError, match="stand twice or are not in order"):
        crn.fit_demand(weeks[::-1], method="empirical")
    unknown = crn.fit_demand(pd.Series([1, float("nan")]), method="empirical")
    assert unknown == crn.fit_demand([1], method="empirical")
