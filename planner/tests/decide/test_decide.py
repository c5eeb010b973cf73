"""Tests of paired-t intervals, of crnplan run with its warnings, of what commands refuse, and of the worked case.

Intervals are compared with those of costs from which a report is made by the definitions of docs/FORMATS.md.
"""
from __future__ import annotations

import csv
import dataclasses
import json
import math
import shlex
import shutil
import statistics
import tomllib
from collections.abc import Callable, Mapping, Sequence
from fractions import Fraction
from pathlib import Path

import pytest
from hypothesis import assume, given, strategies as st
from scipy import stats

from crnplan.decide.reports import check_replications
from crnplan.decide.verdicts import (
    decided,
    estimates_of,
    own_variance,
    t_quantile,
)
from crnplan.errors import Refused
from crnplan.runs import Scenario
from crnplan.theory.run_effects import end_effects
from planner.tests.conftest import Command, script
from planner.tests.decide.answers import changed, priced, report_of, rows_of_costs

HERE = Path(__file__).parent
CASES = tomllib.loads((HERE / "decisions.toml").read_text("utf-8"))
COMMANDS = CASES["commands"]
# Changes of the report of examples/spare_part.toml, by the name of the file.
PARTS: dict[str, Callable[[list[str]], list[str]]] = {
    "longer": lambda rows: [*rows, changed(rows[4], "both", "more")],
    "shorter": lambda rows: rows[:4],
    "turned": lambda rows: [rows[0], *reversed(rows[1:])],
    "turned_end": lambda rows: [*rows[:3], rows[4], rows[3]],
    "one_alone": lambda rows: rows[:2],
    "huge": lambda rows: [*rows[:2], changed(rows[2], "202390", "9" * 5000)],
    "no_bytes": lambda rows: [*rows[:2], "\u00ff\n"],
    "empty": lambda rows: [],
    "free": lambda rows: [
        rows[0],
        changed(rows[1], "207110,103555/3328", "0,0/1", "2175953/144", "0/1"),
    ],
}
# The costs of each policy in each replication.
Costs = Mapping[str, Sequence[int]]


@pytest.fixture
def write_priced(room: Path, program: Path) -> Callable[[str, str], None]:
    def write(name: str, text: str) -> None:
        (room / f"{name}.toml").write_text(text, "utf-8")
        (room / f"{name}.csv").write_text(report_of(program, text), "utf-8")

    return write


@pytest.fixture
def cases_room(room: Path, write_priced: Callable[[str, str], None]) -> Path:
    rows = (
        (room / "examples/spare_part.csv").read_text("utf-8").splitlines(keepends=True)
    )
    for name, part in PARTS.items():
        (room / f"{name}.csv").write_text("".join(part(rows)), "latin-1")
    text = (room / "examples/spare_part.toml").read_text("utf-8")
    for kind, whole in (("csv", "".join(rows)), ("toml", text)):
        for name, pairs in CASES["changes"][kind].items():
            (room / f"{name}.{kind}").write_text(changed(whole, *pairs), "utf-8")
    grid = [f"{s},{S}" for s in range(6, 17) for S in range(20, 41, 2)]
    (room / "grid.csv").write_text("\n".join(["s,S", *grid, ""]), "utf-8")
    (room / "demand.csv").write_text("period,demand\n1,0\n2,3\n", "utf-8")
    (room / "leads.csv").write_text("weeks\n1\n2\n", "utf-8")
    script(room / "two_lines", "echo first >&2\necho second >&2\nexit 2")
    (room / "decisions.toml").symlink_to(HERE / "decisions.toml")
    write_priced("priced", priced(room / "examples/spare_part.toml", 5))
    return room


@pytest.mark.parametrize(
    ("words", "status", "part"),
    COMMANDS,
    ids=[f"{it[0]}: {it[2][:40]}" for it in COMMANDS],
)
def test_prints_or_refuses(
    cases_room: Path, crnplan: Command, words: str | list[str], status: int, part: str
) -> None:
    """Checks the status and a part of what is printed. A refusal has one line, or one for each fault."""
    told = crnplan(
        *words.replace("SPARE", "examples/spare_part").split()
        if isinstance(words, str)
        else words
    )
    assert told.status == status
    assert part in told.output + told.errors
    assert (
        status == 0
        or told.output == ""
        and (told.errors.count("\n") == 1 or part.startswith("fault "))
    )


def test_standard_input_is_a_report(room: Path, crnplan: Command) -> None:
    words = "--replications", "64"
    data = (room / "examples/spare_part.csv").read_bytes()
    given = crnplan("run", "-", *words, data=data)
    assert given.status == 0
    assert given == crnplan("run", "examples/spare_part.csv", *words)
    empty = crnplan("run", "-", *words)
    assert empty.errors.startswith("crnplan: standard input:1: this is no report")


@pytest.mark.parametrize(
    ("option", "count"), [(["--csv"], 122), (["--all"], 122), ([], 21)], ids=str
)
def test_lists_so_many_rows(
    cases_room: Path, crnplan: Command, option: list[str], count: int
) -> None:
    words = "run examples/case/scenario.toml --policies grid.csv".split()
    told = crnplan(*words, *option)
    lines = [
        line
        for line in told.output.split("\n\n")["--csv" not in option].splitlines()
        if "not listed" not in line
    ]
    assert len(lines) == count
    assert "\ntoday" in told.output


@pytest.mark.parametrize("words", CASES["forms"], ids=lambda it: it.split()[0])
def test_json_has_the_figures_of_csv(
    cases_room: Path, crnplan: Command, words: str
) -> None:
    asked = words.replace("SPARE", "examples/spare_part").split()
    heading, *rows = csv.reader(crnplan(*asked, "--csv").output.splitlines())
    data = json.loads(crnplan(*asked, "--json").output)
    assert rows
    assert data.get("level", 0.95) == (0.9 if "0.9" in asked else 0.95)
    for row, record in zip(rows, data["policies"], strict=True):
        assert list(record) == heading
        for text, value in zip(row, record.values()):
            digits = len(text.partition(".")[2])
            assert text == (
                "-"
                if value is None
                else f"{value:.{digits}f}"
                if isinstance(value, float)
                else str(value)
            )


@pytest.mark.parametrize(("name", "unit"), [("spare_part", 5), ("mail_order", 20)])
def test_warns_of_end_effects_as_counted(
    room: Path,
    program: Path,
    write_priced: Callable[[str, str], None],
    crnplan: Command,
    name: str,
    unit: int,
) -> None:
    """Compares end effects with the items that the program orders in long replications, and looks at the warning."""
    text = priced(room / f"examples/{name}.toml", unit)
    write_priced("priced", text)
    tree = tomllib.loads(text)
    for cost, rate in tree["costs"].items():
        text = text.replace(
            f"\n{cost} = {rate}\n", f"\n{cost} = {int(cost == 'unit')}\n"
        )
    for key, value in (("replications", 256), ("periods", 1024)):
        text = changed(text, f"\n{key} = {tree[key]}\n", f"\n{key} = {value}\n")
    counting = Scenario.of_tree(tomllib.loads(text))
    effects = end_effects(counting, counting.policies)
    assert effects is not None
    assert len(effects) == 4
    for effect, row in zip(
        effects, csv.DictReader(report_of(program, text).splitlines()), strict=True
    ):
        mean, variance = (
            int(num) / int(den)
            for num, den in (row[it].split("/") for it in ("diff_mean", "diff_var"))
        )
        assert abs(effect - mean) <= 4 * variance**0.5
    assert effects[1] < 0
    for words, place in ((["--csv"], 2), ([], 1)):
        shown = crnplan("run", "priced.csv", "--scenario", "priced.toml", *words)
        assert (
            f"By this alone diff is from about {unit * min(effects):,.0f} ("
            in shown[place]
        )
        assert "WARNING" not in shown[3 - place]


def test_warnings_without_unit_or_number(
    crnplan: Command, room: Path, write_priced: Callable[[str, str], None]
) -> None:
    shown = crnplan(
        "run", "examples/spare_part.csv", "--scenario", "examples/spare_part.toml"
    )
    assert shown.status == 0
    assert "unit" not in shown.output + shown.errors
    write_priced(
        "more_back",
        changed(
            priced(room / "examples/mail_order.toml", 20),
            "[0, 1, 2, 3, 4, 6]",
            "[10, 11, 12, 13, 14, 16]",
        ),
    )
    shown = crnplan("run", "more_back.csv", "--scenario", "more_back.toml")
    assert shown.status == 0
    assert "is not known here.\n" in shown.output


def costs(
    replications: st.SearchStrategy[int], least: int = 0
) -> st.SearchStrategy[Costs]:
    """Returns a strategy for the costs of two to five policies in so many replications."""

    def of_shape(shape: tuple[int, int]) -> st.SearchStrategy[Costs]:
        policies, count = shape
        its = st.lists(
            st.integers(least, 10**6) | st.integers(least, 3 + least),
            min_size=count,
            max_size=count,
        )
        return st.fixed_dictionaries({f"p{number}": its for number in range(policies)})

    return st.tuples(st.integers(2, 5), replications).flatmap(of_shape)


@pytest.mark.parametrize(("probability", "degrees", "printed"), CASES["quantiles"])
def test_quantile_is_as_tables_print_it(
    probability: float, degrees: int, printed: str
) -> None:
    assert f"{t_quantile(2 * (1 - probability), degrees):.3f}" == printed


@given(st.floats(1e-12, 0.9))
def test_quantile_is_exact_for_few_degrees(tails: float) -> None:
    """Compares quantiles with closed forms, which only one and two degrees of freedom have."""
    assert t_quantile(tails, 1) == pytest.approx(
        1 / math.tan(math.pi * tails / 2), rel=1e-12
    )
    assert t_quantile(tails, 2) == pytest.approx(
        (1 - tails) * math.sqrt(2 / (tails * (2 - tails))), rel=1e-12
    )


def rounding(ends: list[float]) -> float:
    """Returns by how much the ends of an interval may be off: one may be near 0 if the other is large."""
    return 1e-8 * max(map(abs, ends)) + 1e-9


def near(ends: list[float]) -> object:
    return pytest.approx(ends, rel=0, abs=rounding(ends))


@given(
    costs(st.integers(2, 12)),
    st.integers(1, 9),
    st.sampled_from([0.5, 0.9, 0.95, 0.99]),
)
def test_intervals_are_those_of_the_costs_themselves(
    drawn: Costs, periods: int, level: float
) -> None:
    count, base, rows = len(drawn["p0"]), drawn["p0"], rows_of_costs(drawn, periods)
    for row in rows:
        assert own_variance(row, rows[0], count) == statistics.variance(
            map(Fraction, drawn[row.policy])
        )
    compared = decided(rows, count, level).rows
    assert [it.diff for it in compared] == pytest.approx(
        sorted((sum(own) - sum(base)) / count for own in drawn.values())
    )
    for it in compared:
        own = drawn[it.policy]
        half = (
            stats.t.interval(level, count - 1)[1]
            * statistics.stdev(own)
            / math.sqrt(count)
        )
        wanted = [(statistics.mean(own) + sign * half) / periods for sign in (-1, 1)]
        assert [it.cost_low, it.cost_high] == (near(wanted) if sum(own) else [0, 0])
        if it.verdict == "base":
            assert it.policy == "p0"
            assert it.low is None
            continue
        joint = 1 - (1 - level) / (len(drawn) - 1)
        differences = [a - b for a, b in zip(own, base)]
        spread = statistics.stdev(differences)
        wanted = [statistics.mean(differences)] * 2
        if spread:
            wanted = list(stats.ttest_rel(own, base).confidence_interval(joint))
        assert [it.low, it.high] == near(wanted)
        assert it.std_error == pytest.approx(
            spread / math.sqrt(count), rel=1e-9, abs=1e-9
        )
        verdict = (
            "worse" if wanted[0] > 0 else "better" if wanted[1] < 0 else "undecided"
        )
        assert it.verdict == verdict or min(map(abs, wanted)) <= rounding(wanted)


@given(costs(st.integers(1, 12), least=1), st.integers(1, 9), st.integers(1, 24))
def test_a_report_is_of_its_own_number_of_replications_alone(
    drawn: Costs, periods: int, other: int
) -> None:
    rows, count = rows_of_costs(drawn, periods), len(drawn["p0"])
    assume(other != count and any(row.diff_total for row in rows))
    check_replications(rows, count, "it.csv")
    with pytest.raises(
        Refused, match=rf"^it\.csv:[0-9]+: this is no report of {other} replications"
    ):
        check_replications(rows, other, "it.csv")


@given(costs(st.integers(2, 9)), st.integers(1, 9), st.integers(0, 3))
def test_estimates_are_those_of_the_costs_less_shifts(
    drawn: Costs, periods: int, least: int
) -> None:
    """Compares costs and errors of a period; there is no error of a policy with fewer than two orders."""
    rows, count, base = rows_of_costs(drawn, periods), len(drawn["p0"]), drawn["p0"]
    orders, shifts = [float(least + place) for place in range(len(rows))], [
        3.0 * it - 1 for it in range(len(rows))
    ]
    found = estimates_of(rows, count, periods, shifts, orders)
    for estimate, own, shift, ordered in zip(
        found, drawn.values(), shifts, orders, strict=True
    ):
        differences = [a - b for a, b in zip(own, base)]
        errors = [
            statistics.stdev(numbers) / math.sqrt(count) / periods
            for numbers in (own, differences)
        ]
        assert estimate.cost == pytest.approx(statistics.mean(own) / periods - shift)
        assert estimate.difference == pytest.approx(
            statistics.mean(differences) / periods - shift + shifts[0]
        )
        assert estimate.own_error == (
            pytest.approx(errors[0]) if ordered >= 2 else None
        )
        assert estimate.error == (
            pytest.approx(errors[1]) if errors[1] and least >= 2 else None
        )


def test_a_single_replication_has_no_intervals() -> None:
    for it in decided(rows_of_costs({"p0": [7], "p1": [5]}, 1), 1, 0.95).rows:
        assert (it.std_error, it.low, it.high, it.cost_low, it.cost_high) == (None,) * 5
        assert it.verdict == ("base" if it.policy == "p0" else "undecided")


@pytest.mark.parametrize("fields", CASES["contradictions"], ids=str)
def test_figures_that_contradict_each_other_are_rejected(
    fields: dict[str, str]
) -> None:
    base, other = rows_of_costs({"p0": [3, 4], "p1": [5, 5]}, 1)
    own = {name: Fraction(text) if text else None for name, text in fields.items()}
    with pytest.raises(Refused, match="^it.csv:3: this is no report of 2 replications"):
        check_replications([base, dataclasses.replace(other, **own)], 2, "it.csv")


STORED = CASES["stored"]
# How a file is opened for a redirection, and which stream of a command goes there.
REDIRECTIONS = {">": ("w", "output"), ">>": ("a", "output"), "2>": ("w", "errors")}


def run_line(line: str, crnplan: Command) -> int:
    """Runs a line of the page in this process as a shell does, and returns its status."""
    command, *words = shlex.split(line)
    if command == "cp":
        shutil.copy(*words)
        return 0
    assert command == "crnplan"
    first = next(
        (place for place, word in enumerate(words) if word in REDIRECTIONS), len(words)
    )
    told = crnplan(*words[:first])
    for sign, name in zip(words[first::2], words[first + 1 :: 2], strict=True):
        mode, stream = REDIRECTIONS[sign]
        with Path(name).open(mode, encoding="utf-8") as file:
            file.write(getattr(told, stream))
    return told.status


def test_the_case_is_as_its_page_says(
    top: Path, tmp_path: Path, crnplan: Command, monkeypatch: pytest.MonkeyPatch
) -> None:
    """Each command writes each file byte for byte. Each example has a report."""
    shutil.copytree(top / "examples/case", tmp_path / "own/examples/case")
    monkeypatch.chdir(tmp_path / "own")
    for name in STORED:
        (tmp_path / "own/examples/case" / name).unlink()
    page = (top / "examples/case/README.md").read_text("utf-8")
    blocks = [block.split("```")[0].splitlines() for block in page.split("```sh\n")[1:]]
    commands = [line for block in blocks for line in block]
    assert len(commands) == 8
    for command in commands:
        assert run_line(command, crnplan) == 2 * ("broken" in command), command
    for name in STORED:
        stored = (top / "examples/case" / name).read_bytes()
        assert (
            (tmp_path / "own/examples/case" / name).read_bytes() == stored != b""
        ), name
    examples = {it.stem for it in (top / "examples").glob("*.toml")}
    assert examples == {"mail_order", "spare_part", "two_policies"}
