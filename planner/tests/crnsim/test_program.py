"""Tests how the program is found, what is said if it fails, and reports: read, refused, counted and pooled."""
from __future__ import annotations

import hashlib
import multiprocessing
import os
import re
import signal
import sys
from concurrent.futures import ProcessPoolExecutor
from dataclasses import replace
from fractions import Fraction
from pathlib import Path

import pytest
from hypothesis import given, strategies as st

from crnplan import __version__
from crnplan.crnsim import INSIDE, program as module
from crnplan.crnsim.command import main as become_program
from crnplan.crnsim.program import (
    find_program,
    program_and_reason,
    run_all,
    run_program,
)
from crnplan.crnsim.report import ReportRow, csv_of, pooled, read_rows
from crnplan.runs import Report
from crnplan.errors import ProgramError, Refused
from crnplan.formats import COSTS
from crnplan.runs import Scenario
from crnplan.scenario import Costs
from planner.tests.conftest import Command, cases_beside, script
from planner.tests.decide.answers import changed, rows_of_costs


@pytest.fixture
def places(tmp_path: Path, monkeypatch: pytest.MonkeyPatch) -> dict[str, Path]:
    """Makes a program in each place where one is looked for, and returns their paths, the first to be taken first."""
    build, package = (
        tmp_path / "top/crates/crnsim/out/crnsim",
        tmp_path / "top/planner/src/crnplan/crnsim",
    )
    monkeypatch.setattr(module, "__file__", str(package / "program.py"))
    monkeypatch.setattr(module, "INSIDE", package / "bin/crnsim")
    monkeypatch.setenv("PATH", str(tmp_path / "path"))
    monkeypatch.setenv("CRNSIM", str(tmp_path / "variable"))
    found = {
        "named": tmp_path / "named",
        "the variable CRNSIM": tmp_path / "variable",
        "the one inside crnplan": package / "bin/crnsim",
        "the build of the repository": build,
        "PATH": tmp_path / "path/crnsim",
    }
    return {reason: script(path, "cat") for reason, path in found.items()}


def test_order_and_names(
    places: dict[str, Path], monkeypatch: pytest.MonkeyPatch, tmp_path: Path
) -> None:
    assert program_and_reason(places["named"]) == (places["named"], "named")
    monkeypatch.chdir(tmp_path)
    assert find_program("crnsim") == places["PATH"]
    assert find_program("./named") == places["named"]
    with pytest.raises(
        ProgramError,
        match="program: there is no program ./missing; build crnsim, or name it with",
    ):
        find_program("./missing")
    places["named"].chmod(0o644)
    with pytest.raises(ProgramError, match="program: ./named can't be run"):
        find_program("./named")
    for reason, path in list(places.items())[1:]:
        assert program_and_reason() == (path, reason)
        if reason == "the one inside crnplan":
            path.chmod(0o644)
            with pytest.raises(ProgramError, match=f"crnplan: {path} can't be run"):
                find_program()
        path.unlink()
        if reason == "the variable CRNSIM":
            with pytest.raises(
                ProgramError, match=f"CRNSIM: there is no program {path}"
            ):
                find_program()
            monkeypatch.delenv("CRNSIM")
    with pytest.raises(
        ProgramError, match="crnsim was not found; build it, put it on PATH, or name it"
    ):
        find_program()


CASES = cases_beside(__file__)
OF_MACHINE = "; look for memory and processes of this machine, and run again"


@pytest.mark.parametrize("lines, message, is_of_machine", CASES["failures"], ids=str)
def test_failures(
    lines: str, message: str, is_of_machine: bool, tmp_path: Path
) -> None:
    message += OF_MACHINE * is_of_machine
    path = script(tmp_path / "failing", lines)
    with pytest.raises(ProgramError, match=f"^{re.escape(f'{path}: {message}')}$"):
        run_program(path, "")
    with pytest.raises(ProgramError, match=re.escape(message)):
        run_all(path, [("",)] * 9)
    with pytest.raises(ProgramError, match="No such file or directory; build crnsim"):
        run_program(tmp_path / "missing", "")


def test_outputs_in_order(tmp_path: Path) -> None:
    path = script(tmp_path / "slow", 'read number; sleep 0.0$number; echo "$1 $number"')
    runs = [(f"{number}\n", f"word{number}") for number in (9, 1, 5, 0, 3, 7)]
    assert run_all(path, runs) == [f"{word} {text}" for text, word in runs]


def test_processors_of_a_run(tmp_path: Path, monkeypatch: pytest.MonkeyPatch) -> None:
    """Alone a run has all processors. In a process beside others it has one, and the process keeps its own."""
    path, allowed = script(
        tmp_path / "counting", "env -u OMP_NUM_THREADS nproc"
    ), os.sched_getaffinity(0)
    assert run_program(path, "") == f"{len(allowed)}\n"
    with ProcessPoolExecutor(1) as pool:
        assert pool.submit(run_program, path, "").result() == "1\n"
        assert pool.submit(os.sched_getaffinity, 0).result() == allowed
    monkeypatch.setattr(
        multiprocessing, "parent_process", multiprocessing.current_process
    )
    assert run_program(path, "") == "1\n"
    assert os.sched_getaffinity(0) == allowed
    with pytest.raises(ProgramError, match="No such file"):
        run_program(tmp_path / "missing", "")
    assert os.sched_getaffinity(0) == allowed


def test_where(program: Path, crnplan: Command, tmp_path: Path, top: Path) -> None:
    digest = hashlib.sha256(program.read_bytes()).hexdigest()
    answer = crnplan("where", "--program", program)
    assert answer == (
        0,
        f"crnplan {__version__}, in a checkout\n{program} (named)\nsha256 {digest}\n"
        "its report on a small scenario is right\n",
        "",
    )
    answer = crnplan("where", "--program", script(tmp_path / "other", "cat"))
    assert answer.status == 1
    assert answer.output.endswith(
        "its report on a small scenario differs from the known one\n"
    )
    failing = script(tmp_path / "failing", "exit 5")
    assert crnplan("where", "--program", failing)[::2] == (
        3,
        f"crnplan: {failing}: no output, status 5{OF_MACHINE}\n",
    )
    for end in ("toml", "csv"):
        kept = Path(module.__file__).with_name(f"example.{end}")
        assert kept.read_bytes() == (top / f"examples/two_policies.{end}").read_bytes()


def test_where_in_a_package(
    tmp_path: Path, crnplan: Command, monkeypatch: pytest.MonkeyPatch
) -> None:
    """An installed package says of which commit it is, and whether a program is the one that was built with it."""
    inside, other = script(
        tmp_path / "bin/crnsim", 'cat "$(dirname "$0")/../example.csv"'
    ), script(tmp_path / "x", "cat")
    monkeypatch.setattr(module, "__file__", str(tmp_path / "program.py"))
    monkeypatch.setattr(module, "INSIDE", inside)
    monkeypatch.setattr(module, "BUILT", tmp_path / "built.toml")
    monkeypatch.delenv("CRNSIM", raising=False)
    digests = [
        hashlib.sha256(path.read_bytes()).hexdigest() for path in (inside, other)
    ]
    for name, text in {"toml": "", "csv": TEXT}.items():
        (tmp_path / f"example.{name}").write_text(text, "utf-8")
    (tmp_path / "built.toml").write_text(
        f'commit = "1f0c"\nprogram = "{digests[0]}"\npages = "doc"\n', "utf-8"
    )
    assert crnplan("where").output.splitlines()[:4] == [
        f"crnplan {__version__}, built from commit 1f0c",
        f"pages and examples: {tmp_path.parent}/doc",
        f"{inside} (the one inside crnplan)",
        f"sha256 {digests[0]} (built with this crnplan)",
    ]
    assert (
        f"\nsha256 {digests[1]} (not built with this crnplan)\n"
        in crnplan("where", "--program", other).output
    )


def test_command_becomes_the_program(monkeypatch: pytest.MonkeyPatch) -> None:
    """It hands on its words, and the signals that Python ignores are not ignored."""
    begun, ignored = list[object](), (signal.SIGPIPE, signal.SIGXFSZ)
    before = {number: signal.getsignal(number) for number in ignored}
    monkeypatch.setattr(os, "execv", lambda *words: begun.extend(words))
    monkeypatch.setattr(sys, "argv", ["/bin/crnsim", "leg", "4"])
    try:
        become_program()
        assert {*map(signal.getsignal, ignored)} == {signal.SIG_DFL}
    finally:
        for number, handler in before.items():
            signal.signal(number, handler)
    assert begun == [INSIDE, ["/bin/crnsim", "leg", "4"]]


HEADER = "policy,s,S,total,per_period,diff_total,diff_mean,diff_var,cov"
BASE, OTHER = "A,20,40,222,111/2,0,0/1,0/1,5/3", "B,60,80,200,50/1,-22,-11/2,7/2,-1/9"
TEXT = f"{HEADER}\n{BASE}\n{OTHER}\n"


def test_values_and_counts(two_policies: str, program: Path) -> None:
    """Values are those of the text. B orders 21 items in period 1 and holds 59, 57, 76 and 72 items."""
    rows = read_rows(TEXT)
    fractions = Fraction(-11, 2), Fraction(7, 2), Fraction(-1, 9)
    figures = [60, 80, 200, Fraction(50), -22, *fractions]
    assert rows[1] == ReportRow("B", *figures)  # type: ignore[arg-type]
    assert csv_of(rows) == TEXT
    assert read_rows(TEXT.replace("\n", "\r\n")) == rows
    signs = TEXT.replace(
        "\nB,", "\n-B,"
    )  # a name that a spreadsheet would run stays as crnsim writes it
    assert csv_of(read_rows(signs)) == signs
    report = Report(tuple(rows), Scenario.parse(two_policies))
    frame = report.frame
    assert report.text == TEXT
    assert frame.index.name == "policy"
    assert list(frame) == HEADER.split(",")[1:]
    assert list(frame.loc["B"]) == figures
    assert report.tree == {"policies": CASES["report"]}
    text = f"{HEADER}\nA,20,40,222,111/2,0,0/1,-,-\n"  # Of one replication there is no variance.
    report = Report(tuple(read_rows(text)), Scenario.parse(two_policies))
    assert report.text == text
    assert list(report.frame.loc["A"])[-2:] == [None, None]
    scenario = Scenario.parse(two_policies)
    held = [59 + 57 + 55 + 51, 59 + 57 + 76 + 72]
    alone = [Costs(**{**dict.fromkeys(COSTS, 0), cost: 1}) for cost in COSTS]
    runs = [scenario, *(replace(scenario, costs=costs) for costs in alone)]
    totals = [[row.total for row in run.run(program=program).rows] for run in runs]
    assert totals == [[222, 296], [0, 1], [0, 21], held, [0, 0]]


@pytest.mark.parametrize("pairs, message", CASES["refused"], ids=str)
def test_refused(pairs: list[str], message: str) -> None:
    text = changed(TEXT, *pairs)
    with pytest.raises(Refused, match=f"^{re.escape(f'r.csv{message}')}"):
        read_rows(text, "r.csv")


@pytest.mark.parametrize(
    "text, message",
    [
        ("", ":1: this is no report of crnsim, whose first line is policy,s,S,total"),
        ("x" * 200_000, ": this is no report of crnsim: field larger than field limit"),
    ],
    ids=["empty", "a long cell"],
)
def test_no_report(text: str, message: str) -> None:
    with pytest.raises(Refused, match=f"^r.csv{message}"):
        read_rows(text, "r.csv")


@given(
    st.data(),
    st.integers(1, 4),
    st.integers(2, 4),
    st.integers(1, 3),
    st.integers(1, 1024),
)
def test_pool_is_the_report_of_all(
    data: st.DataObject, count: int, keys: int, policies: int, periods: int
) -> None:
    costs = st.lists(
        st.integers(0, 2 * 10**11 * 1024),
        min_size=count * keys,
        max_size=count * keys,
    )
    drawn = {f"p{place}": data.draw(costs) for place in range(policies)}
    parts = [
        rows_of_costs(
            {name: own[first : first + count] for name, own in drawn.items()}, periods
        )
        for first in range(0, count * keys, count)
    ]
    assert pooled(parts, count, periods) == rows_of_costs(drawn, periods)
