"""Tests how .ci/run adds up its parts, on a copy whose parts are fakes."""
from __future__ import annotations

import re
import tomllib
from pathlib import Path
from typing import Any

import psutil
import pytest

from .machine import Machine, Ran, changed, write_script

# The fake Python of .venv knows its part by its words, and says what the file of that part has: a status and a text.
PYTHON = r"""
case "$*" in
*mypy*) part=types ;;
*planner.lines*) part=lines ;;
*planner.touched*) echo "map: $*" >>"$LOG"; exit ;;
*"-m not serial"*) part=suites ;;
*"-m serial"*) part=serial ;;
*" tests/sources") part=sources ;;
esac
echo "$part: $*" >>"$LOG"
"""
SAYS = r"""
read -r status <"$HOME/$part"
tail -n +2 "$HOME/$part"
exit "$status"
"""
PART = 'part={}; echo "$part: $*" >>"$LOG"' + SAYS
# Waits until another part has begun, but not for ever.
BEHIND = 'for _ in $(seq 400); do grep -q "^{}:" "$LOG" && break; sleep 0.05; done'
# What each part says if all is well, and how it counts.
WELL = {
    "setup": "tools/setup: all is there",
    "sources": "........\n8 passed in 1.20s",
    "proofs": "proved\n20 passed, 0 failed",
    "types": "Success: no issues found in 40 source files",
    "rounds": "4 passed, 0 failed (1 judged, 3 kept)",
    "suites": "....\ntests/program: 300 cases\n100 passed, 3 deselected, 1 warning in 61.20s (0:01:01)",
    "lines": "0 lines of crnplan are not run by any test; 0 faults",
    "serial": "3 passed, 100 deselected in 2.10s",
}
PASSED = 1 + 8 + 20 + 1 + 4 + 100 + 1 + 3
PARTS = list(WELL)
FAULTS = tomllib.loads(Path(__file__).with_name("gate.toml").read_text("utf-8"))[
    "fault"
]
# What runs beside the part before or behind it, and what is no part.
BESIDE = ("types", "rounds", "map")


@pytest.fixture
def machine(machine: Machine, top: Path) -> Machine:
    """Returns a machine on which each part of the gate is a fake."""
    machine.copy(top, ".ci/run")
    (machine.top / "planner").mkdir()
    write_script(machine.top / "tools" / "setup", PART.format("setup"))
    write_script(machine.top / "tools" / "rounds.py", PART.format("rounds"))
    write_script(machine.top / ".venv" / "bin" / "python", PYTHON + SAYS)
    machine.fake("rt", PART.format("proofs"))
    return machine


def gate(machine: Machine, **parts: tuple[int, str]) -> Ran:
    """Runs the gate. `parts` has the statuses and texts of those that are not well."""
    for name, text in WELL.items():
        status, said = parts.get(name, (0, text))
        (machine.folder / name).write_text(f"{status}\n{said}\n", encoding="utf-8")
    return machine.run(".ci/run")


def last(ran: Ran) -> tuple[int, str]:
    """Returns the status and the last line of a run."""
    return ran.returncode, ran.stdout.splitlines()[-1]


def test_counts_of_all_parts_are_summed(machine: Machine) -> None:
    ran = gate(machine)
    assert (last(ran), ran.stderr) == ((0, f"{PASSED} passed, 0 failed"), "")
    began = [it.split(":")[0] for it in machine.logged()]
    assert [it for it in began if it not in BESIDE] == [
        it for it in PARTS if it not in BESIDE
    ]


def test_output_and_times_of_each_part_are_shown(machine: Machine) -> None:
    shown = gate(machine).stdout
    assert [it for it in WELL.values() if it not in shown] == []
    assert re.findall(r"^(\w+) +[\d.]+ +[\d.]+$", shown, re.MULTILINE) == PARTS


def test_types_run_beside_the_proofs_and_the_suites_beside_the_rounds(
    machine: Machine,
) -> None:
    python = machine.top / ".venv" / "bin" / "python"
    changed(python, "part=types", "part=types; " + BEHIND.format("proofs"))
    rounds = BEHIND.format("lines") + "\n" + PART.format("rounds")
    write_script(machine.top / "tools" / "rounds.py", rounds)
    gate(machine)
    began = [it.split(":")[0] for it in machine.logged()]
    began.remove("map")
    assert began == [
        "setup",
        "sources",
        "proofs",
        "types",
        "suites",
        "lines",
        "rounds",
        "serial",
    ]


def test_tests_run_once_each(machine: Machine) -> None:
    gate(machine)
    words = dict(it.split(": ", 1) for it in machine.logged())
    suites, folder = words["suites"].removesuffix(" --mapped").split(" --lines ")
    assert suites.endswith(" -m not serial --ignore tests/sources")
    assert " tests planner/tests -n " in suites
    assert words["lines"] == f"-m planner.lines {folder}"
    assert words["map"] == f"-m planner.touched {folder}"
    assert words["serial"].endswith(" -m serial --ignore tests/sources")
    assert " -n " not in words["serial"]


@pytest.mark.parametrize("case", FAULTS, ids=lambda it: it["id"])
def test_faults_are_counted(machine: Machine, case: dict[str, Any]) -> None:
    ran = gate(machine, **{case["part"]: (case["status"], case["text"])})
    failed = case["failed"]
    said = f"{PASSED - case['lost']} passed, {failed} failed"
    assert last(ran) == (int(failed > 0), said)
    assert case["text"] in ran.stdout


@pytest.mark.parametrize(
    "part, text",
    [
        ("suites", "SKIPPED [1] test_a.py:3: no R\n99 passed, 1 skipped in 1.20s"),
        ("proofs", "19 passed, 0 failed, 1 skipped"),
    ],
)
def test_skipped_test_is_counted_and_fails(
    machine: Machine, part: str, text: str
) -> None:
    ran = gate(machine, **{part: (0, text)})
    assert last(ran) == (1, f"{PASSED - 1} passed, 1 failed, 1 skipped")
    assert text in ran.stdout


@pytest.mark.parametrize(
    "part, text, said",
    [
        (
            "suites",
            "FAILED tests/a/test_b.py::test_c[d e] - assert 1 == 2\n1 failed in 1.20s",
            "failed: .venv/bin/python -m pytest 'tests/a/test_b.py::test_c[d e]'",
        ),
        (
            "serial",
            "ERROR planner/tests/test_b.py::test_c\n1 error in 1.20s",
            "failed: .venv/bin/python -m pytest 'planner/tests/test_b.py::test_c'",
        ),
        (
            "rounds",
            "FAILED crn_run/a_b: it is not refused\n3 passed, 1 failed",
            "failed: tools/rounds.py crn_run --names a_b",
        ),
        ("types", "x.py:1: error: no", "failed: types, see above"),
    ],
    ids=["a test", "an error", "an edit", "a whole part"],
)
def test_last_screen_names_what_failed(
    machine: Machine, part: str, text: str, said: str
) -> None:
    assert gate(machine, **{part: (1, text)}).stdout.splitlines()[-2] == said


def test_last_screen_names_nothing_if_all_is_well(machine: Machine) -> None:
    assert "failed: " not in gate(machine).stdout


def test_set_up_that_fails_ends_the_gate(machine: Machine) -> None:
    assert last(gate(machine, setup=(1, "tools/setup: no network"))) == (
        1,
        "0 passed, 1 failed",
    )
    assert len(machine.logged()) == 1


def test_nothing_that_is_kept_may_be_read(machine: Machine) -> None:
    """With --anew all edits are judged, and all tests measured."""
    gate(machine)
    machine.run(".ci/run", "--anew")
    logged = machine.logged()
    asked = [it for it in logged if it.startswith("rounds: ")]
    assert asked == ["rounds: --proved", "rounds: --proved --anew"]
    assert ["--mapped" in it for it in logged if "--lines" in it] == [True, False]
    ran = machine.run(".ci/run", "--any")
    assert (ran.returncode, ran.stderr) == (2, ".ci/run: it takes no word but --anew\n")
    assert len(machine.logged()) == 2 * (len(PARTS) + 1)


def test_map_of_a_gate_that_fails_is_not_kept(machine: Machine) -> None:
    gate(machine, lines=(1, "1 lines of crnplan are not run by any test; 1 faults"))
    assert not [it for it in machine.logged() if it.startswith("map: ")]


@pytest.mark.parametrize("part", ["types", "rounds", "suites"])
def test_failure_is_said_at_once(machine: Machine, part: str) -> None:
    """Also that of a part beside others, whose own words come later."""
    ran = gate(machine, **{part: (1, "0 passed, 1 failed")})
    assert ran.stderr == f".ci/run: {part} has failed, after 0 minutes\n"


def test_what_runs_beside_ends_with_the_gate(machine: Machine) -> None:
    """The rounds and what they have started do not go on once the gate is stopped."""
    rounds = PART.format("rounds").partition("\n")[0]
    waiting = f'{rounds}\nsleep 1000 & echo $! >"$HOME/waiting"; wait'
    write_script(machine.top / "tools" / "rounds.py", waiting)
    python = machine.top / ".venv" / "bin" / "python"
    # A part runs in a shell of its own, whose parent is the gate.
    stop = BEHIND.format("rounds") + "; sleep 0.2; kill -TERM $(ps -o ppid= $PPID)"
    changed(python, "part=suites", "part=suites; " + stop)
    assert gate(machine).returncode == 143
    wait_procs = psutil.wait_procs
    left = int((machine.folder / "waiting").read_text("utf-8"))
    assert not psutil.pid_exists(left) or wait_procs([psutil.Process(left)], 10)[0]


def test_rounds_judge_over_libraries_that_are_proved(machine: Machine) -> None:
    library = machine.top / "crates" / "tiny" / "out" / "rlib" / "tiny.rlib"
    library.mkdir(parents=True)
    machine.fake(
        "rt",
        f'[[ -e "{library}" ]] && echo "rt finds a library" >>"$LOG"\n'
        + PART.format("proofs"),
    )
    gate(machine)
    assert "rt finds a library" not in machine.logged()


def test_missing_command_is_a_failure(machine: Machine) -> None:
    (machine.top / "tools" / "rounds.py").unlink()
    ran = gate(machine)
    assert last(ran) == (1, f"{PASSED - 4} passed, 1 failed")
    assert "rounds.py: No such file" in ran.stdout


def test_variables_that_change_tests_are_taken_away(machine: Machine) -> None:
    write_script(machine.top / "tools" / "setup", 'part=setup; env >"$LOG.env"' + SAYS)
    gate(machine)
    others = {"PYTEST_ADDOPTS": "-k none", "PYTHONDONTWRITEBYTECODE": "1"}
    machine.run(".ci/run", CRNSIM="/other", PYTHONPATH="/other", **others)
    names = {
        it.split("=")[0]
        for it in Path(f"{machine.folder}/log.env")
        .read_text(encoding="utf-8")
        .splitlines()
    }
    assert not names & {"CRNSIM", "PYTHONPATH", *others}
