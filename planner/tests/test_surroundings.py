"""Tests that a command works, or says why not, whatever surrounds it: a user without a home, standard streams that are
closed, a machine without a language, names with ends of lines."""
from __future__ import annotations

import os
import subprocess
import sys
from collections.abc import Mapping, Sequence
from pathlib import Path

import pytest

from crnplan.cli import is_open, open_streams
from planner.tests.conftest import NOBODY, as_nobody, write_inputs

TOP = Path(__file__).resolve().parents[2]
SCENARIO = TOP / "examples/two_policies.toml"
PLAN = "plan demand.csv items.csv --jobs 1 --out plan".split()


@pytest.fixture
def room(open_room: Path) -> Path:
    """Returns a folder with the inputs of a catalogue, in which each user may write."""
    room = open_room / "room"
    room.mkdir()
    room.chmod(0o777)
    write_inputs(room)
    return room


def run(
    room: Path, words: Sequence[str], program: Path, environment: Mapping[str, str]
) -> "subprocess.CompletedProcess[str]":
    """Runs Python as a user of whom the machine knows nothing, in the folder, with a few variables alone."""
    # This user has no compiled loops, and these would take long to compile.
    variables = {"PATH": os.environ["PATH"], "CRNSIM": str(program)}
    variables |= {"NUMBA_DISABLE_JIT": "1", **environment}
    return subprocess.run(
        [*as_nobody(), sys.executable, "-B", *words],
        cwd=room,
        capture_output=True,
        text=True,
        stdin=subprocess.DEVNULL,
        env=variables,
        check=False,
    )


KEEPING = """
import numpy as np
from crnplan.store.caches import cache_folder
from crnplan.compiled import compiled

@compiled
def loop(values):
    return values.sum()

assert loop(np.ones(3)) == 3
print(cache_folder())
"""


@pytest.fixture
def temporary(open_room: Path) -> Path:
    """Returns a folder for temporary files, as that of the system is."""
    folder = open_room / "temporary"
    folder.mkdir()
    folder.chmod(0o1777)
    return folder


def test_loops_of_a_user_without_a_home(
    room: Path, program: Path, temporary: Path
) -> None:
    """What is compiled is kept in an own folder among the temporary files."""
    (room / "loops.py").write_text(KEEPING, "utf-8")
    told = run(
        room,
        ["loops.py"],
        program,
        {"TMPDIR": str(temporary), "NUMBA_DISABLE_JIT": "0"},
    )
    user = NOBODY if os.geteuid() == 0 else os.geteuid()
    assert told.stdout == f"{temporary}/crnplan-{user}\n", told.stderr
    (own,) = temporary.iterdir()
    assert own.stat().st_mode & 0o777 == 0o700
    assert [*own.rglob("*.nbi")]
    assert "~" not in {path.name for path in room.iterdir()}


PLANNED = ["-m", "crnplan", *PLAN]
DRAWING = f"""
import crnplan as crn
crn.Scenario.read("{SCENARIO}").run().frame.to_csv("runs.csv")
"""
DRAWN = ["-c", DRAWING]


@pytest.mark.parametrize(
    "variables, commands",
    [
        ({}, [PLANNED, DRAWN]),
        ({"HOME": ""}, [DRAWN]),
        ({"HOME": "/nowhere"}, [DRAWN]),
        ({"HOME": "/proc"}, [DRAWN]),
        ({"XDG_CACHE_HOME": "caches"}, [DRAWN]),
    ],
    ids=str,
)
def test_a_user_without_a_home(
    room: Path,
    program: Path,
    temporary: Path,
    variables: Mapping[str, str],
    commands: Sequence[Sequence[str]],
) -> None:
    """A user of whom the machine knows no name and no home plans and draws; nothing is left beside that."""
    before = {path.name for path in room.iterdir()}
    for words in commands:
        told = run(
            room,
            words,
            program,
            {**variables, "TMPDIR": str(temporary)},
        )
        assert told.returncode == 0 and "Traceback" not in told.stderr, (
            words,
            told.stderr,
        )
    assert {path.name for path in room.iterdir()} - before <= {"plan", "runs.csv"}


# Standard streams that are closed, that only the other way is open, and that are on a full disk.
CLOSED = "<&- >&- 2>&-", ">&-", "2>&-", "2<items.csv", "2>/dev/full"
# Commands that do their work, that end with no, and that are refused.
COMMANDS = {
    "check": ("plan demand.csv items.csv --check", 0),
    "run -": ("run -", 2),
    "no option": ("run --nonsense", 2),
    "catalogue": (" ".join(PLAN), 0),
}


def by_shell(
    room: Path, words: Sequence[str], program: Path, streams: str
) -> "subprocess.CompletedProcess[str]":
    """Runs a command whose standard streams a shell has closed or turned elsewhere."""
    command = [
        "sh",
        "-c",
        f'exec "$@" {streams}',
        "sh",
        sys.executable,
        "-m",
        "crnplan",
    ]
    return subprocess.run(
        [*command, *words],
        cwd=room,
        capture_output=True,
        text=True,
        env={**os.environ, "CRNSIM": str(program)},
        check=False,
        stdin=subprocess.DEVNULL,
    )


@pytest.mark.parametrize("streams", CLOSED)
@pytest.mark.parametrize("name", COMMANDS)
def test_closed_streams(room: Path, program: Path, name: str, streams: str) -> None:
    """A command ends as it does with open streams: what nobody can read is dropped, and written nowhere else."""
    words, status = COMMANDS[name]
    before = {path: path.read_bytes() for path in room.iterdir()}
    told = by_shell(room, words.split(), program, streams)
    assert told.returncode == status, told
    assert "Traceback" not in told.stderr
    assert "fault of crnplan" not in told.stderr
    assert {path: path.read_bytes() for path in before} == before
    if "2" not in streams and status == 2:
        lines = told.stderr.splitlines()
        assert lines and all(line.startswith("crnplan: ") for line in lines)
    if name == "catalogue":
        assert by_shell(room, ["report", "plan"], program, "").returncode == 0


def test_an_output_that_can_only_be_read(room: Path, program: Path) -> None:
    """What should be printed and can't be is a fault."""
    told = by_shell(room, ["--help"], program, "1<items.csv")
    lines = [line for line in told.stderr.splitlines() if line.startswith("crnplan: ")]
    assert (
        told.returncode == 3 and len(lines) == 1 and "Bad file descriptor" in lines[0]
    ), told


def test_streams_that_python_has_not(monkeypatch: pytest.MonkeyPatch) -> None:
    """A standard stream that Python did not open is opened."""
    monkeypatch.setattr(sys, "stdin", None)
    open_streams()
    assert sys.stdin is not None
    assert sys.stdin.fileno() == 0
    assert not is_open(-1)


def test_a_descriptor_that_is_closed() -> None:
    """The null device takes the place of a standard stream that is closed."""
    kept = os.dup(0)
    os.close(0)
    try:
        open_streams()
        assert is_open(0)
        assert os.fstat(0).st_rdev == os.stat(os.devnull).st_rdev
    finally:
        os.dup2(kept, 0)
        os.close(kept)
