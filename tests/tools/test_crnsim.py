"""Tests tools/crnsim on a copy with a fake build."""
from __future__ import annotations

import os
import time
from collections.abc import Callable
from pathlib import Path

import pytest

from .machine import Machine, Ran, write_script

# The program that the fake build makes: it prints its words and its input, and ends with the status STATUS.
PROGRAM = """#!/bin/bash
printf 'word %s\\n' "$@"
cat
echo fault >&2
exit ${STATUS:-0}
"""
BUILD = f"""
cd "$(dirname "$0")/.."
echo began >>"$LOG"
echo 'crn_limits: proved in 3 s, 0 left'
cat
sleep ${{LASTS:-0}}
[[ -z ${{FAILS:-}} ]] || {{ echo 'crnsim: NOT PROVED in 2 s'; exit 1; }}
mkdir -p crates/crnsim/out
cat >crates/crnsim/out/crnsim <<'END'
{PROGRAM}END
chmod +x crates/crnsim/out/crnsim
echo ended >>"$LOG"
"""
BUILT = ["began", "ended"]


@pytest.fixture
def machine(machine: Machine, top: Path) -> Machine:
    """Returns a machine with a crate, a kit and the fake build."""
    machine.copy(top, "tools/crnsim", "crates.txt")
    write_script(machine.top / "tools" / "build", BUILD)
    for name in ("src/main.rt", "proofs/Main.antt"):
        path = machine.top / "crates" / "crnsim" / name
        path.parent.mkdir(parents=True)
        path.write_text("text\n", encoding="utf-8")
    write_script(machine.folder / "kit" / "bin" / "rt", "exit 1")
    (machine.folder / "kit" / "WHAT").write_text("one\n", encoding="utf-8")
    (machine.folder / "bin").mkdir()
    (machine.folder / "bin" / "rt").symlink_to(machine.folder / "kit" / "bin" / "rt")
    return machine


def crnsim(machine: Machine, *words: str, **more: str) -> Ran:
    """Runs the copy of tools/crnsim."""
    return machine.run("tools/crnsim", *words, **more)


def test_first_use_builds_and_prints_only_the_output_of_the_program(
    machine: Machine,
) -> None:
    ran = crnsim(machine, "leg", "a  b", text="input\n")
    assert ran.stdout == "word leg\nword a  b\ninput\n"
    assert "proving and building the program first" in ran.stderr
    assert "crn_limits: proved in 3 s, 0 left\n" in ran.stderr
    assert machine.logged() == BUILT


def test_what_is_built_is_not_built_again(machine: Machine) -> None:
    crnsim(machine)
    ran = crnsim(machine, "help", text="x")
    assert (ran.stdout, ran.stderr) == ("word help\nx", "fault\n")
    assert machine.logged() == BUILT


@pytest.mark.parametrize("status", range(8))
def test_status_is_that_of_the_program(machine: Machine, status: int) -> None:
    assert crnsim(machine, STATUS=str(status)).returncode == status


def test_a_link_to_the_tool_runs_the_program(machine: Machine) -> None:
    crnsim(machine)
    (machine.folder / "link").symlink_to(machine.top / "tools" / "crnsim")
    assert machine.run(machine.folder / "link", "a").stdout == "word a\n"


def test_closed_input_stays_closed(machine: Machine) -> None:
    crnsim(machine)
    assert (
        "Bad file descriptor"
        in machine.run("bash", "-c", f"'{machine.top}/tools/crnsim' <&-").stderr
    )


def test_build_that_fails_gives_its_output_and_no_program(machine: Machine) -> None:
    ran = crnsim(machine, text="input", FAILS="1")
    assert (ran.returncode, ran.stdout) == (125, "")
    assert ran.stderr.endswith(
        "crnsim: NOT PROVED in 2 s\ntools/crnsim: the program is not built\n"
    )


def test_old_program_is_not_run_if_the_build_of_changed_sources_fails(
    machine: Machine,
) -> None:
    crnsim(machine)
    (machine.top / "crates" / "crnsim" / "src" / "main.rt").write_text(
        "new\n", encoding="utf-8"
    )
    for _ in range(2):
        ran = crnsim(machine, FAILS="1")
        assert (ran.returncode, ran.stdout) == (125, "")


def test_build_without_python_says_so(machine: Machine) -> None:
    only = machine.folder / "only"
    only.mkdir()
    for name in ("bash", "dirname", "readlink", "flock"):
        (only / name).symlink_to(f"/usr/bin/{name}")
    ran = crnsim(machine, PATH=str(only))
    assert (ran.returncode, ran.stdout) == (125, "")
    assert "building needs python3; on Debian: apt-get install python3\n" in ran.stderr


def rewritten_with_its_old_time(path: Path) -> None:
    """Changes a text and gives the file the time that it had."""
    had = path.stat()
    path.write_text("new\n", encoding="utf-8")
    os.utime(path, ns=(had.st_atime_ns, had.st_mtime_ns))


@pytest.mark.parametrize(
    "change",
    [
        pytest.param(
            lambda it: (it / "crates/crnsim/src/main.rt").write_text("new\n"),
            id="a text",
        ),
        pytest.param(
            lambda it: rewritten_with_its_old_time(it / "crates/crnsim/src/main.rt"),
            id="a text, time kept",
        ),
        pytest.param(
            lambda it: (it / "crates/crnsim/proofs/Main.antt").unlink(),
            id="a file less",
        ),
        pytest.param(
            lambda it: (it / "crates/crnsim/src/more.rt").touch(), id="a file more"
        ),
        pytest.param(
            lambda it: (it / "crates.txt").write_text("crnsim:\n"),
            id="the list of crates",
        ),
        pytest.param(lambda it: (it / "../kit/WHAT").write_text("two\n"), id="the kit"),
        pytest.param(
            lambda it: (it / "crates/crnsim/out/crnsim").unlink(), id="the program"
        ),
    ],
)
def test_change_builds_once_more(
    machine: Machine, change: Callable[[Path], object]
) -> None:
    crnsim(machine)
    time.sleep(0.02)
    change(machine.top)
    for _ in range(2):
        assert crnsim(machine).stdout == "word \n"
    assert machine.logged() == BUILT * 2


def test_files_that_builds_leave_are_no_change(machine: Machine) -> None:
    crnsim(machine)
    (machine.top / "crates" / "crnsim" / "out" / "crnsim.rlib").touch()
    crnsim(machine)
    assert machine.logged() == BUILT


def test_change_during_the_build_builds_once_more(machine: Machine) -> None:
    with machine.start("tools/crnsim", LASTS="0.5") as running:
        while not machine.logged():
            time.sleep(0.01)
        (machine.top / "crates" / "crnsim" / "src" / "main.rt").write_text(
            "new\n", encoding="utf-8"
        )
        running.communicate()
    crnsim(machine)
    assert machine.logged() == BUILT * 2


def test_two_at_once_build_once_and_both_run(machine: Machine) -> None:
    with (
        machine.start("tools/crnsim", "one", LASTS="0.5") as one,
        machine.start("tools/crnsim", "two", LASTS="0.5") as two,
    ):
        assert one.communicate("1")[0] == "word one\n1"
        assert two.communicate("2")[0] == "word two\n2"
    assert machine.logged() == BUILT


@pytest.mark.serial
def test_wrapper_of_a_built_program_takes_under_a_tenth_of_a_second(
    machine: Machine, top: Path
) -> None:
    for crate in (top / "crates").iterdir():
        for path in (
            it
            for it in crate.rglob("*")
            if it.is_file() and "out" not in it.relative_to(crate).parts
        ):
            copied = machine.top / path.relative_to(top)
            copied.parent.mkdir(parents=True, exist_ok=True)
            copied.touch()
    crnsim(machine)
    assert min(seconds_of(machine) for _ in range(10)) < 0.1


def seconds_of(machine: Machine) -> float:
    """Returns how long a run of a built program takes."""
    began = time.monotonic()
    crnsim(machine)
    return time.monotonic() - began
