"""Tests a program that never ends: it is ended itself, in a bounded time or when crnplan is interrupted."""
from __future__ import annotations

import multiprocessing
import os
import shlex
import signal
import subprocess
import sys
import threading
import time
from pathlib import Path
from unittest.mock import Mock

import pytest

from crnplan.crnsim import program as module
from crnplan.crnsim.program import run_all, run_program
from crnplan.errors import ProgramFailed
from crnplan.store.interrupts import heeding_interrupts, interrupted_later
from crnplan.store.processes import end_with_programs
from planner.tests.conftest import Command, heed_interrupts, script, write_inputs

TOP = Path(__file__).resolve().parents[3]
SCENARIO = shlex.quote(str(TOP / "examples/two_policies.toml"))
# Programs that never answer: one that waits, one that is busy; neither heeds an interrupt. Each says its number.
WAYS = {"waits": "exec sleep 1000", "is busy": "while :; do :; done"}
HANGING = 'trap "" INT TERM\necho $$ >> "{taken}"\n{way}'
# A command waits for its end at most so many seconds here, and the system's own work for any.
SHORT, LONG = 0.5, 60
COMMANDS = {
    "run": f"run {SCENARIO}",
    "where": "where",
    "long run": f"run {SCENARIO} --long-run",
    "catalogue": "plan demand.csv items.csv --jobs 2 --out plan",
}


@pytest.fixture(autouse=True)
def room(tmp_path: Path, monkeypatch: pytest.MonkeyPatch) -> Path:
    """Returns a folder with inputs of all commands, in which the test runs."""
    write_inputs(tmp_path, "AB")
    monkeypatch.chdir(tmp_path)
    return tmp_path


def hanging(room: Path, way: str) -> Path:
    """Makes a program that never ends."""
    return script(room / "hanging", HANGING.format(taken=room / "taken", way=WAYS[way]))


def begun(room: Path) -> list[int]:
    """Returns the numbers of the programs that were begun."""
    return (
        [*map(int, (room / "taken").read_text("utf-8").split())]
        if (room / "taken").exists()
        else []
    )


def living(room: Path) -> list[int]:
    """Returns those that go on, once the system has had the time to end all."""
    latest = time.monotonic() + LONG
    while (
        left := [it for it in begun(room) if os.path.exists(f"/proc/{it}")]
    ) and time.monotonic() < latest:
        time.sleep(0.05)
    return left


@pytest.mark.parametrize("way", WAYS)
def test_a_run_that_hangs(
    room: Path, monkeypatch: pytest.MonkeyPatch, way: str
) -> None:
    """A run that has not ended in time is ended, and named; so are several at once."""
    monkeypatch.setattr(module, "RUN_SECONDS", SHORT)
    path = hanging(room, way)
    for run in (lambda: run_program(path, ""), lambda: run_all(path, [("",)] * 9)):
        with pytest.raises(
            ProgramFailed,
            match="hanging: a run has not ended in 0.5 seconds, and was ended; look for",
        ):
            run()
        assert living(room) == []
    assert 2 <= len(begun(room)) < 10


@pytest.mark.parametrize("name", COMMANDS)
def test_commands_whose_program_hangs(
    room: Path, crnplan: Command, monkeypatch: pytest.MonkeyPatch, name: str
) -> None:
    """Each command ends with status 3, and leaves no program behind."""
    monkeypatch.setattr(module, "RUN_SECONDS", SHORT)
    told = crnplan(*shlex.split(COMMANDS[name]), "--program", hanging(room, "waits"))
    assert (
        told.status == 3
        and "a run has not ended in 0.5 seconds" in told.errors
        and "Traceback" not in told.errors
    ), told
    assert begun(room)
    assert living(room) == []


@pytest.mark.parametrize("name", ["run", "catalogue"])
def test_interrupted_while_a_program_hangs(room: Path, name: str) -> None:
    """An interrupt that only crnplan gets ends it at once, and the programs with it."""
    words = shlex.split(f"{COMMANDS[name]} --program {hanging(room, 'waits')}")
    with subprocess.Popen(
        [sys.executable, "-m", "crnplan", *words],
        stdout=subprocess.DEVNULL,
        stderr=subprocess.PIPE,
        stdin=subprocess.DEVNULL,
        preexec_fn=heed_interrupts,
    ) as command:
        latest = time.monotonic() + LONG
        while not begun(room) and time.monotonic() < latest and command.poll() is None:
            time.sleep(0.05)
        assert begun(room)
        command.send_signal(signal.SIGINT)
        _, errors = command.communicate(timeout=LONG)
    assert (
        command.returncode == 130
        and b"crnplan: interrupted" in errors
        and b"Traceback" not in errors
    ), errors
    assert living(room) == []


def test_a_worker_whose_command_was_killed(room: Path) -> None:
    """Workers end with the process that they work for, and so do the programs that they run."""
    write_inputs(room, "ABCDEFGHIJ")
    words = shlex.split(f"{COMMANDS['catalogue']} --program {hanging(room, 'waits')}")
    with subprocess.Popen(
        [sys.executable, "-m", "crnplan", *words],
        stdout=subprocess.DEVNULL,
        stderr=subprocess.DEVNULL,
        stdin=subprocess.DEVNULL,
    ) as command:
        latest = time.monotonic() + LONG
        while len(begun(room)) < 2 and time.monotonic() < latest:
            time.sleep(0.05)
        assert len(begun(room)) == 2
        command.kill()
    assert living(room) == []


def begin_programs(program: Path) -> None:
    """Begins programs as fast as it can."""
    while True:
        subprocess.Popen([program], stdin=subprocess.DEVNULL)


def test_a_worker_that_begins_programs(
    room: Path, monkeypatch: pytest.MonkeyPatch
) -> None:
    """A worker goes on until the signal to stop has reached it; what it has begun meanwhile is ended too."""
    worker = multiprocessing.get_context("fork").Process(
        target=begin_programs, args=(hanging(room, "waits"),)
    )
    worker.start()
    while not begun(room):
        time.sleep(0.01)
    kill = os.kill

    def kill_later(process: int, number: int) -> None:
        if number == signal.SIGSTOP:
            threading.Timer(SHORT, kill, (process, number)).start()
        else:
            kill(process, number)

    monkeypatch.setattr(os, "kill", kill_later)
    end_with_programs([worker])
    assert living(room) == []


def test_an_old_kernel(room: Path, monkeypatch: pytest.MonkeyPatch) -> None:
    """Where the system can't tell of an end by itself, runs are looked at from time to time, with the same outcome."""
    monkeypatch.setattr(
        os, "pidfd_open", Mock(side_effect=OSError(38, "Function not implemented"))
    )
    assert run_program(script(room / "answers", "cat"), "text") == "text"
    monkeypatch.setattr(module, "RUN_SECONDS", SHORT)
    with pytest.raises(ProgramFailed, match="a run has not ended in 0.5 seconds"):
        run_program(hanging(room, "waits"), "")
    assert living(room) == []


def test_interrupted_while_a_run_begins() -> None:
    """The error comes when what was begun is known."""
    usual, begun = signal.signal(signal.SIGINT, signal.default_int_handler), list[str]()
    try:
        with pytest.raises(KeyboardInterrupt), interrupted_later():
            signal.raise_signal(signal.SIGINT)
            begun.append("a run")
    finally:
        signal.signal(signal.SIGINT, usual)
    assert begun == ["a run"]


LOSING = """
import ctypes, time
from crnplan.store.interrupts import heed_interrupt, heeding_interrupts
with heeding_interrupts():
    ctypes.CFUNCTYPE(None)(lambda: int("another error"))()
    try:
        for _ in range(9):  # of C, in which an error is lost
            ctypes.CFUNCTYPE(None)(lambda: print("works", flush=True) or time.sleep(0.2))()
        time.sleep(60)
    except KeyboardInterrupt:
        heed_interrupt()
        print("heeded")
"""


def test_an_interrupt_that_is_lost() -> None:
    """It comes again until it is heeded, and nothing is said of those that are lost, but of other errors."""
    with subprocess.Popen(
        [sys.executable, "-c", LOSING],
        stdout=subprocess.PIPE,
        stderr=subprocess.PIPE,
        preexec_fn=heed_interrupts,
    ) as process:
        assert process.stdout
        assert process.stdout.readline() == b"works\n"
        process.send_signal(signal.SIGINT)
        output, errors = process.communicate(timeout=LONG)
    assert output.endswith(b"heeded\n")
    assert process.returncode == 0
    assert b"another error" in errors
    assert b"KeyboardInterrupt" not in errors
    usual = signal.signal(signal.SIGINT, signal.SIG_IGN)
    with heeding_interrupts():  # It stays ignored if it is.
        assert signal.getsignal(signal.SIGINT) is signal.SIG_IGN
    signal.signal(signal.SIGINT, usual)
