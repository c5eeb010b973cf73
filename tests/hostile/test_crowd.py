"""Many processes at once, and one processor that is shared with processes which never rest: the report is the same."""
from __future__ import annotations

import os
import subprocess
import sys
from collections.abc import Callable, Iterator
from pathlib import Path

import pytest

from tests.hostile.known import CheckAll, unlike
from tests.runs import SECONDS, Shown, written
from tests.stored import on_ring, stored

PROCESSES = 100
BUSY = 4
# Sizes of rings, and for each how many runs go on, one after the other, while other processes are busy on the same
# processor. On a ring of one block each block waits for a turn of every thread, so one run takes some ten seconds.
RINGS = {1: 1, 16: 3, 1024: 3}
WANTED = written(stored("examples/spare_part.csv"))


@pytest.fixture
def scenario(room: Path, ring: int) -> Path:
    """Returns a file with the scenario of a spare part on a ring of so many slots."""
    file = room / "scenario.toml"
    file.write_bytes(on_ring(stored("examples/spare_part.toml"), ring))
    return file


def begun(
    program: Path, file: Path, prepare: Callable[[], None] | None = None
) -> subprocess.Popen[bytes]:
    """Starts a process that runs on a file."""
    pipe = subprocess.PIPE
    with file.open("rb") as data:
        return subprocess.Popen(
            [program], stdin=data, stdout=pipe, stderr=pipe, preexec_fn=prepare
        )


def ended(process: subprocess.Popen[bytes], seconds: float) -> Shown:
    """Returns what a process shows. It is killed if it takes longer."""
    try:
        output, errors = process.communicate(timeout=seconds)
    except subprocess.TimeoutExpired:
        process.kill()
        process.communicate()
        return Shown(b"", b"", None)
    return Shown(output, errors, process.returncode)


@pytest.mark.serial
@pytest.mark.parametrize("ring", RINGS)
def test_many_processes(program: Path, scenario: Path, check_all: CheckAll) -> None:
    """A hundred processes at once write the same report."""
    processes = [begun(program, scenario) for _ in range(PROCESSES)]
    shown = [ended(it, SECONDS) for it in processes]
    check_all(
        (f"process {number}", it == WANTED or unlike(it))
        for number, it in enumerate(shown)
    )


def stay() -> None:
    """Keeps the process on one processor."""
    os.sched_setaffinity(0, {min(os.sched_getaffinity(0))})


@pytest.fixture
def busy_processor() -> Iterator[None]:
    """Keeps one processor busy."""
    words = [sys.executable, "-S", "-c", "while True: pass"]
    processes = [subprocess.Popen(words, preexec_fn=stay) for _ in range(BUSY)]
    yield
    for process in processes:
        process.kill()
        process.wait()


@pytest.mark.timeout(240)
@pytest.mark.usefixtures("busy_processor")
@pytest.mark.parametrize(
    "ring, number",
    [(ring, number) for ring, count in RINGS.items() for number in range(count)],
)
def test_busy_processor(program: Path, scenario: Path, number: int) -> None:
    """All threads of a run on one processor, beside busy processes, write the same report."""
    shown = ended(begun(program, scenario, stay), 2 * SECONDS)
    assert shown == WANTED, unlike(shown)
