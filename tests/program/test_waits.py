"""How the threads of the longest run wait for one another: how long they sleep, and whether they spin.

On a ring of 128 slots or more a thread that waits sleeps for some microseconds. All sleeps of the producer together
last 0.03 to 0.2 seconds, on an idle machine and on a busy one. If a sleep took as many milliseconds, they would last 8
seconds on each of these rings, since a larger ring needs fewer of them. What a thread waits for a processor does not
count: the system reports it beside the time that the thread runs. If the system reports neither, all of the run counts
as sleep.

On a ring of 64 slots a thread that waits yields. If it spun, it would use up its turn on the processor while the
others have nothing to run on. So the run is also made on one processor, where it takes 0.1 processor seconds on either
ring, on an idle machine and on a busy one, and 20 and more with threads that spin.

After 16 yields in vain a thread sleeps there too. If it went on, all threads would be busy with yields for as long as
one of them waits for its processor behind other work. So in one more run a library holds the first thread that yields
for 0.3 seconds (held.c). Meanwhile the others yield some hundreds of times, and 100,000 times and more if they never
sleep.

Which pause comes when, and how long a sleep is to take, is proved (Waits.antt of crn_run); that a pause does what its
name says is not. So on each of these rings a library counts the yields and keeps the times that threads ask to sleep
for (pauses.c).
"""
from __future__ import annotations

import math
import os
import resource
import subprocess
import threading
import time
from collections.abc import Callable
from pathlib import Path

import pytest

from tests.runs import SECONDS, run
from tests.stored import on_ring, stored

HERE = Path(__file__).resolve().parent
# The scenario of the longest run, the size of the ring on which threads yield, and the sizes on which they sleep.
TEXT, SMALL, LARGE = stored("bench/largest.toml"), 64, (128, 512, 1024)
# The microseconds of the shortest sleep.
LEAST_SLEEP = 8
# The sleeps of a run may last so many seconds. A host that takes the processors away wakes threads late, so the
# shortest of some runs counts.
MOST_ASLEEP, ROUNDS = 4, 3
# A run that yields may take so many times the processor time of one that sleeps, and so many seconds more.
TIMES, MORE = 8, 1.0
# So often the threads of a run may yield while one of them is held.
MOST_YIELDS = 2_000
# After so many seconds of processor time a run is ended.
PROCESSOR_SECONDS = 20

Compiler = Callable[[Path], Path]


def ended(
    program: Path, text: bytes, prepare: Callable[[], None] | None = None
) -> subprocess.Popen[bytes]:
    """Runs the program on a text to its end, and returns its process, which is still to be waited for."""
    process = subprocess.Popen(
        [program],
        stdin=subprocess.PIPE,
        stdout=subprocess.DEVNULL,
        stderr=subprocess.DEVNULL,
        preexec_fn=prepare,
    )
    timer = threading.Timer(SECONDS, process.kill)
    timer.start()
    try:
        assert process.stdin
        process.stdin.write(text)
        process.stdin.close()
        os.waitid(os.P_PID, process.pid, os.WEXITED | os.WNOWAIT)
    except BaseException:
        process.kill()
        raise
    finally:
        timer.cancel()
    return process


def seconds_asleep_of(program: Path, text: bytes) -> float:
    """Returns how many seconds the producer, the first thread of a run, neither runs nor waits for a processor."""
    begun = time.perf_counter()
    with ended(program, text) as process:
        wall = time.perf_counter() - begun
        runs, waits, _ = map(
            int, Path(f"/proc/{process.pid}/schedstat").read_text("ascii").split()
        )
    return wall - (runs + waits) / 1e9 if process.returncode == 0 else math.inf


def processor_seconds_of(program: Path, text: bytes) -> float:
    """Returns how many processor seconds a run takes on one processor."""

    def prepare() -> None:
        os.sched_setaffinity(0, {min(os.sched_getaffinity(0))})
        resource.setrlimit(resource.RLIMIT_CPU, (PROCESSOR_SECONDS, PROCESSOR_SECONDS))

    with ended(program, text, prepare) as process:
        _, status, used = os.wait4(process.pid, 0)
        process.returncode = os.waitstatus_to_exitcode(status)
    return used.ru_utime + used.ru_stime if process.returncode == 0 else math.inf


def numbers_of(program: Path, text: bytes, library: Path) -> list[int]:
    """Returns the numbers that a library writes at the end of a run."""
    shown = run(program, [], text, environment={"LD_PRELOAD": str(library)})
    assert shown.status == 0
    return list(map(int, shown.errors.split()))


@pytest.mark.serial
@pytest.mark.parametrize("size", LARGE)
def test_sleeps_are_short(program: Path, size: int) -> None:
    """The sleeps of a run on a large ring are within the bound."""
    assert any(
        seconds_asleep_of(program, on_ring(TEXT, size)) <= MOST_ASLEEP
        for _ in range(ROUNDS)
    )


@pytest.mark.serial
def test_threads_do_not_spin(program: Path) -> None:
    """A run on the small ring takes little more processor time than one on the largest."""
    small, large = (
        processor_seconds_of(program, on_ring(TEXT, size))
        for size in (SMALL, max(LARGE))
    )
    assert small <= TIMES * large + MORE


def test_threads_sleep_while_one_is_held(program: Path, compiled: Compiler) -> None:
    """The threads of a run on the small ring sleep while one of them is held."""
    [yields] = numbers_of(program, on_ring(TEXT, SMALL), compiled(HERE / "held.c"))
    assert 0 < yields <= MOST_YIELDS


def test_pauses_on_small_ring(program: Path, compiled: Compiler) -> None:
    """Threads yield on the small ring, and ask to sleep for the time of this ring, if they sleep."""
    yields, *times = numbers_of(
        program, on_ring(TEXT, SMALL), compiled(HERE / "pauses.c")
    )
    assert yields > 0
    assert set(times) <= {0, 1_000 * LEAST_SLEEP}


@pytest.mark.parametrize("size", LARGE)
def test_pauses_on_large_ring(program: Path, compiled: Compiler, size: int) -> None:
    """Threads never yield on a large ring, and ask to sleep for the time of its size. By chance none may sleep."""
    producer, reader = (
        1_000 * max(micros, LEAST_SLEEP) for micros in (size // 64, size // 8 - 16)
    )
    for _ in range(ROUNDS):
        yields, *times = numbers_of(
            program, on_ring(TEXT, size), compiled(HERE / "pauses.c")
        )
        if yields or 0 not in times:
            break
    assert [yields, *times] == [0, producer, producer, reader, reader]
