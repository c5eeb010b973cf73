"""Tests that only processes of our own are ended, that several plans work side by side, and that whatever ends by force
leaves nothing behind."""
from __future__ import annotations

import contextlib
import gc
import multiprocessing
import os
import pickle
import signal
import subprocess
import sys
import threading
import time
import warnings
from collections.abc import Callable, Sequence
from concurrent.futures import (
    BrokenExecutor,
    CancelledError,
    ProcessPoolExecutor,
    ThreadPoolExecutor,
)
from pathlib import Path
from typing import Any

import pandas as pd
import pytest

import crnplan as crn
from crnplan.store import jobs, processes
from planner.tests.conftest import heed_interrupts, script, write_inputs

LONG = 60  # seconds that the system may need for its own work
SHORT = 0.3
SETTINGS: dict[str, Any] = {
    "fit": "empirical",
    "borrow": "none",
    "periods": 64,
    "replications": 4,
}
# Python that is interrupted in a plan, and then plans again; and that has a temporary folder until it is ended.
PLANNING = """
import crnplan as crn
def planned(program):
    words = {"fit": "empirical", "borrow": "none", "periods": 64, "replications": 2}
    return crn.plan("demand.csv", "items.csv", jobs=2, program=program, **words)
try:
    planned("./hanging")
except KeyboardInterrupt:
    print(len(planned(None).frame))
"""
WITH_A_ROOM = "from crnplan.store.files import Room; room = Room('keep it'); print(room.path, flush=True); input()"


def wait_until(happened: Callable[[], object]) -> None:
    latest = time.monotonic() + LONG
    while not happened():
        assert time.monotonic() < latest, "not in time"
        time.sleep(0.01)


def children() -> set[int | None]:
    """Returns the numbers of the processes that this one has begun, and that live."""
    return {process.pid for process in multiprocessing.active_children()}


def fail_unsent(value: int) -> None:
    """Raises an error that can't be sent to another process."""
    raise ValueError(lambda: value)


def takes_the_lock() -> bool:
    """Returns whether this process can have numba's lock."""
    lock: Any = processes.compiler_lock()
    return bool(lock._lock.acquire(timeout=10))


@pytest.fixture
def few() -> list[pd.DataFrame]:
    """Returns the tables of a dozen items."""
    days, items = pd.date_range("2026-01-05", periods=20, freq="7D"), [
        f"A{place:02}" for place in range(12)
    ]
    demand = pd.DataFrame(
        [
            {"item": item, "date": day, "quantity": 3 + place % 4}
            for item in items
            for place, day in enumerate(days)
        ]
    )
    masters = pd.DataFrame(
        {
            "item": items,
            "setup": 20,
            "holding": 1,
            "backlog": 9,
            "lead (weeks)": 1,
            "s": 5,
            "S": 20,
        }
    )
    return [demand, masters]


def test_processes_of_others_live_on() -> None:
    """What a user's own pool and another run have begun meanwhile goes on when a run has ended."""
    with contextlib.ExitStack() as others:
        with jobs.processes(2) as shorter:
            pool, longer = others.enter_context(
                ProcessPoolExecutor(1)
            ), others.enter_context(jobs.processes(2))
            assert pool.submit(pow, 2, 3).result() == 8
            assert [*longer.in_order(pow, [(2, 4), (2, 5)])] == [16, 32]
            before = children()
            assert len(before) == 3
            assert [*shorter.in_order(pow, [(2, 6)])] == [64]
        assert children() == before
        assert pool.submit(pow, 2, 7).result() == 128
        assert [*longer.in_order(pow, [(2, 8)])] == [256]
    assert not children() & before


def test_plans_side_by_side(few: list[pd.DataFrame], program: Path) -> None:
    """Plans in three threads, each by processes of its own, are that of one process."""

    def planned(count: int) -> pd.DataFrame:
        return crn.plan(*few, jobs=count, program=program, **SETTINGS).decisions

    wanted = planned(1)
    with ThreadPoolExecutor(3) as threads:
        for found in threads.map(planned, [2] * 6):
            pd.testing.assert_frame_equal(found, wanted)
    assert not children()


def test_interrupted_in_python(tmp_path: Path, program: Path) -> None:
    """After an interrupt Python can go on, work in processes again, and end by itself."""
    write_inputs(tmp_path, "ABCDEFGHIJKL")
    script(tmp_path / "hanging", f'echo >> "{tmp_path}/begun"\nexec sleep 1000')
    with subprocess.Popen(
        [sys.executable, "-c", PLANNING],
        cwd=tmp_path,
        env={**os.environ, "CRNSIM": str(program)},
        stdin=subprocess.DEVNULL,
        stdout=subprocess.PIPE,
        stderr=subprocess.PIPE,
        preexec_fn=heed_interrupts,
    ) as process:
        try:
            wait_until(
                lambda: (tmp_path / "begun").exists() or process.poll() is not None
            )
            process.send_signal(signal.SIGINT)
            output, errors = process.communicate(timeout=LONG)
        finally:
            process.kill()
    assert (process.returncode, int(output), errors) == (0, 12, b"")


def test_interrupted_again_while_processes_are_ended(
    monkeypatch: pytest.MonkeyPatch,
) -> None:
    """A second interrupt is heeded once all processes have ended."""

    def end_interrupted(workers: Sequence[Any]) -> None:
        signal.raise_signal(signal.SIGINT)
        processes.end_with_programs(workers)

    monkeypatch.setattr(jobs, "end_with_programs", end_interrupted)
    usual, before = signal.signal(signal.SIGINT, signal.default_int_handler), children()
    try:
        with pytest.raises(KeyboardInterrupt), jobs.processes(2) as workers:
            for number in workers.in_order(time.sleep, [(0,), (LONG,)]):
                raise KeyboardInterrupt
    finally:
        signal.signal(signal.SIGINT, usual)
    assert children() == before


def test_a_process_that_has_ended_idle() -> None:
    """Another one is begun in its place. This process is none of several."""
    with jobs.processes(2) as workers:
        assert isinstance(workers, jobs.Processes)
        assert [*workers.in_order(pow, [(2, 3)] * 4)] == [8] * 4
        first = children()
        for number in first:
            os.kill(number or 0, signal.SIGKILL)
        assert [*workers.in_order(pow, [(2, 3)] * 4)] == [8] * 4
        assert not first & children()
    with jobs.processes(1) as workers:
        assert [*workers.in_order(os.getpid, [()])] == [os.getpid()]


def test_what_waits_for_a_process_at_the_end() -> None:
    """It is cancelled."""
    with jobs.processes(2) as workers:
        assert isinstance(workers, jobs.Processes)
        assert [*workers.in_order(pow, [(2, 3)] * 2)] == [8, 8]
        for _ in range(2):  # as if both had ended by force
            workers.idle.get()
        future = workers.submit(pow, [2, 3])
        wait_until(future.running)
    with pytest.raises(CancelledError):
        future.result()


def test_a_pipe_that_others_hold(monkeypatch: pytest.MonkeyPatch) -> None:
    """The end of a process is seen if a process of others, begun at the same time, holds its end of the pipe."""
    usual, held = multiprocessing.Pipe, list[int]()

    def pipe_held() -> Any:
        ends = usual()
        held.append(os.dup(ends[1].fileno()))
        return ends

    monkeypatch.setattr(processes.FORK, "Pipe", pipe_held)
    with pytest.raises(BrokenExecutor):
        processes.Worker().call(os._exit, [1])
    os.close(*held)


def test_errors_come_back() -> None:
    """An error of a worker is raised here, with its place there; one that can't be sent, by its text."""
    for function, word, kind, part in (
        (int, "five", ValueError, "five"),
        (fail_unsent, 7, RuntimeError, "ValueError"),
    ):
        has_failed, fault = pickle.loads(
            processes.answered(pickle.dumps((function, [word])))
        )
        assert has_failed
        assert type(fault) is kind
        assert part in str(fault)
        with jobs.processes(2) as workers, pytest.raises(kind, match=part):
            [*workers.in_order(function, [[word]])]
    assert "fail_unsent" in fault.args[0]
    assert pickle.loads(processes.answered(pickle.dumps((pow, [2, 3])))) == (False, 8)


def test_a_process_that_begins_while_a_loop_is_compiled() -> None:
    """It can compile, whatever another thread does at that time."""
    lock, is_taken = (
        pytest.importorskip("numba.core.compiler_lock").global_compiler_lock,
        threading.Event(),
    )

    def compile_long() -> None:
        with lock:
            is_taken.set()
            time.sleep(SHORT)

    with ThreadPoolExecutor(1) as thread, jobs.processes(2) as workers:
        compiling = thread.submit(compile_long)
        is_taken.wait()
        assert [*workers.in_order(takes_the_lock, [()])] == [True]
        compiling.result()


@pytest.mark.parametrize("how", [signal.SIGTERM, signal.SIGKILL, None])
def test_no_folder_is_left(how: signal.Signals | None) -> None:
    """A temporary folder is removed in whatever way its process ends."""
    with subprocess.Popen(
        [sys.executable, "-c", WITH_A_ROOM],
        stdin=subprocess.PIPE,
        stdout=subprocess.PIPE,
        stderr=subprocess.PIPE,
    ) as process:
        assert process.stdout
        path = Path(process.stdout.readline().decode().strip())
        assert path.is_dir()
        (path / "file").touch()
        if how:
            process.send_signal(how)
        _, errors = process.communicate(b"\n")
    wait_until(lambda: not path.exists())
    assert errors == b""
    assert process.returncode == -(how or 0)


def test_a_plan_that_is_dropped(few: list[pd.DataFrame], program: Path) -> None:
    """Its folder goes with it, without a warning; so does that of a catalogue. A process that was forked leaves both."""
    gc.collect()  # else the forked process ends what other tests have left
    with warnings.catch_warnings():
        warnings.simplefilter("error", ResourceWarning)
        plan, read = crn.plan(
            *few, jobs=1, program=program, **SETTINGS
        ), crn.read_catalogue(*few)
        paths = plan.path, read.path.parent
        for path in paths:
            assert path.is_dir()
        with jobs.processes(2) as workers:
            assert [*workers.in_order(gc.collect, [()])]
        for path in paths:
            assert path.is_dir()
        del plan, read
        gc.collect()
    assert not any(path.exists() for path in paths)
