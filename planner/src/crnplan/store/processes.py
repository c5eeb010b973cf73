"""Processes that this one begins to work for it: they are sent work, and are ended with the programs that they run.

Processes of others, which this one or a user's own code has begun, are left alone.
"""
from __future__ import annotations

import contextlib
import functools
import multiprocessing
import os
import pickle
import signal
import sys
import threading
import time
import traceback
from collections.abc import Callable, Sequence
from concurrent.futures import BrokenExecutor
from pathlib import Path
from typing import Any

WATCH_SECONDS = 0.5  # between two looks whether the process at the other end still runs
JOIN_SECONDS = (
    1.0  # that a killed process has to end: one that waits for a disk may not
)
# A forked process has at once what this one has loaded and compiled.
FORK = multiprocessing.get_context("fork")
# One process begins at a time. Two that begin together would each keep an end of the other's pipe open.
_begin_alone = threading.Lock()


def end_programs(processes: Sequence[int]) -> None:
    """Ends the programs that some processes run, at once."""
    for path in Path("/proc").glob("[0-9]*/stat"):
        with contextlib.suppress(OSError):  # it has ended meanwhile
            _, parent, *_ = (
                path.read_text("utf-8", "replace").rpartition(")")[2].split()
            )
            if int(parent) in processes:
                os.kill(int(path.parent.name), signal.SIGKILL)


def end_with_programs(workers: Sequence[multiprocessing.process.BaseProcess]) -> None:
    """Ends worker processes, which begin no more, and the programs that they run."""
    numbers = [
        worker.pid for worker in workers if worker.pid is not None and worker.is_alive()
    ]
    for number in numbers:
        with contextlib.suppress(ProcessLookupError):  # it has ended meanwhile
            os.kill(number, signal.SIGSTOP)
    for number in numbers:
        with contextlib.suppress(ChildProcessError):
            # Until it has stopped, it may begin a program that the search below would not find.
            os.waitid(os.P_PID, number, os.WSTOPPED | os.WEXITED | os.WNOWAIT)
    if numbers:
        end_programs(numbers)
    for worker in workers:
        worker.kill()
        worker.join(JOIN_SECONDS)


def compiler_lock() -> contextlib.AbstractContextManager[object]:
    """Returns numba's lock, if numba is there: a process that begins while another thread has it finds it taken for
    ever."""
    lock: contextlib.AbstractContextManager[object] = getattr(
        sys.modules.get("numba.core.compiler_lock"),
        "global_compiler_lock",
        contextlib.nullcontext(),
    )
    return lock


@functools.lru_cache(maxsize=16)
def loaded(data: bytes) -> Any:
    """Returns what was pickled: the same value each time, in this process."""
    return pickle.loads(data)


class SharedValue:
    """A value that is sent to worker processes many times. Each of them makes it once."""

    def __init__(self, value: object) -> None:
        self.data = pickle.dumps(value, pickle.HIGHEST_PROTOCOL)

    def __reduce__(self) -> tuple[Callable[[bytes], Any], tuple[bytes]]:
        return loaded, (self.data,)


class Worker:
    """A process that calls the functions that it is sent through a pipe. It ends with this one."""

    def __init__(self) -> None:
        with _begin_alone, compiler_lock():
            self.pipe, other_end = FORK.Pipe()
            self.process = FORK.Process(
                target=serve, args=(other_end, os.getpid()), daemon=True
            )
            self.process.start()
            other_end.close()

    def call(self, function: Callable[..., Any], words: Sequence[Any]) -> Any:
        """Returns what a function returns there. Raises what it raises, and BrokenExecutor if the process has ended."""
        task = pickle.dumps((function, words), pickle.HIGHEST_PROTOCOL)
        try:
            self.pipe.send_bytes(task)
            while not self.pipe.poll(WATCH_SECONDS):
                if not self.process.is_alive():
                    raise EOFError
            answer = self.pipe.recv_bytes()
        except (OSError, EOFError) as fault:
            end_with_programs([self.process])
            raise BrokenExecutor("a worker process has ended by force") from fault
        has_failed, result = pickle.loads(answer)
        if has_failed:
            raise result
        return result


def serve(pipe: Any, parent: int) -> None:
    """Runs a worker process: it ends with its parent, and leaves an interruption to it. A handler that does nothing is
    not handed on to the programs that it runs."""
    signal.signal(signal.SIGINT, lambda number, frame: None)
    signal.signal(signal.SIGTERM, signal.SIG_DFL)
    # The descriptor is the parent's, which no signal of this process is to wake.
    signal.set_wakeup_fd(-1)

    def watch() -> None:
        while os.getppid() == parent:
            time.sleep(WATCH_SECONDS)
        end_programs([os.getpid()])
        os._exit(1)

    threading.Thread(target=watch, daemon=True).start()
    with contextlib.suppress(EOFError, OSError):  # its parent has ended
        while True:
            pipe.send_bytes(answered(pipe.recv_bytes()))


def answered(task: bytes) -> bytes:
    """Returns what is sent for a task: whether its function has failed, and its result or the error."""
    try:
        function, words = pickle.loads(task)
        return pickle.dumps((False, function(*words)), pickle.HIGHEST_PROTOCOL)
    except BaseException as fault:
        trace = traceback.format_exc()
        with contextlib.suppress(
            Exception
        ):  # of an error that can't be sent, its text is
            fault.add_note(trace)
            return pickle.dumps((True, fault), pickle.HIGHEST_PROTOCOL)
        return pickle.dumps((True, RuntimeError(trace)), pickle.HIGHEST_PROTOCOL)
