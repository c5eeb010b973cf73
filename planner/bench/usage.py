"""Measures the time and the memory of a command, with all processes that it starts."""
from __future__ import annotations

import os
import re
import subprocess
import time
from collections.abc import Sequence
from pathlib import Path
from typing import NamedTuple

import psutil

WATCH_SECONDS = 0.2
GONE = (psutil.NoSuchProcess, psutil.AccessDenied, psutil.ZombieProcess, OSError)


class Usage(NamedTuple):
    """What a command takes: seconds on the clock and of processors, and in MB the most memory of its own process and of
    all its processes, where memory that several share counts once (the sum of their proportional set sizes).
    """

    wall: float
    processor: float
    own: float
    all: float


def own_memory(process: int) -> float:
    """Returns the most memory that a process has had so far, in MB."""
    found = re.search(
        r"VmHWM:\s*(\d+) kB",
        Path(f"/proc/{process}/status").read_text(encoding="ascii"),
    )
    return int(found[1]) / 1000 if found else 0.0


def proportional(process: int) -> float:
    """Returns the proportional set size of a process, in MB; 0 if it has ended."""
    try:
        text = Path(f"/proc/{process}/smaps_rollup").read_text(encoding="ascii")
    except OSError:
        return 0.0
    found = re.search(r"^Pss:\s*(\d+) kB", text, re.MULTILINE)
    return int(found[1]) / 1000 if found else 0.0


def with_children(process: int) -> float:
    """Returns the sum of the proportional set sizes of a process and of all below it, in MB; 0 if it has ended."""
    try:
        below = psutil.Process(process).children(recursive=True)
    except GONE:
        return 0.0
    return proportional(process) + sum(proportional(it.pid) for it in below)


def usage_of(words: Sequence[str], folder: Path | None = None) -> Usage:
    """Runs a command, perhaps in a folder, and returns what it takes; what it prints is not shown. Raises
    CalledProcessError if it fails."""
    start, own, most = time.perf_counter(), 0.0, 0.0
    process = subprocess.Popen(words, cwd=folder, stdout=subprocess.DEVNULL)
    while True:
        ended, status, used = os.wait4(process.pid, os.WNOHANG)
        if ended:
            break
        own, most = max(own, own_memory(process.pid)), max(
            most, with_children(process.pid)
        )
        time.sleep(WATCH_SECONDS)
    process.returncode = os.waitstatus_to_exitcode(status)
    if process.returncode:
        raise subprocess.CalledProcessError(process.returncode, words)
    return Usage(time.perf_counter() - start, used.ru_utime + used.ru_stime, own, most)
