"""A Dask cluster of two workers on this machine, for the tests of crnplan with --cluster.

Each process reads its name from its environment, which the program that it runs inherits. It leads a process group, so
it ends together with what it has started. It listens on the loopback interface only.
"""
from __future__ import annotations

import contextlib
import json
import os
import shutil
import signal
import subprocess
import sys
import time
from collections.abc import Callable
from pathlib import Path
from typing import TypeVar

import psutil

import crnplan as crn

# What a test may take that uses a cluster, and, some times as much, the cluster of a module.
SECONDS, LIFETIME = 120, 1_200
LOOPBACK = "127.0.0.1"
WORKERS = ("stays", "leaves")
TOP = str(Path(__file__).parents[3])
HERE = f"--host {LOOPBACK} --no-dashboard --dashboard-address {LOOPBACK}:0"
Found = TypeVar("Found")


def changed_package(room: Path) -> str:
    """Returns where a worker finds a copy of crnplan that has a line more."""
    folder = room / "changed"
    shutil.copytree(
        Path(crn.__file__).parent,
        folder / "crnplan",
        ignore=shutil.ignore_patterns("__pycache__"),
    )
    with (folder / "crnplan/__init__.py").open("a", encoding="utf-8") as file:
        file.write("# changed\n")
    return f"{folder}:{TOP}"


class Cluster:
    """The processes of a cluster, and of those that use it."""

    def __init__(self, home: Path) -> None:
        """Starts nothing. What the cluster itself needs is in its home."""
        self.home, self.room, self.address = home, home, ""
        self.processes: dict[str, subprocess.Popen[bytes]] = {}
        self.errors: dict[str, Path] = {}
        self.latest = 0.0
        self.environment = {
            name: value
            for name, value in os.environ.items()
            if not name.startswith("DASK_")
        }
        self.environment["DASK_CONFIG"] = str(home / "no_settings")
        self.environment["PYTHONPATH"] = TOP

    def start(self, name: str, *words: str, **others: str) -> None:
        """Starts Python on these words in the room, where what it prints goes. `others` are variables of its own."""
        environment = {**self.environment, "CRNSIM_WORKER": name, **others}
        self.errors[name] = self.room / f"{name}.errors"
        with (self.room / f"{name}.out").open("wb") as output, self.errors[name].open(
            "wb"
        ) as errors:
            self.processes[name] = subprocess.Popen(
                [sys.executable, *words],
                cwd=self.room,
                env=environment,
                stdin=subprocess.DEVNULL,
                stdout=output,
                stderr=errors,
                start_new_session=True,
            )

    def has_ended(self, name: str) -> bool:
        """Returns whether a process has ended. It keeps its number, and its group, until `end` asks for its status."""
        return (
            os.waitid(
                os.P_PID, self.processes[name].pid, os.WEXITED | os.WNOHANG | os.WNOWAIT
            )
            is not None
        )

    def end(self, name: str) -> None:
        """Ends a process, and whatever it has started, at once; if it has ended, what it has left behind."""
        process = self.processes[name]
        if process.returncode is None:
            with contextlib.suppress(ProcessLookupError):
                os.killpg(process.pid, signal.SIGKILL)
            process.wait()

    def end_all(self) -> None:
        for name in self.processes:
            self.end(name)

    def have_all_ended(self) -> bool:
        """Returns whether nothing is left of all processes, which may take a moment."""
        return any(not self.living() or time.sleep(0.05) for _ in range(100))

    def living(self) -> int:
        """Returns how many processes live that were started, or that these have started: those of their groups."""
        groups, found = {it.pid for it in self.processes.values()}, 0
        for process in psutil.process_iter():
            with contextlib.suppress(psutil.Error, ProcessLookupError):
                found += (
                    os.getpgid(process.pid) in groups
                    and process.status() != psutil.STATUS_ZOMBIE
                )
        return found

    def wait_until(
        self, what: str, happened: Callable[[], Found], during: str = ""
    ) -> Found:
        """Waits until something has happened, as long as there is time and a process goes on meanwhile."""
        while not (found := happened()):
            if time.monotonic() > self.latest or (during and self.has_ended(during)):
                raise TimeoutError(
                    f"{what}: not in time; {' '.join(map(self.last_words, self.processes))}"
                )
            time.sleep(0.05)
        return found

    def wait_for_end(self, name: str) -> int:
        """Returns the status with which a process ends by itself."""
        self.wait_until(f"the end of {name}", lambda: self.has_ended(name))
        self.end(name)
        return int(self.processes[name].returncode)

    def last_words(self, name: str) -> str:
        """Returns the last line that a process has written among its errors."""
        text = self.errors[name].read_text("utf-8", "replace")
        return f"[{name}: {(text.strip() or '-').splitlines()[-1][:200]}]"

    def scheduler_address(self) -> str:
        """Returns the address that the scheduler has written; the empty text if it is not there yet."""
        try:
            return str(
                json.loads((self.home / "scheduler.json").read_text("utf-8"))["address"]
            )
        except (OSError, ValueError):
            return ""

    def restore(self, room: Path) -> None:
        """Gives a test a scheduler with both workers and no other. What has ended, or never began, is started. What
        the test starts works in its room."""
        self.room, self.latest = room, time.monotonic() + SECONDS
        for name in {*self.processes} - {"scheduler", *WORKERS}:
            self.end(name)
        if self.lacks("scheduler"):
            self.end_all()
            self.open()
        for name in filter(self.lacks, WORKERS):
            self.join(name)
        self.wait_for(len(WORKERS))

    def lacks(self, name: str) -> bool:
        process = self.processes.get(name)
        return process is None or process.returncode is not None or self.has_ended(name)

    def open(self) -> None:
        (self.home / "scheduler.json").unlink(missing_ok=True)
        file = self.home / "scheduler.json"
        line = f"-m distributed.cli.dask_scheduler {HERE} --port 0 --idle-timeout {LIFETIME}s"
        self.start("scheduler", *line.split(), "--scheduler-file", str(file))
        self.address = self.wait_until(
            "the scheduler's address", self.scheduler_address, "scheduler"
        )

    def join(self, name: str, **others: str) -> None:
        line = f"""-m distributed.cli.dask_worker {self.address} {HERE} --no-nanny --nthreads 1 --memory-limit 0
            --name {name} --death-timeout {SECONDS}s --lifetime {LIFETIME}s"""
        folder = self.home / f"of_{name}"
        self.start(name, *line.split(), "--local-directory", str(folder), **others)

    def wait_for(self, workers: int) -> None:
        """Waits until the scheduler knows just so many workers."""
        import distributed

        with distributed.Client(self.address, timeout=SECONDS) as client:
            self.wait_until(
                f"{workers} workers",
                lambda: len(client.scheduler_info()["workers"]) == workers,
            )
