"""Reads and plans for a desk in a process of its own, which says how far it is, and can be stopped at any time.

What is done is kept, so that the same work goes on when it is begun again. The process ends if the desk does: its input
is then at its end.
"""
from __future__ import annotations

import contextlib
import fcntl
import json
import os
import signal
import subprocess
import sys
import threading
import time
import traceback
from dataclasses import replace
from pathlib import Path
from typing import Any

import crnplan as crn
from ..errors import CrnplanError
from ..spelling import spelt
from ..read.catalogue_reading import CATALOGUE, read_into
from ..read.file_kinds import PLANNED
from ..store.files import MARKER, own_folder
from ..store.interrupts import heed_interrupt, heeding_interrupts
from ..store.work import Progress, shown_by
from .language import as_field

READING, PLANNING, TESTING = "read", "plan", "test"
DONE, REFUSED, STOPPED = "done", "refused", "stopped"
SHOWN_SECONDS = 0.3  # from one report of the progress to the next


class DeskWork:
    """Work that is under way in a process of its own: how far it is, how it has ended, and what is to be said of that."""

    def __init__(self, asked: dict[str, Any], room: Path, end: Any) -> None:
        """Begins the work that is `asked`, and calls `end` with this at its end."""
        self.kind = asked["kind"]
        self.progress: dict[str, Any] = {}
        self.ended, self.said = "", list[str]()
        self.is_stopped = False
        # Until its process says something, interrupts may be ignored there, as whoever has started the desk ignores them.
        self.is_heeding = False
        self._end = end
        self.process = subprocess.Popen(
            # With -P no module in the folder where the desk was opened is taken for another one.
            [sys.executable, "-P", "-m", __name__],
            stdin=subprocess.PIPE,
            stdout=subprocess.PIPE,
            stderr=subprocess.DEVNULL,
            env={**os.environ, "TMPDIR": str(room)},
            # An interrupt of a terminal is for the desk alone, which then stops the process.
            start_new_session=True,
            text=True,
        )
        assert self.process.stdin
        self.process.stdin.write(json.dumps(asked) + "\n")
        self.process.stdin.flush()
        self.thread = threading.Thread(target=self._hear, daemon=True)
        self.thread.start()

    def _hear(self) -> None:
        """Notes what the process says, until it ends."""
        assert self.process.stdout
        ended, said = REFUSED, list[str]()
        for line in self.process.stdout:
            told, self.is_heeding = json.loads(line), True
            if "ended" in told:
                ended, said = told["ended"], told["said"]
            else:
                self.progress = told
        status = self.process.wait()
        if not said and ended == REFUSED and self.is_stopped:
            ended = STOPPED  # before it could say so
        elif not said and ended == REFUSED:
            said = [
                f"the work has ended by itself, with status {status}; what was done is kept: begin it again"
            ]
        self.ended, self.said = ended, said
        self._end(self)

    def stop(self) -> None:
        """Has the process end within two seconds. What it has done is kept."""
        self.is_stopped = True
        if self.process.poll() is None:
            signals = signal.SIGTERM, signal.SIGINT
            self.process.send_signal(signals[self.is_heeding])

    def close(self) -> None:
        """Stops the work, and waits for its end."""
        self.stop()
        self.thread.join()


def told(**facts: object) -> None:
    """Says facts to the desk."""
    print(json.dumps(facts), flush=True)


class ShownProgress:
    """Says to the desk how much is done, at most some times a second."""

    def __init__(self) -> None:
        self.last = 0.0

    def __call__(self, progress: Progress) -> None:
        now = time.monotonic()
        if now - self.last > SHOWN_SECONDS or progress.done == progress.total:
            self.last = now
            told(
                unit=progress.unit,
                done=progress.done,
                total=progress.total,
                left=progress.left,
            )


def files_of(asked: dict[str, Any]) -> tuple[list[Any], dict[str, Any]]:
    """Returns the files of a call: those that come first, and others by name."""
    tables = dict(asked["tables"])
    return [tables.pop(kind, None) for kind in ("demand", "items", "orders")], tables


def read(asked: dict[str, Any], reading: crn.Reading, settings: crn.Settings) -> None:
    """Reads the files of a desk, and keeps what was read."""
    tables = dict.fromkeys(PLANNED) | asked["tables"]
    with own_folder(Path(asked["out"]), CATALOGUE) as folder:
        read_into(folder, tables, reading, None)


def plan(asked: dict[str, Any], reading: crn.Reading, settings: crn.Settings) -> None:
    """Plans the files of a desk into a folder, and writes the page with the orders by the stock of the masters."""
    if not asked["after"]:
        settings = replace(settings, least_gain=None)
    files, others = files_of(asked)
    crn.plan(
        *files,
        **others,
        reading=reading,
        settings=settings,
        overrides=asked["overrides"],
        out=asked["out"],
        after=asked["after"] or None,
        program=asked["program"],
        progress=True,
    )
    crn.report(asked["out"])


def test(asked: dict[str, Any], reading: crn.Reading, settings: crn.Settings) -> None:
    """Tests plans on the past of the files of a desk, in a folder."""
    files, others = files_of(asked)
    others.pop("laws", None)  # Nobody has stated those of the past.
    crn.backtest(
        *files,
        **others,
        reading=reading,
        settings=settings,
        out=asked["out"],
        progress=True,
    )


WORK = {READING: read, PLANNING: plan, TESTING: test}


def wait_for(folder: Path) -> None:
    """Waits until nobody works in a folder or reads it: the process of a desk that was ended by force takes a moment to
    end."""
    with contextlib.suppress(FileNotFoundError), (folder / MARKER).open() as marker:
        fcntl.flock(marker, fcntl.LOCK_EX)


def stop_with_desk(line: int) -> None:
    """Interrupts this process when the desk has ended, which nothing else says on this line."""
    os.read(line, 1)
    os.kill(os.getpid(), signal.SIGINT)


def main() -> None:
    """Does the work that the first line of standard input asks for, and says on standard output how it goes and ends."""
    # Who has started the desk may ignore interrupts, by which it stops this process.
    signal.signal(signal.SIGINT, signal.default_int_handler)
    with heeding_interrupts(), shown_by(ShownProgress()), spelt(as_field):
        try:
            told()
            asked = json.loads(sys.stdin.readline())
            words = [sys.stdin.fileno()]
            threading.Thread(target=stop_with_desk, args=words, daemon=True).start()
            wait_for(Path(asked["out"]))
            WORK[asked["kind"]](asked, *crn.read_config(asked["config"]))
            told(ended=DONE, said=[])
        except KeyboardInterrupt:
            heed_interrupt()
            told(ended=STOPPED, said=[])
        except CrnplanError as why:
            told(ended=REFUSED, said=str(why).splitlines())
        except Exception as crash:
            place = traceback.extract_tb(crash.__traceback__)[-1]
            where = f"{Path(place.filename).name}:{place.lineno}"
            said = (
                f"a fault of crnplan itself: {type(crash).__name__}: {crash} ({where})"
            )
            told(ended=REFUSED, said=[said])
        heed_interrupt()


if __name__ == "__main__":
    main()
