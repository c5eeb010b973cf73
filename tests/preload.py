"""The library of preload.c, which counts a run's requests, refuses some and holds its threads."""
from __future__ import annotations

from pathlib import Path
from typing import NamedTuple


class Counts(NamedTuple):
    """What the library counted in a run.

    `memory` has all requests for memory, `allocations` those that the program got, with their `bytes`, and `left` what
    it had not freed at its end. For each start of a thread, `starts` has the requests for memory before it, and up to
    its end.
    """

    memory: int
    memory_refused: int
    allocations: int
    bytes: int
    left: int
    threads: int
    started: int
    joined: int
    reads: int
    writes: int
    yields: int
    sleeps: int
    starts: tuple[tuple[int, int], ...] = ()

    def start_of(self, number: int) -> int | None:
        """Returns which start of a thread made a request for memory, from 1 on, and None if it was none.

        A start makes requests of its own before the system is asked for the thread: those since the start before it,
        and the first start makes as many as the second.
        """
        own = self.starts[1][0] - self.starts[0][1] if len(self.starts) > 1 else 0
        first = self.starts[0][0] - own if self.starts else 0
        begins = [first, *(after for _, after in self.starts)]
        windows = zip(begins, begins[1:])
        return next(
            (at for at, (begin, end) in enumerate(windows, 1) if begin < number <= end),
            None,
        )


def environment(built: Path | str, file: Path | str, **rules: object) -> dict[str, str]:
    """Returns what the environment of a run says so that its counts go to a file, under rules as refuse_memory=3."""
    said = {name.upper(): str(rule) for name, rule in rules.items()}
    return {"LD_PRELOAD": str(built), "WRITE_COUNTS": str(file), **said}


def counts_of(file: Path | str) -> Counts | None:
    """Returns the counts that a run has written to a file; None if it did not get to its end."""
    if not Path(file).exists():
        return None
    lines = [line.split() for line in Path(file).read_text("ascii").splitlines()]
    starts = tuple((int(it[1]), int(it[2])) for it in lines if it[0] == "start")
    return Counts(
        **{it[0]: int(it[1]) for it in lines if it[0] != "start"}, starts=starts
    )
