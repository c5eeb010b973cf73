"""No branch of the period loop depends on the stock, the position or the orders.

The loop stands in the function that a policy's thread runs. Under the same draws this takes as many instructions
whatever the initial stock and the levels are, so whether anything is ordered, and whether items are in stock or owed.
If a branch depended on one of these, its two ways would have to be of one length for all these runs. The run is held,
so that nothing has to wait (figures.py).
"""
from __future__ import annotations

import subprocess
from pathlib import Path

import pytest

from tests import preload
from tests.program.figures import (
    CALLGRIND,
    NO_STRINGS,
    can_count_instructions,
    instructions_in,
)
from tests.runs import run

# What a policy's thread runs: the kit's function that begins a thread, with all that is compiled into it.
THREAD = "core::scope::entry"
# The initial stock, s and S: orders now and then, in each period, never; items in stock and items owed all the time.
LEVELS = [
    (60, 20, 40),
    (0, 20, 40),
    (1, 39, 40),
    (1_000_000, 20, 40),
    (0, 0, 0),
    (60, 0, 5),
    (0, 500_000, 1_000_000),
]
TEXT = """\
version = 1
key = ["0000000000000000", "0000000000000000", "0000000000000000", "0000000000000007"]
periods = {periods}
replications = 4
initial = {initial}
ring = 256
costs = {{ setup = 32, unit = 3, holding = 1, backlog = 5 }}
demand = {{ values = [1, 2, 3, 4], weights = [1, 2, 2, 1] }}
lead = {{ values = [1, 2, 3], weights = [1, 1, 1] }}
policy = [ {{ name = "A", s = {low}, S = {high} }} ]
"""


def instructions_of(
    program: Path,
    built: Path,
    room: Path,
    initial: int,
    low: int,
    high: int,
    periods: int = 200,
) -> int:
    """Returns the instructions of the policy's thread in a run."""
    environment = preload.environment(built, room / "counts", hold_threads=1)
    text = TEXT.format(periods=periods, initial=initial, low=low, high=high).encode()
    shown = run(
        CALLGRIND[0],
        [*CALLGRIND[1:], str(program)],
        text,
        cwd=room,
        environment={**environment, **NO_STRINGS},
    )
    assert (shown.status, shown.errors) == (0, b"")
    return instructions_in(room / "callgrind", program.resolve(), THREAD)


def counts_of(
    program: Path, built: Path, room: Path
) -> dict[tuple[int, int, int], int]:
    """Returns the instructions of the policy's thread under each of the levels."""
    if not can_count_instructions():
        pytest.skip("there is no valgrind for x86_64, which counts the instructions")
    return {it: instructions_of(program, built, room, *it) for it in LEVELS}


def test_no_branch_depends_on_the_stock(
    program: Path, preload_library: Path, room: Path
) -> None:
    """The thread takes as many instructions under all levels, and others for more periods."""
    counts = counts_of(program, preload_library, room)
    assert len(set(counts.values())) == 1 and counts[LEVELS[0]] > 4 * 200, counts
    assert (
        instructions_of(program, preload_library, room, *LEVELS[0], periods=204)
        > counts[LEVELS[0]]
    )


@pytest.mark.parametrize(
    "branch, is_seen", [("NONE", False), ("ON_POSITION", True), ("ON_STOCK", True)]
)
def test_branch_is_seen(
    preload_library: Path, room: Path, branch: str, is_seen: bool
) -> None:
    """A thread with a branch on the position or on the stock takes other numbers of instructions, one without does
    not."""
    program = room / "program"
    subprocess.run(
        [
            "cc",
            "-O1",
            "-pthread",
            f"-D{branch}",
            "-o",
            program,
            Path(__file__).with_name("branches.c"),
        ],
        check=True,
    )
    counts = counts_of(program, preload_library, room)
    assert (len(set(counts.values())) > 1) == is_seen and counts[
        LEVELS[0]
    ] > 4 * 200, counts
