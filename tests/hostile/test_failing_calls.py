"""Reads that fail, and writes that fail or take nothing, at each call in turn, by a library before the program.

The library is tests/preload.c, which also lets each call move a few bytes only.
"""
from __future__ import annotations

from collections.abc import Iterator

import pytest

from tests.hostile.conftest import Counted
from tests.hostile.known import (
    COMMANDS,
    READING,
    WRITING,
    Case,
    CheckAll,
    Command,
    named,
    unlike,
)
from tests.runs import as_wanted

# The most bytes of a read.
PIECE = 50
READERS = [it for it in COMMANDS if it.data or it.file]
WRITERS = [it for it in COMMANDS if it.output]


def reads_of(command: Command) -> int:
    """Returns how many reads of at most PIECE bytes a command makes: of each text those that get bytes, and one more.

    Before FILE is opened one of no bytes shows whether the input can be read.
    """
    texts = [it for it in (command.data, command.file) if it]
    return sum(-(-len(it) // PIECE) + 1 for it in texts) + len(texts) // 2


@pytest.mark.parametrize("command", READERS, ids=named)
def test_reads_that_fail(
    run_command: Counted, check_all: CheckAll, command: Command
) -> None:
    """Each read fails in turn: that is reported, nothing is read after it and nothing is written."""

    def cases() -> Iterator[Case]:
        reads = reads_of(command)
        for number in range(1, reads + 1):
            shown, counts = run_command(command, refuse_read=number, most_bytes=PIECE)
            yield f"read {number}", as_wanted(shown, READING)
            yield f"reads up to {number}", counts is not None and counts.reads == number
        shown, _ = run_command(command, refuse_read=reads + 1, most_bytes=PIECE)
        yield f"all {reads} reads", command.verdict(shown)

    check_all(cases())


@pytest.mark.parametrize("rule", ["refuse_write", "take_none"])
@pytest.mark.parametrize("command", WRITERS, ids=named)
def test_writes_that_fail(
    run_command: Counted, check_all: CheckAll, command: Command, rule: str
) -> None:
    """Each write takes one byte, and each in turn fails or takes none: that is reported after the bytes before it."""

    def cases() -> Iterator[Case]:
        whole = command.output or b""
        for number in range(1, len(whole) + 1):
            shown, _ = run_command(command, most_bytes=1, **{rule: number})
            wanted = WRITING._replace(output=whole[: number - 1])
            yield f"write {number}", as_wanted(shown, wanted)
        shown, _ = run_command(command, most_bytes=1, **{rule: len(whole) + 1})
        yield f"all {len(whole)} writes", command.is_right(shown) or unlike(shown)

    check_all(cases())
