"""Refuses requests for memory and starts of threads, one by one and from one on, by a library before the program.

The library is tests/preload.c.
"""
from __future__ import annotations

from collections.abc import Iterator

import pytest

from tests.hostile.conftest import Counted
from tests.hostile.known import (
    COMMANDS,
    MEMORY,
    THREAD,
    Case,
    CheckAll,
    Command,
    base_commands,
    named,
    refused_commands,
    run,
    runs_of_policies,
    unlike,
)
from tests.preload import Counts
from tests.runs import Shown

BASE = base_commands()
# Runs of so many policies have starts of threads refused, if they start any.
STARTED = BASE + [it for count in (1, 2, 3, 16) for it in runs_of_policies(count)]
# More requests for memory than any of these runs makes: a run that never succeeds without a refusal ends here.
MOST = 5000


def keeps_nothing(counts: Counts | None) -> bool | str:
    """Returns the verdict on a run's end: each started thread is joined and all memory freed, whatever was refused."""
    if counts is None:
        return "the process did not come to its end"
    if counts.started != counts.joined:
        return f"{counts.started} threads were started and {counts.joined} joined"
    return counts.left == 0 or f"{counts.left} blocks of memory were not freed"


def has_threads(counts: Counts | None, asked: int, started: int) -> bool | str:
    """Returns the verdict on the threads of a run that asks for so many and has so many started."""
    if counts and (counts.threads, counts.started) != (asked, started):
        return f"{counts.threads} threads were asked for, and {counts.started} started"
    return keeps_nothing(counts)


def of_refused_start(shown: Shown, counts: Counts | None, number: int) -> bool | str:
    """Returns the verdict on a run whose start of a thread was refused: it shows that, after all starts before."""
    if shown != THREAD:
        return f"start {number} of a thread was refused: {unlike(shown)}"
    if counts and counts.started != number - 1:
        return f"{counts.started} threads were started, and start {number} was refused"
    return keeps_nothing(counts)


def without_memory(
    command: Command, shown: Shown, counts: Counts | None, start: int | None
) -> bool | str:
    """Returns the verdict on a run of which requests for memory were refused.

    It shows the right bytes, or that memory was refused. If the start of a thread, with this number, made the first of
    the requests, it shows that a thread was refused.
    """
    if start:
        return of_refused_start(shown, counts, start)
    return (
        keeps_nothing(counts)
        if shown == MEMORY or command.is_right(shown)
        else unlike(shown)
    )


@pytest.mark.parametrize("onward", ["", "+"], ids=["one", "all_later"])
@pytest.mark.parametrize("command", BASE + COMMANDS + refused_commands(), ids=named)
def test_refused_memory(
    run_command: Counted,
    check_all: CheckAll,
    command: Command,
    onward: str,
) -> None:
    """Each request for memory is refused in turn, alone or with all later ones, until a run meets no refusal.

    That run is right, and its requests are as many as were refused in turn.
    """

    def cases() -> Iterator[Case]:
        _, whole = run_command(command)
        assert whole
        yield "its starts", len(whole.starts) == command.starts
        for number in range(1, MOST):
            shown, counts = run_command(command, refuse_memory=f"{number}{onward}")
            if (counts and not counts.memory_refused) or (
                not counts and command.is_right(shown)
            ):
                break
            yield f"memory {number}{onward}", without_memory(
                command, shown, counts, whole.start_of(number)
            )
        right = (
            command.is_right(shown)
            and counts is not None
            and counts.memory == number - 1
        )
        yield f"all {number - 1} requests", right or unlike(shown)

    check_all(cases())


@pytest.mark.parametrize("command", [it for it in STARTED if it.starts], ids=named)
def test_refused_starts(
    run_command: Counted, check_all: CheckAll, command: Command
) -> None:
    """Each start of a thread is refused in turn: no other is asked for after it."""

    def cases() -> Iterator[Case]:
        for number in range(1, command.starts + 1):
            shown, counts = run_command(command, refuse_thread=number)
            yield f"thread {number}", unlike(shown) if shown != THREAD else has_threads(
                counts, number, number - 1
            )

    check_all(cases())


@pytest.mark.parametrize("command", STARTED, ids=named)
def test_no_refusal(run_command: Counted, command: Command) -> None:
    """A run without a refusal starts a thread for each policy, `lanes` none, and no other."""
    shown, counts = run_command(command, refuse_thread=command.starts + 1)
    assert command.is_right(shown), unlike(shown)
    assert has_threads(counts, command.starts, command.starts) is True
