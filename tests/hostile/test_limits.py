"""Limits on address space and on stack, from a size in which no process comes up to one in which all is right.

A process is up once the loader has done its work: below, the loader says that it can't map a library, or the system
ends the process before it could say anything. The stack of a process grows within its address space as well; if it
can't, the system ends the process. From some room for that on, the result under a limit on address space is the right
bytes, or that memory or a thread was refused. So a stack that is too small by itself has no answer, but nothing is
written.
"""
from __future__ import annotations

import signal
from collections.abc import Iterator
from dataclasses import replace
from pathlib import Path

import pytest

from tests.hostile.known import (
    COMMANDS,
    LIMIT,
    MEMORY,
    THREAD,
    Case,
    CheckAll,
    Command,
    named,
    run,
    runs_of_policies,
    unlike,
)
from tests.runs import Shown
from tests.stored import stored

LOADER = b"error while loading shared libraries"
# Address spaces in kilobytes: the first are too small for any process, and the last let all threads start.
ADDRESSES = [*range(200, 4000, 100), *range(4000, 40_000, 1000), 1_048_576]
ADDRESSES_OF_16 = [*ADDRESSES[:-1], *range(40_000, 180_000, 10_000), 1_048_576]
# What the stack takes beyond its first pages, with some to spare.
STACK_ROOM = 512
# Stacks in kilobytes. From the first of the large ones on everything works; a thread gets as much as the process.
SMALL_STACKS = [*range(0, 384, 16)]
LARGE_STACKS = [384, 448, 512, 1024, 2048, 8192]
HUGE_STACKS = [2**24, 2**30, 2**36]
OF_16 = runs_of_policies(16)


def long_commands() -> list[Command]:
    """Returns commands that take memory for the longest inputs."""
    comments = b"#\n" * (LIMIT // 2 - 500)
    trace = b"e P3 0 0000000000000001\n" + b"e - - -\n" * (LIMIT // 2 - 1)
    trace += b"published 0 ended 1\nreader 0 taken 0 left 0 ended 0\n"
    base = next(it for it in COMMANDS if it.name == "run-of-the-stored-run")
    return [
        replace(
            base,
            name="run-of-a-long-text",
            data=comments + stored("crates/crnsim/stdin"),
        ),
        Command("long-replay", ["replay", "1", "1", "0"], b"e\n" * (LIMIT // 2), trace),
    ]


def limited(program: Path, command: Command, kind: str, kilobytes: int) -> Shown:
    """Returns what a run of a command shows under a limit on `as`, its address space, or `stack`."""
    return run(
        program,
        command.words,
        command.data,
        before=["prlimit", f"--{kind}={1024 * kilobytes}:"],
    )


def is_ended(shown: Shown) -> bool:
    """Returns whether the system has ended a process that had written nothing."""
    return shown in [
        Shown(b"", b"", -it) for it in (signal.SIGSEGV, signal.SIGKILL, signal.SIGBUS)
    ]


def is_up(shown: Shown) -> bool:
    """Returns whether the process of a run came up, as far as can be seen."""
    return not is_ended(shown) and not (
        shown.status == 127 and LOADER in shown.errors and not shown.output
    )


@pytest.fixture(scope="module")
def least_address(program: Path) -> int:
    """Returns the least of the address spaces in which a process comes up."""
    command = next(it for it in COMMANDS if it.name == "help")
    return next(it for it in ADDRESSES if is_up(limited(program, command, "as", it)))


@pytest.mark.parametrize("command", COMMANDS + long_commands() + OF_16, ids=named)
def test_limited_address_space(
    program: Path, room: Path, check_all: CheckAll, least_address: int, command: Command
) -> None:
    """Under rising limits, once the process is up and has its stack, its results are its own, and at last right."""

    def cases() -> Iterator[Case]:
        its, seen = command.in_room(room), []
        for size in ADDRESSES_OF_16 if command.starts == 16 else ADDRESSES:
            shown = limited(program, its, "as", size)
            seen.append(shown)
            good = (
                shown == MEMORY
                or (shown == THREAD and its.starts > 0)
                or its.is_right(shown)
            )
            good = good or (
                size < least_address + STACK_ROOM
                and (is_ended(shown) or not is_up(shown))
            )
            yield f"{size} KB of address space", good or unlike(shown)
        # At which limits a short input is short of memory is a matter of a few pages.
        wanted = ({THREAD} if its.starts else set()) | (
            {MEMORY} if len(its.data) > LIMIT // 2 else set()
        )
        good = wanted <= set(seen) and its.is_right(seen[-1])
        yield "from no process to the right bytes", good or "not each fault came, or not the right bytes at last"

    check_all(cases())


@pytest.mark.parametrize("command", COMMANDS + OF_16, ids=named)
def test_limited_stack(
    program: Path, room: Path, check_all: CheckAll, command: Command
) -> None:
    """With a stack of 384 KB or more everything works. With less, nothing wrong is written."""

    def cases() -> Iterator[Case]:
        its = command.in_room(room)
        for size in SMALL_STACKS + LARGE_STACKS + HUGE_STACKS:
            shown = limited(program, its, "stack", size)
            good = its.is_right(shown) or (size in SMALL_STACKS and is_ended(shown))
            # A thread cannot get a stack that is larger than all address space.
            good = good or (size in HUGE_STACKS and shown == THREAD and its.starts > 0)
            yield f"{size} KB of stack", good or unlike(shown)

    check_all(cases())
