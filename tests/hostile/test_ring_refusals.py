"""Refuses the requests of calls that no command makes alone: tests of tests_ring and uses, as the gate has built them.

Whatever is refused, each started thread is joined, and all memory is freed. One test opens a ring: if an allocation
fails, opening it returns a memory fault and keeps nothing. Another runs two policies twice from one start: if an
allocation or a thread start of the first run fails, the start is as before, and the second run is right. A third prints
the fault of a run: that of a thread if a request that a thread's start makes was refused, and otherwise that of memory.
A caller of uses ends with a fault if its thread is refused.
"""
from __future__ import annotations

from collections.abc import Iterator
from pathlib import Path

import pytest

from tests.hostile.conftest import Counted, counted
from tests.hostile.known import Case, CheckAll, Command, unlike
from tests.hostile.test_refusals import MOST, has_threads, keeps_nothing
from tests.preload import Counts
from tests.runs import Shown

OPENING = "ring::rows::a_refused_request_is_answered"
CALLER = "tests::a_refused_thread_is_a_fault"
RUN = "run::refusals::a_refusal_leaves_the_start"
FAULT = "run::refusals::a_run_prints_its_fault"
# The runs of these tests start so many threads.
STARTS = {RUN: 4, FAULT: 2}
# The numbers of the faults of a run, as its contract has them.
NO_FAULT, THREAD_FAULT, MEMORY_FAULT = 0, 1, 90


@pytest.fixture
def run_counted(top: Path, preload_library: Path, room: Path) -> Counted:
    """Returns a function that runs a test of a crate under rules, and says what it shows and what was counted."""

    def run(
        test: str, crate: str = "tests_ring", **rules: object
    ) -> tuple[Shown, Counts | None]:
        built = top / "crates" / crate / "out" / f"{crate}_tests"
        assert (
            built.exists()
        ), f"there are no tests {built}: run `rt test` in crates/{crate}"
        return counted(built, Command(test, [test]), preload_library, room, **rules)

    return run


def is_good(shown: Shown) -> bool:
    """Returns whether the test that was run passed."""
    return shown.status == 0 and shown.output.endswith(b"\ntest result: ok\n")


def is_begun_in_vain(shown: Shown) -> bool:
    """Returns whether an allocation of the test itself failed, before it made the call that it is about."""
    return shown.status == 101 and shown.errors.startswith(b"error: AllocError\n")


def prints(shown: Shown, fault: int) -> bool | str:
    """Returns the verdict on a run of the test that prints a fault."""
    return (
        is_good(shown)
        and b"fault %d\n" % fault in shown.output
        or f"fault {fault} was wanted: {unlike(shown)}"
    )


@pytest.mark.parametrize("test", [OPENING, RUN, FAULT])
def test_refused_memory(run_counted: Counted, check_all: CheckAll, test: str) -> None:
    """Each request is refused in turn, until one meets no refusal. Once the test has made its call, it passes."""

    def cases() -> Iterator[Case]:
        has_begun = False
        for number in range(1, MOST):
            shown, counts = run_counted(test, refuse_memory=number)
            has_begun = has_begun or is_good(shown)
            allowed = is_good(shown) or is_begun_in_vain(shown) and not has_begun
            yield f"memory {number}", keeps_nothing(counts) if allowed else unlike(
                shown
            )
            if counts and not counts.memory_refused:
                break

    check_all(cases())


@pytest.mark.parametrize("number", range(1, STARTS[RUN] + 1))
def test_refused_start_leaves_the_start(run_counted: Counted, number: int) -> None:
    """The start of a thread is refused."""
    shown, counts = run_counted(RUN, refuse_thread=number)
    assert is_good(shown), unlike(shown)
    assert keeps_nothing(counts) is True


def test_no_refusal_prints_no_fault(run_counted: Counted) -> None:
    """Without a refusal there is no fault, and each thread is started."""
    shown, counts = run_counted(FAULT)
    assert prints(shown, NO_FAULT) is True
    assert counts and len(counts.starts) == STARTS[FAULT]


@pytest.mark.parametrize("number", range(1, STARTS[FAULT] + 1))
def test_refused_start_prints_its_fault(run_counted: Counted, number: int) -> None:
    """The start of a thread is refused: that fault is printed, and the starts before were made."""
    shown, counts = run_counted(FAULT, refuse_thread=number)
    assert prints(shown, THREAD_FAULT) is True
    assert counts and counts.started == number - 1 and keeps_nothing(counts) is True


def test_refused_memory_of_a_start_prints_its_fault(
    run_counted: Counted, check_all: CheckAll
) -> None:
    """Each request for memory that a start makes is refused in turn, and the one before the first of them."""

    def cases() -> Iterator[Case]:
        _, whole = run_counted(FAULT)
        assert whole
        starts = [it for it in range(1, whole.starts[-1][1] + 1) if whole.start_of(it)]
        for number in [starts[0] - 1, *starts]:
            shown, counts = run_counted(FAULT, refuse_memory=number)
            start = whole.start_of(number)
            yield f"memory {number}", prints(
                shown, THREAD_FAULT if start else MEMORY_FAULT
            )
            kept = bool(
                counts and counts.started == (start or 1) - 1
            ) and keeps_nothing(counts)
            yield f"memory {number}, its threads", kept

    check_all(cases())


@pytest.mark.parametrize("is_refused", [True, False])
def test_refused_start_of_a_caller(run_counted: Counted, is_refused: bool) -> None:
    """The start of the one thread of a caller is refused, and the caller ends; or it is not refused."""
    shown, counts = run_counted(CALLER, "uses", refuse_thread=1 if is_refused else 2)
    assert is_good(shown), unlike(shown)
    assert has_threads(counts, 1, 0 if is_refused else 1) is True
