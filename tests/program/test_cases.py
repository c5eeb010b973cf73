"""What single runs show: the cases of a group, those with one command in a test.

The oracle, a second program, is tested with them: what it writes must be what the case wants, so must agree with what
was computed independently, and the program has to write the same.
"""
from __future__ import annotations

from collections.abc import Iterator
from pathlib import Path
from typing import Any

import pytest

from tests.program import oracle
from tests.program.cases import (
    Case,
    by_command,
    input_of,
    shown_of,
    text_of,
    wanted_by,
    with_key,
    words_of,
)
from tests.program.long_runs import long_run_of
from tests.runs import Shown, as_wanted, refused, run, written

Verdicts = Iterator[tuple[str, object]]


def told(case: Case) -> Shown | None:
    """Returns what the oracle writes for a case; None if a fault is wanted or the oracle knows no such command."""
    if "fault" in case:
        return None
    if "long" in case:
        return written(
            oracle.report_of(long_run_of(input_of(case).decode(), ())).encode()
        )
    text = oracle.answer(words_of(case, Path()), input_of(case).decode())
    return None if text is None else written(text.encode())


def verdicts(program: Path, case: Case, room: Path) -> Verdicts:
    """Yields the verdict on a case, which is run as often as it says, and that on the oracle."""
    runs = [shown_of(program, case, room) for _ in range(case.get("times", 1))]
    yield case["label"], next(
        (it for it in (wanted_by(case, shown) for shown in runs) if it is not True),
        True,
    )
    its = told(case)
    if its is not None:
        right = wanted_by(case, its)
        yield f"oracle, {case['label']}", as_wanted(
            runs[0], its
        ) if right is True else f"the oracle is wrong: {right}"


@pytest.mark.parametrize("cases", by_command())
def test_cases(program: Path, cases: list[Case], room: Path, check_all: Any) -> None:
    """Each case shows what it wants, and what the oracle writes."""
    check_all(verdict for case in cases for verdict in verdicts(program, case, room))


@pytest.mark.parametrize("case", with_key("limits"))
def test_address_space(program: Path, case: Case, room: Path) -> None:
    """With more and less address space a run shows its output, or that a thread or memory was refused.

    The first of these and a refused thread come.
    """
    (room / "FILE").write_bytes(text_of(case, "file") or b"")
    words, data = words_of(case, room), text_of(case, "input")
    seen = [run(program, words, data, kilobytes=it) for it in case["limits"]]
    thread, memory = refused("thread"), refused("memory")
    good = [it for it in seen if it not in (thread, memory)]
    assert good and thread in seen
    assert [wanted_by(case, it) for it in good] == [True] * len(good)
