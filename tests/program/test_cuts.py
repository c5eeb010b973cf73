"""Runs that are cut at blocks and resumed, and old checkpoints that are migrated: all as the oracle has them.

blocks: the scenario is run, then cut at each of these blocks, or at all, and resumed on another ring (ring).
old_blocks: its checkpoints of the old version there are migrated. long: the oracle computes a long run.
"""
from __future__ import annotations

from collections.abc import Iterator, Sequence
from pathlib import Path
from typing import Any

import pytest

from crnplan import formats

from tests.program import oracle
from tests.program.cases import Case, input_of, on_file, with_key
from tests.program.long_runs import long_run_of
from tests.runs import as_wanted, refused, run, written
from tests.stored import on_ring

Verdicts = Iterator[tuple[str, object]]


def blocks_of(case: Case, name: str) -> Sequence[int]:
    """Returns the blocks that a case says, from the first to the scenario's total if it says all."""
    if case.get(name) == "all":
        return range(oracle.run_of(input_of(case).decode()).scenario.total + 1)
    return case.get(name, ())


def run_of(case: Case) -> oracle.Run:
    """Returns the oracle's run of a case's scenario; of a long one, with the states at the case's blocks."""
    text = input_of(case).decode()
    if "long" not in case:
        return oracle.run_of(text)
    return long_run_of(text, (*case.get("blocks", []), *case.get("old_blocks", [])))


def cuts(program: Path, case: Case, room: Path, its: oracle.Run) -> Verdicts:
    """Runs a scenario, then cuts it and resumes it on another ring: each ends as the whole run."""
    data, whole = input_of(case), written(oracle.report_of(its).encode())
    ring = on_ring(data, case.get("ring", 1))
    yield "run", as_wanted(run(program, ["run"], data), whole)
    for block in blocks_of(case, "blocks"):
        leg = oracle.checkpoint_of(its, block).encode()
        yield f"leg {block}", as_wanted(
            run(program, ["leg", str(block)], data), written(leg)
        )
        yield f"resumed from {block}", as_wanted(
            on_file(program, room, ["resume", f"{room}/FILE"], leg, ring), whole
        )


def migrations(program: Path, case: Case, room: Path, its: oracle.Run) -> Verdicts:
    """Migrates old checkpoints of a run: from what comes of them it ends as the whole run. No command takes both."""
    data, resume, migrate = (
        input_of(case),
        ["resume", f"{room}/FILE"],
        ["migrate", f"{room}/FILE"],
    )
    ring, whole = on_ring(data, 1024), written(oracle.report_of(its).encode())
    for block in blocks_of(case, "old_blocks"):
        new = oracle.checkpoint_of(its, block).encode()
        for version in formats.CHECKPOINT_VERSIONS[:-1]:
            old = oracle.checkpoint_of(its, block, version).encode()
            yield f"migrated at {block}", as_wanted(
                on_file(program, room, migrate, old), written(new)
            )
            yield f"resumed from {block}", as_wanted(
                on_file(program, room, resume, new, ring), whole
            )
            yield f"migrated twice at {block}", as_wanted(
                on_file(program, room, migrate, new), refused("checkpoint 5")
            )
            shown = on_file(program, room, resume, old, data)
            yield f"old resumed at {block}", as_wanted(shown, refused("checkpoint 4"))


@pytest.mark.parametrize("case", with_key("blocks"))
def test_cut_and_resumed(program: Path, case: Case, room: Path, check_all: Any) -> None:
    """Each leg is the oracle's, and each run that is cut ends as the whole one."""
    check_all(cuts(program, case, room, run_of(case)))


@pytest.mark.parametrize("case", with_key("old_blocks"))
def test_migrated_and_resumed(
    program: Path, case: Case, room: Path, check_all: Any
) -> None:
    """Each old checkpoint becomes the new one of its block, from which the run ends as the whole one."""
    check_all(migrations(program, case, room, run_of(case)))
