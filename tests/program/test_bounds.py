"""What runs of the program take is what bounds.csv says.

All figures but the instructions must be equal. Repeated runs gave the same instructions too, beside other work and
from any folder; they may differ by a thousandth, as another processor may begin otherwise. A figure changes only by a
commit that says why: if the code changes, or the kit compiles it otherwise, `python -m tests.program.figures PROGRAM`
writes the table anew.
"""
from __future__ import annotations

from pathlib import Path

import pytest

from tests.program import figures
from tests.program.figures import (
    INSTRUCTIONS,
    NO_FIGURE,
    Unfit,
    figures_of,
    stored_rows,
)

# The instructions of a run may differ by this part, either way.
TOLERANCE = 0.001
CASES = dict(figures.cases())


def is_within(column: str, figure: int | str, stored: str) -> bool:
    """Returns whether a figure is the stored one, or near enough."""
    if column != INSTRUCTIONS or NO_FIGURE in (figure, stored):
        return str(figure) == stored
    return abs(int(figure) - int(stored)) <= TOLERANCE * int(stored)


@pytest.mark.parametrize("name", CASES)
def test_figures(program: Path, name: str, preload_library: Path, room: Path) -> None:
    """A run takes what the table says."""
    stored, taken = stored_rows()[name], figures_of(
        program, CASES[name], preload_library, room
    )
    assert {
        it: taken[it] for it in taken if not is_within(it, taken[it], stored[it])
    } == {}, f"stored: {stored}"
    if INSTRUCTIONS not in taken:
        pytest.skip("there is no valgrind for x86_64, which counts the instructions")


def test_table() -> None:
    """The table has the runs of bounds.toml, each once and in their order."""
    names = [name for name, _ in figures.cases()]
    assert (
        list(stored_rows()) == names
    ), "write it anew: python -m tests.program.figures PROGRAM"


def test_instructions_of_program_alone(room: Path) -> None:
    """What the program calls is not counted at the call, and what libraries do not at all."""
    own = "ob=/p\nfn=b\n1 20\ncalls=1 7\n7 500\n2 3\n"
    (room / "callgrind").write_text(
        f"ob=/lib/c.so\nfn=a\n1 100\n{own}ob=/lib/c.so\n1 9\n"
    )
    assert figures.instructions_in(room / "callgrind", Path("/p")) == 23


@pytest.mark.parametrize(
    "script, why",
    [
        ("exec sleep 9", "the run does not end"),
        ("exit 0", "the run writes nothing"),
        ("exit 3", "status 3, not 0"),
        ("exec env -u LD_PRELOAD printf A", "the run did not get to its end"),
    ],
)
def test_run_without_figures(
    room: Path,
    preload_library: Path,
    script: str,
    why: str,
    monkeypatch: pytest.MonkeyPatch,
) -> None:
    """A run that never ends, or not as it should, has no figures, and a message says why."""
    monkeypatch.setattr(figures, "SECONDS", 0.5)
    (room / "program").write_text(f"#!/bin/sh\n{script}\n")
    (room / "program").chmod(0o755)
    with pytest.raises(Unfit, match=why):
        figures_of(room / "program", CASES["help: help"], preload_library, room)
