"""What tests that refuse requests share: runs of commands under rules, whose requests are counted."""
from __future__ import annotations

from collections.abc import Callable
from pathlib import Path

import pytest

from tests.hostile.known import Command, run
from tests.preload import Counts, counts_of, environment
from tests.runs import Shown

Counted = Callable[..., tuple[Shown, Counts | None]]


def counted(
    program: Path, command: Command, library: Path, room: Path, **rules: object
) -> tuple[Shown, Counts | None]:
    """Runs a command under rules such as refuse_memory=3. Returns what it shows, and what was counted.

    The counts are None if the process did not come to its end.
    """
    file = room / "counts"
    file.unlink(missing_ok=True)
    shown = run(
        program,
        command.words,
        command.data,
        environment=environment(str(library), str(file), **rules),
    )
    return shown, counts_of(str(file))


@pytest.fixture
def run_command(program: Path, preload_library: Path, room: Path) -> Counted:
    """Returns a function that runs a command of the program, as `counted` does."""

    def run_it(command: Command, **rules: object) -> tuple[Shown, Counts | None]:
        return counted(program, command.in_room(room), preload_library, room, **rules)

    return run_it
