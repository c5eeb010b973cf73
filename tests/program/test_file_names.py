"""FILE is opened by the very words that name it."""
from __future__ import annotations

from pathlib import Path

import pytest

from tests.runs import as_wanted, refused, run, written
from tests.stored import CUTS, stored

OLD, NEW = CUTS[-2:]
INPUT = "tests/program/five_periods.toml"
REPORT = "tests/program/five_periods.csv"


@pytest.mark.parametrize(
    "name",
    [
        "cut.csv",
        " ",
        " cut.csv ",
        "a b",
        "\tCut.CSV\n",
        "-",
        "a=b",
        "run",
        "cuts/cut.csv",
    ],
)
@pytest.mark.parametrize("command", ["resume", "migrate"])
def test_names(program: Path, room: Path, command: str, name: str) -> None:
    """A name with blanks, a mark or a folder, or that of a command, is a name like any other."""
    read, wanted = (OLD, NEW) if command == "migrate" else (NEW, REPORT)
    (room / name).parent.mkdir(exist_ok=True)
    (room / name).write_bytes(stored(read))
    shown = run(program, [command, name], stored(INPUT), cwd=room)
    assert as_wanted(shown, written(stored(wanted))) is True


@pytest.mark.parametrize("name", ["--", "-x", "--help"])
@pytest.mark.parametrize("command", ["resume", "migrate"])
def test_names_after_the_end_of_options(
    program: Path, room: Path, command: str, name: str
) -> None:
    """After `--` a name may begin with a hyphen."""
    read, wanted = (OLD, NEW) if command == "migrate" else (NEW, REPORT)
    (room / name).write_bytes(stored(read))
    shown = run(program, [command, "--", name], stored(INPUT), cwd=room)
    assert as_wanted(shown, written(stored(wanted))) is True


@pytest.mark.parametrize("command", ["resume", "migrate"])
def test_empty_name(program: Path, command: str) -> None:
    """An empty name is one of no file."""
    shown = run(program, [command, ""], stored(INPUT))
    assert as_wanted(shown, refused("reading")) is True
