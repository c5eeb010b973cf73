"""Tests statuses: of faults that no input is to blame for, of full disks and readers that have gone; and that nothing
harmful that others wrote is shown or run."""
from __future__ import annotations

import contextlib
import csv
import os
import pickle
import re
import resource
import sqlite3
import subprocess
import sys
import tomllib
from collections.abc import Iterator, Sequence
from pathlib import Path
from unittest.mock import Mock

import pytest

from crnplan.errors import CrnplanError, Failed, Fault, RefusedFaults
from crnplan.runs import Scenario
from crnplan.store.files import faults_of, own_folder
from planner.tests.conftest import Command, heed_interrupts
from planner.tests.test_folders import CATALOGUE, room

__all__ = ["room"]
RUN = ["run", "base.toml"]


def run(
    words: Sequence[str], **streams: object
) -> "subprocess.CompletedProcess[bytes]":
    """Runs a command in a process of its own, perhaps on other standard streams."""
    return subprocess.run(
        [sys.executable, "-m", "crnplan", *words],
        stdin=subprocess.DEVNULL,
        **{"stdout": subprocess.PIPE, "stderr": subprocess.PIPE, **streams},
    )  # type: ignore[call-overload]


def test_an_interrupt_while_the_command_loads(tmp_path: Path) -> None:
    """It ends the command with its status and a word, and shows nothing of Python."""
    (tmp_path / "click.py").write_text("import signal; signal.raise_signal(2)")
    others = {**os.environ, "PYTHONPATH": str(tmp_path)}
    ended = run(["plan"], env=others, preexec_fn=heed_interrupts)
    assert (ended.returncode, ended.stderr) == (130, b"crnplan: interrupted\n")


@pytest.mark.parametrize(
    "words, closed, written",
    [
        (CATALOGUE, ["stdout", "stderr"], "decisions.csv"),
        (CATALOGUE, ["stdout"], "scenario.toml"),
        (["--help"], ["stdout"], ""),
        (RUN, ["stdout"], ""),
    ],
    ids=lambda it: it[0] if isinstance(it, list) else it,
)
def test_a_reader_that_has_gone(
    room: Path, words: Sequence[str], closed: Sequence[str], written: str
) -> None:
    """Does the whole work and ends with status 0 if what it prints is read by nobody, as by `| true`."""
    reader, writer = os.pipe()
    os.close(reader)
    ran = run(words, **dict.fromkeys(closed, writer))
    os.close(writer)
    errors = ran.stderr or b""
    assert ran.returncode == 0
    assert b"Traceback" not in errors
    assert b"Broken" not in errors
    assert not written or (room / "plan" / written).is_file()


@pytest.mark.parametrize(
    "words", [["--help"], RUN, [*CATALOGUE, "--check"]], ids=lambda it: it[0]
)
def test_a_full_standard_output(words: Sequence[str]) -> None:
    """Ends with status 3 and a line if standard output is on a full disk."""
    with open("/dev/full", "wb") as full:
        ran = run(words, stdout=full)
    lines = ran.stderr.decode().splitlines()
    (line,) = (it for it in lines if it.startswith("crnplan: "))
    assert ran.returncode == 3 and "No space left on device" in line, ran.stderr


@pytest.mark.parametrize(
    "fault, part",
    [
        (MemoryError(), "out of memory"),
        (KeyError("x"), "a fault of crnplan itself: KeyE"),
        (RecursionError("deep"), "a fault of crnplan itself: RecursionError: deep ("),
        (
            sqlite3.DatabaseError("malformed"),
            "crnplan: a store in it is damaged (malformed)",
        ),
        (
            OSError(5, "Input/output error"),
            "crnplan: Input/output error; what was done before",
        ),
    ],
)
def test_faults_that_no_input_is_to_blame_for(
    crnplan: Command, monkeypatch: pytest.MonkeyPatch, fault: Exception, part: str
) -> None:
    """Ends with status 3 and one line, whatever is raised."""
    monkeypatch.setattr(Scenario, "parse", Mock(side_effect=fault))
    status, output, errors = crnplan(*RUN)
    assert (status, output, errors.count("\n")) == (3, "", 1)
    assert errors.startswith(f"crnplan: {part}")


@contextlib.contextmanager
def files_of_at_most(size: int) -> Iterator[None]:
    """Lets no file get larger than so many bytes."""
    limits = resource.getrlimit(resource.RLIMIT_FSIZE)
    resource.setrlimit(resource.RLIMIT_FSIZE, (size, limits[1]))
    try:
        yield
    finally:
        resource.setrlimit(resource.RLIMIT_FSIZE, limits)


@contextlib.contextmanager
def failing(message: str) -> Iterator[None]:
    """Lets no file get larger than 50 bytes, and expects a failure that says why."""
    with files_of_at_most(50), pytest.raises(Failed, match=message):
        yield


def test_full_disks(tmp_path: Path) -> None:
    """Without space for a whole file, that is said, and the old one stays."""
    with failing("plan: No space left"), own_folder(tmp_path / "plan", "x"):
        pass
    assert (tmp_path / "plan/crnplan-folder.txt").stat().st_size == 50
    with own_folder(tmp_path / "other", "x") as folder:
        folder.write("a.csv", ["old", " text"])
        with failing("/other: File too large; what was done before is kept"):
            folder.write("a.csv", 99 * "new")
        assert (tmp_path / "other/a.csv").read_text() == "old text"
        assert not any(folder.room().iterdir())
        with failing("/other: No space left on device; what was done before"):
            folder.write("b.csv", "a new name in the marker")


def test_places_of_faults(tmp_path: Path) -> None:
    """Each fault has a line with its place. A reader that has gone is for the caller."""
    places: list[tuple[object, ...]] = [(), ("f.csv",), ("f.csv", 3), ("f.csv", 3, 2)]
    faults = [Fault(what, *place) for what, place in zip("abcd", places)]  # type: ignore[arg-type]
    assert str(RefusedFaults(faults)) == "a\nf.csv: b\nf.csv:3: c\nf.csv:3:2: d"
    with pytest.raises(BrokenPipeError), faults_of(tmp_path):
        raise BrokenPipeError


@pytest.mark.parametrize(
    "fault",
    [Failed("a disk", "make room"), RefusedFaults([Fault("no date", "a.csv", 3, 2)])],
)
def test_an_error_of_another_process(fault: CrnplanError) -> None:
    """An error that was sent by another process is as it was there, with what its kind has."""
    sent = pickle.loads(pickle.dumps(fault))
    assert type(sent) is type(fault)
    assert (str(sent), vars(sent)) == (str(fault), vars(fault))


CONTROL = re.compile("[\x00-\x08\x0b-\x1f\x7f-\x9f\u2028-\u202e\u2066-\u2069]")
EVIL = (
    "\x1b[31mred\x1b]0;title\x07",
    "bell\x07",
    "del\x7f",
    "\u202eright to left",
    "c1\x9b31m",
    "a\x1fmark\x1eof ours",
)


@pytest.mark.parametrize("evil", EVIL, ids=ascii)
def test_control_characters_of_others(room: Path, crnplan: Command, evil: str) -> None:
    """Shows none of a file's name, of headings, items and cells, and writes none into TOML."""
    path = str(room / f"demand {evil}.csv")
    rows = (room / "demand.csv").read_text("utf-8").splitlines()[1:]
    lines = [
        f"item,date,quantity,note {evil}",
        *(f"{row},{evil}" for row in rows),
        f"A,2026-06-30,n/a {evil},",
        f"{evil},2026-06-30,4,\n",
    ]
    Path(path).write_text("\n".join(lines), "utf-8")
    with (room / "items.csv").open("a", encoding="utf-8") as masters:
        masters.write(f"{evil},20,1,9,1,5,20,3\n")
    told = crnplan("plan", path, *CATALOGUE[2:], "--anyway")
    assert told.status == 0 and not CONTROL.search(told.output + told.errors), told
    found = (room / "plan/found.toml").read_text("utf-8")
    assert not CONTROL.search(found)
    assert tomllib.loads(found)
    for more in (
        ["run", path],
        ["plan", path, evil, "--check"],
        [evil],
        ["report", "plan", "--item", evil + "?"],
    ):
        told = crnplan(*more)
        assert not CONTROL.search(told.output + told.errors), more
        assert "Traceback" not in told.errors, more


NUMBER = re.compile(r"[+-][0-9.,e]*")
FORMULAS = ("=1+1", "+cmd|' /C calc'!A0", "-2+3", "@SUM(A1)", "\t=1")


def read_rows(path: Path) -> list[list[str]]:
    with path.open(encoding="utf-8", newline="") as file:
        return [*csv.reader(file)]


def write_rows(path: Path, rows: list[list[str]]) -> None:
    with path.open("w", encoding="utf-8", newline="") as file:
        csv.writer(file).writerows(rows)


def test_formulas_of_others(room: Path, crnplan: Command) -> None:
    """Writes no cell that a spreadsheet would run, whatever items and descriptions are called."""
    heading, first = read_rows(room / "items.csv")
    sales = read_rows(room / "demand.csv")
    masters, more = [[*heading, "description"], [*first, ""]], list[list[str]]()
    for number, formula in enumerate(FORMULAS):
        name = f"{formula}{number}"
        masters.append([name, *first[1:], formula])
        more += [[name, *row[1:]] for row in sales[1:]]
        more += [[name, "2026-06-30", other] for other in FORMULAS]
    write_rows(room / "items.csv", masters)
    write_rows(room / "demand.csv", [*sales, *more])
    assert crnplan(*CATALOGUE).status == crnplan("curve", "plan").status == 0
    for path in (room / "plan").glob("*.csv"):
        cells = [cell for row in read_rows(path) for cell in row if cell]
        signs = [cell for cell in cells if cell[0] in "=@\t\r+-"]
        assert cells and all(map(NUMBER.fullmatch, signs)), path
