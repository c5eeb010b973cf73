"""Tests of files with hostile names and contents that are dropped on the desk: they get names of ours, and are shown as text."""
from __future__ import annotations

import re
from pathlib import Path

import pytest

from planner.tests.desk.conftest import Planner, file_of
from planner.tests.desk.test_desk_hostile import DEMAND, inside

NAMES = [
    "../../x.csv",
    "..\\..\\x.csv",
    "/etc/passwd.csv",
    "a\0b.csv",
    "\0.csv",
    f"{'x' * 5_000}.csv",
    "con.csv",
    "NUL.csv",
    ".csv",
    "-rf.csv",
    "$(id).csv",
    "<img src=x onerror=alert(1)>.csv",
    '"><script>alert(1)</script>.csv',
    "\u202egnp.csv",
    "a\r\nSet-Cookie: a=b.csv",
    "=cmd|' /C calc'!A0.csv",
    "{{ 7*7 }}{% x %}.csv",
    "a.php.csv",
]


@pytest.mark.parametrize("called", NAMES, ids=lambda name: ascii(name[:20]))
def test_name_of_a_file_is_no_path(
    planner: Planner, tmp_path: Path, called: str
) -> None:
    """A file that is dropped gets a name of ours. What its owner calls it is shown as text, and kept."""
    around = {it for it in inside(tmp_path) if not it.startswith("desk/")}
    answer = planner.post("/files/drop", {"files": file_of(DEMAND, called)})
    assert answer.status_code in (303, 400), answer.text
    assert {it for it in inside(tmp_path) if not it.startswith("desk/")} == around
    for file in planner.desk.state.files:
        assert re.fullmatch(r"\d{4}[-a-z0-9]{,56}\.csv", file.name)
        assert (planner.desk.path / file.place).read_bytes() == DEMAND
    text = planner.get("/files").text
    assert "<img" not in text and "<script>" not in text
    assert ("7*7" in text) == ("7*7" in called)
    planner.wait()


def test_ending_is_one_of_ours(planner: Planner) -> None:
    """No file is kept that is no table by its name."""
    for called in ("a.html", "a.py", "csv", "a.csv\0.exe", "a.zip", "a.xls"):
        answer = planner.post("/files/drop", {"files": file_of(DEMAND, called)})
        assert answer.status_code == 400, called
    assert planner.desk.state.files == []
