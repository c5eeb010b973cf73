"""Tests that a fault of reading or fitting names the argument in a call, the option of a command, and the key of
settings."""
from __future__ import annotations

import re
from collections.abc import Callable
from pathlib import Path
from typing import Any

import pandas as pd
import pytest

import crnplan as crn
from crnplan import sentences
from crnplan.errors import Refused, argument
from crnplan.spelling import as_python

OPTION = re.compile(r"--[a-z]")
OURS = ("read/*.py", "demand/**/*.py", "*sentences.*")


def options_in(folder: Path) -> list[str]:
    """Returns the lines of library code that name an option of a command."""
    return [
        f"{path.name}: {line.strip()}"
        for glob in OURS
        for path in sorted(folder.glob(glob))
        for line in path.read_text("utf-8").splitlines()
        if OPTION.search(line)
    ]


def test_no_library_code_names_an_option(tmp_path: Path) -> None:
    """Options have dashes in commands alone. A planted one is found."""
    assert not options_in(Path(crn.__file__).parent)
    (tmp_path / "read").mkdir()
    (tmp_path / "read/planted.py").write_text('ADVICE = "say --decimal ,"\n', "utf-8")
    assert options_in(tmp_path) == ['planted.py: ADVICE = "say --decimal ,"']


@pytest.mark.parametrize(
    "name, value, spelt",
    [
        ("net", "", "net"),
        ("decimal", ",", "decimal=,"),
        ("factors", "KAR=12", 'factors={"KAR": 12}'),
        ("units", "items.lead=day", 'units={"items": {"lead": "day"}}'),
        ("factors", "Stk.=12", 'factors={"Stk.": 12}'),
    ],
)
def test_arguments_of_a_call(name: str, value: str, spelt: str) -> None:
    """An argument is spelt as it stands in a call."""
    assert (
        as_python(name, value) == spelt
        and str(Refused(f"say {argument(name, value)}")) == f"say {spelt}"
    )


def test_rejects_in_a_call_and_in_a_command(
    crnplan: Callable[..., Any], tmp_path: Path
) -> None:
    """Advice in a table of rejects names the argument in a call, and the option in the table of a command."""
    demand = pd.DataFrame(
        {"item": ["A", "A"], "date": ["2026-03-02", "2026-03-09"], "quantity": [3, -1]}
    )
    masters = pd.DataFrame(
        [["A", 45, 1, 10, 2, 3, 9]],
        columns=["item", "setup", "holding", "backlog", "lead (weeks)", "s", "S"],
    )
    advice = crn.read_catalogue(demand, masters).rejects.advice
    assert list(advice) == [
        "correct it, or say net to take it off the sale that it undoes, or negate if what is issued is below 0"
    ]
    demand.to_csv(tmp_path / "demand.csv", index=False)
    masters.to_csv(tmp_path / "items.csv", index=False)
    crnplan(
        "plan",
        tmp_path / "demand.csv",
        tmp_path / "items.csv",
        "--check",
        "--rejects",
        tmp_path / "out.csv",
    )
    assert [*pd.read_csv(tmp_path / "out.csv").advice] == [
        "correct it, or say --set net=true to take it off the sale that it undoes, or --set negate=true if what is issued is below 0"
    ]


def test_no_code_is_said_twice() -> None:
    """Both tables of sentences, and those that functions make, have each code once: none hides another."""
    tables = [
        sentences._templates(file)
        for file in ("sentences.toml", "record_sentences.toml")
    ]
    made = {
        code: pair
        for code, pair in sentences.WORDS.items()
        if not any(code in table for table in tables)
    }
    assert len(sentences.WORDS) == len(made) + sum(map(len, tables))
    assert all(
        sentences.WORDS[code] == pair
        for table in tables
        for code, pair in table.items()
    )
