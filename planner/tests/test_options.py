"""Tests that each option of a command and each argument of a call that is declared is used, and has its help."""
from __future__ import annotations

from pathlib import Path

import pytest

from crnplan.cli import COMMANDS, options_of
from crnplan.errors import Refused
from crnplan.options import CALL, KINDS, declared, option
from crnplan.vocabulary import Word
from planner.tests.conftest import Command

MOST_OPTIONS, MOST_LINES = 16, 100

OF_CALLS = (
    CALL,
    "fit",
    "law",
    "learn",
    "page",
    "text",
)  # tables whose words are arguments of calls


def within(table: str) -> list[Word]:
    """Returns the words of a table."""
    return [option(table, name) for name in declared()[table]]


def test_each_word_is_used() -> None:
    """Each word is an option of a command, and each option of a command has a help."""
    used = [word for command in COMMANDS for word in options_of(command)]
    for table in declared():
        if table not in (KINDS, *OF_CALLS):
            assert [word.name for word in within(table) if word not in used] == []
    unsaid = {word.flag for word in used if not word.help and not word.positional}
    assert unsaid == set()
    assert len({word.flag for word in options_of("plan")}) == len(
        COMMANDS["plan"]["options"]
    )


@pytest.mark.parametrize("name", COMMANDS)
def test_options_of_a_command(
    name: str, crnplan: Command, monkeypatch: pytest.MonkeyPatch
) -> None:
    """A command has at most 16 options and arguments, and its help fits on two screens."""
    assert len(options_of(name)) <= MOST_OPTIONS
    monkeypatch.setenv("COLUMNS", "80")
    lines = crnplan(name, "--help").output.splitlines()
    assert len(lines) <= MOST_LINES and max(map(len, lines)) <= 80


def test_references() -> None:
    """Constants of the package stand for ends, choices and defaults, and are spelt in a help."""
    assert option("call", "period").kind.choices == ("day", "week", "month")
    assert "left_out" in option("today", "table").kind.choices
    with pytest.raises(KeyError):
        option("common", "nothing")


def test_a_folder_is_no_file(tmp_path: Path) -> None:
    word = option("today", "xlsx")
    with pytest.raises(Refused, match="is a folder.*name a file"):
        word.meant(tmp_path)
    assert word.meant(tmp_path / "new.xlsx") == tmp_path / "new.xlsx"
