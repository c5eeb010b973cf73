"""Fixtures of the tests of pages: the program as a page asks it, a folder in which a page's commands are run, and the
definitions of the repository."""
from __future__ import annotations

from collections.abc import Callable
from pathlib import Path
from typing import Any, NamedTuple

import pytest
from crnplan import formats
from crnplan.toml.scenarios import read_scenario

from tests.documents.page_folder import Folder
from tests.hostile import second_reader
from tests.runs import run


class Answer(NamedTuple):
    """What a run of the program ends with: its status, and what it writes to standard output and standard error."""

    status: int | None
    output: str
    errors: str


Ask = Callable[..., Answer]


@pytest.fixture
def ask(program: Path, room: Path) -> Ask:
    """Returns a function that runs the program with some words on a text. FILE in its words is a file with `file`."""

    def answer(words: str, text: str = "", file: str = "") -> Answer:
        (room / "FILE").write_bytes(file.encode())
        shown = run(
            program,
            [str(room / "FILE") if it == "FILE" else it for it in words.split()],
            text.encode(),
        )
        return Answer(shown.status, shown.output.decode(), shown.errors.decode())

    return answer


@pytest.fixture
def judge(ask: Ask) -> Callable[[str, int], bool | str]:
    """Returns a function that judges a scenario which is to be refused with a number, or with 0 accepted.

    The program and both readers are asked. The verdict is True, or says who says something else.
    """

    def verdict(scenario: str, number: int) -> bool | str:
        answer, data = ask("leg 0", scenario), scenario.encode()
        of_program = answer.errors.removeprefix("crnsim: scenario ").strip() or "0"
        if (
            answer.status != (formats.STATUSES["scenario"] if number else 0)
            or answer.errors
            and answer.output
        ):
            of_program = f"status {answer.status}, {answer.errors!r}"
        found = read_scenario(data)[1]
        told = {
            "crnsim": of_program,
            "crnplan": str(found[0].rule if found else 0),
            "tests/hostile/second_reader.py": str(second_reader.scenario_of(data)[0]),
        }
        wrong = [f"{who} says {it}" for who, it in told.items() if it != str(number)]
        return not wrong or f"{', '.join(wrong)}, and not {number}"

    return verdict


@pytest.fixture
def folder(program: Path, room: Path) -> Folder:
    """Returns a folder with a copy of the examples and pages, in which the commands of a page can be run."""
    return Folder(room / "top", program)


@pytest.fixture(scope="session")
def definitions(tool: Callable[[str], Any]) -> Any:
    """Returns the tool that finds definitions."""
    return tool("definitions")


@pytest.fixture(scope="module")
def repository(definitions: Any) -> Any:
    """Returns the definitions of the repository."""
    return definitions.Repository()
