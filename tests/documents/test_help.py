"""The help of each command of crnplan works, and ends with an example that the command takes."""
from __future__ import annotations

import re
import shlex
from pathlib import Path

import click
import pytest
from click.testing import CliRunner
from crnplan.cli import COMMANDS, group
from crnplan.store.caches import cache_folders

from tests.runs import TOP


def words_of(example: str) -> list[str]:
    """Returns the words of the last crnplan command of an example, without redirections."""
    command = re.split(r"\| *(?=crnplan\b)", example)[-1].split("|")[0]
    return shlex.split(re.sub(r"2?> *\S+|< *\S+", "", command))


def example_of(help_text: str) -> str:
    """Returns the example with which a help ends."""
    found = re.search(r"^ *Example: (.*)\Z", help_text, re.MULTILINE | re.DOTALL)
    assert found, "the help does not end with an example"
    return " ".join(found[1].split())


@pytest.fixture
def files(room: Path, monkeypatch: pytest.MonkeyPatch) -> Path:
    """Makes a folder with the examples the current one."""
    (room / "examples").symlink_to(TOP / "examples")
    monkeypatch.chdir(room)
    return room


@pytest.mark.parametrize("name", COMMANDS)
def test_help_of_command(name: str, files: Path) -> None:
    """The help ends with an example, whose words the command takes. Files that it names are there."""
    shown = CliRunner().invoke(group, [name, "--help"], prog_name="crnplan")
    assert shown.exit_code == 0, shown.output
    program, first, *words = words_of(example_of(shown.output))
    assert (program, first) == ("crnplan", name)
    for word in words:
        if re.fullmatch(r"[\w/]+\.(csv|toml)", word) and not Path(word).exists():
            Path(word).parent.mkdir(parents=True, exist_ok=True)
            Path(word).touch()
    command = group.get_command(click.Context(group), name)
    assert command
    command.make_context(name, words)


def test_help_of_all_commands() -> None:
    """The help lists each command, and ends with an example that is a command's."""
    shown = CliRunner().invoke(group, ["--help"], prog_name="crnplan").output
    assert re.findall(r"^  ([a-z]+)  +[A-Z]", shown, re.MULTILINE) == list(COMMANDS)
    assert words_of(example_of(shown))[1] in COMMANDS


def test_help_names_the_folder_that_stays(monkeypatch: pytest.MonkeyPatch) -> None:
    """It is the user's folder for caches, which no removal of the package touches."""
    monkeypatch.delenv("XDG_CACHE_HOME", raising=False)
    shown = CliRunner().invoke(group, ["--help"], prog_name="crnplan").output
    (folder,) = re.findall(r"^  Files:\n    (\S+)  ", shown, re.MULTILINE)
    assert Path(folder).expanduser() == cache_folders()[0]


def test_modules_are_commands() -> None:
    """Each command of the modules of crnplan.cli is in the list, with its module."""
    modules = (TOP / "planner/src/crnplan/cli").glob("[a-z]*.py")
    made = {
        name: it.stem
        for it in modules
        for name in re.findall(
            r"^@command\((?:[^\n]|\n(?!\n))*?\ndef (\w+)",
            it.read_text("utf-8"),
            re.MULTILINE,
        )
    }
    assert made == {name: page["module"] for name, page in COMMANDS.items()}
