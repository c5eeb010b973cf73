"""Tests what is said of edited scenarios, and the number that the program reports of each, as in edits.toml."""
from __future__ import annotations

import subprocess
import tomllib
from collections.abc import Iterator
from pathlib import Path
from typing import Any

import pytest

from crnplan.toml.documents import places_of, read_document, text_of_document
from crnplan.toml.scenarios import read_scenario
from planner.tests.conftest import Command

EDITS: dict[str, dict[str, Any]] = tomllib.loads(
    Path(__file__).with_name("edits.toml").read_text("utf-8")
)


def cases(table: str) -> Iterator[Any]:
    """Yields each case of a table with its part and its number there as its name."""
    for part, its in EDITS[table].items():
        for number, case in enumerate(its, 1):
            yield pytest.param(part, case, id=f"{part}-{number}")


@pytest.mark.parametrize("example, case", cases("edits"))
def test_number_is_that_of_the_program(
    example: str, case: list[Any], top: Path, program: Path
) -> None:
    """Compares the number of the first fault of an edited scenario with the program's, and looks for its line."""
    number, *pairs = case
    text = (top / f"examples/{example}.toml").read_text("utf-8")
    for old, new in zip(pairs[::2], pairs[1::2]):
        assert old in text
        text = text.replace(old, new)
    data = text.encode("latin-1")
    ran = subprocess.run([program], input=data, capture_output=True, timeout=60)
    assert (ran.returncode, ran.stderr) == (
        (3, b"crnsim: scenario %d\n" % number) if number else (0, b"")
    )
    faults = read_scenario(data)[1]
    assert [fault.rule for fault in faults[:1]] == [number] * bool(number)
    # All but what is missing, or no text, stands on a line.
    for fault in faults:
        assert fault.line or fault.rule == 1 or not fault.path


@pytest.mark.parametrize("part, case", cases("messages"))
def test_messages(part: str, case: list[Any], two_policies: str) -> None:
    old, new, *wanted = case
    assert old in two_policies
    faults = read_scenario(two_policies.replace(old, new, 1).encode())[1]
    said = [fault.fault("").message for fault in faults]
    assert len(said) == len(wanted)
    for line, (start,) in zip(said, wanted):
        assert line.startswith(start)


@pytest.mark.parametrize("name", EDITS["lines"])
def test_lines_in_many_spellings(name: str) -> None:
    """Compares the line of each table, key and entry, also with CR LF; a tree with other keys has none."""
    text, wanted = EDITS["lines"][name]
    tree, faults = read_document(text.encode())
    found = places_of(text_of_document(text.encode()), tree)
    assert not faults
    assert sorted(
        f"{'/'.join(map(str, path))} {line}" for path, (line, _) in found.items()
    ) == sorted(wanted)
    for (
        line,
        column,
    ) in found.values():  # of the first character of a key, an entry or a header
        before, rest = (
            text.split("\n")[line - 1][: column - 1],
            text.split("\n")[line - 1][column - 1 :],
        )
        assert rest[0] not in " ,="
        assert not before.strip() or before[-1] in " ,[{"
    assert (
        places_of(text_of_document(text.replace("\n", "\r\n").encode()), tree) == found
    )
    assert (
        places_of(text, {**tree, "other": 1})
        == places_of(f"{text}\nother", {**tree, "other": 1})
        == {}
    )


def test_columns(two_policies: str) -> None:
    """Checks that the text of a key or an entry is in the column of its path."""
    tree, _ = read_document(two_policies.encode())
    lines = two_policies.splitlines()
    for path, (line, column) in places_of(two_policies, tree).items():
        rest, last = lines[line - 1][column - 1 :], path[-1]
        if isinstance(last, str):
            assert rest.startswith((last, f"[{last}]", f"[[{last}]]"))
        elif path[0] != "policy":
            entries = tree[path[0]] if len(path) == 2 else tree[path[0]][path[1]]
            assert rest.startswith(
                f'"{entries[last - 1]}"' if path[0] == "key" else str(entries[last - 1])
            )


WHOLE = {
    "empty": (b"", "missing"),
    "a picture": (b"\x89PNG\r\n\x1a\n\0\0", "UTF-8"),
    "UTF-16": ("version = 1\n".encode("utf-16"), "UTF-16"),
    "brackets": (b"[" * 5000, "are more than"),
    "quotes": (b'a = "' * 500, "fault 1: "),
    "digits": (b"a = " + b"9" * 5000, "an integer is beyond 64 bits"),
    "fewer digits": (b"a = " + b"9" * 400, "hundreds of digits"),
    "a long file": (b"#" * 1_048_577, "1,048,576"),
}


@pytest.mark.parametrize("name", WHOLE)
def test_files_that_are_no_scenarios(
    name: str, tmp_path: Path, crnplan: Command
) -> None:
    data, part = WHOLE[name]
    (tmp_path / "edited.toml").write_bytes(data)
    for answer in (
        crnplan("run", tmp_path / "edited.toml"),
        crnplan("run", "-", data=data),
    ):
        assert answer[:2] == (2, "")
        assert part in answer.errors
        assert answer.errors.count("\n") == 1 or name == "empty"
        assert "Traceback" not in answer.errors
