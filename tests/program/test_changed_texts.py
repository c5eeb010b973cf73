"""Texts that are cut short, or have one byte, row or more changed: each is refused as it should be.

prefixes: the fault is reported of each proper prefix of the file. turned: and of the file with each of its bytes put
to this one. If these are refused in several ways, or accepted, a map has in place of each byte the name of an answer.
A case without a file has its input changed. rows: the fault is reported of the file with one of these rows put in, at
each place. steps: of changes of the input that are made one after the other, each brings the scenario's fault that
comes next.
"""
from __future__ import annotations

import itertools
from collections.abc import Iterable, Iterator
from pathlib import Path
from typing import Any

import pytest

from tests.program.cases import (
    Case,
    changed,
    input_of,
    on_file,
    text_of,
    wanted_by,
    with_key,
    words_of,
)
from tests.runs import as_wanted, refused, run

Verdicts = Iterator[tuple[str, object]]
# The name of a text, its place in the map, and the text.
Changes = Iterable[tuple[str, int, bytes]]


def changed_text(case: Case) -> bytes:
    """Returns the text that a case changes: the file, or the input of a case without one."""
    text = text_of(case, "file")
    text = input_of(case) if text is None else text
    assert len(case.get("map", text)) == len(text), "the map is for another text"
    return text


def wanted_at(case: Case, place: int, text: bytes) -> Case:
    """Returns what a case wants of a change at this place, by its map if it has one."""
    if "map" in case:
        letter = case["map"][place]
        case = {**case, **case["answers"]["line end" if letter == "\n" else letter]}
    if "becomes" in case:
        output = text.decode()
        for old, new in case["becomes"]:
            output = output.replace(old, new)
        case = {**case, "output": output}
    return case


def verdicts(program: Path, case: Case, room: Path, texts: Changes) -> Verdicts:
    """Yields the verdict on each changed text."""
    words, data, is_input = (
        words_of(case, room),
        text_of(case, "input"),
        text_of(case, "file") is None,
    )
    for name, place, text in texts:
        shown = (
            run(program, words, text)
            if is_input
            else on_file(program, room, words, text, data)
        )
        yield name, wanted_by(wanted_at(case, place, text), shown)


@pytest.mark.parametrize("case", with_key("prefixes"))
def test_prefixes(program: Path, case: Case, room: Path, check_all: Any) -> None:
    """Each proper prefix of a text is refused."""
    text = changed_text(case)
    check_all(
        verdicts(
            program,
            case,
            room,
            ((f"{size} bytes", size, text[:size]) for size in range(len(text))),
        )
    )


@pytest.mark.parametrize("case", with_key("turned"))
def test_bytes(program: Path, case: Case, room: Path, check_all: Any) -> None:
    """A text with one byte put to another shows what the map says."""
    text, byte = changed_text(case), case["turned"].encode()
    texts = (
        (f"byte {place}", place, text[:place] + byte + text[place + 1 :])
        for place in range(len(text))
    )
    check_all(verdicts(program, case, room, texts))


@pytest.mark.parametrize("case", with_key("rows"))
def test_rows(program: Path, case: Case, room: Path, check_all: Any) -> None:
    """A file with one row more is refused, wherever the row stands."""
    lines = changed_text(case).decode().splitlines(keepends=True)
    texts = (
        (
            f"{row} in place {place}",
            place,
            "".join([*lines[:place], f"{row}\n", *lines[place:]]).encode(),
        )
        for row, place in itertools.product(case["rows"], range(len(lines) + 1))
    )
    check_all(verdicts(program, case, room, texts))


def steps(program: Path, case: Case) -> Verdicts:
    """Makes the changes of a scenario one after the other: each adds a fault that comes before those already there."""
    text = input_of(case).decode()
    for number, (old, new, fault) in enumerate(case["steps"], 1):
        text = changed(text, (old, new), case)
        yield f"step {number}, {new!r}", as_wanted(
            run(program, ["run"], text.encode()), refused(f"scenario {fault}")
        )


@pytest.mark.parametrize("case", with_key("steps"))
def test_first_fault(program: Path, case: Case, check_all: Any) -> None:
    """Of several faults the one that comes first in the order of the rules is reported."""
    check_all(steps(program, case))
