"""The cases of the built program in this folder's TOML files.

A file has groups of cases: what a group says holds for each of its cases. A case has the words of the command line
(args), and may have what stands on standard input (input) and in the file FILE (file), what is wanted on standard
output (output, or some parts of it (has), in lines of at most so many columns), and the fault's line, whose status
docs/FORMATS.md has. Each of these texts is given, or is that of a file of the repository (input_from), or is made of
some numbers by a function of makers.py (input_made), with one change (input_change) and then others (input_changes),
cut after so many lines (input_lines), filled up with a piece to a size (input_fill, input_size), followed by an end
(input_end), and in UTF-8 or another encoding (input_encoding); so may the words of the command line be
(args_encoding). A change is an old piece and a new one; if a first number and a count come after them, the new piece
stands so many times, each time with the next number for `#`. The input and the file may come in pieces of so many
bytes (input_pieces, file_pieces), the file then as a named pipe (pieces.py).

A case is run with each of its commands and each of its files (of the repository), if it has lists of them. A case
without input has a standard input that says nothing and never ends, so it fails if anything is read. Some cases stand
for many: MANY has their keys, and the tests that take them say what they mean.
"""
from __future__ import annotations

import contextlib
import functools
import itertools
import sys
import tomllib
from collections.abc import Iterator, Sequence
from pathlib import Path
from typing import Any

import pytest

from crnplan import formats

from tests.program import makers, pieces
from tests.runs import Shown, Words, as_wanted, refused, run, written
from tests.stored import stored

Case = dict[str, Any]

HERE = Path(__file__).resolve().parent
FILES = ("reports", "replays", "cases", "scenarios", "checkpoints", "legs", "limits")
MANY = {"blocks", "old_blocks", "prefixes", "turned", "rows", "steps", "limits"}
# What a case is named by has at most so many letters, and these keys have no part in it.
MOST_LETTERS = 60
UNNAMED = (
    "args",
    "name",
    "commands",
    "files",
    "input",
    "output",
    "output_from",
    "has",
    "map",
    "blocks",
    "old_blocks",
    "prefixes",
)


@functools.cache
def groups_of(file: str) -> list[Case]:
    """Returns the groups of a file of this folder."""
    groups: list[Case] = tomllib.loads((HERE / f"{file}.toml").read_text("utf-8"))[
        "group"
    ]
    return groups


def cases_of(group: Case) -> Iterator[Case]:
    """Yields the cases of a group, each once for each of its commands and files, with its label."""
    for each in group["cases"]:
        case = {**group, **each}
        commands = [{"args": it} for it in case.get("commands", [])] or [{}]
        files = [{"file_from": it} for it in case.get("files", [])] or [{}]
        for command, file in itertools.product(commands, files):
            chosen = {**case, **command, **file}
            yield {**chosen, "label": label_of(chosen, {**each, **command, **file})}


def command_of(case: Case) -> str:
    """Returns the command line of a case as one text, in which words of a key lack their leading zeros."""
    words = case["args"]
    text = words if isinstance(words, str) else " ".join(words)
    return " ".join(
        it.lstrip("0") or "0" if len(it) == formats.DIGITS_OF_WORD else it
        for it in text.split(" ")
    )


def label_of(case: Case, own: Case) -> str:
    """Returns the name of a case in its group: its command, and the pieces that it changes or gives."""
    parts = [command_of(case)] if "args" in case else []
    for key, value in own.items():
        if key.endswith("_change"):
            old, new, *numbers = value
            parts.append(
                f"{numbers[1]} times {new!r}"
                if numbers
                else repr(new)
                if new
                else f"without {old!r}"
            )
        elif key in ("file_from", "input_from"):
            parts.append(Path(value).name)
        elif key not in UNNAMED:
            parts.append(f"{key} {value!r}")
    return ", ".join(
        it if len(it) <= MOST_LETTERS else f"{it[:MOST_LETTERS]}.." for it in parts
    )


def with_key(*keys: str) -> list[Any]:
    """Returns the parameters of a test: each case that has one of these keys, by its file, group and label."""
    return [
        pytest.param(
            case, id=": ".join(filter(None, [file, case["name"], case["label"]]))
        )
        for file in FILES
        for group in groups_of(file)
        for case in cases_of(group)
        if case.keys() & set(keys)
    ]


def by_command() -> list[Any]:
    """Returns the parameters of a test: the cases of each group that have one command, without those of MANY."""
    listed: dict[str, list[Case]] = {}
    for file, group in ((file, group) for file in FILES for group in groups_of(file)):
        for case in cases_of(group):
            if not case.keys() & MANY:
                listed.setdefault(
                    f"{file}: {group['name']}: {command_of(case)}", []
                ).append(case)
    return [pytest.param(cases, id=name) for name, cases in listed.items()]


# ---- texts


def changed(text: str, change: Sequence[Any], case: Case) -> str:
    """Returns a text of a case with a change."""
    old, new, *numbers = change
    if old not in text:
        raise ValueError(f"no {old!r} in a text of {case['name']}")
    if numbers:
        first, count = numbers
        new = "".join(new.replace("#", str(it)) for it in range(first, first + count))
    return text.replace(old, new)


def text_of(case: Case, name: str) -> bytes | None:
    """Returns the bytes of a case's text, or None if it has none."""
    if not {name, f"{name}_from", f"{name}_made"} & case.keys():
        return None
    text: str = case.get(name, "")
    if f"{name}_made" in case:
        maker, *numbers = case[f"{name}_made"]
        text = getattr(makers, maker)(*numbers)
    if f"{name}_from" in case:
        text = stored(case[f"{name}_from"]).decode()
    first = [case[f"{name}_change"]] if f"{name}_change" in case else []
    for change in first + case.get(f"{name}_changes", []):
        text = changed(text, change, case)
    if f"{name}_lines" in case:
        text = "".join(text.splitlines(keepends=True)[: case[f"{name}_lines"]])
    if f"{name}_fill" in case:
        fill, size = case[f"{name}_fill"], case[f"{name}_size"]
        text = (text + fill * (size // len(fill) + 1))[:size]
    return (text + case.get(f"{name}_end", "")).encode(
        case.get(f"{name}_encoding", "utf-8")
    )


def input_of(case: Case) -> bytes:
    """Returns the input of a case that has one."""
    return text_of(case, "input") or b""


def words_of(case: Case, room: Path) -> Sequence[str | bytes]:
    """Returns the words of a case's command line, with the path of FILE in a folder."""
    words = case["args"].split() if isinstance(case["args"], str) else case["args"]
    words = [f"{room}/FILE" if word == "FILE" else word for word in words]
    return (
        [it.encode(case["args_encoding"]) for it in words]
        if "args_encoding" in case
        else words
    )


# ---- runs


def on_file(
    program: Path, room: Path, words: Words, file: bytes, data: bytes | None = None
) -> Shown:
    """Returns what a run shows if this text is in FILE."""
    (room / "FILE").write_bytes(file)
    return run(program, words, data)


def shown_of(program: Path, case: Case, room: Path) -> Shown:
    """Returns what one run of a case shows. Its file and its input come in pieces if it says so."""
    file, data, path = text_of(case, "file"), text_of(case, "input"), room / "FILE"
    with contextlib.ExitStack() as stack:
        if "file_pieces" in case:
            path.unlink(missing_ok=True)
            stack.enter_context(pieces.named_pipe(file, case["file_pieces"], path))
        elif file is not None:
            path.write_bytes(file)
        given = (
            stack.enter_context(pieces.piped(data, case["input_pieces"]))
            if "input_pieces" in case
            else data
        )
        shown = run(
            program,
            words_of(case, room),
            given,
            to=case.get("to"),
            kilobytes=case.get("kilobytes"),
        )
    return shown


def wanted_by(case: Case, shown: Shown) -> bool | str:
    """Returns the verdict on a run by what its case wants."""
    if "fault" in case:
        return as_wanted(shown, refused(case["fault"]))
    if "has" in case:
        text = shown.output.decode()
        missing = [it for it in case["has"] if it not in text]
        wide = [
            it for it in text.splitlines() if len(it) > case.get("columns", sys.maxsize)
        ]
        return (
            shown[1:] == (b"", 0) and not missing and not wide
        ) or f"it lacks {missing}, and is too wide in {wide}"
    wanted = text_of(case, "output")
    assert wanted is not None, f"{case['label']} says no output"
    return as_wanted(
        shown._replace(output=compared(shown.output, wanted)), written(wanted)
    )


def compared(output: bytes, wanted: bytes) -> bytes:
    """Returns what is compared of an output.

    A report is compared in the columns of the one that is wanted, if that was computed before there were more: new ones
    come last, and have cases of their own.
    """
    header = wanted.split(b"\n")[0]
    if not formats.HEADER.encode().startswith(header + b","):
        return output
    count = header.count(b",") + 1
    return b"".join(
        b",".join(row.split(b",")[:count]) + b"\n" for row in output.splitlines()
    )
