"""The tables of FORMATS on reports, checkpoints, commands and statuses are those of the program and of its help.

That they are those of crnplan.formats is tested in planner/tests/test_formats.py.
"""
from __future__ import annotations

import re
import tomllib
from collections.abc import Iterator
from typing import Any

import pytest
from crnplan import formats

from tests.documents.conftest import Ask
from tests.documents.markdown import (
    blocks_of,
    numbers_of,
    prose_of,
    rows_of,
    spans_of,
    text_of,
)
from tests.program import oracle
from tests.runs import TOP

FORMATS = "docs/FORMATS.md"
RULES = ("Number", "Name", "The scenario is refused since", "For example")
# Lines that no case of tests/program names, and why.
UNNAMED = {"gate": "the program's own gates never answer false"}


def test_header_of_a_report(ask: Ask) -> None:
    """The program writes the columns of the formats, and the page has a block with them."""
    header = ask("", text_of("examples/two_policies.toml")).output.split("\n")[0]
    assert header == formats.HEADER
    assert f"{header}\n" in blocks_of(FORMATS)


def is_field(field: str, kind: str) -> bool:
    """Returns whether a field of a row is as the formats say: `-` only if there is none, and the version itself."""
    return field == kind if kind == "-" or kind.isdigit() else field != "-"


def test_rows_of_a_checkpoint(ask: Ask, check_all: Any) -> None:
    """A checkpoint with each kind of row has them in order, with the fields of the formats, and is the oracle's."""
    text = text_of("tests/program/five_periods.toml")
    text = text.replace(
        "version = 1", "version = 2\nreturns = { values = [1], weights = [1] }"
    )
    written = ask("leg 3", text).output

    def cases() -> Iterator[tuple[str, object]]:
        for row in written.splitlines():
            kind, *fields = row.split(",")
            wanted = formats.ROWS.get(kind, ())
            yield row, len(fields) == len(wanted) and all(map(is_field, fields, wanted))
        yield "its kinds", list(
            dict.fromkeys(it.split(",")[0] for it in written.splitlines())
        ) == list(formats.ROWS)
        yield "the oracle's", oracle.checkpoint(text, 3) == written

    check_all(cases())


# ---- commands


def usages(ask: Ask) -> Iterator[str]:
    """Yields the words of each command, by the program's help."""
    part = ask("help").output.split("\nCommands:\n")[1].split("\n\n")[0]
    for name in re.findall(r"^  (\w+) ", part, re.MULTILINE):
        found = re.search(
            r"Usage: crnsim(.*)",
            ask(f"help {name}" if name != "help" else "help").output,
        )
        assert found
        yield name if name == "help" else re.sub("[<>]", "", found[1]).strip()


def test_commands_of_the_help(ask: Ask) -> None:
    """The formats have the words of the help."""
    assert sorted(usages(ask)) == sorted(formats.COMMANDS)


@pytest.mark.parametrize(
    "page", ["README.md", "docs/GUIDE.md", FORMATS, "CHANGELOG.md"]
)
def test_commands_of_pages(page: str) -> None:
    """A page names a command with the words of the help."""
    names = "|".join(it.split()[0] for it in formats.COMMANDS)
    for span in set(spans_of(prose_of(page))):
        # A command with names for its words, if a page does not say crnsim before it.
        found = re.fullmatch(rf"(?:crnsim )?((?:{names})(?: [A-Z]+[0-9]?)*)", span)
        if found and (span.startswith("crnsim ") or " " in span):
            assert found[1] in formats.COMMANDS


# ---- statuses and rules of the help


def listed(output: str, heading: str) -> dict[int, str]:
    """Returns the numbered lines of the help below a heading, with the lines that go on with them."""
    part = output[output.index(heading) :].split("\n\n")[0]
    found = re.findall(r"^ +([0-9]+)  (.*(?:\n {6}.*)*)", part, re.MULTILINE)
    return {int(number): " ".join(text.split()) for number, text in found}


def words_of(text: str) -> set[str]:
    """Returns the words and numbers of a text, without what marks more than one."""
    return {
        it if it[0].isdigit() else it.rstrip("s")
        for it in re.findall("[a-z]+|[0-9][0-9,]*", text.lower())
    }


def nearest(texts: dict[int, str], others: dict[int, str]) -> dict[int, int]:
    """Returns for each text the number of the other one with which it shares most words, rare ones above all."""
    lists = {number: words_of(text) for number, text in others.items()}
    often = {
        word: sum(word in it for it in lists.values())
        for words in lists.values()
        for word in words
    }

    def likeness(text: str, number: int) -> float:
        return sum(1 / often[it] ** 2 for it in lists[number] & words_of(text))

    return {
        number: max(lists, key=lambda other: likeness(text, other))
        for number, text in texts.items()
    }


def limits_in(text: str) -> set[int]:
    """Returns the numbers of a text that are limits, and not counts or versions: those of more than one digit."""
    return {it for it in numbers_of(text) if it > 9}


def reasons(kind: str) -> dict[int, str]:
    """Returns what the page says of the rules of scenarios, or of the statuses, by number."""
    if kind == "Rules of a scenario":
        return {
            int(number): reason for number, _, reason, _ in rows_of(FORMATS, *RULES)
        }
    said: dict[int, str] = {}
    for status, line, *texts in rows_of(FORMATS, "Status", "Line", "Why"):
        said[int(status)] = " ".join([said.get(int(status), ""), line, *texts])
    return said


NUMBERS = {
    "Rules of a scenario": sorted(formats.RULES.values()),
    "Exit status": sorted({0, *formats.STATUSES.values()}),
}


@pytest.mark.parametrize("kind", NUMBERS, ids=["rules", "statuses"])
def test_help_says_the_same(ask: Ask, kind: str) -> None:
    """A text of the help is nearest, by its words, to the page's of its number, and has no limit that this lacks."""
    told, on_page = listed(ask("help").output, kind), reasons(kind)
    assert list(told) == list(on_page) == NUMBERS[kind]
    assert nearest(told, on_page) == {it: it for it in told}
    assert {it: limits_in(told[it]) - limits_in(on_page[it]) for it in told} == {
        it: set() for it in told
    }


@pytest.mark.parametrize("line", formats.STATUSES)
def test_fault_has_a_case(line: str) -> None:
    """A fault's line has a case in tests/program, which compares it and its status with what the program shows."""
    groups = [
        group
        for it in (TOP / "tests/program").glob("*.toml")
        for group in tomllib.loads(it.read_text("utf-8")).get("group", [])
    ]
    met = {
        it["fault"].rstrip(" 0123456789")
        for group in groups
        for it in (group, *group.get("cases", ()))
        if "fault" in it
    }
    assert (line in met) != (line in UNNAMED)
