"""The rules by which scenarios and checkpoints are refused: each example of the pages is refused so, and the sources
have the same names and numbers."""
from __future__ import annotations

import re
from collections.abc import Iterator
from typing import Any

import pytest
from crnplan import formats

from tests.documents.conftest import Ask
from tests.documents.markdown import PAGES, blocks_of, rows_of, text_of
from tests.documents.test_formats import FORMATS, RULES
from tests.documents.test_ranges import Judge
from tests.stored import CUTS

CHECKPOINT_RULES = ("Number", "Name", "The text is refused since", "For example")
LINE = r"`([A-Za-z]+ = [^`]+)`"
# An example: one line or two, what stands before it and after it.
EXAMPLE = re.compile(
    r"(no line |a table `\w+` with )?"
    rf"{LINE}(?: with {LINE})?( with nothing after it)?"
)
# The scenario in which the examples of rules are tested.
SCENARIO = "examples/two_policies.toml"
# What is done with the checkpoint that FORMATS shows, by the number with which it is then refused; 0 if it is accepted.
EDITS: list[tuple[int, str, list[tuple[str, str]]]] = [
    (1, "resume", [("costs,7,2,1,4", "costs,07,2,1,4")]),
    (1, "resume", [("\n", "\r\n")]),
    (1, "resume", [("end,-,-,-,-\n", "end,-,-,-,-")]),
    (1, "resume", [("state,4,35,0,0", "state,1000001,35,0,0")]),
    (1, "migrate", [("end,-,-,-,-\n", "")]),
    (2, "resume", [("0000\ncosts", "0001\ncosts")]),
    (5, "migrate", []),
    (0, "resume", [("state,4,35,0,0", "state,5,35,0,0")]),
    (0, "resume", []),
]


# ---- scenarios


def with_line(text: str, line: str) -> str:
    """Returns a scenario with a line in place of the first one of its key; beside `initial` if there is none."""
    key = re.escape(line.split(" = ")[0])
    if key == "policy":
        return f"{line}\n{text[:text.index('[[policy]]')]}"
    changed, count = re.subn(
        rf"^{key} = .*$", lambda _: line, text, count=1, flags=re.MULTILINE
    )
    return changed if count else text.replace("\ninitial", f"\n{line}\ninitial", 1)


def examples_of(text: str, cell: str) -> Iterator[tuple[str, str]]:
    """Yields the examples of a cell, and each done to a scenario."""
    for found in EXAMPLE.finditer(cell):
        before, first, second, behind = found.groups()
        changed = (
            with_line(with_line(text, first), second)
            if second
            else with_line(text, first)
        )
        if before == "no line ":
            changed = text.replace(f"{first}\n", "")
        elif before:
            changed += "\n[returns]\nvalues = [0]\nweights = [1]\n"
        yield found[0], changed[
            : changed.index(first) + len(first)
        ] if behind else changed


def rules_on(page: str, headings: tuple[str, ...]) -> dict[int, str]:
    """Returns the examples of each rule on a page, by its number."""
    return {int(row[0]): row[-1] for row in rows_of(page, *headings)}


def test_examples_of_scenario_rules(judge: Judge, check_all: Any) -> None:
    """Each rule has an example, and it is refused with the rule's number."""
    found = [rules for page in PAGES if (rules := rules_on(page, RULES))]
    assert [list(it) for it in found] == [sorted(formats.RULES.values())]

    def cases() -> Iterator[tuple[str, object]]:
        for number, cell in found[0].items():
            examples = list(examples_of(text_of(SCENARIO), cell))
            yield f"rule {number} has an example", bool(examples)
            yield from (
                (f"rule {number}: {name}", judge(changed, number))
                for name, changed in examples
            )

    check_all(cases())


# ---- checkpoints


def shown_checkpoint() -> str:
    """Returns the checkpoint that FORMATS shows."""
    return next(
        it
        for it in blocks_of(FORMATS)
        if it.startswith(f"checkpoint,{formats.CHECKPOINT_VERSIONS[-1]},")
    )


def edited(text: str, edits: list[tuple[str, str]]) -> str:
    """Returns a text with edits, each of which must find what it changes."""
    for old, new in edits:
        assert old in text
        text = text.replace(old, new)
    return text


def check_refusal(ask: Ask, command: str, text: str, number: int) -> None:
    """Checks that a command refuses a checkpoint with a number, or accepts it if that is 0."""
    scenario = text_of("tests/program/five_periods.toml") if command == "resume" else ""
    answer = ask(f"{command} FILE", scenario, file=text)
    status, line = (
        (formats.STATUSES["checkpoint"], f"crnsim: checkpoint {number}\n")
        if number
        else (0, "")
    )
    assert (answer.status, answer.errors) == (status, line)


@pytest.mark.parametrize("number, command, edits", EDITS)
def test_edited_checkpoint(
    ask: Ask, number: int, command: str, edits: list[tuple[str, str]]
) -> None:
    """The checkpoint of the page is refused with a number after an edit, or accepted."""
    check_refusal(ask, command, edited(shown_checkpoint(), edits), number)


@pytest.mark.parametrize("number, command", [(4, "resume"), (0, "migrate")])
@pytest.mark.parametrize("name", CUTS[:-1])
def test_old_checkpoint(ask: Ask, name: str, number: int, command: str) -> None:
    """The same checkpoint in an older version is refused, or migrated."""
    check_refusal(ask, command, text_of(name), number)


def test_examples_of_checkpoint_rules() -> None:
    """Each rule of checkpoints was tested above, with the example that its row names."""
    tested = {
        number: "".join(
            edited(shown_checkpoint(), edits)
            for its, _, edits in EDITS
            if its == number
        )
        for number in {4, *(number for number, _, _ in EDITS)}
    }
    rows = {
        int(number): cell for number, _, _, cell in rows_of(FORMATS, *CHECKPOINT_RULES)
    }
    assert set(rows) == set(formats.CHECKPOINT_RULES.values()) == tested.keys() - {0}
    tested[4] += "".join(map(text_of, CUTS[:-1]))
    named = (
        (number, it)
        for number, cell in rows.items()
        for it in re.findall("`([a-z]+,[^`]*)`", cell)
    )
    assert [it for number, it in named if f"{it}\n" not in tested[number]] == []


# ---- names


SOURCES = {
    "crn_scenario/src/scenario_fault": formats.RULES,
    "crn_checkpoint/src/fault": formats.CHECKPOINT_RULES,
}


@pytest.mark.parametrize("source", SOURCES)
def test_names_of_rules(source: str) -> None:
    """The names and numbers of the rules are those of the sources."""
    text = text_of(f"crates/{source}.rt")
    constants = dict(re.findall(r"const (\w+): u8 = ([0-9]+);", text))
    found = (
        (fault, constants.get(number, number))
        for fault, number in re.findall(r"Fault::(\w+) => (\w+),", text)
    )
    assert {
        fault: int(number)
        for fault, number in found
        if number.isdigit() and number != "90"
    } == SOURCES[source]
