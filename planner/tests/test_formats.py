"""Compares formats.toml with the tables of docs/FORMATS.md, so that a fact changed on one side alone fails."""
from __future__ import annotations

import re

import pytest

from crnplan import formats
from tests.documents.markdown import blocks_of, numbers_of, rows_of, spans_of, text_of

PAGE = "docs/FORMATS.md"
NUMBER = r"[0-9]+(?:,[0-9]{3})*"
RANGE = re.compile(
    rf"(?<![\w.,+-])(-?{NUMBER}|`\w+`)(?: to | \.\. |\u2013)(-?{NUMBER})(?![\w])"
)
KEY_ROWS = rows_of(PAGE, "Table", "Key", "What stands there")
TEXTS = {key.strip("`"): text for _, key, text in KEY_ROWS}
CHECKPOINT_ROWS = rows_of(PAGE, "Rows, in this order", "Fields", "What stands there")
STATUS_ROWS = rows_of(PAGE, "Status", "Line", "Why")


def ranges_of(text: str) -> list[tuple[int | str, int]]:
    """Returns the ranges of a text, such as `0 to 10,000`, as pairs."""
    return [
        (
            low.strip("`") if "`" in low else int(low.replace(",", "")),
            int(high.replace(",", "")),
        )
        for low, high in RANGE.findall(text)
    ]


def keys_of_page() -> list[formats.Key]:
    """Returns the keys of a scenario, in order. If a row has no range, it is that of the key of this name above."""
    home, ranges, keys = "", {}, []
    for first, key, text in KEY_ROWS:
        home, name = first or home, key.strip("`")
        ranges[name] = ranges_of(text) or ranges.get(name, [])
        since = re.search(
            "version ([0-9]+)", f"{home} {text if name != 'version' else ''}"
        )
        keys.append(
            formats.Key(
                spans_of(home)[0] if "`" in home else "",
                name,
                tuple(ranges[name]),
                int(since[1]) if since else 1,
            )
        )
    return keys


KEYS = keys_of_page()


def test_keys() -> None:
    """Compares each key of a scenario, the spelling of words and names, versions, and greatest numbers."""
    assert list(formats.KEYS) == KEYS != []
    words = re.fullmatch(
        r"(four) texts, each ([0-9]+) digits of `0-9a-f`: .*", TEXTS["key"]
    )
    assert words
    assert (
        ["", "one", "two", "three", "four"][formats.WORDS_OF_KEY],
        formats.DIGITS_OF_WORD,
    ) == (words[1], int(words[2]))
    inside = "".join(
        re.escape(it) if len(it) == 1 else it
        for it in spans_of(TEXTS["name"])[0].split()
    )
    assert formats.NAME.pattern == "[%s]{%d,%d}" % (
        inside,
        *ranges_of(TEXTS["name"])[0],
    )
    assert {*formats.VERSIONS} == numbers_of(TEXTS["version"])
    assert [formats.POLICIES] == ranges_of(
        next(home for home, *_ in KEY_ROWS if "`policy`" in home)
    )
    assert {formats.WEIGHT_SUMS} == {
        key.ranges[1] for key in KEYS if key.name == "weights"
    }
    (reading,) = (why for _, line, why in STATUS_ROWS if "crnsim: reading" in line)
    lists = re.search("more than ([0-9]+) lists", text_of(PAGE))
    assert formats.MOST_BYTES == max(numbers_of(reading))
    assert lists
    assert formats.MOST_LEVELS == int(lists[1])


@pytest.mark.parametrize(
    "subject, rules", [("scenario", formats.RULES), ("text", formats.CHECKPOINT_RULES)]
)
def test_rules(subject: str, rules: dict[str, int]) -> None:
    table = rows_of(
        PAGE, "Number", "Name", f"The {subject} is refused since", "For example"
    )
    assert (
        [(spans_of(name)[0], int(number)) for number, name, *_ in table]
        == list(rules.items())
        != []
    )


def test_columns_and_rows() -> None:
    """Compares columns, fractions and heading of a report, and kinds, fields, versions and limits of a checkpoint."""
    columns = {
        name: "fraction" if "fraction" in text else "whole"
        for names, text in rows_of(PAGE, "Field", "What it says")
        for name in spans_of(names)
    }
    assert [*formats.COLUMNS.items()] == [*{**columns, "policy": "name"}.items()]
    assert f"{formats.HEADER}\n" in blocks_of(PAGE)
    whole = {name for name, kind in columns.items() if kind == "whole"}
    assert {*formats.WHOLE} == whole - {"policy"}
    spelt = [
        fields.replace(" and four words", ", word, word, word, word")
        .replace("`", "")
        .split(", ")
        for _, fields, _ in CHECKPOINT_ROWS
        if fields
    ]
    assert [[kind, *fields] for kind, fields in formats.ROWS.items()] == spelt
    assert list(formats.CHECKPOINT_VERSIONS) == list(range(1, 1 + int(spelt[0][1])))
    (state,) = (" ".join(row) for row in CHECKPOINT_ROWS if "`state`" in " ".join(row))
    most = re.search("No checkpoint has more than ([0-9,]+)\nbytes", text_of(PAGE))
    assert formats.MOST_COST == max(numbers_of(state))
    assert most
    assert {formats.MOST_CHECKPOINT_BYTES} == numbers_of(most[1])


def test_commands_and_statuses() -> None:
    """Commands and statuses are those of the page. A document needs the version of its newest key."""
    words = (
        spans_of(row[0])
        for row in rows_of(PAGE, "Words after the program's name", "Input", "Output")
    )
    assert list(formats.COMMANDS) == [
        it for row in words for it in row if not it.startswith("-")
    ]
    faults = (
        (line.strip("`").removeprefix("crnsim: "), status)
        for status, line, _ in STATUS_ROWS
    )
    assert formats.STATUSES == {
        line.removesuffix(" k"): int(status) for line, status in faults if line
    }
    assert [formats.status_of(it) for it in ("", "scenario 6", "command line")] == [
        0,
        3,
        2,
    ]
    names = {key.table or key.name: key.since for key in KEYS}
    assert {name: formats.version_with(["colour", name]) for name in names} == names
    assert (formats.version_with(names), formats.version_with([])) == (
        max(formats.VERSIONS),
        min(formats.VERSIONS),
    )
