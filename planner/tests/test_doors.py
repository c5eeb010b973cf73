"""A value of a word means the same by each door, or is refused by the same sentence: in a call, as an option of a command, as
a key of crnplan.toml and in a field of the desk. Words and their kinds follow from where they are declared."""
from __future__ import annotations

import datetime
import re
from collections.abc import Callable, Iterator, Mapping
from pathlib import Path
from typing import Any

import click
import pytest
import tomlkit
from werkzeug.datastructures import MultiDict

import crnplan as crn
from crnplan.cli import known_words, options_of
from crnplan.cli.catalogues import plan, words_of
from crnplan.desk.settings import WORDS, faults_of, typed
from crnplan.errors import Refused
from crnplan.spelling import spelt
from crnplan.given import joined, taken
from crnplan.plan.settings import CONFIG, read_config
from crnplan.read.columns import ROLES
from crnplan.read.configuration import made_from, told_of
from crnplan.vocabulary import FLAG, PAIRS, Word

# Texts that each door can say, and values that a call and a file can.
TEXTS_SAID = (
    *("95%", "0.95", "95", "0", "-1", "1.5", "13", "12,5", "abc", "week"),
    *(
        "2026-02-01",
        "01.02.2026",
        "true",
        "no",
        "A=98%",
        "A=0",
        "demand.quantity=Menge",
    ),
    *("demand.qantity=Menge", "items.lead=day", "80,95", "EUR", ";", "tab", "cp1252"),
    *(
        "4 weeks",
        "14 dyas",
        "%d.%m.%Y",
        "Location=Main",
        "KAR=12",
        "Z3=stopped",
        "\x00",
    ),
    *("1e400", "9" * 400, "nan"),
)
VALUES_SAID: tuple[Any, ...] = (
    *(0.95, 95, 0, -1, 1.5, 13, 10**12, True, False, float("nan"), float("inf")),
    *([], ["week"], [80, 95], ["A=98%", "B=97%"], [1.5], [["a"]], {}, {"A": 0.98}),
    *({"A": 95}, {"demand": {"quantity": "Menge"}}, {"demand.quantity": "Menge"}),
    *(
        {"items": {"lead": "day"}},
        {"items.lead": "dya"},
        {"demand": "x"},
        {"Z3": "gone"},
    ),
    *({"demand": {"delimiter": ";"}}, {"demand": {"delimiter": "x"}}, {"KAR": 12}),
    datetime.date(2026, 2, 1),
)
# What may stand before what is wrong: the name of the word, or its place in a file, and the entry of a table.
PLACE = re.compile(
    r"^(?:<\w+>: (?:[\w.]+: )?|.*?crnplan\.toml:\d+:\d+: \[catalogue[^]]*\] [^:]*: )"
)
Outcome = tuple[str, Any]
Door = Callable[[Word, Any, Path], dict[str, Any]]
KNOWN = known_words()
OPTIONS = {option.name for option in options_of("plan")}
TABLES = tuple(f"{kind}." for kind in ROLES)


class KeptWords:
    """Keeps the words of crnplan.toml in a folder, as a desk does."""

    def __init__(self, folder: Path) -> None:
        self.config = folder / CONFIG
        self.tree: dict[str, Any] = {}

    def keep_words(self, tree: Mapping[str, Any]) -> None:
        self.config.write_text(tomlkit.dumps({"catalogue": tree}), "utf-8")
        self.tree = read_config(self.config)


def meaning(words: tuple[crn.Reading, crn.Settings]) -> dict[str, Any]:
    """Returns what words mean, as found.toml states it."""
    reading, settings = words
    return told_of(reading) | told_of(settings)


def by_call(word: Word, value: Any, folder: Path) -> dict[str, Any]:
    known = joined({word.name: value})
    return meaning((taken(crn.Reading, known), taken(crn.Settings, known)))


def by_option(word: Word, value: Any, folder: Path) -> dict[str, Any]:
    entry = value if word.name == "columns" else f"{word.key}={value}"
    words = [word.flag, value] if word.name in OPTIONS else ["--set", entry]
    asked = plan.make_context("plan", ["files", *words]).params
    return meaning(words_of(asked, {}))


def by_file(word: Word, value: Any, folder: Path) -> dict[str, Any]:
    tree = value if word.name == "columns" else {word.key: value}
    kept = KeptWords(folder)
    kept.keep_words(tree)
    return meaning(
        (made_from(crn.Reading, kept.tree), made_from(crn.Settings, kept.tree))
    )


def by_field(word: Word, value: str, folder: Path) -> dict[str, Any]:
    form = {word.name: value}
    if word.kind.shape == PAIRS:
        name, _, part = value.rpartition("=")
        form = {f"{word.name} of": name, word.name: part}
    kept: Any = KeptWords(folder)
    for why in faults_of(kept, typed(MultiDict(form))).values():
        raise Refused(why)
    return meaning(
        (made_from(crn.Reading, kept.tree), made_from(crn.Settings, kept.tree))
    )


def doors_of(word: Word, value: Any) -> Iterator[Door]:
    """Yields the doors by which a word can have a value."""
    yield by_call
    is_text = isinstance(value, str)
    is_columns = isinstance(value, Mapping) and value.keys() <= ROLES.keys()
    if word.key and (word.name != "columns" or is_columns):
        yield by_file
    is_column = word.name != "columns" or str(value).startswith(TABLES)
    if is_text and word.key and is_column:
        yield by_option
    is_named = word.kind.shape != PAIRS or "=" in str(value) or word.name == "together"
    if is_text and word.name in WORDS and word.kind.shape != FLAG and is_named:
        yield by_field


def outcome(door: Door, word: Word, value: Any, folder: Path) -> Outcome:
    """Returns what a door makes of a value: what it means, or why it is refused, without the name of the word."""
    try:
        with spelt(lambda name, value: f"<{name}>"):
            try:
                return "read", door(word, value, folder)
            except crn.CrnplanError as why:
                said = str(why)
    except click.ClickException as why:
        return "refused by click", why.format_message()
    lines = [PLACE.sub("", line) for line in said.splitlines()]
    return "refused", lines[0]


@pytest.mark.parametrize("name", KNOWN)
def test_alike_by_each_door(name: str, tmp_path: Path) -> None:
    """Each value is read alike by all doors that can say it, or refused alike but for the spelling of the name."""
    word, unlike = KNOWN[name], list[str]()
    for value in (*word.kind.choices, *TEXTS_SAID, *VALUES_SAID):
        answers = {
            door.__name__: outcome(door, word, value, tmp_path)
            for door in doors_of(word, value)
        }
        first, *others = answers.values()
        if any(other != first for other in others):
            unlike.append(f"{name} = {value!r}: {answers}")
    assert unlike == []


def test_each_word_is_read_and_refused() -> None:
    """Of the values that are tried each word takes one, and refuses one."""
    for name, word in KNOWN.items():
        refused, values = 0, (*word.kind.choices, *TEXTS_SAID, *VALUES_SAID)
        for value in values:
            try:
                word.kind.read(value)
            except Refused:
                refused += 1
        assert 0 < refused < len(values), name
