"""The ranges of the formats, each tested at both ends and one beyond.

What is tested comes from the numbers of crnplan.formats alone. The program must say the same, and so must crnplan and
the reader of the hostile tests. Words of the command line and the longest inputs are tested in the same way.
"""
from __future__ import annotations

import copy
import json
from collections.abc import Callable, Iterator
from typing import Any

import pytest
from crnplan import formats
from crnplan.toml.scenarios import read_scenario
from crnplan.formats import Key

from tests.documents.conftest import Ask
from tests.documents.markdown import numbers_of, text_of
from tests.shapes import SHAPES, least_scenario

Judge = Callable[[str, int], bool | str]
# Other values at keys of a table, and the number of the rule that is then broken. A value None: the key is left out.
Changed = Iterator[tuple[dict[str, Any], int]]
# The greatest numbers of the command line and of schedules, which no table has.
MOST_BLOCK, MOST_ACTOR = 2**64 - 1, 2**32 - 1
BLOCKS = formats.limits("", "replications")[1] * -(
    -formats.limits("", "periods")[1] // 4
)
WORD, RING, READERS = (
    "0" * formats.DIGITS_OF_WORD,
    formats.RING_SIZES[-1],
    formats.POLICIES[1],
)


def value_text(value: Any) -> str:
    """Returns a value in TOML."""
    if isinstance(value, dict):
        return (
            "{ "
            + ", ".join(f"{key} = {value_text(it)}" for key, it in value.items())
            + " }"
        )
    return (
        f"[{', '.join(map(value_text, value))}]"
        if isinstance(value, list)
        else json.dumps(value)
    )


def scenario_of(table: str = "", changes: dict[str, Any] | None = None) -> str:
    """Returns the text of the least scenario with other values at keys of a table."""
    tree = least_scenario()
    holder = tree["policy"][0] if table == "policy" else tree[table] if table else tree
    holder.update(changes or {})
    return "".join(
        f"{key} = {value_text(value)}\n"
        for key, value in tree.items()
        if value is not None
    )


# ---- the ends of each kind of key


def number_ends(key: Key) -> Changed:
    """Yields a number at its ends. Beside a reorder point the level is as high, and beside a level the point is 5."""
    low, high = key.ranges[0]
    if isinstance(low, str):
        ends = [(4, 10), (5, 0), (high, 0), (high + 1, 6)]
        yield from (({low: 5, key.name: value}, number) for value, number in ends)
        return
    for value, number in ((low - 1, 6), (low, 0), (high, 0), (high + 1, 6)):
        yield {key.name: value} | (
            {"S": max(value, 0)} if key.name == "s" else {}
        ), number


def value_ends(key: Key) -> Changed:
    """Yields a list of values with an entry at an end, and lists that do not rise."""
    low, high = formats.limits(key.table, key.name)
    ends: list[tuple[list[int], int]] = [
        ([low - 1], 6),
        ([low], 0),
        ([high], 0),
        ([high + 1], 6),
        ([], 6),
        ([low, high], 0),
        ([low, low], 8),
        ([high, low], 8),
    ]
    for values, number in ends:
        yield {"values": values, "weights": [1] * max(len(values), 1)}, number


def weight_ends(key: Key) -> Changed:
    """Yields a list of weights with an entry or their sum at an end."""
    (low, high), (least, most) = (
        formats.limits(key.table, key.name),
        formats.WEIGHT_SUMS,
    )
    ends: list[tuple[list[int], int]] = [
        ([low - 1, least + 1], 6),
        ([low, least], 0),
        ([high], 0),
        ([high + 1], 6),
        ([], 6),
        ([0, least - 1], 9),
        ([0, most], 0),
        ([1, most - 1], 0),
        ([1, most], 9),
        ([1, 1, 1], 7),
    ]
    for weights, number in ends:
        yield {"values": [1, 2][: max(len(weights), 1)], "weights": weights}, number


def name_ends(key: Key) -> Changed:
    """Yields names with the fewest and the most characters, and with others than the formats have."""
    low, high = formats.limits(key.table, key.name)
    every = [chr(it) for it in range(32, 127) if formats.NAME.fullmatch(chr(it))]
    yield from (
        ({"name": "a" * size}, number)
        for size, number in ((low - 1, 11), (low, 0), (high, 0), (high + 1, 11))
    )
    yield from (
        ({"name": "".join(every[it : it + high])}, 0)
        for it in range(0, len(every), high)
    )
    for it in range(32, 127):
        if chr(it) not in every and (chr(it - 1) in every or chr(it + 1) in every):
            yield {"name": chr(it)}, 11


def ring_ends(key: Key) -> Changed:
    """Yields each size of a ring, and sizes beyond and between."""
    low, high = formats.limits(key.table, key.name)
    yield from (({"ring": it}, 0) for it in formats.RING_SIZES)
    yield from (({"ring": it}, 12) for it in (low - 1, 3, high - 1, high + 1, 2 * high))


def key_ends(_: Key) -> Changed:
    """Yields keys of other numbers of texts and of digits, and with other digits."""
    count, size = formats.WORDS_OF_KEY, formats.DIGITS_OF_WORD
    word = "0123456789abcdef"[:size].ljust(size, "0")
    yield {"key": [word] * count}, 0
    yield from (({"key": [word] * it}, 6) for it in (count - 1, count + 1))
    for other in (word + "0", word[1:], *(it + word[1:] for it in "gF/:`")):
        yield {"key": [other] + [word] * (count - 1)}, 6


def with_key(tree: dict[str, Any], key: Key, value: Any) -> dict[str, Any]:
    """Returns a scenario with another value at a key, or without the key. A table that it lacks is put in whole."""
    tree = copy.deepcopy(tree)
    holder = (
        tree["policy"][0]
        if key.table == "policy"
        else tree.get(key.table)
        if key.table
        else tree
    )
    if holder is None:
        return {**tree, key.table: least_scenario()[key.table]}
    holder[key.name] = value
    if value is None:
        del holder[key.name]
    return tree


def version_ends(_: Key) -> Changed:
    """Yields each version, also with a key of a later one and without one that it adds, and versions on either side."""
    known, newest, first = (
        formats.VERSIONS,
        least_scenario(),
        SHAPES[formats.VERSIONS[0]],
    )
    for version in known:
        its = {**dict.fromkeys(newest), **least_scenario(version)}
        yield its, 0
        for key in (it for it in formats.KEYS if it.since > known[0]):
            is_known = key.since <= version
            yield with_key(its, key, None if is_known else 0), 4 if is_known else 3
        yield from (
            ({**its, table: None}, 4) for table in SHAPES[version] if table not in first
        )
    yield from (({"version": version}, 2) for version in (known[0] - 1, known[-1] + 1))


ENDS = {
    "values": value_ends,
    "weights": weight_ends,
    "name": name_ends,
    "ring": ring_ends,
    "key": key_ends,
    "version": version_ends,
}


# ---- tests


@pytest.mark.parametrize(
    "key", formats.KEYS, ids=lambda it: f"{it.table or 'document'}-{it.name}"
)
def test_ends_of_a_key(judge: Judge, check_all: Any, key: Key) -> None:
    """A value at an end of its range is accepted, and one beyond is not."""
    ends = ENDS.get(key.name, number_ends)(key)
    check_all(
        (str(changes)[:80], judge(scenario_of(key.table, changes), number))
        for changes, number in ends
    )


LOW, HIGH = formats.POLICIES


@pytest.mark.parametrize(
    "count, number", [(LOW - 1, 13), (LOW, 0), (HIGH, 0), (HIGH + 1, 13)]
)
def test_number_of_policies(judge: Judge, count: int, number: int) -> None:
    """So many policies are accepted, or not."""
    policy = least_scenario()["policy"][0]
    assert (
        judge(
            scenario_of(
                "", {"policy": [{**policy, "name": f"P{it}"} for it in range(count)]}
            ),
            number,
        )
        is True
    )


def test_longest_input(ask: Ask, judge: Judge) -> None:
    """An input of the most bytes is read, and one of a byte more is not."""
    text = scenario_of()
    assert judge(text.ljust(formats.MOST_BYTES, "\n"), 0) is True
    answer = ask("leg 0", text.ljust(formats.MOST_BYTES + 1, "\n"))
    assert (answer.status, answer.errors) == (
        formats.STATUSES["reading"],
        "crnsim: reading\n",
    )


@pytest.mark.parametrize(
    "more, number", [(0, 3), (1, 1)], ids=["most_levels", "one_more"]
)
def test_deepest_list(ask: Ask, more: int, number: int) -> None:
    """Lists of the most levels are a document, and one level more is not."""
    levels = formats.MOST_LEVELS + more
    text = f"{scenario_of()}deep = {'[' * levels}{']' * levels}\n"
    assert ask("leg 0", text).errors == f"crnsim: scenario {number}\n"
    assert read_scenario(text.encode())[1][0].rule == number


@pytest.mark.parametrize(
    "call, status",
    [
        (f"replay {RING} 1 0", 0),
        (f"replay {2 * RING} 1 0", 2),
        ("replay 0 1 0", 2),
        ("replay 3 1 0", 2),
        (f"replay 1 {READERS} 0", 0),
        (f"replay 1 {READERS + 1} 0", 2),
        ("replay 1 0 0", 2),
        (f"replay 1 1 {BLOCKS}", 0),
        (f"replay 1 1 {BLOCKS + 1}", 2),
        *((f"words {WORD} {WORD} {WORD} {WORD} {it}", 0) for it in (0, MOST_BLOCK)),
        *(
            (f"words {WORD} {WORD} {WORD} {WORD} {it}", 2)
            for it in (MOST_BLOCK + 1, "00", "+1")
        ),
        *(
            (f"words {it} {WORD} {WORD} {WORD} 0", 2)
            for it in (WORD[1:], WORD + "0", "F" + WORD[1:])
        ),
    ],
)
def test_words_of_the_command_line(ask: Ask, call: str, status: int) -> None:
    """A word at an end of its range is accepted, and one beyond is not."""
    assert ask(call).status == status


@pytest.mark.parametrize("number", [MOST_BLOCK, MOST_ACTOR])
def test_page_has_the_greatest_numbers(number: int) -> None:
    """FORMATS has the greatest numbers of the command line and of schedules."""
    assert number in numbers_of(text_of("docs/FORMATS.md"))


@pytest.mark.parametrize("actor, number", [(MOST_ACTOR, 2), (MOST_ACTOR + 1, 1)])
def test_greatest_reader(ask: Ask, actor: int, number: int) -> None:
    """A reader beyond the greatest number is no schedule's; one within it is not there."""
    assert ask("replay 1 1 0", f"r{actor}\n").errors == f"crnsim: schedule {number}\n"
