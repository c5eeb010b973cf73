"""Changed texts: scenarios, checkpoints and schedules that are nearly right, or far from it.

Each change takes a generator and a text (or a tree) and returns another. Numbers are at the ends of each range that the
formats name, one beyond them, and far off. If the generator is hypothesis's, a failing text shrinks to a small one.
"""
from __future__ import annotations

import copy
import json
import re
import tomllib
from collections.abc import Callable, Sequence
from pathlib import Path
from random import Random
from typing import Any

from crnplan import formats

from tests.hostile.second_reader import MARK, Tree
from tests.shapes import SHAPES, Shape

Change = Callable[[Random, bytes], bytes]
# The ends of the range of each key's numbers, and of all entries of lists.
RANGES = {
    it.name: formats.limits(it.table, it.name)
    for it in formats.KEYS
    if it.table not in formats.DRAWS and it.ranges
}
RANGES["version"] = (formats.VERSIONS[0], formats.VERSIONS[-1])
LIST_ENDS = sorted(
    {
        int(end)
        for it in formats.KEYS
        if it.table in formats.DRAWS
        for pair in it.ranges
        for end in pair
    }
)
ENDS = sorted(
    {
        0,
        1,
        4,
        31,
        1023,
        formats.MOST_COST,
        2**31,
        2**32,
        2**63,
        2**64,
        *LIST_ENDS,
        *(end for pair in RANGES.values() for end in pair),
        *formats.POLICIES,
    }
)
NUMBERS = sorted(
    {sign * it + step for it in ENDS for sign in (1, -1) for step in (-1, 0, 1)}
)
DATA = tomllib.loads(Path(__file__).with_name("changed.toml").read_text("utf-8"))
STRINGS = [*DATA["strings"], "a" * 5000]
OTHER_KINDS: list[Any] = [*DATA["other_kinds"], 2**63 - 1, -(2**63)]
KEYS = [*DATA["keys"], "x" * 300]
# Bytes that mean something in one of the formats, and some that mean nothing.
MARKS = b"[]{}=.,\"'#\\\n\r\t -+_0123456789abefnrSsxZ:\x00\x7f\x80\xc3\xa4\xff"


def number_near(chance: Random, old: int, more: Sequence[int] = ()) -> int:
    """Returns a number for another one: a step off, at an end of a range or beyond, or any."""
    far, end = chance.choice(NUMBERS), chance.choice(more or NUMBERS)
    return chance.choice([old + 1, old - 1, far, end, chance.randrange(0, 40)])


# ---- changes of any text


def with_other_bytes(chance: Random, text: bytes) -> bytes:
    """Sets, puts in or takes out one to three bytes."""
    its = bytearray(text)
    for _ in range(chance.randint(1, 3)):
        at, byte = chance.randint(0, len(its)), chance.choice(MARKS)
        its[at : at + chance.randint(0, 1)] = chance.choice(
            [b"", bytes([byte]), bytes([byte, byte])]
        )
    return bytes(its)


def with_other_lines(chance: Random, text: bytes) -> bytes:
    """Drops, doubles, moves or cuts a line."""
    lines = text.split(b"\n")
    at, to, kind = (
        chance.randrange(len(lines)),
        chance.randrange(len(lines)),
        chance.randrange(4),
    )
    if kind == 3:
        place = chance.randint(0, len(lines[at]))
        lines[at : at + 1] = [lines[at][:place], lines[at][place:]]
    else:
        line = lines[at] if kind == 1 else lines.pop(at)
        lines[to:to] = [line] if kind else []
    return b"\n".join(lines)


def cut_off(chance: Random, text: bytes) -> bytes:
    """Returns a prefix of the text, up to anywhere, the end of a line or the last byte; sometimes with an odd end."""
    ends = [
        it.start() + more for it in re.finditer(rb"\n", text) for more in (0, 1)
    ] or [0]
    size = chance.choice(
        [chance.randint(0, len(text)), chance.choice(ends), len(text) - 1]
    )
    return text[:size] + chance.choice([b"", b"", b"\n", b"]", b"#"])


def with_mark(chance: Random, text: bytes) -> bytes:
    """Puts a byte order mark before the text, or before a line of it."""
    lines = [it.end() for it in re.finditer(rb"\n", text)]
    at = chance.choice(lines) if lines and chance.random() < 0.3 else 0
    return text[:at] + MARK + text[at:]


def with_other_number(chance: Random, text: bytes, more: Sequence[int] = ()) -> bytes:
    """Replaces one number of the text."""
    places = list(re.finditer(rb"-?[0-9]+", text))
    if not places:
        return text
    place = chance.choice(places)
    return (
        text[: place.start()]
        + b"%d" % number_near(chance, int(place[0][:18]), more)
        + text[place.end() :]
    )


def with_other_spelling(chance: Random, text: bytes) -> bytes:
    """Spells a number of the text, or its line ends, in another way."""
    places = list(re.finditer(rb"[0-9]+", text))
    kind = chance.randrange(10)
    if kind == 0 or not places:
        return text.replace(b"\n", b"\r\n")
    place = chance.choice(places)
    number = place[0]
    spelt = [
        b"+" + number,
        b"0" + number,
        b"-" + number,
        b"0x" + number,
        number + b"_0",
        b"1_" + number,
        number + b" ",
        number + b".0",
        b'"' + number + b'"',
    ][kind - 1]
    return text[: place.start()] + spelt + text[place.end() :]


TEXT_CHANGES: list[Change] = [
    with_other_bytes,
    with_other_lines,
    cut_off,
    with_other_number,
    with_other_number,
    with_other_spelling,
    with_mark,
]


# ---- trees of scenarios


def some_draws(chance: Random, keys: Shape) -> Tree:
    """Returns values with their weights."""
    _, low, high = keys["values"]
    high = min(high, low + chance.choice([5, high]))
    values = sorted(
        chance.sample(range(low, high + 1), chance.randint(1, min(6, high - low + 1)))
    )
    return {"values": values, "weights": [chance.randint(1, 9) for _ in values]}


def some_policies(chance: Random, keys: Shape) -> list[Tree]:
    """Returns policies with names of their own."""
    policies = [
        a_table(chance, keys)
        for _ in range(chance.choice([1, 2, 3, formats.POLICIES[1]]))
    ]
    for number, it in enumerate(policies):
        it["name"], (it["s"], it["S"]) = chance.choice(
            ["P%d", "p-%d", "_%d"]
        ) % number, sorted((it["s"], it["S"]))
    return policies


def a_value(chance: Random, kind: str, *more: Any) -> Any:
    """Returns a value of a kind. Numbers are often small."""
    match kind:
        case "number":
            low, high = more
            return chance.choice([low, high, chance.randint(low, min(high, low + 50))])
        case "ring":
            return chance.choice(formats.RING_SIZES)
        case "key":
            return [
                "%016x" % chance.getrandbits(64) for _ in range(formats.WORDS_OF_KEY)
            ]
        case "draws":
            return some_draws(chance, *more)
        case "policies":
            return some_policies(chance, *more)
        case "table":
            return a_table(chance, *more)
    return "A"


def a_table(chance: Random, keys: Shape) -> Tree:
    """Returns a table with a value at each of these keys."""
    return {
        key: a_value(chance, kind, *more)
        for key, (kind, *more) in keys.items()
        if kind != "version"
    }


def a_scenario(chance: Random) -> Tree:
    """Returns the tree of a scenario that has no fault."""
    version = chance.choice(formats.VERSIONS)
    return {"version": version, **a_table(chance, SHAPES[version])}


def places_of(tree: Any) -> list[tuple[Any, Any]]:
    """Returns the place of each value in a tree: what holds it, and its key there."""
    found = []
    for key in tree if isinstance(tree, dict) else range(len(tree)):
        found.append((tree, key))
        if isinstance(tree[key], (dict, list)):
            found += places_of(tree[key])
    return found


def deep(chance: Random, value: Any) -> Any:
    """Returns the value within lists or tables: a few of them, or about as many as a document may have."""
    most = formats.MOST_LEVELS
    for _ in range(chance.choice([1, 2, 30, *range(most - 4, most + 2)])):
        value = [value] if chance.random() < 0.5 else {"a": value}
    return value


def list_changed(chance: Random, value: list[Any]) -> list[Any]:
    """Returns a list with an entry more or less, or two that changed places."""
    kind = chance.randrange(3)
    if not value or kind == 0:
        return value + [chance.choice([*value, 1])]
    at, to = chance.randrange(len(value)), chance.randrange(len(value))
    if kind == 1:
        return value[:at] + value[at + 1 :]
    value = list(value)
    value[at], value[to] = value[to], value[at]
    return value


def other_value(chance: Random, key: Any, old: Any) -> Any:
    """Returns another value of the same kind as an old one."""
    if isinstance(old, list):
        return (
            list_changed(chance, old)
            if chance.random() < 0.75
            else old * chance.choice([0, 2, 9])
        )
    if isinstance(old, str):
        return chance.choice(STRINGS)
    if isinstance(old, dict):
        return {**old, chance.choice(KEYS): chance.choice(OTHER_KINDS)}
    if type(old) is not int:
        return old
    ends = [it + step for it in RANGES.get(key, LIST_ENDS) for step in (-1, 0, 1)]
    return chance.choice([number_near(chance, old), chance.choice(ends)])


def tree_changed(chance: Random, tree: Tree) -> Tree:
    """Returns the tree with one change."""
    tree = copy.deepcopy(tree)
    holder, key = chance.choice(places_of(tree) or [(tree, None)])
    kind = chance.randrange(9)
    old = None if key is None else holder[key]
    if key is None or kind == 0:
        tree[chance.choice(KEYS)] = chance.choice(OTHER_KINDS)
    elif kind == 1 and isinstance(holder, dict):
        del holder[key]
    elif kind == 2 and isinstance(holder, dict):
        holder[chance.choice(KEYS)] = old
    elif kind == 3:
        holder[key] = chance.choice(OTHER_KINDS)
    else:
        holder[key] = deep(chance, old) if kind == 4 else other_value(chance, key, old)
    return tree


def rule_changed(chance: Random, tree: Tree) -> Tree:
    """Returns the tree with a change that is at the very end of a rule, or just beyond it."""
    tree = copy.deepcopy(tree)
    draws = tree[chance.choice([it for it in formats.DRAWS if it in tree])]
    policies, most = tree["policy"], formats.MOST_WEIGHT
    policy = chance.choice(policies)
    kind, more = chance.randrange(8), chance.randrange(2)
    match kind:
        case 0:
            last = chance.choice([0, 1, most, most + 1])
            draws["weights"] = [0] * (len(draws["values"]) - 1) + [last]
        case 1:
            draws["values"] += [draws["values"][-1] + more]
            draws["weights"] += [most - sum(draws["weights"])]
        case 2:
            policy["s"] = policy["S"] + chance.choice([1, 1, 0])
        case 3:
            other = chance.choice(policies)["name"]
            policy["name"] = other + "x" * chance.choice([0, 10, 14, 15])
        case 4:
            most = formats.RING_SIZES[-1]
            near = [most - 1, most, most + 1]
            tree["ring"] = chance.choice([0, 1, 3, most // 2, *near, 2 * most, -2])
        case 5:
            most = formats.POLICIES[1]
            count = chance.choice([0, most, most + 1, 40])
            tree["policy"] = [{**policy, "name": f"N{it}"} for it in range(count)]
        case 6:
            draws["weights"] += [1] * (1 + more)
        case _:
            word = chance.choice([[], ["0" * 16], ["0" * 15], ["0" * 17]])
            tree["key"] = tree["key"][more:] + word
    return tree


# ---- documents of trees


def spelt(chance: Random, value: Any) -> str:
    """Returns a value in TOML, tables inline."""
    if isinstance(value, dict):
        return (
            "{"
            + ", ".join(
                f"{spelt_key(chance, it)} = {spelt(chance, value[it])}" for it in value
            )
            + "}"
        )
    if isinstance(value, list):
        gap = chance.choice(["", " ", "\n  ", " # more\n"]) if value else ""
        end = chance.choice(["", ",", gap]) if value else ""
        return "[" + ("," + gap).join(spelt(chance, it) for it in value) + end + "]"
    if isinstance(value, str):
        return json.dumps(value, ensure_ascii=False).replace("\x7f", "\\u007f")
    if type(value) is int and value >= 0 and chance.random() < 0.1:
        return chance.choice(
            [hex(value), oct(value), bin(value), f"{value:_}", f"+{value}"]
        )
    return str(value).lower()


def spelt_key(chance: Random, key: str) -> str:
    """Returns a key in TOML."""
    return (
        key
        if re.fullmatch("[A-Za-z0-9_-]+", key) and chance.random() < 0.9
        else json.dumps(key)
    )


def document(chance: Random, tree: Tree) -> bytes:
    """Returns a tree as a document: each table inline, dotted or under a header, in any order."""
    items, tail = [], []
    for key, value in chance.sample(sorted(tree.items()), len(tree)):
        name = spelt_key(chance, key)
        tables = (
            isinstance(value, list)
            and value
            and all(isinstance(it, dict) for it in value)
        )
        way = chance.randrange(3)
        if isinstance(value, dict) and value and way == 1:
            items += [
                f"{name}.{spelt_key(chance, it)} = {spelt(chance, value[it])}"
                for it in value
            ]
        elif (isinstance(value, dict) or tables) and way == 2:
            for table in value if tables else [value]:
                head = f"[[{name}]]" if tables else f"[ {name} ]"
                tail += [
                    head,
                    *(
                        f"{spelt_key(chance, it)} = {spelt(chance, table[it])}"
                        for it in table
                    ),
                ]
        else:
            items.append(f"{name} = {spelt(chance, value)}")
    end = chance.choice(["\n", "\r\n", " # end\n", "\n\n"])
    return "".join(it + end for it in items + tail).encode()


# ---- whole texts


def changed_scenario(chance: Random, seed: int, stored: Sequence[bytes]) -> bytes:
    """Returns a scenario's text with up to three changes, of its tree or of its bytes.

    The seed chooses the tree and its spelling, which nobody wants to see shrunk step by step.
    """
    if chance.random() < 0.6:
        drawn = Random(seed)
        tree = a_scenario(drawn)
        tree = rule_changed(chance, tree) if chance.random() < 0.4 else tree
        for _ in range(chance.choice([0, 0, 1, 1, 1, 2, 3])):
            tree = tree_changed(chance, tree)
        text = document(drawn, tree)
        return with_other_bytes(chance, text) if chance.random() < 0.1 else text
    text = chance.choice(stored)
    for _ in range(chance.choice([1, 1, 2, 3])):
        text = chance.choice(TEXT_CHANGES)(chance, text)
    return text


def with_other_field(chance: Random, text: bytes) -> bytes:
    """Empties, doubles or drops a field of a row, or puts another row's there."""
    lines = text.split(b"\n")
    at = chance.randrange(len(lines))
    fields, others = lines[at].split(b","), chance.choice(lines).split(b",")
    place = chance.randrange(len(fields))
    fields[place : place + 1] = chance.choice(
        [[], [b""], [b"-"], fields[place : place + 1] * 2, [chance.choice(others)]]
    )
    lines[at] = b",".join(fields)
    return b"\n".join(lines)


def changed_checkpoint(chance: Random, text: bytes, ends: Sequence[int]) -> bytes:
    """Returns a checkpoint's text with up to three changes. Numbers may also be these ends of its ranges."""
    others: list[Change] = [
        with_other_bytes,
        with_other_lines,
        cut_off,
        with_other_field,
        with_other_spelling,
    ]
    for _ in range(chance.choice([0, 1, 1, 1, 2, 3])):
        text = (
            with_other_number(chance, text, ends)
            if chance.random() < 0.6
            else chance.choice(others)(chance, text)
        )
    return text


def changed_schedule(chance: Random, readers: int) -> bytes:
    """Returns a schedule of up to forty lines, with some that are of another form."""
    ends = [f"r{readers}", f"l{readers}"] * 3
    odd = [*DATA["odd_turns"], "r" + "1" * 400, *ends]
    good = [
        "p",
        "p",
        "e",
        *(f"{it}{number}" for it in "rrl" for number in range(readers)),
    ]
    lines = chance.choices(good, k=chance.randint(0, 40))
    for _ in range(chance.choice([0, 0, 0, 1, 2])):
        lines.insert(chance.randint(0, len(lines)), chance.choice(odd))
    text = "\n".join(lines).encode() + chance.choice([b"", b"\n"])
    return with_other_bytes(chance, text) if chance.random() < 0.2 else text
