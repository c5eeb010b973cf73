"""Gives the formats of crnsim as typed constants: keys, ranges, rules, versions, columns, commands and statuses.

They are read once from formats.toml, and docs/FORMATS.md says what each key means.
"""
from __future__ import annotations

import re
import tomllib
from collections.abc import Iterable
from dataclasses import dataclass
from pathlib import Path
from typing import Any


@dataclass(frozen=True)
class Key:
    """A key of a scenario: its table (empty for the document), its name, its ranges, and the first version that has it.

    A range is a pair of the least and the greatest value. A least that is another key's value is that key's name.
    """

    table: str
    name: str
    ranges: tuple[tuple[int | str, int], ...]
    since: int


def limits(table: str, name: str) -> tuple[int, int]:
    """Returns the least and the greatest of a key. If the least is another key's value, it is that key's least. Raises
    KeyError if there is no such key."""
    low, high = _RANGES[table, name][0]
    if isinstance(low, str):
        low, _ = limits(table, low)
    return low, high


def version_with(names: Iterable[str]) -> int:
    """Returns the first version that has all those of these keys of the document that some version has."""
    return max(SINCE.get(name, VERSIONS[0]) for name in ("version", *names))


def status_of(fault: str) -> int:
    """Returns the exit status of a fault's line, such as `scenario 6`; 0 for the empty text."""
    return STATUSES[re.sub(" [0-9]+$", "", fault)] if fault else 0


def _key(stated: dict[str, Any]) -> Key:
    ranges = tuple((low, high) for low, high in stated.get("ranges", ()))
    return Key(stated.get("table", ""), stated["name"], ranges, stated.get("since", 1))


def _pattern(characters: list[str], least: int, most: int) -> re.Pattern[str]:
    """Returns what a name matches: so many of some characters and of their ranges, as A-Z."""
    signs = ""
    for sign in characters:
        signs += re.escape(sign) if len(sign) == 1 else sign
    return re.compile(f"[{signs}]{{{least},{most}}}")


_FORMATS = tomllib.loads(Path(__file__).with_name("formats.toml").read_text("utf-8"))
_SCENARIO, _CHECKPOINT = _FORMATS["scenario"], _FORMATS["checkpoint"]

# Scenarios. DRAWS are the tables of values and weights, each of which has a stream of random words.
VERSIONS: tuple[int, ...] = tuple(_SCENARIO["versions"])
KEYS: tuple[Key, ...] = tuple(map(_key, _SCENARIO["keys"]))
_RANGES = {(key.table, key.name): key.ranges for key in KEYS}
DRAWS: tuple[str, ...] = tuple(key.table for key in KEYS if key.name == "values")
COSTS: tuple[str, ...] = tuple(key.name for key in KEYS if key.table == "costs")
# The keys of the document, tables among them, in order, each with the first version that has it.
SINCE: dict[str, int] = {key.table or key.name: key.since for key in KEYS}
POLICIES: tuple[int, int] = (_SCENARIO["policies"][0], _SCENARIO["policies"][1])
WEIGHT_SUMS: tuple[int, int] = (
    int(_RANGES["demand", "weights"][1][0]),
    _RANGES["demand", "weights"][1][1],
)
WORDS_OF_KEY: int = _SCENARIO["words_of_key"]
DIGITS_OF_WORD: int = _SCENARIO["digits_of_word"]
WORD = re.compile(f"[0-9a-f]{{{DIGITS_OF_WORD}}}")
NAME = _pattern(_SCENARIO["name_characters"], *limits("policy", "name"))
_LEAST_RING, _MOST_RING = limits("", "ring")
_POWERS = range(_LEAST_RING.bit_length() - 1, _MOST_RING.bit_length())
RING_SIZES: tuple[int, ...] = tuple(2**power for power in _POWERS)
MOST_LEVELS: int = _SCENARIO["most_levels"]
MOST_BYTES: int = _SCENARIO["most_bytes"]
MOST_PERIODS = limits("", "periods")[1]
MOST_REPLICATIONS = limits("", "replications")[1]
MOST_DEMAND = limits("demand", "values")[1]
MOST_LEAD = limits("lead", "values")[1]
MOST_WEIGHT = WEIGHT_SUMS[1]
MOST_ITEMS = limits("policy", "S")[1]
MOST_LETTERS = limits("policy", "name")[1]
# The number of each rule by its name.
RULES: dict[str, int] = _SCENARIO["rules"]
CHECKPOINT_RULES: dict[str, int] = _CHECKPOINT["rules"]

# Reports: the kind of each column by its name, in order, the heading line, and the columns of whole numbers.
COLUMNS: dict[str, str] = _FORMATS["report"]["columns"]
HEADER = ",".join(COLUMNS)
WHOLE = tuple(name for name, kind in COLUMNS.items() if kind == "whole")

# Checkpoints: the versions, rising; the fields of each row by its kind, and the kinds with a value and its weight, in
# order.
CHECKPOINT_VERSIONS: tuple[int, ...] = tuple(_CHECKPOINT["versions"])
ROWS: dict[str, tuple[str, ...]] = {
    kind: tuple(fields) for kind, *fields in _CHECKPOINT["rows"]
}
DRAW_ROWS: tuple[str, ...] = tuple(
    kind for kind, fields in ROWS.items() if fields[:2] == ("value", "weight")
)
MOST_CHECKPOINT_BYTES: int = _CHECKPOINT["most_bytes"]
MOST_COST: int = _CHECKPOINT["most_cost"]

# The program: the words of each command, options left out, and the status by the line of a fault.
COMMANDS: tuple[str, ...] = tuple(_FORMATS["program"]["commands"])
STATUSES: dict[str, int] = _FORMATS["program"]["statuses"]
