"""Judges TOML documents by rules: which keys a table has, what may stand there, and which must be there.

All faults of a document are found in one pass, each with its path. What to do is said once for all of them.
"""
from __future__ import annotations

from collections.abc import Callable, Collection, Iterable, Mapping
from dataclasses import dataclass
from functools import partial
from operator import attrgetter
from pathlib import Path as FilePath
from typing import Any

from .. import formats
from ..errors import Fault, RefusedFaults
from .documents import DOCUMENT, Path, Tree, TreeFault, read_bytes, read_judged, shown

# A check of a value at a path: it returns its faults.
Check = Callable[[Path, Any], list[TreeFault]]
# Rules of scenarios: a key that should not be there, one that is missing, a value of a wrong kind, and one that is out
# of its range or not of its form.
UNKNOWN, MISSING, KIND, RANGE = (
    formats.RULES[name] for name in ("UnknownKey", "MissingKey", "Kind", "Range")
)
KINDS = {
    bool: "true or false",
    int: "a whole number",
    float: "a number with a point",
    str: "a text",
    list: "a list",
    dict: "a table",
}


def no_faults(path: Path, value: Any) -> list[TreeFault]:
    """Finds no fault."""
    return []


def unknown(path: Path, value: Any) -> list[TreeFault]:
    """Returns the fault of a key that should not be there."""
    return [TreeFault(UNKNOWN, path, "there should be no such key")]


@dataclass(frozen=True)
class TableCheck:
    """The check of a table: that of each of its keys, all of which may be needed, of all together, and of `other` keys."""

    keys: Mapping[str, Check]
    joint: Check = no_faults
    other: Check = unknown
    is_whole: bool = True

    def __call__(self, path: Path, value: Any) -> list[TreeFault]:
        """Returns the faults of a table: unknown and missing keys, values, and what stands beside each other."""
        if not isinstance(value, dict):
            return wrong_kind(path, value, "a table")
        faults = self.joint(path, value)
        for key in self.keys if self.is_whole else ():
            if key not in value:
                faults.append(TreeFault(MISSING, path, f"the key {key} is missing"))
        for key, part in value.items():
            check = self.keys.get(key, self.other)
            faults += check((*path, key), part)
        return faults


def listed(entry: Check, kind: str, joint: Check = no_faults) -> Check:
    """Returns the check of a list, of a kind in words: of each entry, and of all together."""

    def check(path: Path, value: Any) -> list[TreeFault]:
        if not isinstance(value, list):
            return wrong_kind(path, value, kind)
        faults = joint(path, value)
        for place, part in enumerate(value, 1):
            faults += entry((*path, place), part)
        return faults

    return check


def kind_of(value: Any) -> str:
    """Returns the kind of a value in words."""
    if isinstance(value, float):
        return "a number with a point"
    return KINDS.get(type(value), "a date or a time")


def wrong_kind(path: Path, value: Any, wanted: str) -> list[TreeFault]:
    """Returns the fault of a value that is not of the wanted kind."""
    kind = kind_of(value)
    if value in ("", [], {}) and wanted.startswith(kind):
        kind = "empty"
    what = f"{shown(value)} is {kind}; {wanted} should stand here"
    return [TreeFault(KIND, path, what)]


def first_of_each(faults: Iterable[TreeFault]) -> list[TreeFault]:
    """Returns the first fault of each rule in a list."""
    by_rule = dict[int, TreeFault]()
    for fault in faults:
        by_rule.setdefault(fault.rule, fault)
    return [*by_rule.values()]


def number(least: int, most: int) -> Check:
    """Returns the check of a whole number in a range."""

    def check(path: Path, value: Any) -> list[TreeFault]:
        if type(value) is not int:
            return wrong_kind(path, value, "a whole number")
        if least <= value <= most:
            return []
        what = f"{shown(value)} is not from {least:,} to {most:,}"
        return [TreeFault(RANGE, path, what)]

    return check


def numbers(least: int, most: int) -> Check:
    """Returns the check of a list of whole numbers in a range: it returns each kind of fault once."""
    each = listed(number(least, most), "a list of whole numbers")

    def check(path: Path, value: Any) -> list[TreeFault]:
        if value == []:
            return [TreeFault(RANGE, path, "the list is empty")]
        is_whole = isinstance(value, list) and {*map(type, value)} == {int}
        if is_whole and least <= min(value) and max(value) <= most:  # nearly always
            return []
        return first_of_each(each(path, value))

    return check


def place_text(path: Path, tables: Collection[str]) -> str:
    """Returns a path in words, as [TABLE.TABLE] KEY. The document has these tables."""
    if not path:
        return DOCUMENT
    count = int(path[0] in tables)
    while all(isinstance(part, str) for part in path[count : count + 2]):
        if len(path) < count + 2:
            break
        count += 1
    heading = f"[{'.'.join(map(str, path[:count]))}]" if count else ""
    rest = [f"entry {part}" if isinstance(part, int) else part for part in path[count:]]
    return " ".join(filter(None, [heading, ", ".join(rest)]))


def read_tables(path: str | FilePath, rules: TableCheck) -> Tree:
    """Returns the tree of a file that has no fault by the rules of its tables.

    Raises Refused if it can't be read, and RefusedFaults with all that is wrong with it, by line.
    """
    tree, broken = read_judged(read_bytes(path), partial(rules, ()))
    faults = []
    for fault in sorted(broken, key=attrgetter("line", "column")):
        what = f"{place_text(fault.path, rules.keys)}: {fault.reason}"
        if fault.rule == 1:
            what = f"this is no TOML document: {fault.reason}"
        faults.append(Fault(what, str(path), fault.line, fault.column))
    if faults:
        text = "\n".join(fault.message for fault in faults)
        is_unknown = any(fault.rule == UNKNOWN for fault in broken)
        raise RefusedFaults(faults, text + "; docs/TABLES.md has all keys" * is_unknown)
    return tree
