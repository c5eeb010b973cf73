"""The keys of a scenario by version, as nested tables, and the least scenario: from the numbers of crnplan.formats."""
from __future__ import annotations

from typing import Any

from crnplan import formats

# What stands at each key of a table: a kind, then the limits of a number or of the numbers of a list, or the shape of a
# table.
Shape = dict[str, tuple[Any, ...]]
# Keys that are judged by rules of their own, by which their kind is named.
OWN_KINDS = ("version", "key", "ring", "name")


def shape_of(version: int) -> Shape:
    """Returns what stands at each key of the document in a version.

    A table has the kind `table`, `draws` (values with weights) or `policies`, and its keys in the same way.
    """
    tables: dict[str, Shape] = {}
    for key in (key for key in formats.KEYS if key.since <= version):
        kind = "numbers" if key.table in formats.DRAWS else "number"
        rule = (
            (key.name,)
            if key.name in OWN_KINDS
            else (kind, *formats.limits(key.table, key.name))
        )
        tables.setdefault(key.table, {})[key.name] = rule
    document = tables.pop("")
    for name, shape in tables.items():
        document[name] = (
            "policies"
            if name == "policy"
            else "draws"
            if name in formats.DRAWS
            else "table",
            shape,
        )
    return document


SHAPES = {version: shape_of(version) for version in formats.VERSIONS}


def least_value(kind: str, *more: Any) -> Any:
    """Returns a small value of a kind, without a fault."""
    if kind in ("table", "draws"):
        least = {name: least_value(*its) for name, its in more[0].items()}
        return {**least, "weights": [1]} if kind == "draws" else least
    if kind == "policies":
        return [least_value("table", more[0])]
    if kind in OWN_KINDS:
        return {
            "version": formats.VERSIONS[-1],
            "key": ["0" * formats.DIGITS_OF_WORD] * formats.WORDS_OF_KEY,
            "ring": 1,
            "name": "A",
        }[kind]
    return [more[0] + 1] if kind == "numbers" else more[0]


def least_scenario(version: int = formats.VERSIONS[-1]) -> dict[str, Any]:
    """Returns a scenario's tree of a version: each number is at its least, each list has one entry."""
    return {**least_value("table", SHAPES[version]), "version": version}
