"""Writes how a catalogue is read and planned as the table [catalogue] of crnplan.toml, and reads that again.

Each word stands in the file under its key. What is as by default is not stated.
"""
from __future__ import annotations

import copy
from collections.abc import Mapping
from typing import Any, TypeVar

from ..toml.documents import Tree
from ..vocabulary import Vocabulary, plain, words_in
from .columns import ROLES

Made = TypeVar("Made", bound=Vocabulary)
COLUMNS = "columns"  # the word whose values are tables of their own, by their files
BY_PLACE = "units", "names"  # the words of values by FILE.ROLE
WRITTEN = "written"  # the word of how each file is written
# What is said of all files, and what it replaces of a single one.
OF_ALL_FILES = {
    "delimiter": "delimiter",
    "encoding": "encoding",
    "decimal": "decimal",
    "date_formats": "day_first",
}


def placed(table: Mapping[str, Mapping[str, Any]]) -> Tree:
    """Returns values by file and role as values by FILE.ROLE."""
    tree: Tree = {}
    for kind, roles in table.items():
        for role, value in roles.items():
            tree[f"{kind}.{role}"] = value
    return tree


def stated(name: str, key: str, value: Any) -> Tree:
    """Returns what a table says of a word by its name and key, as it is meant."""
    if name == COLUMNS:
        return dict(plain(value))
    return {key: plain(placed(value) if name in BY_PLACE else value)}


def told_of(words: Vocabulary) -> Tree:
    """Returns what words of reading or of planning state that is not so by default."""
    tree: Tree = {}
    for name, word in words_in(type(words)).items():
        value = getattr(words, name)
        if word.key and value != word.default:
            tree |= stated(name, word.key, value)
    return tree


def merged(first: Mapping[str, Any], *others: Mapping[str, Any]) -> Tree:
    """Returns what several tables state, of which later ones count first. What is said of all files replaces what an
    earlier table says of one."""
    tree = dict(first)
    for other in others:
        words = OF_ALL_FILES.keys() & other.keys()
        if words:
            tree[WRITTEN] = copy.deepcopy(tree.get(WRITTEN, {}))
        for word in words:
            for own in tree[WRITTEN].values():
                own.pop(OF_ALL_FILES[word], None)
        tree = _joined(tree, other)
    return tree


def _joined(first: Mapping[str, Any], second: Mapping[str, Any]) -> Tree:
    """Returns two tables as one, with the tables in them."""
    tree = {**first, **second}
    for name in first.keys() & second.keys():
        if isinstance(first[name], Mapping) and isinstance(second[name], Mapping):
            tree[name] = _joined(first[name], second[name])
    return tree


def made_from(kind: type[Made], tree: Mapping[str, Any]) -> Made:
    """Returns a value of a class with the words of a table that it has. Raises Refused for what can't be meant."""
    columns = {name: tree[name] for name in ROLES if name in tree}
    known = {**tree, COLUMNS: columns or None}
    words = words_in(kind).values()
    return kind(**{word.name: known.get(word.key) for word in words})
