"""Reads scenarios, finds all their faults, in the tables and beside each other, and writes scenarios.

Which scenarios crnsim takes, and which number it reports, is proved of the program; this module is not.
"""
from __future__ import annotations

import itertools
import json
import re
import tomllib
from collections.abc import Collection, Iterator, Mapping
from operator import attrgetter
from typing import Any, TypeGuard

from .. import formats
from ..errors import ScenarioError
from .documents import Path, Tree, TreeFault, older_text, read_judged, shown
from .rules import (
    RANGE,
    Check,
    TableCheck,
    first_of_each,
    listed,
    no_faults,
    number,
    numbers,
    place_text,
    wrong_kind,
)

VERSION, LENGTHS, ORDER, SUM, LEVELS, NAME, RING, COUNT = (
    formats.RULES[name]
    for name in (
        "Version",
        "Lengths",
        "Order",
        "WeightSum",
        "Levels",
        "Name",
        "RingSize",
        "PolicyCount",
    )
)
# So many faults are in the text of an error. Its `faults` has all.
MOST_SHOWN = 20
MANY = range(1, 1 << 31)  # policies, which are run some at a time


def _word_faults(path: Path, word: Any) -> list[TreeFault]:
    """Returns the faults of a word of the key of the random stream."""
    wanted = "16 digits of 0-9a-f"
    if not isinstance(word, str):
        return wrong_kind(path, word, f"a text of {wanted}")
    if formats.WORD.fullmatch(word):
        return []
    return [TreeFault(RANGE, path, f"{shown(word)} is not {wanted}")]


def _count_faults(path: Path, words: list[Any]) -> list[TreeFault]:
    """Returns the fault of a key that has not four words."""
    if len(words) == formats.WORDS_OF_KEY:
        return []
    return [TreeFault(RANGE, path, f"there are {len(words)} texts, not 4")]


KEY = listed(_word_faults, "a list of four texts", _count_faults)


def _key_faults(path: Path, value: Any) -> list[TreeFault]:
    """Returns the faults of the key of the random stream, the first of each rule."""
    return first_of_each(KEY(path, value))


def name_faults(path: Path, name: Any) -> list[TreeFault]:
    """Returns the faults of the name of a policy."""
    if not isinstance(name, str):
        return wrong_kind(path, name, "a text")
    if formats.NAME.fullmatch(name):
        return []
    least, most = formats.limits("policy", "name")
    what = f"{shown(name)} is not {least} to {most} of A-Z a-z 0-9 _ -"
    return [TreeFault(NAME, path, what)]


RINGS = f"{', '.join(map(str, formats.RING_SIZES[:4]))}, .., {formats.RING_SIZES[-1]:,}"


def _ring_faults(path: Path, value: Any) -> list[TreeFault]:
    if type(value) is not int:
        return wrong_kind(path, value, "a whole number")
    if value in formats.RING_SIZES:
        return []
    what = f"{shown(value)} is not one of {RINGS}"
    return [TreeFault(RING, path, what)]


def _are_whole(values: Any) -> TypeGuard[list[int]]:
    return isinstance(values, list) and {*map(type, values)} <= {int}


def _falls(path: Path, values: list[int]) -> Iterator[TreeFault]:
    """Yields the fault of each value that is not above the one before it."""
    for entry, (low, high) in enumerate(itertools.pairwise(values), 2):
        if low >= high:
            what = f"{shown(high)} is not above the {shown(low)} before it"
            yield TreeFault(ORDER, (*path, entry), what)


def _draws_faults(path: Path, table: Mapping[str, Any]) -> list[TreeFault]:
    """Returns the faults of values and weights beside each other: their numbers, values that do not rise, the sum."""
    values, weights = table.get("values"), table.get("weights")
    faults: list[TreeFault] = []
    if isinstance(values, list) and isinstance(weights, list):
        if len(values) != len(weights):
            what = f"there are {len(values)} values and {len(weights)} weights"
            faults.append(TreeFault(LENGTHS, path, what))
    if _are_whole(values):
        faults += first_of_each(_falls((*path, "values"), values))
    least, most = formats.WEIGHT_SUMS
    if _are_whole(weights) and not least <= sum(weights) <= most:
        what = f"they come to {shown(sum(weights))}, which is not from {least:,} to {most:,}"
        faults.append(TreeFault(SUM, (*path, "weights"), what))
    return faults


def _levels_faults(path: Path, policy: Mapping[str, Any]) -> list[TreeFault]:
    """Returns the fault of a policy whose reorder point is above its order-up-to level."""
    point, level = policy.get("s"), policy.get("S")
    if type(point) is not int or type(level) is not int or point <= level:
        return []
    what = f"the reorder point s = {shown(point)} is above the order-up-to level S = {shown(level)}"
    return [TreeFault(LEVELS, path, what)]


def _policies_faults(path: Path, policies: list[Any]) -> list[TreeFault]:
    """Returns the faults of policies beside each other: their number, and names that stand twice."""
    faults: list[TreeFault] = []
    seen: dict[str, int] = {}
    least, most = formats.POLICIES
    if not least <= len(policies) <= most:
        what = f"there are {len(policies)} policies, not {least} to {most}"
        faults.append(TreeFault(COUNT, path, what))
    for entry, policy in enumerate(policies, 1):
        name = policy.get("name") if isinstance(policy, dict) else None
        if isinstance(name, str) and seen.setdefault(name, entry) != entry:
            what = f"{shown(name)} is the name of policy {seen[name]} too"
            faults.append(TreeFault(NAME, (*path, entry, "name"), what))
    return faults


CHECKS: dict[str, Check] = {
    "key": _key_faults,
    "ring": _ring_faults,
    "name": name_faults,
}


def _rules(version: int) -> TableCheck:
    """Returns the rules of a scenario, but for its version, which is judged by itself."""
    tables: dict[str, dict[str, Check]] = {}
    for key in formats.KEYS[1:]:
        if key.since <= version:
            in_range = numbers if key.table in formats.DRAWS else number
            check = CHECKS.get(key.name)
            if check is None:
                check = in_range(*formats.limits(key.table, key.name))
            tables.setdefault(key.table, {})[key.name] = check
    document = tables.pop("")
    for name, keys in tables.items():
        joint = _draws_faults if name in formats.DRAWS else no_faults
        document[name] = TableCheck(keys, joint)
    policy = TableCheck(tables["policy"], _levels_faults)
    document["policy"] = listed(policy, "a list of tables", _policies_faults)
    return TableCheck(document)


RULES = {version: _rules(version) for version in formats.VERSIONS}
TABLES = {key.table for key in formats.KEYS}


def faults_of(tree: dict[str, Any]) -> list[TreeFault]:
    """Returns all faults of a scenario's tree, the least number first, without their lines and columns."""
    faults: list[TreeFault] = []
    rest = {**tree}
    version, known = rest.pop("version", None), formats.VERSIONS
    if "version" not in tree:
        faults.append(TreeFault(VERSION, (), "the key version is missing"))
    elif type(version) is not int or version not in known:
        what = f"{shown(version)} is not {' or '.join(map(str, known))}"
        faults.append(TreeFault(VERSION, ("version",), what))
    # With another version, the rest is judged as the one that fits it.
    fitting = formats.version_with(tree) if faults else version
    faults += RULES[fitting]((), rest)
    faults.sort(key=attrgetter("rule"))
    return [fault._replace(where=place_text(fault.path, TABLES)) for fault in faults]


def read_scenario(data: bytes) -> tuple[Tree, list[TreeFault]]:
    """Returns the tree of a scenario's bytes, and all its faults, the least number first."""
    return read_judged(data, faults_of)


def error_of(faults: list[TreeFault], file: str = "") -> ScenarioError:
    """Returns the error with these faults of a file. Its text has the first 20."""
    named = [fault.fault(file) for fault in faults]
    lines = [str(fault) for fault in named[:MOST_SHOWN]]
    lines[-1] += "; docs/FORMATS.md says what may stand there"
    if len(faults) > MOST_SHOWN:
        lines.append(f"and {len(faults) - MOST_SHOWN} more faults")
    return ScenarioError(named, "\n".join(lines))


def check_tree(tree: Tree, counts: Collection[int] = ()) -> None:
    """Raises ScenarioError with all faults of a tree that is made, not read. It may have so many policies, whatever the program
    takes in one run."""
    faults = faults_of(tree)
    if len(tree["policy"]) in counts:
        faults = [fault for fault in faults if fault.rule != COUNT]
    if faults:
        raise error_of(faults)


def plain_text(tree: Tree) -> str:
    """Returns a tree without comments: the keys of the document, its tables, its policies."""
    own: Tree = {}
    tables = [("", own)]
    for key, value in tree.items():
        if isinstance(value, dict):
            tables.append((f"\n[{key}]\n", value))
        elif key != "policy":
            own[key] = value
    tables += [("\n[[policy]]\n", policy) for policy in tree["policy"]]
    lines: list[str] = []
    for heading, table in tables:
        lines.append(heading)
        for key, value in table.items():
            # JSON spells whole numbers, texts and lists of such as TOML does.
            lines.append(f"{key} = {json.dumps(value, ensure_ascii=False)}\n")
    return "".join(lines)


def head_of(source: str) -> str:
    """Returns the comment lines at the top of a text."""
    lines = source.splitlines(keepends=True)
    return "".join(itertools.takewhile(re.compile("#").match, lines))


def toml_text(tree: Tree, source: str) -> str:
    """Returns a tree as TOML: the source, which is the text of a scenario, if that has it; else with the comments at its
    top alone."""
    if tomllib.loads(older_text(source)) == tree:
        return source
    return head_of(source) + plain_text(tree)
