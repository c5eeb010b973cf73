"""Looks at a file before it is read: which table it may be, by which columns, and what is wrong with it.

It then states what a planner chooses.

Nothing is raised for what is wrong: who looks may then say what is meant.
"""
from __future__ import annotations

import contextlib
import itertools
from collections.abc import Collection, Iterable, Iterator, Mapping, Sequence
from dataclasses import dataclass, field
from pathlib import Path
from typing import Any

from ..errors import Fault, Refused, RefusedFaults
from ..remarks import Remark
from ..store.digests import digest_of
from .column_words import ORDERED
from .cells import text_of
from .columns import NEEDED, TWO_COLUMNS, columns_in
from .items import Reading
from .law_forms import LAWS
from .opening import opened
from .sources import SourceColumn, Sheet

SEEN_ROWS = 5  # below the heading, as a planner sees them who is asked what a file is
ONE_LIKELY = "likely encodings 1"  # the code of what is said of bytes in such a one
# The roles that masters need, and that a planner may state for all items in place of a column.
STATED = {"setup", "holding"}
NAMES = {"item", "description"}  # the roles that each table of items has

# Columns of today's tables that say little of what a table is.
ASIDE = {
    "stock": {"date", "measure", "factor"},
    "on_order": {"received", "cancelled", "closed", "measure", "factor"},
    "placed": {"measure", "factor"},
}


@dataclass(frozen=True)
class Look:
    """What is seen of a file as a table of a kind: how it is written, the digest of its heading, its columns and its first
    rows as they are read, which of them has which role, what is wrong with it (`faults`), and with its columns (`wrong`).
    The columns of a wide table that stand for periods are two: of dates and of amounts. So its heading is the same with
    other periods (`is_wide`). `is_refused` says whether it can't be such a table at all.
    """

    kind: str
    written: str = ""
    source: str = ""
    heading: Sequence[str] = ()
    rows: Sequence[Sequence[str]] = ()
    columns: Mapping[str, SourceColumn] = field(default_factory=dict)
    faults: Sequence[Fault] = ()
    wrong: Sequence[Fault] = ()
    is_wide: bool = False
    is_refused: bool = False

    @property
    def seen(self) -> set[str]:
        """Returns the roles that the file has, also those that one of two columns may have."""
        said = [one.said for one in self.wrong if isinstance(one.said, Remark)]
        twice = {str(it.facts["role"]) for it in said if it.code == TWO_COLUMNS}
        return twice | self.columns.keys()

    @property
    def fits(self) -> bool:
        """Returns whether the file has all columns that its kind needs, and more than names."""
        if self.kind == LAWS and self.wrong:
            return False
        needed = needed_of(self.kind, self.seen) - STATED
        return needed <= self.seen and not self.seen <= NAMES

    @property
    def rank(self) -> tuple[int, bool, bool]:
        """Returns what sorts the kinds that a file fits: by how many columns it has of each. Of two dates one is that of an order."""
        needed = needed_of(self.kind, self.seen)
        said = self.seen - ASIDE.get(self.kind, set())
        return len(said), needed <= self.seen, self.kind == "orders"

    @property
    def likely(self) -> str:
        """Returns the only likely encoding of bytes that are not UTF-8; empty if there is none, or several."""
        for fault in self.faults:
            if isinstance(fault.said, Remark) and fault.said.code == ONE_LIKELY:
                return str(fault.said.facts["encoding 1"])
        return ""

    @property
    def roles(self) -> dict[int, str]:
        """Returns the role of each column that has one, by its place."""
        return {column.place: role for role, column in self.columns.items()}


def needed_of(kind: str, roles: Collection[str]) -> set[str]:
    """Returns the roles that a table with these must have. What is ordered may say what is to come."""
    is_ordered = kind == "on_order" and ORDERED in roles
    return NEEDED[kind] - {"quantity"} if is_ordered else NEEDED[kind]


def look_at(kind: str, table: str, words: Reading, room: Path | None = None) -> Look:
    """Returns what is seen of a file as a table of a kind. A gzipped file is unpacked in `room`."""
    faults = list[Fault]()
    try:
        with opened(table, kind, words.rules_of(kind), room) as sheet:
            sheet.is_sample = True
            if sheet.fault:
                faults.append(sheet.fault)
            found, wrong = columns_in(kind, sheet, words)
            return Look(
                kind,
                sheet.written,
                digest_of(found.heading) if found.heading else "",
                found.heading if found is sheet else found.heading[:-1],
                [*seen_rows(found, faults)],
                found.columns,
                faults,
                [*map(sheet.fault_of, wrong)],
                found is not sheet,
            )
    except Refused as why:
        faults += faults_of(why)
        return Look(kind, faults=faults, is_refused=True)


def looks_as(
    kinds: Sequence[str], table: str, words: Reading, room: Path | None = None
) -> list[Look]:
    """Returns what is seen of a file as a table of each of some kinds. What these share is read once."""
    with contextlib.ExitStack() as stack:
        with contextlib.suppress(Refused):
            rules = words.rules_of(kinds[0])
            sheet = stack.enter_context(opened(table, kinds[0], rules, room))
            if table.lower().endswith(".gz"):
                table = str(sheet.path)  # It is unpacked once.
        seen = [look_at(kind, table, words, room) for kind in kinds]
    return seen


def faults_of(why: Refused) -> Sequence[Fault]:
    """Returns the faults of an error."""
    return why.faults if isinstance(why, RefusedFaults) else [Fault(why.message)]


def seen_rows(sheet: Sheet, faults: list[Fault]) -> Iterator[list[str]]:
    """Yields the first rows below the heading of a table as texts, up to one that can't be read, which is a fault."""
    rows = (
        [*map(text_of, cells)]
        for line, cells in sheet.rows()
        if line > sheet.line and any(map(text_of, cells))
    )
    try:
        yield from itertools.islice(rows, SEEN_ROWS)
    except Refused as why:
        faults += faults_of(why)


def likeliest(looks: Iterable[Look], known: Mapping[str, str]) -> Look | None:
    """Returns of what is seen of a file as tables of several kinds what it is: what a file with this heading is `known` to
    be, else the kind that it fits with most columns; None if none is clear."""
    seen = [*looks]
    for one in seen:
        if known.get(one.source) == one.kind:
            return one
    fitting = sorted((one for one in seen if one.fits), key=lambda one: one.rank)
    if not fitting or any(one.is_refused for one in seen):
        return None
    *others, best = fitting
    return None if others and others[-1].rank == best.rank else best


def stated_roles(
    look: Look, stated: Mapping[str, str], roles: Mapping[int, str]
) -> dict[str, str]:
    """Returns which columns are to be stated: those that are not found by their names, if the columns at these places have
    these roles, and an empty name for a role that none of them has any longer. Raises Refused for two of one role.
    """
    chosen = dict[str, str]()
    for place, role in roles.items():
        if role in chosen:
            raise Refused(f"two columns are to be the {role}", "choose one of them")
        if role:
            chosen[role] = look.heading[place]
    asked = {look.roles[place] for place in roles if place in look.roles}
    known = ("", *look.heading)
    names = {
        role: name
        for role, name in stated.items()
        if role not in asked and name in known
    }
    usual = {role: one.name for role, one in look.columns.items() if one.is_guess}
    names |= {**dict.fromkeys(asked & usual.keys(), ""), **chosen}
    return {role: name for role, name in names.items() if usual.get(role) != name}


def words_with(
    tree: Mapping[str, Any],
    look: Look,
    roles: Mapping[int, str],
    units: Mapping[int, str],
    decimals: Mapping[int, str],
    written: Mapping[str, Any],
) -> dict[str, Any]:
    """Returns the table [catalogue] of crnplan.toml with what is chosen of a file: by the places of columns their roles,
    units and decimal signs, and how the file is written. What is empty is left to the file. A column that gets another
    role now gets neither unit nor sign. Raises Refused for two columns of one role."""
    kept = dict[int, str]()
    for place, role in look.roles.items():
        if roles.get(place, role) == role:
            kept[place] = role
    files = tree.get("written", {})
    own = {**files.get(look.kind, {}), **written}
    own["decimal"] = {**own.get("decimal", {})}
    counts = {**tree.get("units", {})}
    for place, role in kept.items():
        if place in decimals:
            own["decimal"][role] = decimals[place]
        if place in units:
            counts[f"{look.kind}.{role}"] = units[place]
    words: dict[str, Any] = {
        **tree,
        "units": filled(counts),
        "written": filled({**files, look.kind: own}),
    }
    if look.heading:
        words[look.kind] = stated_roles(look, tree.get(look.kind, {}), roles)
    return {name: value for name, value in words.items() if value != {}}


def filled(tree: Mapping[str, Any]) -> dict[str, Any]:
    """Returns a table without what is empty in it and in its tables."""
    parts = {
        name: filled(value) if isinstance(value, Mapping) else value
        for name, value in tree.items()
    }
    return {name: value for name, value in parts.items() if value not in ("", {})}
