"""Declares the options of commands, the keys of files and the arguments of calls, once each, from options.toml."""
from __future__ import annotations

import functools
import pkgutil
import re
import tomllib
from collections.abc import Iterable, Sequence
from dataclasses import replace
from pathlib import Path
from typing import Any

from .errors import Refused
from .toml.documents import shown
from .vocabulary import Kind, Word, choice, within

# The name of a constant or a function of the package.
REFERENCE = re.compile(r"\{([\w.]+)\}")
CALL = "call"  # the table of words of calls alone
KINDS = "kinds"  # the table of kinds
SEEN = "__seen__"  # the attribute of a function with the signature that users see


@functools.cache
def declared() -> dict[str, Any]:
    """Returns the tables of options.toml."""
    return tomllib.loads(Path(__file__).with_name("options.toml").read_text("utf-8"))


def resolved(value: Any) -> Any:
    """Returns what a reference stands for, as {formats.MOST_ITEMS} for a constant of the package; another value as it is."""
    if isinstance(value, list):
        return [resolved(part) for part in value]
    reference = REFERENCE.fullmatch(value) if isinstance(value, str) else None
    return pkgutil.resolve_name(f"{__package__}.{reference[1]}") if reference else value


def instance_of(kind: type) -> Kind:
    """Returns the kind of a value of a class."""
    name = kind.__name__

    def read(value: Any) -> Any:
        if isinstance(value, kind):
            return value
        raise Refused(f"{shown(value)} is no {name}", f"give a {name}")

    return Kind(read, name)


def kind_of(
    kind: str | type = "", choices: Sequence[str] = (), range: Sequence[int] = ()
) -> Kind:
    """Returns the kind of one of some texts, of a number in a range, or that of a name in the table of kinds, or of the values
    of a class."""
    if choices:
        return choice(*choices, metavar=f"[{'|'.join(choices)}]")
    kind = kind or ("whole" if range else "text")
    known = resolved(declared()[KINDS].get(kind, kind))
    found: Kind = instance_of(known) if isinstance(known, type) else known
    return within(found, *range) if range else found


@functools.cache
def option(table: str, name: str) -> Word:
    """Returns the word of a name in a table of options.toml. What it refers to is imported now. Raises KeyError if there is
    none."""
    stated = declared()[table][name]
    if isinstance(stated, str):
        stated = {"kind": stated}
    facts: dict[str, Any] = {"name": name, "flag": "--" + name.replace("_", "-")}
    facts |= {fact: resolved(value) for fact, value in stated.items()}
    kind = kind_of(*(facts.pop(fact, "") for fact in ("kind", "choices", "range")))
    kind = replace(kind, metavar=facts.pop("metavar", kind.metavar))
    return Word(kind, **facts)


def word_of(name: str, tables: Iterable[str]) -> Word | None:
    """Returns the word of a name in the first of some tables of options.toml that has it; None if it is one of reading or
    planning, or if the call itself reads it."""
    for table in tables:
        if name in declared().get(table, ()):
            return option(table, name)
    return None
