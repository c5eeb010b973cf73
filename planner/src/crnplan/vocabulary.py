"""Declares words: what each says, how a value of it is read by whatever door it comes, and classes whose fields are words.

A door is a call, an option of a command, a key of crnplan.toml or a field of the desk. It only spells the name of a word.
"""
from __future__ import annotations

import datetime
import inspect
import re
import textwrap
from collections.abc import Callable, Iterable, Mapping, Sequence
from dataclasses import dataclass, field, fields, replace
from difflib import get_close_matches
from fractions import Fraction
from functools import cache, partial
from typing import Any, TypeVar

from .errors import Refused, argument
from .money import exact, is_missing, whole_in
from .toml.documents import shown

Read = Callable[[Any], Any]
Made = TypeVar("Made", bound=type)
Value = TypeVar("Value")
WIDTH = 110  # of the lines of a docstring
# How a door asks for a word: for a text, one of some texts, a flag, several texts, texts by name, a date, or a form of what
# is printed.
TEXT, CHOICE, FLAG, TEXTS, PAIRS, DATE, FORM = (
    "text",
    "choice",
    "flag",
    "texts",
    "pairs",
    "date",
    "form",
)
SAYS = {"true": True, "yes": True, "false": False, "no": False}
WORD = "word"  # the metadata of a field that is a word
UNNAMED = re.compile(r"[\x00\ud800-\udfff]")  # what no file or item has in its name


def read_argument(name: str, value: Any, read: Callable[[Any], Value]) -> Value:
    """Returns an argument as it is read. Raises Refused with its name."""
    try:
        return read(value)
    except Refused as why:
        raise Refused(f"{argument(name)}: {why.what}", why.advice) from why


class RefusedEntries(Refused):
    """A table with values that can't be meant: the path of each in the table, with what is wrong with it."""

    def __init__(self, faults: Sequence[tuple[tuple[str, ...], Refused]]) -> None:
        self.faults = faults
        path, why = faults[0]
        place = ".".join(filter(None, path))
        super().__init__(f"{place}: {why.what}" if place else why.what, why.advice)


@dataclass(frozen=True)
class Kind:
    """What stands at a word. `read` returns what a value means, or raises Refused; `type` says it in the reference, `metavar`
    and `shape` in a command and on a page, and `ends` those of a range behind the help of a command.
    """

    read: Read
    type: str = ""
    metavar: str = "TEXT"
    shape: str = TEXT
    choices: Sequence[str] = ()
    ends: str = ""


@dataclass(frozen=True)
class Word:
    """A word that a user says: `name` as an argument of a call, `flag` as an option, and `key` in crnplan.toml, empty if it
    is none there. One that is `hidden` is declared elsewhere. A command takes one that is `positional` without its flag, and
    shows in its help a default that is `shown`."""

    kind: Kind
    help: str = ""
    name: str = ""
    flag: str = ""
    key: str = ""
    default: Any = None
    hidden: bool = False
    positional: bool = False
    shown: bool = False

    def meant(self, value: Any) -> Any:
        """Returns what a value means. Raises Refused with the name of the word."""
        return read_argument(self.name, value, self.kind.read)

    @property
    def entry(self) -> str:
        """Returns the word as numpydoc has an argument: its type, its default, and what it means."""
        has_default = self.default not in (None, (), "", {})
        default = f"default {self.default!r}" if has_default else "optional"
        lines = textwrap.fill(
            self.help, WIDTH, initial_indent="    ", subsequent_indent="    "
        )
        return f"{self.name} : {self.kind.type}, {default}\n{lines}"

    @property
    def parameter(self) -> inspect.Parameter:
        """Returns the word as an argument of a call."""
        return inspect.Parameter(
            self.name, inspect.Parameter.KEYWORD_ONLY, default=self.default
        )


def word(
    kind: Kind,
    default: Any = None,
    help: str = "",
    *,
    flag: str = "",
    key: str | None = None,
    hidden: bool = False,
) -> Any:
    """Declares a field of a class as a word. Without a `key` its key is its name; with an empty one it has none."""
    kind = replace(kind, read=partial(read_known, kind.read))
    make = partial(Word, kind, help, default=default, hidden=hidden)
    return field(default=default or None, metadata={WORD: (make, flag, key)})


def read_known(read: Read, value: Any) -> Any:
    """Returns what a value means. Raises Refused for one that says that there is none."""
    if is_missing(value) or isinstance(value, str) and not value:
        what = f"{shown(value)} is not known"
        raise Refused(what, "leave it out, or write a value")
    return read(value)


def _words_in(kind: Any) -> Mapping[str, Word]:
    """Returns the words of a class by name."""
    words = dict[str, Word]()
    for part in fields(kind):
        if WORD in part.metadata:
            make, flag, key = part.metadata[WORD]
            flag = "--" + (flag or part.name.replace("_", "-"))
            key = part.name if key is None else key
            words[part.name] = make(name=part.name, flag=flag, key=key)
    return words


words_in: Callable[[Any], Mapping[str, Word]] = cache(_words_in)


def words_of(*kinds: type) -> dict[str, Word]:
    """Returns the words of some classes by name, each from where it is declared."""
    known = [word for kind in kinds for word in words_in(kind).values()]
    return {word.name: word for word in known if not word.hidden}


def plain(value: Any) -> Any:
    """Returns a value as TOML and JSON have it. A number that is exact is a text."""
    if isinstance(value, Mapping):
        return {name: plain(part) for name, part in value.items()}
    if isinstance(value, (list, tuple)):
        return [*map(plain, value)]
    if isinstance(value, Fraction):
        decimal = f"{float(value):.15g}"
        return decimal if Fraction(decimal) == value else str(value)
    if isinstance(value, datetime.date):
        return str(value)
    return value


class Vocabulary:
    """A class of words, which dataclasses are made of. Each word is read as its kind says; None is as by default. What is
    no word is taken as it is. `given` has the words that were said, as they are meant.
    """

    given: Mapping[str, object]

    def __init__(self, **given: object) -> None:
        words, said = words_in(type(self)), dict[str, Any]()
        known = {part.name: part.default for part in fields(self)}
        unknown = given.keys() - known
        if unknown:
            raise TypeError(
                f"{type(self).__name__}() got an unexpected keyword argument {min(unknown)!r}"
            )
        for name, default in known.items():
            value, word = given.get(name), words.get(name)
            if value is None:
                value = word.default if word else default
            elif word:
                value = said[name] = word.meant(value)
            object.__setattr__(self, name, value)
        object.__setattr__(self, "given", said)
        self._check()

    def _check(self) -> None:
        """Raises Refused for words that can't be meant together."""

    def __repr__(self) -> str:
        said = [f"{name}={plain(value)!r}" for name, value in self.given.items()]
        return f"{type(self).__name__}({', '.join(said)})"


def explain(thing: Any, words: Iterable[Word], heading: str, before: str) -> None:
    """Adds words to a docstring under a heading, before another one."""
    end = f"{before}\n{'-' * len(before)}"
    text, end, rest = (inspect.getdoc(thing) or "").partition(end)
    entries = [word.entry for word in words]
    lines = [text, heading, "-" * len(heading), *entries, "", end + rest]
    thing.__doc__ = "\n".join(lines).strip()


def documented(kind: Made) -> Made:
    """Adds the words of a class to its docstring and to the signature that users see."""
    words = words_of(kind).values()
    explain(kind, words, "Parameters", "Examples")
    signature = inspect.Signature([one.parameter for one in words])
    setattr(kind, "__signature__", signature)
    return kind


def near(name: object, known: Iterable[str], them: str = "") -> str:
    """Returns what to write in place of a text that is none of some: the one that is spelt like it, or one of `them`."""
    close = get_close_matches(name.lower(), known, 1) if isinstance(name, str) else ()
    return f"write {close[0]}" if close else f"write one of {them or ', '.join(known)}"


def choice(*choices: str, said: str = "", metavar: str = "") -> Kind:
    """Returns the kind of one of some texts, which are `said` so."""
    names = said or ", ".join(choices)

    def read(value: Any) -> str:
        if isinstance(value, str) and value in choices:
            return value
        what = f"{shown(value)} is not one of {names}"
        raise Refused(what, near(value, choices, "them"))

    stated = "{" + ", ".join(map(repr, choices)) + "}"
    return Kind(read, stated, metavar or "|".join(choices), CHOICE, choices)


def read_text(value: Any) -> str:
    if not isinstance(value, str):
        raise Refused(f"{shown(value)} is no text", "write it in quotes")
    return value


def read_flag(value: Any) -> bool:
    if isinstance(value, str) and value.lower() in SAYS:
        return SAYS[value.lower()]
    if type(value).__name__ not in ("bool", "bool_"):
        raise Refused(f"{shown(value)} is neither true nor false", "write one of them")
    return bool(value)


def read_whole(value: Any) -> int:
    text = value.strip() if isinstance(value, str) else ""
    is_number = text.removeprefix("-").isdecimal() and len(text) < WIDTH
    return whole_in(int(text) if is_number else value)


def read_number(value: Any) -> float:
    number = exact(value)
    if number is None:
        raise Refused(f"{shown(value)} is no number", "write it as 12.5")
    return float(number)


def within(kind: Kind, least: int, most: int | None = None) -> Kind:
    """Returns the kind of a number in a range, whose second end may be missing."""
    said = f"at least {least:,}"
    ends = f"x>={least}"
    if most is not None:
        said = f"from {least:,} to {most:,}"
        ends = f"{least}<=x<={most}"

    def read(value: Any) -> Any:
        number = kind.read(value)
        if number < least:
            raise Refused(f"{shown(number)} is not {said}", f"write {least:,} or more")
        if most is not None and number > most:
            raise Refused(f"{shown(number)} is not {said}", f"write {most:,} or less")
        return number

    return replace(kind, read=read, type=f"{kind.type}, {said}", ends=ends)


def numbers(least: int, most: int) -> Kind:
    """Returns the kind of a whole number in a range."""
    return within(WHOLE, least, most)


def several(read: Read) -> Read:
    """Returns what reads several values, or a single one."""

    def read_all(value: Any) -> tuple[Any, ...]:
        is_one = isinstance(value, (str, bytes, Mapping))
        values = [value] if is_one or not isinstance(value, Iterable) else value
        return tuple(map(read, values))

    return read_all


def entry_name(name: Any) -> str:
    """Returns the name of an entry of a table. Numbers are names too, as the keys of a frame."""
    if isinstance(name, str):
        if not UNNAMED.search(name):
            return name
    elif exact(name) is not None:
        return str(name if name != int(name) else int(name))
    raise Refused(f"{shown(name)} is no name", "write it as in the table")


def parted(text: Any, is_place: bool, may_lack_name: bool) -> tuple[str, Any]:
    """Returns the name and the value of a text NAME=VALUE, of which the name of a place FILE.ROLE has no =."""
    is_named = isinstance(text, str) and "=" in text
    if may_lack_name and not is_named:
        return "", text
    if is_named:
        name, _, value = text.partition("=") if is_place else text.rpartition("=")
        if name.strip() and (not is_place or "." in name):
            return name.strip(), value.strip()
    form = "FILE.ROLE=VALUE" if is_place else "NAME=VALUE"
    raise Refused(f"{shown(text)} is no table", f"write values by name, or {form}")


def table_in(
    value: Any, is_place: bool = False, may_lack_name: bool = False
) -> dict[Any, Any]:
    """Returns values by name: a table, or what texts NAME=VALUE say, or a single value without a name. Raises Refused for
    a name with two values."""
    if isinstance(value, Mapping):
        return {name: one for name, one in value.items() if one is not None}
    table = dict[Any, Any]()
    for text in several(lambda one: one)(value):
        name, part = parted(text, is_place, may_lack_name)
        if name in table and repr(table[name]) != repr(part):
            both = f"{shown(table[name])} and {shown(part)}"
            raise Refused(f"{both} are said of {name or 'all'}", "leave one out")
        table[name] = part
    return table


def entries(reads: Mapping[Any, Callable[[], Any]]) -> dict[str, Any]:
    """Returns the values of a table, each as its call reads it. Raises RefusedEntries with all that can't be meant."""
    values = dict[str, Any]()
    faults = list[tuple[tuple[str, ...], Refused]]()
    for name, read in reads.items():
        path = name if isinstance(name, str) else shown(name)
        try:
            values[entry_name(name)] = read()
        except RefusedEntries as whys:
            faults += [((path, *rest), why) for rest, why in whys.faults]
        except Refused as why:
            faults.append(((path,), why))
    if faults:
        raise RefusedEntries(faults)
    return values


def named(read: Read, table: Mapping[Any, Any]) -> dict[str, Any]:
    """Returns the values of a table, which are all read alike."""
    return entries({name: partial(read, value) for name, value in table.items()})


def by_name(read: Read, type: str, metavar: str) -> Kind:
    """Returns the kind of values by name."""
    return Kind(lambda value: named(read, table_in(value)), type, metavar, PAIRS)


YES = Kind(read_flag, "bool", shape=FLAG)
WHOLE = Kind(read_whole, "int", "N")
NUMBER = Kind(read_number, "float", "FLOAT")
