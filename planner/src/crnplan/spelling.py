"""Spells the arguments that a message names: a function shows them as they are called, a command as its options."""
from __future__ import annotations

import contextlib
import re
from collections.abc import Callable, Iterator
from contextvars import ContextVar

# The signs around the name of an argument, and before its value. Texts of users, which are escaped, have none.
MARK, VALUE = "\x1f", "\x1e"
# What a terminal would obey, or TOML forbids: control characters but for ends of lines and tabs, parts of characters,
# and changes of the direction of writing.
UNSHOWN = re.compile(
    r"[\x00-\x08\x0b-\x1f\x7f-\x9f\ud800-\udfff\u2028-\u202e\u2066-\u2069]"
)


def escaped(text: str) -> str:
    """Returns a text of others with escapes for what a terminal would obey, as TOML and JSON spell them."""
    return UNSHOWN.sub(lambda sign: f"\\u{ord(sign[0]):04x}", text)


def argument(name: str, value: str = "") -> str:
    """Returns the name of an argument, perhaps with a value, as it stands in a message until that is shown."""
    return f"{MARK}{name}{VALUE}{value}{MARK}"


def as_python(name: str, value: str) -> str:
    """Returns an argument as a call of Python has it. KEY=TEXT and FILE.ROLE=TEXT are entries of its table."""
    if not value:
        return name
    place, sign, text = value.partition("=")
    if not sign:
        return f"{name}={value}"
    entry = text if text.isdecimal() and text == str(int(text)) else f'"{text}"'
    kind, _, role = place.partition(".")
    if role:
        return f'{name}={{"{kind}": {{"{role}": {entry}}}}}'
    return f'{name}={{"{place}": {entry}}}'


Spell = Callable[[str, str], str]
_spelling: ContextVar[Spell] = ContextVar("spelling", default=as_python)


@contextlib.contextmanager
def spelt(spell: Spell) -> Iterator[None]:
    """Spells arguments by a function of name and value within the block, as a command does by its options."""
    token = _spelling.set(spell)
    try:
        yield
    finally:
        _spelling.reset(token)


def worded(message: str) -> str:
    """Returns a message with its arguments spelt."""
    spell = _spelling.get()
    parts = message.split(MARK)
    for place in range(1, len(parts), 2):
        name, _, value = parts[place].partition(VALUE)
        parts[place] = spell(name, value)
    return "".join(parts)
