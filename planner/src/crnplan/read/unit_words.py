"""Finds the units and the currency that the words of a heading say."""
from __future__ import annotations

import re
from collections.abc import Mapping, Sequence

from .amounts import CODES, ITEM, PERCENT, SIGNS, UNITS
from .cells import HEADINGS, plain_name

BESIDE = {*HEADINGS["beside"]["words"]}
# Those before a number of items of which the price is stated, and words that have one of these in them.
FOR, FOR_EACH = BESIDE - {*HEADINGS["beside"]["inside"]}, HEADINGS["beside"]["each"]
IMPLIED = {name: unit for unit, names in HEADINGS["implied"].items() for name in names}
SHARES = HEADINGS["counted"]["share"]["units"]
# Currencies by the plain words of their codes and signs. A sign without letters may stand anywhere in a heading.
CURRENCIES = {
    plain_name(word): SIGNS.get(word, word)
    for word in (*SIGNS, *CODES)
    if plain_name(word)
}
SYMBOL = re.compile(
    "|".join(
        re.escape(sign)
        for sign in (*SIGNS, *CODES)
        if not sign[-1].isalpha() and sign[-1] != "."
    )
)


def is_number(words: Sequence[str], place: int) -> bool:
    """Returns whether a word of a name is a number of items, as in `per 100` and `pack of 12`, and no year."""
    word = words[place]
    if place == 0 or not word.isdecimal() or not word.isascii():
        return False
    before = words[place - 1]
    is_beside = before in BESIDE or UNITS.get(before) == "pack"
    return is_beside and int(word) > 1 and not 1900 <= int(word) <= 2200


def bare_name(name: str) -> tuple[str, dict[str, str]]:
    """Returns a plain name without the words of its units, and these by their units: those of headings.toml, or numbers of
    items."""
    words = name.split()
    bare = list[str]()
    units = dict[str, str]()
    for place, word in enumerate(words):
        unit = word if is_number(words, place) else UNITS.get(word)
        if unit:
            units[unit] = word
        elif word not in BESIDE:
            bare.append(word)
    return (" ".join(bare) if units else name), units


def counting(units: Mapping[str, str]) -> dict[str, str]:
    """Returns the units of a name without those that say nothing more beside another one: items, packs of a number, and the
    year of a share. One at most can count."""
    left = dict(units)
    if any(map(str.isdecimal, left)):
        left.pop("pack", None)
    if left.keys() & SHARES:
        left.pop("year", None)
    if PERCENT in left:
        left.pop("share", None)
    if len(left) > 1:
        left.pop(ITEM, None)
    return left


def may_be_thousands(name: str, units: Mapping[str, str]) -> bool:
    """Returns whether the price in a plain name may be in thousands, or the like, as well as for so many items."""
    words = name.split()
    for unit, word in units.items():
        before = words[words.index(word) - 1]
        is_for = word in FOR_EACH or before in FOR or UNITS.get(before) == "pack"
        if unit.rstrip("0") == "1" and ITEM not in units and not is_for:
            return True
    return False


def currency_in_name(name: str) -> str:
    """Returns the currency that the name of a column says; empty if it says none."""
    sign = SYMBOL.search(name)
    if sign:
        return SIGNS.get(sign[0], sign[0])
    words = plain_name(name).split()[1:]
    return next(filter(None, map(CURRENCIES.get, words)), "")
