"""Reads what masters say of the status of an item, as active, phase out or stopped.

It may also succeed another item, or be replaced by one.
"""
from __future__ import annotations

import re
from collections.abc import Mapping
from typing import TYPE_CHECKING

from .cells import (
    HEADINGS,
    LETTERS,
    Cell,
    Unreadable,
    plain_name,
    printable,
    text_of,
    without_accents,
)
from .item import NEW, NO_DEMAND, PHASE_OUT, STATED, STOPPED, USUAL, Item
from .quiet import has_stopped

if TYPE_CHECKING:
    from .items import Reading

ACTIVE, SUCCESSOR, REPLACED = "active", "successor", "replaced"
MEANINGS = ACTIVE, PHASE_OUT, STOPPED
BY_TEST, AS_STATED = (
    "by-test",
    "as-stated",
)  # whether a record says that an item has stopped, or its status alone
MEANING_OF = {
    word: meaning for meaning in MEANINGS for word in HEADINGS["statuses"][meaning]
}


def pattern_of(word: str) -> re.Pattern[str]:
    """Returns the pattern of a status that names an item behind a word, or in it where two points stand. Words of letters
    end before the item; Chinese ones need no blank."""
    before, _, behind = word.partition("..")
    end = r"\b" * (before[-1] < "\u2e80")
    return re.compile(
        rf"{re.escape(before)}{end}[\s:]*(.+?)\s*{re.escape(behind)}", re.IGNORECASE
    )


# What names another item, also without accents. `ersetzt durch` is compared before `ersetzt`.
NAMING = [
    (status, pattern_of(spelling))
    for status in (REPLACED, SUCCESSOR)
    for word in HEADINGS["statuses"][status]
    for spelling in (word, without_accents(word.translate(LETTERS)))
]


def status_of(cell: Cell, stated: Mapping[str, str]) -> tuple[str, str]:
    """Returns what a cell says, by what its texts are stated to mean, else by usual words: one of `MEANINGS`, `SUCCESSOR`
    with the item that this one succeeds, or `REPLACED` with its successor. Raises Unreadable.
    """
    text = text_of(cell).strip()
    meaning = stated.get(text) or MEANING_OF.get(plain_name(text))
    if meaning:
        return meaning, ""
    for status, pattern in NAMING:
        named = pattern.fullmatch(text)
        if named:
            return status, printable(named[1]).strip()
    raise Unreadable("no status", cell, known=", ".join(MEANINGS))


def past_of(item: Item, words: Reading) -> str:
    """Returns what the record of an item whose demand is known says of its past, if its status does not say that it ends: a
    law of its own needs so many periods. The record may say that it has stopped, whatever its status, if words let it.
    One whose law is stated is planned whatever its record says.
    """
    counts = item.known.counts
    if item.status in (STOPPED, PHASE_OUT):
        return item.status
    if item.law is not None:
        return STATED
    if len(counts) < words.least:
        return NEW
    if not any(counts):
        return NO_DEMAND
    if words.stopped == BY_TEST and has_stopped(counts, words.every):
        return STOPPED
    return USUAL
