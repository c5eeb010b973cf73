"""Reads the settings of a catalogue: the table [catalogue] of crnplan.toml.

It says all that is wrong with them: file, line, column, what, and what to do.
"""
from __future__ import annotations

from pathlib import Path
from typing import Any

from ..errors import Refused
from ..read.columns import ROLES
from ..read.items import Reading
from ..read.configuration import COLUMNS
from ..toml.documents import Path as Place, TreeFault
from ..toml.rules import RANGE, Check, TableCheck, no_faults, read_tables, unknown
from ..vocabulary import RefusedEntries, Word, words_of
from .how import Settings

CONFIG = "crnplan.toml"
# Keys that there are no longer, and what to say in place of each.
RETIRED = {
    "weigh": "items that are planned together weigh by value, so give them a price",
    "window": "plans follow levels; or say by from=DATE where the record begins",
}


def word_check(word: Word, place: str = "") -> Check:
    """Returns the check of what stands at the key of a word of reading or planning, or of a part of it at a place."""

    def check(path: Place, value: Any) -> list[TreeFault]:
        stated = {place: value} if place else value
        try:
            word.kind.read(stated)
        except RefusedEntries as whys:
            own = path[:-1] if place else path
            return [
                TreeFault(RANGE, (*own, *filter(None, inner)), why.what, why.advice)
                for inner, why in whys.faults
            ]
        except Refused as why:
            return [TreeFault(RANGE, path, why.what, why.advice)]
        return []

    return check


def no_key(path: Place, value: Any) -> list[TreeFault]:
    """Returns the fault of a key that should not be there, with what to say in place of one that was there once."""
    advice = RETIRED.get(str(path[-1]), "")
    return [fault._replace(advice=advice) for fault in unknown(path, value)]


def catalogue_rules() -> TableCheck:
    """Returns the rules of the settings of a catalogue. Other tables of the file are not ours."""
    keys = dict[str, Check]()
    for word in words_of(Reading, Settings).values():
        if word.name == COLUMNS:
            keys |= {kind: word_check(word, kind) for kind in ROLES}
        elif word.key:
            keys[word.key] = word_check(word)
    own = TableCheck(keys, other=no_key, is_whole=False)
    return TableCheck({"catalogue": own}, other=no_faults, is_whole=False)


CATALOGUE_RULES = catalogue_rules()


def read_config(path: str | Path | None) -> dict[str, Any]:
    """Returns the table [catalogue] of a file, by default of crnplan.toml in this folder; nothing if it is not there.

    Raises Refused if a named file can't be read, and RefusedFaults with all that is wrong with the table.
    """
    if path is None and not Path(CONFIG).is_file():
        return {}
    return dict(read_tables(path or CONFIG, CATALOGUE_RULES).get("catalogue", {}))
