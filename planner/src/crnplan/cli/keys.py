"""What a command says of words of reading and planning: by its options, and by --set KEY=VALUE."""
from __future__ import annotations

from collections import defaultdict
from collections.abc import Mapping, Sequence
from typing import Any

from ..errors import Refused
from ..plan.how import Settings
from ..plan.settings import RETIRED
from ..read.columns import ROLES
from ..read.configuration import COLUMNS, made_from, merged, stated
from ..read.items import Reading
from ..spelling import argument
from ..toml.documents import shown
from ..vocabulary import FLAG, PAIRS, TEXTS, Word, near
from . import known_words

ALL_KEYS = "the keys that docs/TABLES.md has"


def words_of(
    asked: Mapping[str, Any], config: Mapping[str, Any]
) -> tuple[Reading, Settings]:
    """Returns how files are read and how items are planned: as a command says, else by the configuration. Raises Refused
    for what can't be meant, and for a word with two values."""
    known, said = known_words(), defaultdict[str, list[str]](list)
    for text in asked["stated"]:
        name, value = entry_of(text, known)
        said[name].append(value)
    for name in known.keys() & asked.keys():
        if asked[name]:
            said[name] += asked[name]
    tree = dict(config)
    for name, texts in said.items():
        word = known[name]
        value = word.meant(one_or_all(word, texts))
        tree = merged(tree, stated(name, word.key, value))
    return made_from(Reading, tree), made_from(Settings, tree)


def entry_of(text: str, known: Mapping[str, Word]) -> tuple[str, str]:
    """Returns the name of a word, and what is said of it by KEY=VALUE, or by KEY.NAME=VALUE of an entry of a table. Raises
    Refused for a key that there is not."""
    path, sign, value = text.partition("=")
    if not sign:
        said = f"{argument('stated', text)} is not KEY=VALUE"
        raise Refused(said, "write it as fill=95%")
    key, _, entry = path.strip().partition(".")
    if key in ROLES:
        return COLUMNS, text
    names = {word.key: word.name for word in known.values() if word.key}
    names.pop(COLUMNS)  # Its keys are those of tables.
    if key not in names:
        said = f"{argument('stated', text)}: {shown(key)} is no key of crnplan.toml"
        advice = RETIRED.get(key) or near(key, [*names, *ROLES], ALL_KEYS)
        raise Refused(said, advice)
    return names[key], f"{entry}={value}" if entry else value


def one_or_all(word: Word, texts: Sequence[str]) -> str | Sequence[str]:
    """Returns the texts of a word that takes several, or the one of another. Raises Refused for two."""
    if word.kind.shape in (TEXTS, PAIRS):
        return texts
    if len({*texts}) > 1:
        both = " and ".join(argument(word.name, text) for text in texts[:2])
        raise Refused(f"{both} can't be meant together", "leave one out")
    return texts[0]


def entry_text(word: Word, value: str) -> str:
    """Returns what is said of a word as --set has it: KEY=VALUE, or KEY.NAME=VALUE for an entry of a table. Of a flag it is
    that it holds; without a value it is the key."""
    if word.kind.shape == FLAG:
        value = "true"
    if word.name == COLUMNS:
        return value
    sign = "." if word.kind.shape == PAIRS else "="
    return f"{word.key}{sign}{value}" if value else word.key
