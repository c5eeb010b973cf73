"""Changes fields of a scenario as a tree."""
from __future__ import annotations

import dataclasses
from collections.abc import Mapping, Sequence
from typing import Any

from . import formats
from .errors import Refused
from .law import law_of
from .money import Costs, whole
from .policies import policies_of
from .store.digests import sha256
from .toml.documents import shown

# The fields that `Scenario.changed` takes.
CHANGEABLE = (*(name for name in formats.SINCE if name != "policy"), "policies")


def change_tree(tree: dict[str, Any], changes: Mapping[str, Any]) -> None:
    """Changes fields of a tree: see `Scenario.changed`. Raises Refused."""
    for name, value in changes.items():
        if name not in CHANGEABLE:
            names = ", ".join((*CHANGEABLE, *formats.COSTS))
            raise Refused(f"a scenario has no field {name!r}; it has {names}")
        if name == "policies":
            policies = policies_of(value)
            tree["policy"] = [dataclasses.asdict(policy) for policy in policies]
        elif name == "costs":
            costs = vars(value) if isinstance(value, Costs) else value
            if not isinstance(costs, Mapping):
                raise Refused(
                    f"costs: {shown(value)} is no dict", 'write {"setup": 32}'
                )
            for cost, amount in costs.items():
                tree["costs"][cost] = whole(amount, f"costs: {cost}")
        elif name in formats.DRAWS and value is None:
            tree.pop(name, None)
        elif name in formats.DRAWS:
            tree[name] = law_of(value, name).tree
        elif name == "key":
            tree[name] = key_words(value)
        else:
            tree[name] = whole(value, name)


def key_words(key: str | Sequence[str]) -> list[str]:
    """Returns the four words of a key. They follow from a text by SHA-256. Raises Refused for what is neither."""
    if isinstance(key, Sequence) and not isinstance(key, str):
        return list(key)
    if not isinstance(key, str):
        raise Refused(
            f"key: {shown(key)} is no key", "give a text, or four words of digits"
        )
    try:
        digits, length = sha256(key), formats.DIGITS_OF_WORD
    except UnicodeEncodeError:
        raise Refused(f"key: {shown(key)} is no text in UTF-8") from None
    return [
        digits[place : place + length]
        for place in range(0, formats.WORDS_OF_KEY * length, length)
    ]
