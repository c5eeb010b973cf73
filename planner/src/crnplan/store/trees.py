"""Makes values again from plain data that `dataclasses.asdict` has made of them, as JSON keeps it."""
from __future__ import annotations

import dataclasses
import typing
from typing import Any


def value_of(kind: Any, tree: Any) -> Any:
    """Returns a value of a type, which may be a dataclass, a NamedTuple, or a collection of these, from plain data. Raises
    ValueError, TypeError, LookupError or AttributeError for other data."""
    parts, origin = typing.get_args(kind), typing.get_origin(kind)
    if type(None) in parts:
        return None if tree is None else value_of(parts[0], tree)
    if origin in (tuple, list):
        return origin(value_of(parts[0], part) for part in tree)
    if parts:
        return {name: value_of(parts[1], part) for name, part in tree.items()}
    hints = typing.get_type_hints(kind)
    if not hints:
        return tree
    # A list of no fields is no dataclass, even if all of its fields have defaults.
    is_named = dataclasses.is_dataclass(kind) or isinstance(tree, dict)
    fields = tree.items() if is_named else zip(hints, tree)
    return kind(**{name: value_of(hints[name], part) for name, part in fields})
