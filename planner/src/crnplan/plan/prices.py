"""The prices of demand that is not met at once, by which items of a catalogue are planned together.

All items of a group have one price, of a unit of value that is not met at once. With the best policy of each for that
price, no others with the same service together cost less (Everett, Generalized Lagrange multiplier method, Operations
Research 11, 1963).
"""
from __future__ import annotations

from collections.abc import Mapping
from dataclasses import dataclass

from ..read.item import Item

REST = ""  # the name of the group of all classes that are not named


def weight_of(item: Item) -> float:
    """Returns what a unit of an item weighs among others: its value, 0 if it has no price."""
    return float(item.price or 0)


@dataclass(frozen=True)
class Price:
    """The `price` of a group, in money: of a unit of value that is not met at once. By theory its `items` then meet the
    share `promised` of their demand at once, at least the one that is `wanted`. If the price was found on the past, `tried`
    items met the share `past` of their demand with it."""

    wanted: float
    price: float
    promised: float
    items: int
    past: float | None = None
    tried: int = 0


@dataclass(frozen=True)
class Prices:
    """The prices of all groups, by the names of their classes."""

    groups: Mapping[str, Price]
