"""What a planner orders of an item on a day, in place of what a plan says."""
from __future__ import annotations

import math
from dataclasses import dataclass
from fractions import Fraction

from ..errors import Refused
from ..money import exact
from ..remarks import Remark
from ..toml.documents import shown
from ..sentences import message


@dataclass(frozen=True)
class Quantity:
    """What a planner orders of an item, in items, perhaps with a reason. 0 leaves the order out."""

    items: int
    reason: str = ""


def quantity_fault(quantity: Fraction, item: str, pack: int) -> Remark | None:
    """Returns what is wrong with a quantity of an item, with the next ones below and above that can be ordered; None if it
    is some packs, or 0."""
    if quantity >= 0 and quantity % pack == 0:
        return None
    low = max(0, math.floor(quantity / pack) * pack)
    code = "no packs"
    if quantity < 0:
        code = "quantity below 0"
    elif pack == 1:
        code = "no whole quantity"
    return Remark(
        code,
        {
            "quantity": float(quantity),
            "item": item,
            "pack": pack,
            "low": low,
            "high": low + pack,
        },
    )


def quantity_of(text: str, item: str, pack: int) -> int:
    """Returns the quantity of an item that a planner writes. Raises Refused, with the next ones that can be ordered."""
    quantity = exact(text)
    if quantity is None:
        raise Refused(f"{item}: {shown(text)} is no number", "write digits, as 12")
    wrong = quantity_fault(quantity, item, pack)
    if wrong:
        raise Refused(message(wrong))
    return int(quantity)
