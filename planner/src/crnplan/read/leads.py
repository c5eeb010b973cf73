"""Says whether the lead times of an item are from its master, from the receipts of its orders, or from both.

It says too whether receipts took as long as stated.
"""
from __future__ import annotations

import math
from collections.abc import Sequence
from fractions import Fraction

from ..remarks import Remark
from .item import Item

LEAD_FROM = RECEIPTS, STATED, BOTH = "orders", "masters", "both"
# What is said of receipts that are unlike the stated lead time, by which of them count.
SAID = {
    RECEIPTS: "lead of receipts",
    STATED: "lead as stated",
    BOTH: "lead of both",
}
# So many receipts of an item count before what its master states. The next one then takes longer than all of them with a
# chance of a sixth at most, if all are alike.
LEAST_RECEIPTS = 5
# Receipts are said to be unlike the stated lead time if more than this share of them took longer, or if their mean is
# off by more than it.
UNLIKE = Fraction(1, 10)


def counts_receipts(is_stated: bool, receipts: int, source: str) -> bool:
    """Returns whether so many receipts of an item count, whose master perhaps states a lead time."""
    enough = source == BOTH or source == RECEIPTS and receipts >= LEAST_RECEIPTS
    return receipts > 0 and (enough or not is_stated)


def leads_from(
    stated: Sequence[int], seen: Sequence[int], source: str
) -> tuple[int, ...]:
    """Returns the lead times of an item in periods: stated ones of its master, those that were seen, or both. The
    stated one then counts as one receipt more, in whole periods rounded up."""
    if not counts_receipts(bool(stated), len(seen), source):
        return tuple(stated)
    if not stated or source != BOTH:
        return tuple(seen)
    return *seen, math.ceil(Fraction(sum(stated), len(stated)))


def is_late(days: int, stated: Fraction) -> bool:
    """Returns whether a receipt took longer than stated, in days rounded up."""
    return days > math.ceil(stated)


def remark_on(item: Item, source: str) -> Remark | None:
    """Returns what is to be said of an item whose receipts are unlike its stated lead time; None if they are not, or
    too few."""
    receipts = item.receipts
    stated = item.stated
    if stated is None or len(receipts) < LEAST_RECEIPTS:
        return None
    late = Fraction(sum(is_late(days, stated) for days in receipts), len(receipts))
    seen = Fraction(sum(receipts), len(receipts))
    if late <= UNLIKE and abs(seen - stated) <= UNLIKE * stated:
        return None
    return Remark(
        SAID[source],
        {
            "receipts": len(receipts),
            "seen": float(seen),
            "stated": float(stated),
            "late": float(late),
        },
    )
