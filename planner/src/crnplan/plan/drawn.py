"""Draws the items from which sums over all of them are estimated.

The largest ones are taken for certain, and some of the others by chance.

Source: Cochran, Sampling Techniques, 1977, chapters 6 (ratios) and 9A (chances in proportion to size); Ohlsson,
Sequential Poisson sampling, Journal of Official Statistics 14, 1998, pages 149 to 162.
"""
from __future__ import annotations

import heapq
from collections.abc import Mapping
from typing import Any, NamedTuple, TypeVar

from ..chances import Floats
from ..store.digests import number_of

SHARE = 0.8  # of all sizes, which items that are taken carry
BITS = 64  # of a random number
Entry = TypeVar("Entry", bound=tuple[Any, ...])


class DrawnItems(NamedTuple):
    """The items that are `taken` for certain, and others that are drawn by chance, each with that chance."""

    taken: frozenset[str]
    chances: Mapping[str, float]

    @property
    def names(self) -> list[str]:
        """Returns all of them, in order."""
        return sorted({*self.taken, *self.chances})


class Draws:
    """Takes items with their sizes, one by one, and keeps few of them: the greatest, and those that chance draws first.
    It does not matter in which order they come."""

    def __init__(self, most: int, most_taken: int) -> None:
        """Prepares to take and draw at most so many together, of which at most so many are taken for certain."""
        self._most, self._most_taken = most, most_taken
        self._greatest = list[tuple[float, str]]()
        self._first = list[tuple[float, str, float]]()

    def add(self, name: str, size: float) -> None:
        """Adds an item. One without a size is never drawn."""
        if size <= 0:
            return
        keep_greatest(self._greatest, (size, name), self._most)
        # As many may be taken for certain as are drawn.
        # A number above 0 and at most 1, which is as good as at random.
        uniform = (number_of(name, BITS) + 1) / 2.0**BITS
        keep_greatest(self._first, (-uniform / size, name, size), 2 * self._most)

    def drawn(self, total: float) -> DrawnItems:
        """Returns the items that are taken and drawn, of all whose sizes have this sum.

        Greatest first, items are taken for certain until they carry `SHARE` of all, but no more than may be of
        them; and beyond that while an item would be drawn with a chance of 1.
        """
        taken, left = list[str](), total
        for size, name in sorted(self._greatest, reverse=True):
            is_carried = left <= (1 - SHARE) * total or len(taken) >= self._most_taken
            if is_carried and size * (self._most - len(taken)) < left:
                break
            taken.append(name)
            left -= size
        certain, count = frozenset(taken), self._most - len(taken)
        chances = dict[str, float]()
        for _, name, size in sorted(self._first, reverse=True):
            if name not in certain and len(chances) < count:
                chances[name] = min(1.0, count * size / left) if left > 0 else 1.0
        if len(chances) < count:  # All of the others are there.
            return DrawnItems(certain.union(chances), {})
        return DrawnItems(certain, chances)


def keep_greatest(heap: list[Entry], entry: Entry, most: int) -> None:
    """Keeps the greatest entries, so many of them."""
    keep = heapq.heappush if len(heap) < most else heapq.heappushpop
    keep(heap, entry)


def estimated(parts: Floats, sizes: Floats, chances: Floats, total: float) -> float:
    """Returns the sum of a figure over items that were not taken for certain, from its parts of those that were drawn.

    It follows the sum of their sizes, which is known for all of these items: `total`. `parts`, `sizes` and `chances` are
    by drawn item. It is 0 if fewer than two were drawn.
    """
    if total <= 0 or len(parts) < 2:
        return 0.0
    ratio = (parts / chances).sum() / (sizes / chances).sum()
    return float(ratio * total)
