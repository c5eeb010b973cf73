"""The policies that a search may choose: all pairs (s,S) within bounds."""
from __future__ import annotations

from dataclasses import dataclass
from typing import Any, TypeVar

from ..chances import Whole
from ..formats import MOST_ITEMS

Places = TypeVar("Places", int, Whole)


@dataclass(frozen=True)
class Feasible:
    """The pairs (s,S) that may be chosen, in items of a scenario: S - s is at most `most_gap`, s at least `least_point`, and S
    at most `most_level`."""

    least_point: int = 0
    most_level: int = MOST_ITEMS
    most_gap: int = MOST_ITEMS

    @property
    def has_all_levels(self) -> bool:
        """Returns whether S has no bound above s."""
        return self.most_level == ALL.most_level

    @property
    def widest(self) -> int:
        """Returns the greatest S - s; below 0 if no S is as high as the least s."""
        return min(self.most_level - self.least_point, self.most_gap)

    def gap_in(self, cell: Places, step: int, exact: bool) -> Places:
        """Returns S - s for cells of a lattice: the least in the cell; if the lattice is not exact, one from its middle
        on if there is one, and room for it up to the greatest gap. If there is none in the cell, it is beyond.
        """
        low = cell * step
        near = low + (0 if exact else (step - 1) // 2)
        most = self.widest
        near -= (near - most) * (near > most) * (low <= most)
        return near

    def has(self, point: Any, level: Any) -> Any:
        """Returns whether pairs may be chosen, whatever S - s is."""
        return (
            (self.least_point <= point) & (point <= level) & (level <= self.most_level)
        )

    def allows(self, point: int, level: int) -> bool:
        """Returns whether a pair may be chosen."""
        return bool(self.has(point, level)) and level - point <= self.most_gap


ALL = Feasible()
