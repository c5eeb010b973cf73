"""Searches a grid of gaps, and then ever finer beside the best."""
from __future__ import annotations

from collections.abc import Callable, Iterable, Sequence
from typing import TYPE_CHECKING

if TYPE_CHECKING:
    from .long_run import Candidate

GRID_GROWTH = 1.15  # from a gap to the next, once they are not small
SMALL_GAP = 8  # below which each gap is looked at
CLOSE = 1 + 1e-9  # Costs whose ratio is at most this are equal but for rounding.


def gap_grid(most: int) -> list[int]:
    """Returns gaps from 0 to the most: all of them while they are small, and further apart as they grow."""
    gaps = []
    gap = 0
    while gap < most:
        gaps.append(gap)
        gap = gap + 1 if gap < SMALL_GAP else max(gap + 1, int(gap * GRID_GROWTH))
    return [*gaps, most]


def search(
    policies_of: Callable[[Sequence[int]], Iterable[Candidate]], most: int
) -> Candidate:
    """Returns the cheapest policy over the gaps up to the most: on a grid of gaps, and then ever finer beside the best.

    Costs may have several valleys over the gaps, so beyond the grid's first gaps a better one can be missed:
    `planner.studies.search` measures by how much. Of costs that are equal but for rounding the first is taken.
    """
    grid = gap_grid(most)
    known = dict(zip(grid, policies_of(grid)))
    while True:
        gaps = sorted(known)
        least = min(known.values()).cost
        place, best = next(
            (place, gap)
            for place, gap in enumerate(gaps)
            if known[gap].cost <= CLOSE * least
        )
        below = gaps[max(place - 1, 0)]
        above = gaps[min(place + 1, len(gaps) - 1)]
        between = sorted({(below + best) // 2, (best + above + 1) // 2} - known.keys())
        if not between:
            return known[best]
        known.update(zip(between, policies_of(between)))
