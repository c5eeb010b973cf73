"""Chooses for each of some prices the level of a gap that is best: by the lower hull of its levels."""
from __future__ import annotations

import numpy as np

from ..chances import Floats, Whole
from ..compiled import compiled

NEARLY = (
    1 - 1e-6
)  # times a price: with one so far below, the best level is not dearer by rounding.


@compiled
def set_point(
    sums: Floats, total: float, levels: Floats, place: int, points: Floats
) -> None:
    """Sets a level, in cells, with the means of both sums: between two cells a mean."""
    cell = int(levels[place])
    share = levels[place] - cell
    points[0, place] = levels[place]
    for row in range(2):
        mean = sums[row, cell]
        if share > 0:
            mean += share * (sums[row, cell + 1] - mean)
        points[row + 1, place] = mean / total


@compiled
def first_of_price(
    sums: Floats, total: float, levels: Floats, price: float, points: Floats
) -> tuple[int, int]:
    """Returns the place of the level that is best for a price, and how many levels were set."""
    first = 0
    least = np.inf
    place = 0
    while place < len(levels):
        set_point(sums, total, levels, place, points)
        if points[1, place] > least:
            break
        cost = points[1, place] + price * points[2, place]
        if cost < least:
            first = place
            least = cost
        place += 1
    return first, place


@compiled
def vertices_of(
    sums: Floats,
    total: float,
    levels: Floats,
    prices: Floats,
    points: Floats,
    kept: Whole,
) -> int:
    """Finds the vertices of the lower hull of levels with rising stock between two prices: from the first one on until
    more stock costs more than it can gain. Returns how many there are, and sets their places.
    """
    size = 0
    limit = np.inf
    first, done = first_of_price(sums, total, levels, NEARLY * prices[0], points)
    for place in range(first, len(levels)):
        if place >= done:
            set_point(sums, total, levels, place, points)
        stock = points[1, place]
        unmet = points[2, place]
        if stock > limit:
            break
        if size and unmet >= points[2, kept[size - 1]]:
            continue
        while size > 1:
            before = kept[size - 2]
            last = kept[size - 1]
            if (stock - points[1, last]) * (points[2, before] - points[2, last]) > (
                points[1, last] - points[1, before]
            ) * (points[2, last] - unmet):
                break
            size -= 1
        kept[size] = place
        size += 1
        limit = min(limit, stock + prices[-1] * unmet)
    return size


@compiled
def choose_points(
    sums: Floats,
    total: float,
    levels: Floats,
    prices: Floats,
    points: Floats,
    chosen: Whole,
) -> None:
    """Sets for rising prices the place of the level that is best, of equal ones the first. Levels rise, in cells, as
    does the stock. `points` gets rows with levels that matter, and with the means of both sums, stock and unmet demand:
    between two cells a mean."""
    kept = np.empty(len(levels), np.int64)
    size = vertices_of(sums, total, levels, prices, points, kept)
    place = 0
    for each in range(len(prices)):
        while place + 1 < size:
            here = kept[place]
            after = kept[place + 1]
            if points[1, after] - points[1, here] >= prices[each] * (
                points[2, here] - points[2, after]
            ):
                break
            place += 1
        chosen[each] = kept[place]
