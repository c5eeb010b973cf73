"""Finds for each gap the level that costs least and is enough, as means over the lows of its policies.

With one lead time the lows of a gap are those of all wider ones too, so all gaps share one row of chances. With several
lead times each gap has its own row: how far the stock is below S (see `shortfalls.py`).
"""
from __future__ import annotations

from typing import NamedTuple

import numpy as np

from ..chances import Floats, Whole
from ..compiled import compiled
from .grid import CLOSE

NEAR = 1e-12  # Shares, and costs by their ratio, that differ by less are equal but for rounding.


class Lows(NamedTuple):
    """The lows of a gap, of which figures are summed: see `walked`. `weights` has their chances, the lowest first."""

    table: Floats
    evened: Floats
    is_even: bool
    weights: Floats


class Bounds(NamedTuple):
    """Levels that may be chosen, in items: those up to the `top`, and none if the best of all is above the `cut`. A
    table has the level 0 at its place `origin`, and a place for each `step`."""

    origin: int
    step: int
    top: int
    cut: int


@compiled
def sum_at(lows: Lows, place: int, row: int) -> float:
    """Returns the sum of a figure over the lows of a gap, of which the highest is at a place: see `walked`."""
    size = len(lows.weights)
    if lows.is_even:
        last_sums = lows.evened[row + 3, place] - lows.evened[row + 3, place - size]
        total: float = lows.evened[row, place] + lows.weights[0] * last_sums
    else:
        total = np.dot(lows.table[row, place - size + 1 : place + 1], lows.weights)
    return total


@compiled
def sum_between(lows: Lows, cells: float, row: int) -> float:
    """Returns a sum for a level between two places. Beyond the table it goes on as at its end."""
    place = min(int(np.ceil(cells)), lows.table.shape[1] - 1)
    share = place - cells
    here = sum_at(lows, place, row)
    if share == 0:
        return here
    below = sum_at(lows, place - 1, row)
    return here + share * (below - here)


@compiled
def least_place(lows: Lows, floor: int, near: int, allowed: float, ratio: float) -> int:
    """Returns the least place from a floor on that is enough, or the end of the table. Higher ones are enough too. The
    search begins at a place near it, in strides that double until they are too long."""
    low = floor
    high = lows.table.shape[1] - 1
    place = near
    stride = 1
    while low < high:
        place = min(max(place, low), high - 1)
        is_enough = sum_at(lows, place, 2) >= ratio
        if is_enough and allowed < np.inf:
            is_enough = sum_at(lows, place, 1) <= allowed
        if is_enough:
            high = place
            place -= stride
        else:
            low = place + 1
            place += stride
        stride *= 2
        if not low <= place < high:
            place = (low + high) // 2
    return low


@compiled
def level_at(
    lows: Lows, bounds: Bounds, place: int, least: int, allowed: float, ratio: float
) -> int:
    """Returns the level of a place that is enough, or less by as many items of a cell as are not needed."""
    level = (place - bounds.origin) * bounds.step
    if bounds.step == 1:
        return level
    share = 0.0
    if sum_at(lows, place - 1, 2) >= ratio:
        unmet = sum_at(lows, place, 1)
        slope = sum_at(lows, place - 1, 1) - unmet
        share = (allowed - unmet) / slope if slope > 0 else 1.0
    spare = int(min(bounds.step * share + NEAR, bounds.step - 1.0))
    return level - min(spare, level - least)


@compiled
def cheaper_of(
    lows: Lows, bounds: Bounds, level: int, least: int, allowed: float, held: float
) -> tuple[int, float]:
    """Returns the cheapest level that may be chosen, and the sum of its stock costs, if some level is the cheapest of
    all; infinity if there is none, or if that level is above the cut. Costs are convex in the level, so beyond the
    greatest level it is that one."""
    chosen = min(level, bounds.top)
    none = -1, np.inf
    if level > bounds.cut or chosen < least:
        return none
    cells = chosen / bounds.step + bounds.origin
    if chosen < level:
        if allowed < np.inf and sum_between(lows, cells, 1) > allowed * (1 + NEAR):
            return none
        # Between two cells a level has the chance of the lower one.
        if held > 0 and sum_at(lows, int(np.floor(cells)), 2) < held:
            return none
    return chosen, sum_between(lows, cells, 0)


@compiled
def best_level(
    lows: Lows,
    bounds: Bounds,
    least: int,
    before: int,
    near: int,
    allowed: float,
    ratio: float,
    held: float,
) -> tuple[int, int, float]:
    """Returns the least place that is enough, not before a place and near another one, and what `cheaper_of` does."""
    first = max(bounds.origin - (-least // bounds.step), before)
    first = min(first, lows.table.shape[1] - 1)
    place = least_place(lows, first, near, allowed, max(ratio, held))
    level = level_at(lows, bounds, place, least, allowed, max(ratio, held))
    level, cost = cheaper_of(lows, bounds, level, least, allowed, held)
    return place, level, cost


@compiled
def walked(
    gaps: Whole,
    leasts: Whole,
    fixed: Whole,
    chances: Floats,
    turned: Floats,
    table: Floats,
    evened: Floats,
    even: int,
    bounds: Bounds,
    setup: float,
    base: float,
    rise: float,
    allowed: float,
    ratio: float,
    held: float,
    known: float,
    is_nested: bool,
    is_pruned: bool,
) -> tuple[Whole, Floats]:
    """Returns for each of some rising gaps the best level, in items, and what both cost a period: infinity if there is
    none, or if the gap is left out. If the gaps are nested, each has the lows up to its own.

    `leasts` has the least feasible level of each gap, in items. If there are `fixed` levels, each gap has its one.
    `chances` are those of the lows up to the widest gap. `turned` has the chances of how far a low is below S, the
    farthest one first: a row for each gap, or one for all if they are nested. `table` has, by level of a low in cells,
    the stock costs, the unmet demand and the chance of no backlog of a period. From the gap `even` on, sums follow from
    `evened`: rows with what the lows before `even` add to these three at each level, as far as they have other chances
    than the last low, and rows with the sums of the table up to each.

    A level is enough if the mean unmet demand is at most `allowed`, and the mean chance of no backlog at least `ratio`,
    below which a level costs more than it need, and at least `held`, which is asked of all levels.
    `setup` is the cost of a cycle. If `is_pruned`, gaps are left out that cost more than `known`, or, if they are
    nested, than one before: see `long_run.py`. All but orders costs at least `base`, and `rise` more by cell, but for
    the first gap.
    """
    least_cost = table[0].min()
    limit = CLOSE * known
    total = due = 0.0
    added = place = 0
    levels = np.full(len(gaps), -1)
    costs = np.full(len(gaps), np.inf)
    for each, gap in enumerate(gaps):
        while added <= gap:
            total += chances[added]
            added += 1
        floor = least_cost if each == 0 else max(least_cost, base + rise * gap)
        if is_pruned and (total < due or setup / total + floor > limit):
            continue
        weights = turned[0 if is_nested else each]
        size = 1.0
        if is_nested:
            weights = weights[len(weights) - gap - 1 :]
            size = total
        lows = Lows(table, evened, gap >= even, weights)
        if len(fixed):
            levels[each] = fixed[each]
            cost = sum_between(lows, fixed[each] / bounds.step + bounds.origin, 0)
        else:
            # The least level that is enough does not fall from one nested gap to the next.
            place, levels[each], cost = best_level(
                lows,
                bounds,
                leasts[each],
                place if is_nested else 0,
                place,
                allowed * size,
                ratio * size,
                held * size,
            )
        costs[each] = setup / total + cost / size
        limit = min(limit, CLOSE * costs[each])
        if is_nested and not len(fixed) and cost < np.inf and limit > least_cost:
            due = total + max(0.0, setup + cost - total * limit) / (limit - least_cost)
    return levels, costs
