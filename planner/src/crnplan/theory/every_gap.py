"""Finds the best policies of an item for many prices, among all levels: with one lead time of all gaps.

With one lead time, the stock of a policy and the demand that it does not meet at once are means over its lows (see
`long_run.py`). Each gap adds its low to the sums of all levels, so each takes one look at the levels. Of these
the lower hull is found, and its vertex for each price is compared with the best of the gaps before.

Let M(g) be the sum of the chances of the lows up to the gap g, C(g) the least cost of g for a price, and F the least
cost of stock and unmet demand of any low. All further lows cost at least F, so M(n) C(n) is at least
M(g) C(g) + (M(n) - M(g)) F for a wider gap n. So if a policy costs B, no gap is better for which M is less than
M(g) (1 + (C(g) - B) / (B - F)). Gaps are left out that are better for no price, and of others the levels that are best
for dearer prices or cheaper ones alone. Costs B are first found on a grid.

With several lead times each gap has its own law of the stock (see `shortfalls.py`). Some are looked at on a grid,
and others then ever finer beside the best and where costs that are convex may be lower by more than a share.
"""
from __future__ import annotations

import numpy as np

from ..chances import Floats, Whole, add_times
from ..compiled import compiled
from .figures import STOCK_LEFT, UNMET
from .grid import gap_grid
from .levels import NEAR
from .long_run import LongRun
from .points import choose_points
from .shortfalls import LEAST_CHANCE

# Shares of the best cost: by which gaps may be better that are not looked at, and beyond which costs are far more.
GAIN = 5e-5
FAR_MORE = 0.1
FEW = 2  # One in so many gaps of a grid is looked at first.
FINE = 64  # Beside the best gap, others are looked at that are so many times narrower apart.


@compiled
def add_low(
    sums: Floats, table: Floats, place: int, low: float, before: Floats, line: Floats
) -> None:
    """Adds a low, so many cells below S, to the sums of all levels from there on. `table` has by level of a low, in
    cells from 0 on, stock and unmet demand. Beyond it stock rises by the items of a cell, and is less by the mean
    demand: both are the `line`. `before` has the sum of the chances of the lows before, and that of their places.
    """
    width = table.shape[1]
    last = place + width - 1
    sums[0, last] = line[0] * (last * before[0] - before[1]) - line[1] * before[0]
    for row in range(2):
        add_times(sums[row, place : place + width], table[row], low)
    before[0] += low
    before[1] += low * place


@compiled
def compare_gap(
    gap: int,
    total: float,
    span: float,
    points: Floats,
    chosen: Whole,
    ranks: Whole,
    costs: Floats,
    floor: Floats,
    best: Floats,
    found: Floats,
    due: Floats,
) -> None:
    """Keeps for each case the gap and its chosen point if that costs less than the best so far, and sets when it is due:
    from which M on a wider gap may cost less. `total` is that of this gap. Cases are left as they are if no point is
    `chosen` for their rank, which is below 0 then. `costs` are by case those of an order, of an item in stock, and of
    one that is not met at once."""
    orders = 1 / (span * total)
    for case in range(len(best)):
        place = chosen[ranks[case]]
        growth = np.inf
        if place < 0:
            continue
        cost = (
            costs[0, case] * orders
            + costs[1, case] * points[1, place]
            + costs[2, case] * points[2, place]
        )
        # Of gaps that cost the same but for rounding the first stays.
        if cost < best[case] * (1 - NEAR / 10):
            best[case] = cost
            found[0, case] = gap
            found[1, case] = points[0, place]
            found[2, case] = points[1, place]
            found[3, case] = points[2, place]
        if best[case] > floor[case]:
            growth = (cost - best[case] * (1 + NEAR)) / (best[case] - floor[case])
        due[case] = total * (1 + max(0.0, growth))


@compiled
def ranks_due(ranks: Whole, due: Floats, total: float) -> tuple[int, int]:
    """Returns the first rank of a case that is due, and the one after the last."""
    start = len(ranks)
    stop = 0
    for case in range(len(ranks)):
        if due[case] <= total:
            start = min(start, ranks[case])
            stop = max(stop, ranks[case] + 1)
    return start, stop


@compiled
def compare_gaps(
    lows: Floats,
    span: float,
    table: Floats,
    line: Floats,
    gaps: Whole,
    least: Floats,
    places: Floats,
    asked: Floats,
    ranks: Whole,
    costs: Floats,
    floor: Floats,
    best: Floats,
    found: Floats,
) -> int:
    """Compares some rising gaps, and returns how many of them were looked at: see `compare_gap`.

    `gaps` has these, and for each which of the levels, its `places`, is the first above its least one. All levels are
    in cells. The prices that are `asked` rise, and `ranks` says which of them is that of each case. A gap is looked at
    for the prices from the first to the last one of a case that is due.
    """
    width = table.shape[1]
    done = 0
    looks = 0
    due = np.zeros(len(ranks))
    sums = np.zeros((2, gaps[0, -1] + width))
    before = np.zeros(2)
    points = np.empty((3, len(places) + 1))
    chosen = np.empty(len(asked), np.int64)
    levels = np.append(0.0, places)
    for each in range(gaps.shape[1]):
        gap = gaps[0, each]
        first = gaps[1, each]
        while done <= gap:
            add_low(sums, table, done, lows[done], before, line)
            done += 1
        start, stop = ranks_due(ranks, due, before[0])
        if start >= stop:
            continue
        levels[first] = least[each]
        chosen[:] = -1
        looks = looks + 1
        near = levels[first : int(np.searchsorted(levels, gap + width - 1.0))]
        choose_points(
            sums, before[0], near, asked[start:stop], points, chosen[start:stop]
        )
        compare_gap(
            gap, before[0], span, points, chosen, ranks, costs, floor, best, found, due
        )
    return looks


@compiled
def set_means(
    chances: Floats, low: int, rounded: float, step: int, means: Floats
) -> None:
    """Sets the mean stock and unmet demand, in items, of each level in cells from 0 on. `chances` has rows by how far
    the stock is below S, from the cell `low` on: before a period's demand, and after it. Their sum may be any, and those
    of at most `rounded` are none. Stock less what is owed is the level less the mean of how far it is above the stock.
    """
    size = means.shape[1]
    cell = low + chances.shape[1] - 1
    means[:, cell + 1 :] = 0.0
    total_before = 0.0
    owed_before = 0.0
    total = 0.0
    owed = 0.0
    while cell >= low:
        owed_before = owed_before + total_before
        owed = owed + total
        if cell >= 0:
            means[0, cell] = owed_before
            means[1, cell] = owed
        before = chances[0, cell - low]
        after = chances[1, cell - low]
        total_before += before if before > rounded else 0.0
        total += after if after > rounded else 0.0
        cell -= 1
    mean = owed / total + low
    stock = means[0]
    unmet = means[1]
    level = 0
    while level < size:
        before = stock[level] / total_before
        after = unmet[level] / total
        stock[level] = step * max(after + level - mean, 0.0)
        unmet[level] = step * max(after - before, 0.0)
        level += 1


@compiled
def best_levels(
    chances: Floats,
    low: int,
    step: int,
    orders: Floats,
    gaps: Whole,
    least: Floats,
    places: Floats,
    asked: Floats,
    ranks: Whole,
    costs: Floats,
) -> Floats:
    """Returns a table for each of some rising gaps: rows with the best level of each case, in cells, its stock, its
    unmet demand and its cost. Words are as in `compare_gaps`. `chances` has two tables, as in `set_means`, with a row
    for each gap."""
    high = low + chances.shape[2]
    enough = places[
        min(int(np.searchsorted(places, high)), len(places) - 1)
    ]  # all is met there
    means = np.empty((2, max(high, int(max(least[-1], float(enough))) + 2)))
    points = np.empty((3, len(places) + 1))
    chosen = np.empty(len(asked), np.int64)
    levels = np.append(0.0, places)
    found = np.empty((len(least), 4, len(ranks)))
    for each in range(len(least)):
        first = gaps[1, each]
        set_means(chances[:, each], low, LEAST_CHANCE / orders[each], step, means)
        levels[first] = least[each]
        near = levels[first : int(np.searchsorted(levels, means.shape[1] - 1.0))]
        choose_points(means, 1.0, near, asked, points, chosen)
        found[each, :3] = points[:, chosen[ranks]]
        found[each, 3] = (
            costs[0] * orders[each]
            + costs[1] * found[each, 1]
            + costs[2] * found[each, 2]
        )
    return found


@compiled
def may_gain(places: Whole, costs: Floats, least: Floats, at: int) -> bool:
    """Returns whether a case may cost less by more than a share between a place and the next one: see `finer`."""
    is_end = at == 0 or at == len(places) - 2
    width = places[at + 1] - places[at]
    for case in range(len(least)):
        if min(costs[at, case], costs[at + 1, case]) > (1 + FAR_MORE) * least[case]:
            continue
        if is_end:
            return True
        here = (costs[at + 1, case] - costs[at, case]) / width
        before = (costs[at, case] - costs[at - 1, case]) / (places[at] - places[at - 1])
        after = (costs[at + 2, case] - costs[at + 1, case]) / (
            places[at + 2] - places[at + 1]
        )
        fall = before * (after - here)
        bend = after - before
        if (
            fall <= 0
            if bend == 0
            else costs[at, case] + fall / bend * width < (1 - GAIN) * least[case]
        ):
            return True
    return False


@compiled
def finer(places: Whole, gaps: Whole, costs: Floats) -> Whole:
    """Returns places halfway between some rising ones, at which a case may cost less by more than a share: `GAIN`.
    `costs` has a row for each place, whose gap is one of `gaps`, and a column for each case.

    A convex function is above the lines through two places on either side of a stretch. Stretches are left out of which
    both ends cost far more than the best. Those beside the best are halved until they are short in any case.
    """
    least = costs[0].copy()
    best = np.zeros(costs.shape[1], np.int64)
    widths = places[1:] - places[:-1]
    for place in range(1, len(places)):
        here = costs[place]
        case = 0
        while case < len(best):
            if here[case] < least[case]:
                least[case] = here[case]
                best[case] = place
            case += 1
    is_due = widths > 1
    for at in np.flatnonzero(is_due):
        is_due[at] = may_gain(places, costs, least, at)
    for place in best:
        for near in range(max(place - 1, 0), min(place + 1, len(widths))):
            is_due[near] |= widths[near] > max(gaps[place] // FINE, 1)
    return places[:-1][is_due] + (widths[is_due] + 1) // 2


class Cases:
    """The policies that cost least of those that were compared. By case an order costs something, an item in stock, and
    one that is not met at once.

    `gaps` are those of feasible policies; narrower ones stand for those without a low. `levels` are feasible, in cells.
    `best` has the least costs, and `found` rows with gaps, levels in cells, stock and unmet demand.
    """

    def __init__(self, theory: LongRun, costs: Floats) -> None:
        """Takes the costs as rows."""
        self.theory = theory
        self.costs = costs
        feasible = theory.feasible
        step = theory.step
        self.gaps = theory.every_gap(0, theory.most)
        self.lows = theory.lows_of(int(self.gaps[-1]))
        if not theory.spare:
            self.gaps = self.gaps[self.lows[self.gaps] > 0]
        # Levels are looked at up to so many cells above the widest gap.
        high = theory.beside + theory.after.high
        if theory.is_nested:
            high = max(theory.after.high, feasible.least_point // step)
        self.width = high + 3
        levels = step * np.arange(self.gaps[-1] + self.width)
        self.levels = np.unique(np.minimum(levels, feasible.most_level)) / step
        self.asked, self.ranks = np.unique(costs[2] / costs[1], return_inverse=True)
        self.best = np.full(len(self.ranks), np.inf)
        self.found = np.zeros((4, len(self.ranks)))

    def bounds(self, gaps: Whole) -> tuple[Whole, Floats]:
        """Returns some gaps, for each the place of the first level above its least one, and that one, in cells."""
        least = (
            self.theory.items(gaps) + self.theory.feasible.least_point
        ) / self.theory.step
        return np.array([gaps, np.searchsorted(self.levels, least, "right")]), least

    def floor(self, table: Floats) -> Floats:
        """Returns the least cost of stock and unmet demand of any low for each case."""
        theory = self.theory
        lows = table[:, theory.feasible.least_point // theory.step :].copy()
        points = np.empty((3, lows.shape[1]))
        chosen = np.empty(len(self.asked), int)
        choose_points(
            lows, 1.0, np.arange(lows.shape[1], dtype=float), self.asked, points, chosen
        )
        stock, unmet = points[1:, chosen[self.ranks]]
        return np.asarray(self.costs[1] * stock + self.costs[2] * unmet)

    def compare_all(self) -> None:
        """Compares all gaps that may be best, with one lead time."""
        theory = self.theory
        step = self.theory.step
        table = np.maximum(
            theory.figures_from(step * np.arange(self.width))[[STOCK_LEFT, UNMET]], 0
        )
        line = np.array([step, step * theory.after.mean])
        floor = self.floor(table)
        for some in (self.gaps[gap_grid(len(self.gaps) - 1)[::FEW]], self.gaps):
            compare_gaps(
                self.lows,
                theory.span,
                table,
                line,
                *self.bounds(some),
                self.levels,
                self.asked,
                self.ranks,
                self.costs,
                floor,
                self.best,
                self.found,
            )
            # So the best gap is found again among all gaps, or an earlier one that costs as much.
            self.best *= 1 + NEAR

    def search(self) -> None:
        """Compares a grid of gaps, and then gaps ever finer beside the best."""
        theory = self.theory
        new = np.array(gap_grid(len(self.gaps) - 1))
        places = np.empty(0, int)
        tables = list[Floats]()
        while len(new):
            for some in theory.parts(self.gaps[new]):
                stocks, low = theory.stocks(some)
                tables.extend(
                    best_levels(
                        stocks,
                        low,
                        theory.step,
                        1 / theory.periods_of(some),
                        *self.bounds(some),
                        self.levels,
                        self.asked,
                        self.ranks,
                        self.costs,
                    )
                )
            places = np.append(places, new)
            order = np.argsort(places)
            totals = np.array([tables[place][3] for place in order])
            new = finer(places[order], self.gaps[places[order]], totals)
        best, own = np.unique(order[totals.argmin(axis=0)], return_inverse=True)
        levels = np.array([tables[place][:3] for place in best])[
            own, :, np.arange(len(own))
        ]
        self.found = np.vstack([self.gaps[places[best]][own], levels.T])

    def policies(self) -> tuple[Whole, Floats]:
        """Returns the gaps of the best policies, and their levels in items, stock, unmet demand and orders."""
        gaps = self.found[0].astype(int)
        each, own = np.unique(gaps, return_inverse=True)
        return gaps, np.array(
            [
                np.rint(self.theory.step * self.found[1]),
                *self.found[2:],
                1 / self.theory.periods_of(each)[own],
            ]
        )


def best_policies(theory: LongRun, costs: Floats) -> tuple[Whole, Floats]:
    """Returns the best of all feasible policies for each case, with several lead times of those that a search finds:
    see `Cases`."""
    cases = Cases(theory, costs)
    if theory.is_nested:
        cases.compare_all()
    else:
        cases.search()
    return cases.policies()
