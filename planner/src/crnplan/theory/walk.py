"""Describes how the inventory position of a scenario moves in the long run, with laws of whole numbers on a lattice.

A law is counted in cells of `step` items, levels of stock in items. A review may be one in several periods, from one
to the next of which the net demand is that of all of them.

Counted down from S, the position after a review is a random walk that starts anew with each order. Without returns, how
often it visits each place is a renewal sequence (Veinott and Wagner, Computing optimal (s,S) inventory policies, 1965).
With returns, it is the renewal sequence of the walk's lows, spread over the heights that the walk visits before its
next low: the Wiener-Hopf factors of a random walk (Feller, An Introduction to Probability Theory and Its Applications,
volume II, chapters XII and XVIII).

If orders are rounded up, the walk starts anew above S, by how far below S the low is that ended the cycle before. These
starts are a Markov chain. With packs and s = S, all positions up to a pack above s are equally likely, as of an (R,nQ)
policy (Zipkin, Foundations of Inventory Management, 2000, chapter 6).
"""
from __future__ import annotations

import math
from collections.abc import Sequence
from dataclasses import dataclass
from functools import cached_property, lru_cache

import numpy as np

from ..chances import Floats, Whole
from ..compiled import compiled
from ..law import Law
from ..scenario import ScenarioData

LEAST_CHANCE = 1e-17  # of the sum of chances: adding less changes no double near it
MOST_PRODUCTS = 50_000  # of a direct convolution; a transform is faster for more
DIGITS = 36  # e^-36 is below the rounding of a number.
# Chances that differ by no more than this share are equal but for rounding. They are compared once in so many places.
EQUAL = 1e-13
LOOK_EVERY = 64


@lru_cache(maxsize=16)
def chances_in(table: Law) -> tuple[Whole, Floats]:
    """Returns the values of a table that have a chance, and their chances."""
    values = np.fromiter(table.values, int)
    weights = np.fromiter(table.weights, float)
    if 0 in table.weights:
        values = values[weights > 0]
        weights = weights[weights > 0]
    return values, weights / table.size


def cut(chances: Floats) -> tuple[int, Floats]:
    """Returns the first place that is not all but impossible, and the chances from there on, scaled to a sum of 1. So
    is their end cut."""
    # Sums from the first cell on are the same on each machine.
    chances = np.maximum(chances, 0.0)
    least = LEAST_CHANCE * np.cumsum(chances)[-1]
    places = np.flatnonzero(chances > least)
    first = int(places[0])
    kept = chances[first : places[-1] + 1]
    return first, kept / np.cumsum(kept)[-1]


def summed(chances: Floats, low: int, step: int) -> Floats:
    """Returns rows with the chances of all cells below each, from the first on, and with the sums of their items."""
    items = (low + np.arange(len(chances))) * step
    sums = np.zeros((2, len(chances) + 1))
    np.cumsum([chances, chances * items], axis=1, out=sums[:, 1:])
    return sums


@dataclass(frozen=True, eq=False)
class LatticeLaw:
    """The chances of the cells low, low + 1, and so on. `mean` and `variance` are counted in cells."""

    low: int
    chances: Floats

    @classmethod
    def scaled(cls, low: int, chances: Floats) -> LatticeLaw:
        """Returns the law with these chances, cut where its ends are all but impossible, and scaled to a sum of 1."""
        first, chances = cut(chances)
        return cls(low + first, chances)

    @classmethod
    def of(cls, table: Law, step: int) -> LatticeLaw:
        """Returns the law of a table. A value between two cells is shared by both, such that the mean stays."""
        values, chances = chances_in(table)
        if step == 1:
            return cls.scaled(0, np.bincount(values, chances).astype(float))
        cells, rests = np.divmod(values, step)
        above = chances * rests / step
        shares = np.transpose([chances - above, above]).ravel()
        return cls.scaled(
            0,
            np.bincount(np.transpose([cells, cells + 1]).ravel(), shares).astype(float),
        )

    @property
    def high(self) -> int:
        return self.low + len(self.chances) - 1

    @property
    def cells(self) -> Whole:
        return self.low + np.arange(len(self.chances))

    @cached_property
    def mean(self) -> float:
        return float(summed(self.chances, self.low, 1)[1, -1])

    @cached_property
    def twice(self) -> LatticeLaw:
        """Returns the law of the sum of two independent numbers of this one."""
        return sum_of(self, self)

    @property
    def variance(self) -> float:
        return float(self.chances @ (self.cells - self.mean) ** 2)

    def between(self, low: int, high: int) -> Floats:
        """Returns the chances of the cells from low to high, among which all of the law are."""
        chances = np.zeros(high - low + 1)
        chances[self.low - low : self.high - low + 1] = self.chances
        return chances

    def above(self, cell: int) -> float:
        """Returns the chance of the cells above one."""
        return float(self.chances[max(cell + 1 - self.low, 0) :].sum())

    @cached_property
    def reflected(self) -> LatticeLaw:
        """Returns the law of the number with the other sign."""
        return LatticeLaw(-self.high, self.chances[::-1].copy())


NOTHING = LatticeLaw(0, np.ones(1))


def room_for(size: int) -> int:
    """Returns the least power of two, or 3 or 5 times one, that is at least `size`: a transform of it is fast.

    `scipy.fft.next_fast_len` allows more sizes, but these round differently, which can change the order of equal costs.
    """
    return min(odd << max(0, (-(-size // odd) - 1).bit_length()) for odd in (1, 3, 5))


def convolved(left: Floats, right: Floats) -> Floats:
    """Returns the coefficients of the product of two polynomials."""
    size = len(left) + len(right) - 1
    if len(left) * len(right) <= MOST_PRODUCTS:
        return np.convolve(left, right)
    room = room_for(size)
    return np.fft.irfft(np.fft.rfft(left, room) * np.fft.rfft(right, room), room)[:size]


def sum_of(left: LatticeLaw, right: LatticeLaw) -> LatticeLaw:
    """Returns the law of the sum of two independent numbers."""
    for law, other in ((left, right), (right, left)):
        if len(other.chances) == 1:
            return LatticeLaw(left.low + right.low, law.chances) if other.low else law
    return LatticeLaw.scaled(
        left.low + right.low, convolved(left.chances, right.chances)
    )


def mean_of(laws: Sequence[LatticeLaw]) -> LatticeLaw:
    """Returns the law of a number that has each of some laws as often as any other."""
    if len(laws) == 1:
        return laws[0]
    low, high = min(law.low for law in laws), max(law.high for law in laws)
    chances = np.sum([law.between(low, high) for law in laws], axis=0)
    return LatticeLaw.scaled(low, chances)


def power_of(law: LatticeLaw, count: int) -> LatticeLaw:
    """Returns the law of the sum of `count` independent numbers of one law."""
    total = NOTHING
    while count:
        if count & 1:
            total = sum_of(total, law)
        count >>= 1
        law = law.twice if count else law
    return total


@compiled
def figures_at(
    levels: Whole,
    step: int,
    low: int,
    below: Floats,
    taken: Floats,
    before: int,
    below_before: Floats,
    taken_before: Floats,
    holding: int,
    backlog: int,
) -> Floats:
    """Returns rows with stock costs, unmet demand, the chance of no backlog and the stock at the end of a period, by the
    sums of the law of what is taken from a level up to then, and of that up to the period's demand: see `Surplus`.
    """
    figures = np.empty((4, len(levels)))
    for each, level in enumerate(levels):
        place = min(max(level // step - low + 1, 0), len(below) - 1)
        placed = min(max(level // step - before + 1, 0), len(below_before) - 1)
        stock = level * below[place] - taken[place]
        owed = stock - level + taken[-1]
        lacking = (
            level * below_before[placed]
            - taken_before[placed]
            - level
            + taken_before[-1]
        )
        figures[0, each] = holding * stock + backlog * owed
        figures[1, each] = owed - lacking
        figures[2, each] = below[place]
        figures[3, each] = stock
    return figures


class Surplus:
    """What is expected to be left of a level, and to be lacking, if a random amount is taken from it. `sums` has the
    first cell of its law, and the sums from there on, so that each level takes one look: see `summed`.
    """

    def __init__(self, law: LatticeLaw, step: int) -> None:
        self.law = law
        self.step = step
        below, taken = summed(law.chances, law.low, step)
        self.sums = law.low, below, taken

    def costs(self, levels: Whole, holding: int, backlog: int) -> Floats:
        """Returns what is expected to be paid for the items that are left of levels, and for those that are lacking."""
        costs: Floats = figures_at(
            levels, self.step, *self.sums, *self.sums, holding, backlog
        )[0]
        return costs


def net_tables(scenario: ScenarioData) -> list[Law]:
    """Returns the table of demand, and that of returns if there are some."""
    return [table for table in (scenario.demand, scenario.returns) if table]


def decay_of(net: LatticeLaw) -> float:
    """Returns the rate at which the chance of a height above the last low falls, from one cell to the next."""

    def excess(rate: float) -> float:
        """Returns the logarithm of the mean of e^(-rate * net demand)."""
        powers = -rate * net.cells
        top = powers.max()
        return float(top + math.log(net.chances @ np.exp(powers - top)))

    high = 1e-12
    while excess(high) < 0:
        high *= 2
    low = high / 2
    # Both ends differ by a factor of 2: some 52 halvings bring them to neighbouring doubles.
    for _ in range(60):
        middle = (low + high) / 2
        low, high = (middle, high) if excess(middle) < 0 else (low, middle)
    return low


def factors_of(net: LatticeLaw) -> tuple[Floats, Floats]:
    """Returns how often each height above a low is visited before the next low, and the law of the fall to that low.

    Without returns, the only height is 0. With returns, these are the Wiener-Hopf factors of 1 less the transform of
    the net demand. The logarithm of that is split on a circle within which it has no zero.
    """
    if net.low >= 0:
        falls = net.between(0, net.high)
        stay = float(falls[0])
        falls[0] = 0.0
        return np.array([1 / (1 - stay)]), falls / (1 - stay)
    decay = decay_of(net)
    # Halfway to the next zero of the transform; and roundings grow by e^10 at most below.
    tilt = min(decay / 2, 10 / net.high)
    # So wide that what wraps round in it is below any rounding.
    room = 1 << math.ceil(
        math.log2(
            max(2 * DIGITS / tilt, 2 * DIGITS / (decay - tilt), 4 * len(net.chances))
        )
    )
    tilted = np.zeros(room)
    tilted[net.cells % room] = net.chances * np.exp(-tilt * net.cells)
    logarithm = np.fft.ifft(np.log(1 - np.fft.fft(tilted))).real
    down = logarithm.copy()
    up = logarithm
    down[0] = 0
    down[room // 2 :] = 0
    up[1 : room // 2] = 0
    falls = -np.fft.ifft(np.exp(np.fft.fft(down))).real[: net.high + 1] * np.exp(
        tilt * np.arange(net.high + 1)
    )
    falls[0] = 0.0
    visits = np.fft.ifft(np.exp(-np.fft.fft(up))).real[-np.arange(room // 2) % room]
    visits = np.clip(visits * np.exp(-tilt * np.arange(room // 2)), 0, None)
    # What is beyond is what transforms have rounded.
    kept = np.flatnonzero(visits > 1e-13 * visits.sum())[-1] + 1
    falls = np.clip(falls, 0, None)
    return visits[:kept], falls / falls.sum()


@compiled
def renewal_sequence(lows: Floats, falls: Floats, count: int) -> Floats:
    """Returns the chances that each of the first `count` places is a low of the walk. `lows` are the first of them.
    Each is a mean of as many chances before it as a fall has cells. So once these are equal, all others are.
    """
    longer = np.zeros(count)
    reach = len(falls) - 1
    longer[: len(lows)] = lows
    turned = falls[:0:-1].copy()
    for place in range(len(lows), count):
        before = longer[max(place - reach, 0) : place]
        # Chances that are made longer may have been equal before.
        is_due = place >= reach and (place % LOOK_EVERY == 0 or place == len(lows))
        if is_due and before.max() - before.min() <= EQUAL * longer[place - 1]:
            longer[place:] = longer[place - 1]
            break
        longer[place] = np.dot(turned[reach - len(before) :], before)
    return longer


class PositionWalk:
    """The inventory position on a lattice of `step` items. A gap is S - s in cells: an order is placed if the position
    is more than the gap below S."""

    def __init__(self, scenario: ScenarioData, step: int, exact: bool) -> None:
        """Makes the laws of the position. `exact` says that all demands and returns lie on the lattice."""
        self.step = step
        self.exact = exact
        self.demand = LatticeLaw.of(scenario.demand, step)
        self.back = (
            LatticeLaw.of(scenario.returns, step) if scenario.returns else NOTHING
        )
        self.one = sum_of(
            self.demand, self.back.reflected
        )  # the net demand of a period
        self.review = scenario.review
        self.net = power_of(self.one, self.review)  # that from one review to the next
        visits, self.falls = factors_of(self.net)
        self.span = self.review * float(visits.sum())  # periods of a low
        self.lows: Floats = NOTHING.chances
        self.lot = scenario.lot.counted_in(step)
        # An order goes so many cells above S at most.
        self.spare = self.lot.order(1) - 1
        self.begun = dict[int, Floats]()
        self.above_low = (
            LatticeLaw.scaled(0, visits).reflected if self.net.low < 0 else NOTHING
        )

    @property
    def deviation(self) -> float:
        """Returns the standard deviation of the net demand of a period, in items."""
        return self.step * math.sqrt(self.one.variance)

    def lows_of(self, gap: int) -> Floats:
        """Returns the chances of the places S, S - 1, .. to be a low of a cycle."""
        if gap >= len(self.lows):
            self.lows = renewal_sequence(self.lows, self.falls, gap + 1)
        return self.lows[: gap + 1]

    def cycles(self, most: int) -> Floats:
        """Returns the mean number of periods from one order to the next, of the gaps up to the most."""
        return self.span * np.cumsum(self.lows_of(most))

    def lows_after(self, gap: int) -> Floats:
        """Returns how many lows a cycle has in the mean that begins 0, 1, .. up to `spare` cells above S."""
        return np.cumsum(self.lows_of(gap + self.spare))[gap:]

    def falls_below(self, height: int) -> Floats:
        """Returns the chances that the first low below a gap is 1, 2, .. cells below, from so many cells above it."""
        near = self.lows_of(height)[-len(self.falls) + 1 :]
        return convolved(self.falls[1:], near)[len(near) - 1 :]

    def starts(self, gap: int) -> Floats:
        """Returns the chances that a cycle begins 0, 1, .. up to `spare` cells above S, by the low that ends the one
        before: the long run of a Markov chain over cycles."""
        if gap not in self.begun:
            wanted = range(gap + 1, gap + len(self.falls))
            above = [self.lot.order(cells) - cells for cells in wanted]
            heights, places = np.unique(above, return_inverse=True)
            moves = np.array(
                [
                    np.bincount(places, self.falls_below(gap + height), len(heights))
                    for height in heights.tolist()
                ]
            )
            left = np.eye(len(heights)) - moves.T + 1.0
            law = np.zeros(self.spare + 1)
            law[heights] = np.linalg.solve(left, np.ones(len(heights)))
            self.begun[gap] = law
        return self.begun[gap]

    def periods(self, gap: int) -> float:
        """Returns the mean number of periods from one order to the next."""
        if self.spare:
            return self.span * float(self.starts(gap) @ self.lows_after(gap))
        return self.span * float(self.lows_of(gap).sum())

    def periods_of(self, gaps: Whole) -> Floats:
        """Returns what `periods` does, for some rising gaps."""
        if self.spare:
            return np.array([self.periods(gap) for gap in gaps.tolist()])
        return self.cycles(int(gaps[-1]))[gaps]

    def positions(self, gap: int) -> LatticeLaw:
        """Returns the law of how far the position after a review is below S."""
        return sum_of(LatticeLaw.scaled(0, self.lows_of(gap)), self.above_low)

    def gap_of(self, point: int, level: int) -> int:
        """Returns the gap of a policy."""
        return (level - point) // self.step

    def gaps_of(self, point: int, level: int) -> list[tuple[int, float]]:
        """Returns the gap of a policy with the share 1, or the two gaps beside it with their shares if the lattice is
        not exact."""
        gap = self.gap_of(point, level)
        share = (
            0.0
            if self.exact
            else (level - point - (self.step - 1) / 2) / self.step - gap
        )
        if abs(share) * self.step <= 0.5 or gap + share < 0:
            return [(gap, 1.0)]
        return [(gap, 1 - abs(share)), (gap + (1 if share > 0 else -1), abs(share))]

    def mean_position(self, point: int, level: int) -> float:
        """Returns the mean position at the beginning of a period, in items: after a review, less a net demand."""
        depth = 0.0
        for gap, share in self.gaps_of(point, level):
            lows = self.lows_of(gap)
            depth += share * float(
                lows @ np.arange(gap + 1) / lows.sum()
            )  # A half is one to the last bit.
        return level - self.step * (depth + self.above_low.mean + self.net.mean)
