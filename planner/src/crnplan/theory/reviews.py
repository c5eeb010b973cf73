"""Computes how many orders the reviews of a run are expected to place, and how far the position is below S after them.

If nothing comes back, the position only falls until an order lifts it to S. So the law of how far it is below S is a
sum over the time since the last order. Let N(k) be the law of the net demand of k reviews, and b(t) the chance that
review t places an order:

    law after review t = (start + N(t)) + the sum over k = 0 .. t of b(t - k) N(k), each up to the gap alone.

The chances b follow from those that the demand of k reviews is within the gap, by the renewal equation (Feller, An
Introduction to Probability Theory and Its Applications, volume I, section XIII.10). If items come back, the reviews are
computed one by one.
"""
from __future__ import annotations

from typing import NamedTuple

import numpy as np
from scipy import fft

from ..chances import Floats, add_times
from ..compiled import compiled
from .shortfalls import LEAST_CHANCE
from .walk import EQUAL, LatticeLaw, convolved, room_for

MOST_SUMS = 2_000_000  # cells of the laws of all reviews at once: more would take too much memory
LEAST_MASS = 1e-14  # Laws are left out whose chance to be within the width is less.
# A chain whose law is as close to that of the long run stays there. It is compared once in so many reviews.
SETTLED = 1e-12
LOOK_EVERY = 8
MOST_SINGLE = 4_000_000  # products, up to which laws of reviews one by one take less time than by transforms


class Start(NamedTuple):
    """The position after the first review: its law in cells below S, and whether an order was placed in it."""

    law: LatticeLaw
    ordered: bool


class Reviews(NamedTuple):
    """The reviews of a run: how many orders they are expected to place, and how far the position is below S, in cells:
    the sum of its laws after the first reviews, whose orders matter for the stock, and its mean after the last one.
    """

    orders: float
    first: LatticeLaw
    last: float


@compiled
def quotient(series: Floats, divisor: Floats) -> Floats:
    """Returns as many coefficients of series / divisor as the series has. The divisor begins with 1, and all its other
    coefficients are at most 0 and at least -1 together: those of the quotient are means of so many before them.
    """
    found = series.copy()
    reach = len(divisor) - 1
    end = np.flatnonzero(series)[-1:].sum()  # 0 if all are 0
    stays = divisor.sum() < SETTLED  # A mean of equal ones is equal to them.
    for place in range(len(found) - 1):
        if stays and place % LOOK_EVERY == 0 and place > max(reach, end):
            last = found[place - reach : place]
            is_near = abs(last[0] - last[-1]) <= 2 * EQUAL * last[-1]
            if (
                is_near and last.max() - last.min() <= EQUAL * last.max()
            ):  # So are all others.
                found[place:] = found[place - 1]
                break
        after = found[place + 1 : place + 1 + reach]
        add_times(after, divisor[1:], -found[place])
    return found


def sums_by_doubling(law: Floats, count: int) -> Floats:
    """Returns the laws of sums of 0, 1, .. independent numbers above 0 up to a width, in cells, a row each: of less
    than `count`, or of as many as are within the width with some chance. `law` has the chances of a number up to the
    width."""
    size = len(law)
    room = room_for(2 * size - 1)
    rows = np.eye(1, size)
    while (
        len(rows) < count and law.sum() > LEAST_MASS
    ):  # of as many numbers as there are rows
        transforms = fft.rfft(np.vstack([rows, law]), room)
        sums = fft.irfft(transforms * transforms[-1], room)[:, :size]
        sums[sums < LEAST_CHANCE] = 0.0
        rows = np.vstack([rows, sums[:-1]])
        law = sums[-1]
    return rows[:count]


@compiled
def sums_one_by_one(law: Floats, count: int) -> Floats:
    """Returns what `sums_by_doubling` does, sum by sum."""
    size = len(law)
    rows = np.zeros((count, len(law)))
    used = 1
    first = 0
    numbers = np.flatnonzero(law)
    rows[0, 0] = 1.0
    while used < count:
        before = rows[used - 1, first:]
        row = rows[used]
        for number in numbers[numbers < size - first]:
            add_times(row[first + number :], before, law[number])
        while first < size and row[first] < LEAST_CHANCE:
            row[first] = 0.0
            first += 1
        if row.sum() <= LEAST_MASS:
            break
        used += 1
    return rows[:used]


@compiled
def counts_of(chance: float, reviews: int, most: int) -> Floats:
    """Returns the chances of 0, 1, .. of less than `most` events in 0, 1, .. trials, of which each has an event with a
    chance: binomial laws, a row each, of less than so many reviews, or of as many as have so few events with some
    chance."""
    rows = np.zeros((reviews, most))
    used = 1
    rows[0, 0] = 1.0
    while used < reviews and rows[used - 1].sum() > LEAST_MASS:
        before = rows[used - 1]
        row = rows[used]
        add_times(row, before, 1 - chance)
        add_times(row[1:], before, chance)
        used += 1
    return rows[:used]


class NetDemandLaws(NamedTuple):
    """The laws of the net demand of 0, 1, .. less than so many reviews, up to a width, which is never below 0: `counts`
    has the chances of how many of them ask for something, a row each, and `laws` has a row with the sum of so many.
    Reviews without a row are not within the width."""

    reviews: int
    counts: Floats
    laws: Floats

    @classmethod
    def of(cls, net: LatticeLaw, width: int, reviews: int) -> NetDemandLaws:
        """Returns the laws of less than so many reviews, up to a width in cells. Net demands are not always 0."""
        law = net.between(0, max(net.high, width))[: width + 1]
        never = law[0]
        law[0] = 0.0
        count = min(reviews, most_sums(net, width))
        is_short = min(net.high, width) * width * count <= MOST_SINGLE
        laws = (sums_one_by_one if is_short else sums_by_doubling)(
            law / (1 - never), reviews
        )
        return cls(reviews, counts_of(1 - never, reviews, len(laws)), laws)

    def within(self, width: int) -> Floats:
        """Returns the chances that the net demand of 0, 1, .. reviews is within a width."""
        chances = np.zeros(self.reviews)
        laws = self.laws[:, : max(width + 1, 0)]
        chances[: len(self.counts)] = self.counts @ laws.sum(axis=1)
        return chances


def most_sums(net: LatticeLaw, width: int) -> float:
    """Returns about how many net demands above 0 are at most a width together."""
    return 2 * width * net.above(0) / net.mean + 2


def falling(sums: NetDemandLaws, start: Start, gap: int, counted: int) -> Reviews:
    """Returns the reviews of a run if nothing comes back, of which the first `counted` matter for the stock.
    `sums` go up to the most that can be asked for between the start and an order."""
    low, used = min(start.law.low, 0), len(sums.counts)
    begun = start.law.between(low, gap) * (not start.ordered)
    early = min(counted, used)
    places = np.flatnonzero(begun)
    first = np.zeros(sums.reviews)
    cycle = np.diff(sums.within(gap), prepend=0.0)
    weights = np.zeros((4, used))
    first[0] = 1 - begun.sum()
    for place in places:
        first[1:] -= begun[place] * np.diff(sums.within(gap - low - place))
    placing = quotient(first, cycle[: np.flatnonzero(cycle)[-1] + 1])
    # How often the first laws and the last one have 0, 1, .. reviews since the start, and since an order.
    weights[0, :early] = 1.0
    weights[1, :early] = np.cumsum(placing[:counted])[::-1][:early]
    weights[2, -1] = used == sums.reviews
    weights[3] = placing[::-1][:used]
    after = weights @ sums.counts @ sums.laws
    depths = np.zeros((2, len(begun)))
    for row in range(2):
        depths[row, -low:] = after[2 * row + 1, : gap + 1]
        for place in places:
            depths[row, place:] += begun[place] * after[2 * row, : len(begun) - place]
    depths = np.maximum(depths, 0.0)
    last = (depths[1] * (low + np.arange(len(begun)))).sum()
    return Reviews(placing.sum(), LatticeLaw(low, depths[0]), last)


def moving(
    net: LatticeLaw,
    start: Start,
    settled: LatticeLaw,
    orders: float,
    periods: int,
    counted: int,
) -> Reviews:
    """Returns the reviews of so many periods one by one, of which the first `counted` matter for the stock.

    Takes the net demand of a period, and the law and the orders of a review in the long run. What would rise above the
    first cell stays there.
    """
    low = start.law.low
    count = len(start.law.chances)
    usual = settled.between(low, low + count - 1)
    ends = np.concatenate([[0], np.cumsum(net.chances)])
    # The chance that a review places an order, by the place after the review before.
    placing = 1 - ends[np.clip(count - np.arange(count) - net.low, 0, len(net.chances))]
    rise = max(0, -net.low)
    fall = min(max(net.low, 0), count)

    def summed(excess: Floats, reviews: int) -> tuple[Floats, Floats]:
        """Returns the sum of an excess over the usual law, over so many reviews from now, and what is left of it."""
        total = np.zeros(count)
        for review in range(reviews):
            if review % LOOK_EVERY == 0 and abs(excess).sum() < SETTLED:
                break
            total += excess
            sums = convolved(excess, net.chances)
            sums[rise] += sums[:rise].sum()
            ordered = excess @ placing
            excess = np.zeros(count)
            excess[fall:] = sums[rise : rise + count - fall]
            excess[-low] += ordered
        return total, excess

    first, excess = summed(start.law.chances - usual, counted)
    others, last = summed(excess, periods - 1 - counted)
    placed = start.ordered + (periods - 1) * orders + float((first + others) @ placing)
    return Reviews(
        placed,
        LatticeLaw(low, counted * usual + first),
        LatticeLaw(low, usual + last).mean,
    )
