"""Computes how far the stock of a scenario with several lead times is below S: orders may overtake one another.

Let l be the shortest lead time, and m how much longer the longest one is. All orders of the l reviews after that of a
period t are under way in period t + l. So the stock after the arrivals of that period is S less two numbers:

- the shortfall: how far the position after the review of period t is below S, and what was ordered in that review and
  the m - 1 before it and is still under way in period t + l. Such an order is late with the chance that its lead time
  exceeds l plus its age;
- the net demand of l periods, which is independent of the shortfall and the same for all policies.

None of that depends on S (compare Zipkin, Foundations of Inventory Management, 2000, sections 7.4 and 9.6). So a level
costs the mean of a function of its stock over the shortfall, as it does over the lows with one lead time.

Each order lifts the position to S, from where all starts anew. So the transform of the law of the shortfall follows
from renewal equations over the m periods (Feller, An Introduction to Probability Theory and Its Applications, volume I,
section XIII.10). Let R(n) be that transform n periods after an order, K(n) the part of it without another order since,
P(t) the transform of the amount of the first other order if that is placed t periods after, and late(a) the chance that
an order of the age a is late:

    R(n) = K(n) + the sum over t = 1 .. n of ((1 - late(n - t)) P(t)(1) + late(n - t) P(t)) R(n - t)

From any review of the long run on, it follows likewise, from a position that no order has left. But there is a shorter
way. Let C be the sum of the transforms of the position after all reviews of a cycle, K(0) + K(1) + .. without an end,
and z the transform of a net demand. An order has the amount 1 - (1 - z) C, and orders are late at the ages 0 .. m - 1
while the shortfall beside them is R(0) .. R(m - 1). So of a cycle, the shortfalls are together

    C (1 - (1 - z) (late(0) R(0) + .. + late(m - 1) R(m - 1)))

If one in n periods has a review, z is the transform of the net demand of n periods, and ages are counted in reviews. Of
the periods l + j after a review, j = 0 .. n - 1, an order of the age of i reviews is late with the chance late(j + i n),
and the net demand of j periods more is taken from the stock: the shortfall is the mean over all j.
"""
from __future__ import annotations

import functools
from collections.abc import Mapping, Sequence

import numpy as np
import numpy.typing as npt
from scipy import fft

from ..chances import Floats, Whole, add_times
from ..compiled import compiled
from .walk import LatticeLaw, PositionWalk, room_for

FAR = 6  # cells between two gaps, from which on a transform takes less time than adding them one by one
LEAST_CHANCE = 1e-16  # Transforms round chances by about as much.

Transforms = npt.NDArray[np.complex128]
Truths = npt.NDArray[np.bool_]


def transforms_of(laws: Sequence[LatticeLaw], room: int) -> Transforms:
    """Returns a row with the transform of each law in a room of cells, at whose end its cells below 0 stand."""
    chances = np.zeros((len(laws), room))
    for row, law in zip(chances, laws):
        row[law.cells % room] = law.chances
    transforms: Transforms = fft.rfft(chances)
    return transforms


def chances_of(transforms: Transforms, room: int) -> Floats:
    """Returns rows of chances from their transforms, without what these have rounded."""
    rows: Floats = fft.irfft(transforms, room)
    rows[rows <= LEAST_CHANCE] = 0.0
    rows /= rows.sum(axis=1, keepdims=True)
    return rows


def waiting(
    begun: Transforms,
    gaps: Whole,
    move: Transforms,
    reviews: int,
    room: int,
    above: int,
) -> Transforms:
    """Returns the part K of some laws that no order has left, as transforms: a table for each law of the position's
    depth below S, with rows by review from 0 on, and in each row one for each gap.

    `begun` has a table for each law, with its transform for each gap, the first one just after an order. `move` is the
    transform of the net demand. In the room, `above` cells below 0 stand at the end.
    """
    depths = np.arange(room)
    is_waiting = (depths <= gaps[:, None]) | (depths >= room - above)
    state = begun
    states = [state]
    for _ in range(reviews):
        state = fft.rfft(fft.irfft(state * move, room) * is_waiting)
        states.append(state)
    return np.stack(states, axis=1)


def renewed(kept: Transforms, move: Transforms, late: Floats) -> list[Transforms]:
    """Solves the renewal equations: returns the transforms of shortfalls 1, 2, .. reviews after some laws of the
    position's depth below S, from what `waiting` returns.

    The last law alone is followed to the end, after as many reviews as an order may be late, all others to the review
    before.
    """
    placed = list[Transforms]()
    solved = [kept[0, 0]]
    shortfalls = list[Transforms]()
    for time in range(1, len(late) + 1):
        placed.append(kept[:, time - 1] * move - kept[:, time])
        tables = slice(0, -1) if time < len(late) else slice(-1, None)
        total = kept[tables, time].copy()
        for orders, share, left in zip(placed, late[time - 1 :: -1], reversed(solved)):
            amount = share * orders[tables]
            amount += (1 - share) * orders[tables, ..., :1]
            amount *= left
            total += amount
        solved.append(total[0])
        shortfalls.append(total)
    return shortfalls


@compiled
def grow(kept: Floats, free: Floats, roots: Transforms, cells: Sequence[int]) -> bool:
    """Adds to `kept` what `free` has in some cells, and returns whether that is more than a part of C."""
    root = np.empty_like(kept[0])
    is_more = False
    for cell in cells:
        turn = 0
        for k in range(kept.shape[2]):
            root[0, k] = roots[turn].real
            root[1, k] = roots[turn].imag
            turn += cell
            if turn >= len(roots):
                turn -= len(roots)
        for row in np.flatnonzero(free[:, cell]):
            add_times(kept[row, 0], root[0], free[row, cell])
            add_times(kept[row, 1], root[1], free[row, cell])
            is_more = is_more or row > 0
    return is_more


@compiled
def add_product(total: Floats, left: Floats, right: Floats) -> None:
    """Adds a product of complex numbers: each argument has a row with real parts and one with imaginary parts. Numba
    makes fast code of a loop over each row."""
    for k in range(total.shape[1]):
        total[0, k] += left[0, k] * right[0, k] - left[1, k] * right[1, k]
    for k in range(total.shape[1]):
        total[1, k] += left[0, k] * right[1, k] + left[1, k] * right[0, k]


@compiled
def add_orders(law: Floats, orders: Floats, left: Floats, share: float) -> None:
    """Adds to a law what a review's orders add, by what is left after them and the share of them that is late."""
    sure = (1 - share) * orders[0, 0]
    for k in range(law.shape[1]):
        in_time = share * orders[0, k] + sure
        law[0, k] += in_time * left[0, k] - share * orders[1, k] * left[1, k]
    for k in range(law.shape[1]):
        in_time = share * orders[0, k] + sure
        law[1, k] += in_time * left[1, k] + share * orders[1, k] * left[0, k]


@compiled
def solved_for(kept: Floats, moves: Floats, late: Floats) -> Floats:
    """Returns R(1), R(2), .. of a gap, from row 1 on: numbers as rows with their real and imaginary parts. `kept` has
    rows with C, K(1), K(2), .., and `moves` is z."""
    placed = -kept
    solved = kept.copy()
    before = np.zeros_like(moves)
    before[0] = 1.0
    for time in range(1, len(late)):
        orders = placed[time]
        law = solved[time]
        add_product(orders, before, moves)
        before = kept[time]
        sure = (1 - late[0]) * orders[0, 0]
        for k in range(moves.shape[1]):
            law[0, k] = law[0, k] + late[0] * orders[0, k] + sure
        add_times(law[1], orders[1], late[0])
        for ago in range(1, time):
            if placed[ago, 0, 0] > LEAST_CHANCE:
                add_orders(law, placed[ago], solved[time - ago], late[time - ago])
    return solved


@compiled
def left_by(solved: Floats, moves: Floats, late: Floats) -> Floats:
    """Returns by what C is multiplied in the module's last equation, from what `solved_for` returns."""
    under_way = np.zeros_like(moves)
    under_way[0] = late[0]
    for time in range(1, len(late)):
        add_times(under_way[0], solved[time, 0], late[time])
        add_times(under_way[1], solved[time, 1], late[time])
    left = -under_way
    left[0] += 1.0
    add_product(left, moves, under_way)
    return left


@compiled
def set_parts(row: Floats, numbers: Transforms) -> None:
    """Sets the real and the imaginary parts of complex numbers."""
    for k in range(len(numbers)):
        row[0, k] = numbers[k].real
        row[1, k] = numbers[k].imag


@compiled
def last_shortfalls(
    cycles: Transforms,
    waits: Transforms,
    is_far: Truths,
    free: Floats,
    gaps: Whole,
    roots: Transforms,
    move: Transforms,
    late: Floats,
) -> Transforms:
    """Returns the shortfall in the long run times the reviews of a cycle, a row for each of some rising gaps.

    For each gap that `is_far`, `cycles` has C, and `waits` a row for each of K(1), K(2), .. of fewer reviews than an
    order may be late; the last of `waits` is that of all further gaps. For other gaps these are the transforms, by some
    roots of unity, of `free` up to the gap.
    """
    far = 0
    last = 0
    moves = np.stack((move.real, move.imag))
    kept = np.empty((len(late), *moves.shape))
    found = np.empty((len(gaps), len(move)), np.complex128)
    left = moves
    for place, gap in enumerate(gaps):
        is_same = place > 0 and (not is_far[place] or far >= len(waits))
        if is_far[place]:
            set_parts(kept[0], cycles[far])
            for row in range(1, 1 if is_same else len(late)):
                set_parts(kept[row], waits[far, row - 1])
            far = far + 1
            last = gap
        is_same = not grow(kept, free, roots, range(last + 1, gap + 1)) and is_same
        last = gap
        left = left if is_same else left_by(solved_for(kept, moves, late), moves, late)
        whole = np.zeros_like(moves)
        add_product(whole, kept[0], left)
        for k in range(len(move)):
            found[place, k] = complex(whole[0, k], whole[1, k])
    return found


@functools.lru_cache(16)
def roots_of(room: int) -> Transforms:
    """Returns the roots of unity of a room, by which a transform takes the first cell."""
    angles = -2 * np.pi / room * np.arange(room)
    roots: Transforms = np.cos(angles) + 1j * np.sin(angles)
    return roots


def demands_of(move: Transforms, reviews: int, room: int) -> Floats:
    """Returns the chances of the net demand of 1, 2, .. less than so many reviews, a row each for each transform of
    that of one review."""
    powers = np.array([move**count for count in range(1, reviews)]).reshape(
        -1, *move.shape
    )
    chances: Floats = fft.irfft(powers, room)
    chances[chances <= LEAST_CHANCE] = 0.0
    return chances


def falling(
    cycle: Floats, demands: Floats, gaps: Whole, move: Transforms, late: Floats
) -> Transforms:
    """Returns what `last_shortfalls` does, if nothing comes back: then what waits is all that is within the gap. `cycle`
    has C up to the widest gap, by depth, and `demands` is that of `demands_of`.
    """
    is_far = np.append(True, gaps[1:] - gaps[:-1] >= FAR)
    free = np.empty((len(late), len(cycle)))
    free[0] = cycle
    free[1:] = demands[:, : len(cycle)]
    room = demands.shape[1]
    up_to = np.arange(len(cycle)) <= gaps[is_far, None]
    # All demand is within a gap that is wide enough, and all further ones.
    most = int(np.flatnonzero(np.append(True, free[1:].any(axis=0)))[-1]) - 1
    narrow = up_to[: int(np.searchsorted(gaps[is_far], most)) + 1, None]
    cycles, waits = (
        fft.rfft(np.where(some, its, 0.0), room)
        for some, its in ((up_to, cycle), (narrow, free[1:]))
    )
    return last_shortfalls(
        cycles, waits, is_far, free, gaps, roots_of(room), move, late
    )


def moving(
    cycle: Transforms,
    gaps: Whole,
    move: Transforms,
    late: Floats,
    room: int,
    above: int,
) -> Transforms:
    """Returns what `last_shortfalls` does for each of some gaps, if items come back: see `waiting`. `cycle` has C."""
    waits = waiting(
        np.ones((1, *cycle.shape), complex), gaps, move, len(late) - 1, room, above
    )[0, 1:]
    is_far = np.ones(len(gaps), bool)
    free = np.empty((len(late), 0))
    return last_shortfalls(
        cycle,
        np.ascontiguousarray(waits.swapaxes(0, 1)),
        is_far,
        free,
        gaps,
        np.empty(room, complex),
        move,
        late,
    )


class Shortfalls:
    """The shortfalls of the gaps of a walk, in rooms of cells: those below 0 stand at the end."""

    def __init__(
        self,
        walk: PositionWalk,
        late: Floats,
        above: int,
        beside: int,
        taken: Sequence[LatticeLaw],
    ) -> None:
        """Takes how many cells a shortfall has above S, and beside those of its gap; and the laws of what is taken from
        the stock before a period's demand, and with it."""
        self.walk = walk
        self.late = late
        self.above = above
        self.beside = beside
        self.taken = taken
        self.rooms = dict[int, tuple[Transforms, Floats]]()

    def in_room(self, room: int) -> tuple[Transforms, Floats]:
        """Returns the transforms of the net demand of a review, of how far it is above a low, of the net demand of a period,
        and of what is taken; and the net demand of some reviews: see `demands_of`."""
        if room not in self.rooms:
            laws = transforms_of(
                [self.walk.net, self.walk.above_low, self.walk.one, *self.taken], room
            )
            self.rooms[room] = laws, demands_of(laws[0], len(self.late), room)
        return self.rooms[room]

    def transforms(self, gaps: Whole, room: int) -> Transforms:
        """Returns the transforms of the shortfalls of some rising gaps, a row each, times the reviews of a cycle."""
        review, (laws, _) = self.walk.review, self.in_room(room)
        total = self.waited(gaps, room, 0)
        for wait in range(1, review):
            total += self.waited(gaps, room, wait) * laws[2] ** wait
        return total / review

    def waited(self, gaps: Whole, room: int, wait: int) -> Transforms:
        """Returns the transforms of the shortfalls of some rising gaps, a row each, times the reviews of a cycle: of orders
        so many periods after the shortest lead time."""
        (move, above, *_), demands = self.in_room(room)
        late = self.late[wait :: self.walk.review]
        cycle = (self.walk.span / self.walk.review) * self.walk.lows_of(int(gaps[-1]))
        if self.walk.net.low >= 0 and len(late):
            return falling(cycle, demands[: len(late) - 1], gaps, move, late)
        within = np.where(np.arange(len(cycle)) <= gaps[:, None], cycle, 0.0)
        begun: Transforms = fft.rfft(within, room) * above
        if not len(late):
            return begun
        return moving(begun, gaps, move, late, room, self.above)

    def chances(self, gaps: Whole) -> Floats:
        """Returns the chances of the shortfalls of some rising gaps, a row each, from the cell -above on."""
        room = room_for(int(gaps[-1]) + self.beside + 1)
        chances = chances_of(self.transforms(gaps, room), room)
        return np.roll(chances, self.above, axis=1) if self.above else chances

    def stocks(self, gaps: Whole) -> tuple[Floats, int]:
        """Returns the chances of how far the stock before a period's demand is below S, and after it: a table each, with
        a row for each of some rising gaps, times the reviews of a cycle; and the first cell of all.
        """
        low = min(0, *(law.low for law in self.taken)) - self.above
        room = room_for(
            int(gaps[-1]) + self.beside + max(law.high for law in self.taken) + 1 - low
        )
        chances = fft.irfft(
            self.transforms(gaps, room) * self.in_room(room)[0][3:, None], room
        )
        return np.roll(chances, -low, axis=2) if low else chances, low


def lateness(chances: Mapping[int, float]) -> Floats:
    """Returns the chances that an order is late, by its age after the shortest lead time; `chances` is by lead time."""
    ages = range(min(chances), max(chances))
    return np.array(
        [sum(chance for lead, chance in chances.items() if lead > age) for age in ages]
    )


def work_of(room: float, last: int) -> float:
    """Returns how much work the laws of a gap are, by the longest lead time: a million takes about 2 ms."""
    return room * (last * (last + 10) + 40)
