"""Chooses a policy for each item by one price of what is not met at once, and says how far that is from the best.

With a price L of a unit of value that is not met at once, each item takes the policy with the least setup, holding and
L times its unmet value. No choice of policies then has as little unmet value for less setup and holding (Everett,
Generalized Lagrange multiplier method, Operations Research 11, 1963). Over all L this is the exchange curve (Silver,
Pyke and Thomas, Inventory and Production Management in Supply Chains, 2017). Between two of its points, steps are taken
item by item. A price of an order beside its setup buys fewer orders in the same way, and one of the value of stock
beside its holding cost buys less stock with more orders.
"""
from __future__ import annotations

import itertools
import math
from collections import Counter
from collections.abc import Callable, Iterator, Mapping, Sequence
from typing import Any, NamedTuple

import numpy as np

from ..chances import Floats, Whole
from ..theory.levels import NEAR
from .candidates import PRICES
from .parts import (
    AS_IS,
    COST,
    FIGURES,
    UNMET,
    VALUE,
    CurveChoice,
    Dearer,
    Point,
    Steps,
    Chosen,
    bounds_of,
    fitting,
    measured,
    policies_of,
    steps_of,
    stretches_of,
    summed,
    units_of,
)

# A budget that is not used up is filled with steps whose price is at most so many times that of the step too many.
FILL = 2.0
# Steps that are looked at one by one, at most, unless more have the same price; and into how many stretches more steps
# are cut.
MOST_STEPS = 200_000
CUTS = 64
# Calls a function with each part, in order, and with words from further columns, as `map` does.
Over = Callable[..., Iterator[Any]]


def always(*words: Any) -> list[Iterator[Any]]:
    """Returns columns that have the same words for each part."""
    return [itertools.repeat(word) for word in words]


class Items:
    """The candidates of all items, part by part: each question is sent to all parts, which return sums."""

    def __init__(self, over: Over) -> None:
        """Asks for what all items have in common. Raises ValueError if there is no part."""
        counts, most, extra = zip(*over(measured))
        *starts, self.count = itertools.accumulate(counts, initial=0)
        self.over = over
        self.starts = starts
        self.units = units_of(np.max(most, axis=0).tolist(), self.count)
        self.most_extra = Dearer(*np.max(extra, axis=0).tolist())
        asked, now = zip(*self.each(summed))
        self.asked = sum(asked)
        self.now = [self.point(sums) for sums in np.sum(now, axis=0)]
        self.known: dict[Dearer, Ladder] = {}
        self.bounds: dict[tuple[Dearer, ...], tuple[Floats, Floats]] = {}

    def each(self, function: Callable[..., Any], *words: Any) -> Iterator[Any]:
        """Yields what a function returns for each part, the units, and further words."""
        return self.over(function, *always(self.units, *words))

    def point(self, sums: Whole) -> Point:
        """Returns the point of sums of figures, in units."""
        value, _, orders, cost = (
            int(sums[figure]) * self.units[figure] for figure in FIGURES
        )
        return Point(value, 1 - int(sums[UNMET]) / self.asked, orders, cost)

    def policies(self, choice: CurveChoice) -> Iterator[Chosen]:
        """Yields the policies of all items in a choice."""
        ends = [*self.starts[1:], self.count]
        choices = (
            choice.of_part(start, end - start) for start, end in zip(self.starts, ends)
        )
        return itertools.chain.from_iterable(self.over(policies_of, choices))

    def ladder(self, dearer: Dearer = AS_IS) -> Ladder:
        """Returns the steps from the least service to the most, perhaps with dearer orders or stock."""
        if dearer not in self.known:
            self.known[dearer] = Ladder(self, dearer)
        return self.known[dearer]

    def least_cost(self, point: Point, *asked: Dearer) -> float:
        """Returns a bound: no choice of policies with the service of a point has less setup and holding; if orders or
        stock are dearer, none with no more of them than the point. Each extra cost gives such a bound: the best is
        returned.

        It is Lagrange's bound at the best of the grid's prices, at which each item's best policy is known. For costs
        between two variants, the least is no less than what lies between theirs, since it is a concave function.
        """
        if asked not in self.bounds:
            costs, unmet = np.moveaxis(sum(self.each(bounds_of, asked)), 1, 0)
            self.bounds[asked] = costs * self.units[COST], unmet * self.units[UNMET]
        costs, unmet = self.bounds[asked]
        least = costs + PRICES * (
            unmet - (1 - point.fill) * self.asked * self.units[UNMET]
        )
        used = np.array(asked) @ [point.orders, point.value]
        return float((least.max(axis=1) - used).max())


def grid(low: float, high: float) -> Floats:
    """Returns prices that cut the range from one to another into many stretches, each with the price at its end."""
    # A stretch has no step at its lower end: so the first one has those at `low`.
    prices: Floats = np.unique([np.nextafter(low, 0), *np.geomspace(low, high, CUTS)])
    return prices


class LadderPart(NamedTuple):
    """Steps of a ladder above a price, up to another one: how many, sums of figures before and after them, in units,
    and what those add to the stock value that lower it; the least and the greatest price of a step.
    """

    low: float
    high: float
    steps: int
    before: Whole
    after: Whole
    falls: int
    least: float
    most: float

    @property
    def is_small(self) -> bool:
        """Returns whether its steps are looked at one by one."""
        return self.steps <= MOST_STEPS or self.least == self.most


class Ladder:
    """The steps from the least service to the most, by rising price and by item, perhaps with dearer orders or stock.

    A step between two prices is found in rounds: of stretches of it sums are known, and those that may hold it are cut,
    until there are few enough steps.
    """

    def __init__(self, items: Items, dearer: Dearer = AS_IS) -> None:
        self.items = items
        self.dearer = dearer
        self.grid = self.stretches(np.array([-np.inf, *PRICES, np.inf]))
        self.start, self.end = self.grid[0].before, self.grid[-1].after
        self.whole = [stretch for stretch in self.grid if stretch.steps]

    def stretches(self, edges: Floats, before: Whole | None = None) -> list[LadderPart]:
        """Returns the stretches between prices. The figures `before` are those of the start, if they are not known."""
        counts = np.zeros(1, int)
        sums = np.zeros(1, int)
        start = np.zeros(1, int)
        span = np.full(1, -np.inf)
        for its in self.items.each(stretches_of, self.dearer, edges):
            counts = counts + its[0]
            sums = sums + its[1]
            start = start + its[2]
            span = np.maximum(span, its[3])
        *changes, falls = sums
        first = start if before is None else before
        places = np.column_stack([first, first[:, None] + np.cumsum(changes, axis=1)]).T
        return [
            LadderPart(*row)
            for row in zip(
                edges.tolist(),
                edges[1:].tolist(),
                counts.tolist(),
                places,
                places[1:],
                falls.tolist(),
                (-span[0]).tolist(),
                span[1].tolist(),
            )
        ]

    def steps(self, function: Callable[..., Steps], *words: Any) -> Steps:
        """Returns the steps that a function returns for each part, the place of its first item, and further words."""
        parts = zip(
            *self.items.over(
                function,
                self.items.starts,
                *always(self.items.units, self.dearer, *words),
            )
        )
        prices, owner, changes = [np.concatenate(part, axis=-1) for part in parts]
        # Parts are in order of their items: steps of one price stay so.
        order = np.argsort(prices, kind="stable")
        return Steps(prices[order], owner[order], changes[:, order])

    def places(self, stretch: LadderPart) -> tuple[Steps, Whole]:
        """Returns the steps of a stretch, and the sums of figures before the first, after it, and so on."""
        steps = self.steps(steps_of, stretch.low, stretch.high)
        return steps, np.column_stack(
            [stretch.before, stretch.before[:, None] + np.cumsum(steps.changes, axis=1)]
        )

    def cut(self, stretch: LadderPart) -> list[LadderPart]:
        return self.stretches(grid(stretch.least, stretch.most), stretch.before)

    def extreme(self, way: int, stretches: Sequence[LadderPart] = ()) -> int:
        """Returns the greatest stock value along the ladder, or the least if `way` is -1, in units. It may fall."""
        some = stretches or self.grid
        best = max(
            way * int(place[VALUE])
            for stretch in some
            for place in (stretch.before, stretch.after)
        )
        for stretch in some:
            before = int(stretch.before[VALUE])
            most = before * way - stretch.falls
            if way > 0:
                most += int(stretch.after[VALUE]) - before
            if most <= best:
                continue
            if stretch.is_small:
                _, places = self.places(stretch)
                most = int((way * places[VALUE]).max())
            else:
                most = way * self.extreme(way, self.cut(stretch))
            best = max(best, most)
        return way * best

    def crossing(
        self, figure: int, way: int, most: int, stretches: Sequence[LadderPart]
    ) -> Crossing | None:
        """Returns the last step before which a figure, times `way`, is at most so much; None if it is always more. At
        the end it is more."""
        for stretch in reversed(stretches):
            least = way * int(stretch.before[figure])
            if figure == VALUE:
                least += stretch.falls
            if least > most:
                continue
            if stretch.is_small:
                crossing = self._last(figure, way, most, stretch)
            else:
                crossing = self.crossing(figure, way, most, self.cut(stretch))
            if crossing:
                return crossing
        return None

    def _last(
        self, figure: int, way: int, most: int, stretch: LadderPart
    ) -> Crossing | None:
        """Returns the last step of a stretch before which a figure is at most so much."""
        steps, places = self.places(stretch)
        fits = np.flatnonzero(way * places[figure, :-1] <= most)
        if not len(fits):
            return None
        last = int(fits[-1])
        return Crossing(
            float(steps.prices[last]),
            int(steps.owner[last]),
            places[:, last],
            places[:, last + 1],
        )

    def choice(
        self,
        price: float,
        owner: int,
        sums: Whole,
        moved: Mapping[int, int] | None = None,
    ) -> CurveChoice:
        """Returns the choice with all steps up to that of a price and an item, and what it amounts to."""
        return CurveChoice(
            self.dearer,
            price,
            owner,
            np.array(sorted((moved or {}).items()), int).reshape(-1, 2).T,
            self.items.point(sums),
        )

    def with_price(self, place: int) -> CurveChoice:
        """Returns the best choice for a price of the grid."""
        return self.choice(
            self.grid[place].high, self.items.count, self.grid[place].after
        )

    def with_fill(self, fill: float) -> CurveChoice | None:
        """Returns a choice that meets a share of demand by value; None if no choice does."""
        allowed = math.floor((1 - fill + NEAR) * self.items.asked)
        if self.end[UNMET] > allowed:
            return None
        # Figures are whole units: more than allowed is at least one unit more.
        border = self.crossing(UNMET, -1, -allowed - 1, self.whole)
        if border is None:
            return self.choice(0.0, 0, self.start)
        # Steps that are not needed are taken back, the dearest first, each item's last one first.
        return self._moved(border, UNMET, -1, allowed - int(border.after[UNMET]))

    def with_value(self, most: float) -> CurveChoice | None:
        """Returns the choice with the best service whose stock is worth no more; None if no choice is."""
        allowed = math.floor(most * (1 + NEAR) / self.items.units[VALUE])
        if self.end[VALUE] <= allowed:
            return self.choice(math.inf, 0, self.end)
        border = self.crossing(VALUE, 1, allowed, self.whole)
        # Further steps are taken that the budget allows, the cheapest first, each item's next one first.
        return border and self._moved(
            border, VALUE, 1, allowed - int(border.before[VALUE])
        )

    def _moved(
        self, border: Crossing, figure: int, way: int, spare: int
    ) -> CurveChoice:
        """Returns a choice at a border, in which steps beside it are taken, or taken back, one by one, each of which
        uses some of what is to spare of a figure. An item for whose step there is too little stays as it is.
        """
        windows = self.windows(border.price, way)
        falls = 0
        if figure == VALUE:
            falls = -sum(window.falls for window in windows)
        moved = Counter[int]()
        stays = np.zeros(self.items.count, bool)
        sums = (border.before if way > 0 else border.after).copy()
        for window in windows:
            steps = self.steps(
                fitting,
                window.low,
                window.high,
                (border.price, border.owner),
                figure,
                way,
                spare + falls,
            )
            taken = []
            uses = zip(steps.owner.tolist(), (way * steps.changes[figure]).tolist())
            for place, (owner, use) in [*enumerate(uses)][::way]:
                if use > spare or stays[owner]:
                    stays[owner] = True
                    continue
                spare -= use
                moved[owner] += way
                taken.append(place)
            sums += way * steps.changes[:, taken].sum(axis=1)
            if figure == VALUE:
                falls += window.falls
        return self.choice(border.price, border.owner - (way > 0), sums, moved)

    def windows(self, price: float, way: int) -> list[LadderPart]:
        """Returns stretches from a price on, upwards or downwards, to that at which a budget is no longer filled: each
        with few steps, if they have different prices."""
        low, high = sorted((price, price * FILL**way))
        windows = list[LadderPart]()
        for stretch in self.stretches(grid(low, high)):
            if windows and windows[-1].steps + stretch.steps <= MOST_STEPS:
                last = windows.pop()
                stretch = last._replace(
                    high=stretch.high,
                    steps=last.steps + stretch.steps,
                    falls=last.falls + stretch.falls,
                )
            windows.append(stretch)
        return windows[::way]


class Crossing(NamedTuple):
    """A step of a ladder, by its price and its item, and the sums of figures before and after it, in units."""

    price: float
    owner: int
    before: Whole
    after: Whole
