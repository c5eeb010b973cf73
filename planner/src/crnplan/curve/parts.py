"""Holds the candidates of a part of the items and the hulls of these, and adds up figures over them.

A worker holds a part. Figures are added up as whole numbers of a unit, which is the same for all parts: such sums are
exact, so they are the same for any parts in any order.
"""
from __future__ import annotations

import functools
import math
from collections.abc import Callable, Iterable, Sequence
from dataclasses import dataclass
from typing import NamedTuple

import numpy as np

from ..chances import Floats, Whole
from .candidates import DEARER, PRICES, Candidates, lower_hull, slopes, variants_of

# The figures of a period that are added up: the value of the mean stock, that of demand that is not met at once,
# orders, and setup and holding costs.
VALUE, UNMET, ORDERS, COST = FIGURES = range(4)
# Sums have less than so many binary digits, so that the sum of two of them is a whole number of numpy.
BITS = 62


class Dearer(NamedTuple):
    """What an order costs beside its setup, and a unit of the value of stock beside its holding. One of them is 0."""

    orders: float = 0.0
    stock: float = 0.0


AS_IS = Dearer()


class Point(NamedTuple):
    """What a choice of policies amounts to in a period of the long run: the value of the mean stock, the share of
    demand by value that is met at once, orders, and setup and holding costs."""

    value: float
    fill: float
    orders: float
    cost: float


Units = tuple[float, ...]


def units_of(most: Iterable[float], count: int) -> Units:
    """Returns the unit of each figure, a power of 2, of which so many items have no more than `most` each."""
    return tuple(2.0 ** (math.frexp(each * count)[1] - BITS) for each in most)


def in_units(figures: Floats, units: Units) -> Whole:
    """Returns figures, the first axis of an array, as whole numbers of their units."""
    whole: Whole = np.rint(
        figures / np.reshape(units, (-1, *[1] * (figures.ndim - 1)))
    ).astype(np.int64)
    return whole


@dataclass(frozen=True)
class CandidateRows:
    """The candidates of some items: arrays with a row for each, by item, variant of costs, and price.

    `owner` is the item's place in the part; `first` and `end` are the prices for which it is best. `figures` has a row
    for each of `FIGURES`. By item is `extra`: what each variant adds to the costs of an order and of a unit of value of
    stock.
    """

    extra: Floats
    owner: Whole
    variant: Whole
    first: Whole
    end: Whole
    point: Whole
    level: Whole
    figures: Floats

    def shares(self, dearer: Dearer) -> Floats:
        """Returns how much each row counts for costs between those of two variants."""
        which = 1 if dearer.stock else 0
        amount = dearer[which]
        variants = np.array(DEARER[which])
        places = np.arange(len(self.extra))
        extra = self.extra[:, variants, which]
        above = np.minimum((extra <= amount).sum(axis=1), len(variants) - 1)
        low = extra[places, above - 1]
        share = np.clip((amount - low) / (extra[places, above] - low), 0, 1)
        shares = np.zeros(self.extra.shape[:2])
        shares[places, variants[above - 1]] = 1 - share
        shares[places, variants[above]] = share
        return shares[self.owner, self.variant]

    def variant_costs(self) -> Floats:
        """Returns what each row costs in its variant."""
        extra = self.extra[self.owner, self.variant]
        costs: Floats = (
            self.figures[COST]
            + extra[:, 0] * self.figures[ORDERS]
            + extra[:, 1] * self.figures[VALUE]
        )
        return costs


class CurvePart:
    """Some items: by item their `names`, the `demand`, in value, and the figures of `now`, of today's policies and of
    the chosen ones. Their candidates are loaded when they are needed."""

    def __init__(
        self,
        names: tuple[str, ...],
        demand: Floats,
        now: Floats,
        load: Callable[[], CandidateRows],
    ) -> None:
        self.names, self.demand, self.now, self._load = names, demand, now, load
        self._known: dict[Dearer, Hulls] = {}

    @classmethod
    def of(cls, answers: Iterable[tuple[str, float, Candidates, Floats]]) -> CurvePart:
        """Takes the candidates of items, each with its name, its price, and the figures of today's policy and of the
        chosen one: stock, unmet demand and orders."""
        names, prices, candidates, policies = zip(*answers)
        places = np.arange(len(names))
        price = np.array(prices)
        costs = [(item.setup, item.holding, item.demand) for item in candidates]
        setup, holding, demand = np.transpose(costs)
        own = np.column_stack([setup, holding])[:, None]
        units = np.column_stack([np.ones(len(names)), price])[:, None]
        variants = np.array([variants_of(*cost) for cost in costs])

        def figures(owner: Whole, policies: Sequence[Floats]) -> Floats:
            """Returns the figures of policies of some items, by their stock, unmet demand and orders."""
            stock, unmet, orders = policies
            cost = setup[owner] * orders + holding[owner] * stock
            return np.array([price[owner] * stock, price[owner] * unmet, orders, cost])

        owner = np.repeat(places, [len(item.rows) for item in candidates])
        rows = np.concatenate([item.rows for item in candidates])
        first = rows["first"]
        is_other = np.diff(owner) + (np.diff(rows["variant"]) != 0) > 0
        is_last = np.append(is_other, True)
        loaded = CandidateRows(
            (variants - own) / units,
            owner,
            rows["variant"],
            first,
            np.where(is_last, len(PRICES), np.append(first[1:], 0)),
            rows["point"],
            rows["level"],
            figures(owner, [rows["stock"], rows["unmet"], rows["orders"]]),
        )
        now = [figures(places, some) for some in np.transpose(policies, (1, 2, 0))]
        return cls(names, price * demand, np.array(now), lambda: loaded)

    @functools.cached_property
    def rows(self) -> CandidateRows:
        """Returns the candidates."""
        return self._load()

    def hulls(self, dearer: Dearer = AS_IS) -> Hulls:
        """Returns the hulls of the items. Those of the last costs are kept, and those of costs as they are."""
        if dearer not in self._known:
            for other in self._known.keys() - {AS_IS}:
                del self._known[other]
            self._known[dearer] = self._hulls(dearer)
        return self._known[dearer]

    def _hulls(self, dearer: Dearer) -> Hulls:
        return Hulls.of(self.rows, dearer)


@dataclass(frozen=True)
class Hulls:
    """The lower hulls of the items of a part, perhaps with dearer orders or stock.

    `point`, `level` and `figures` are those of the vertices, by item from the least service to the most, and `start` is
    the place of each item's first one. Steps lead from a vertex to the next: `below` is the place of the one that they
    leave. They are by rising price, and by `owner` if prices are equal.
    """

    start: Whole
    point: Whole
    level: Whole
    figures: Floats
    prices: Floats
    owner: Whole
    below: Whole

    @classmethod
    def of(cls, rows: CandidateRows, dearer: Dearer) -> Hulls:
        value, unmet, orders, cost = rows.figures
        cost = cost + dearer.orders * orders + dearer.stock * value
        kept = lower_hull(rows.owner, cost, unmet)
        owner = rows.owner[kept]
        prices = slopes(owner, cost[kept], unmet[kept])
        below = np.flatnonzero(np.isfinite(prices))
        # Of one price, by item: `before` searches so.
        below = below[np.lexsort((below, prices[below]))]
        return cls(
            np.flatnonzero(np.append(True, owner[1:] != owner[:-1])),
            rows.point[kept],
            rows.level[kept],
            rows.figures[:, kept],
            prices[below],
            owner[below],
            below,
        )

    def changes(self, units: Units) -> Whole:
        """Returns what each step adds to the figures, in whole units."""
        whole = in_units(self.figures, units)
        return whole[:, self.below + 1] - whole[:, self.below]

    def before(self, price: float, owner: int) -> int:
        """Returns how many steps come before that of a price and an item."""
        first = int(np.searchsorted(self.prices, price, "left"))
        end = int(np.searchsorted(self.prices, price, "right"))
        return first + int(np.searchsorted(self.owner[first:end], owner))


def measured(part: CurvePart) -> tuple[int, Floats, Floats]:
    """Returns how many items there are, the greatest of each figure, and the greatest extra costs of orders and stock."""
    most = np.maximum(part.rows.figures.max(axis=1), part.now.max(axis=(0, 2)))
    # All demand is added up in this unit too, and dearer costs in that of costs.
    most[UNMET] = max(most[UNMET], part.demand.max())
    most[COST] = max(most[COST], part.rows.variant_costs().max())
    return len(part.names), most, part.rows.extra.max(axis=(0, 1))


def summed(part: CurvePart, units: Units) -> tuple[int, Whole]:
    """Returns the demand, in units of unmet demand, and the figures of today's policies and of the chosen ones."""
    asked = in_units(part.demand[None], units[UNMET : UNMET + 1]).sum()
    return int(asked), np.array(
        [in_units(figures, units).sum(axis=1) for figures in part.now]
    )


def bounds_of(part: CurvePart, units: Units, asked: Sequence[Dearer]) -> Whole:
    """Returns for each of some extra costs and each price the least costs without those of unmet demand, and the unmet
    demand, in units."""
    sums = np.zeros((len(asked), 2, len(PRICES) + 1), np.int64)
    rows = part.rows
    each = np.array([rows.variant_costs(), rows.figures[UNMET]])
    for total, dearer in zip(sums, asked):
        shares = rows.shares(dearer)
        some = np.flatnonzero(shares)
        for its, counted in zip(
            total, in_units(shares[some] * each[:, some], (units[COST], units[UNMET]))
        ):
            np.add.at(its, rows.first[some], counted)
            np.subtract.at(its, rows.end[some], counted)
    return np.cumsum(sums, axis=-1)[..., :-1]


def stretches_of(
    part: CurvePart, units: Units, dearer: Dearer, edges: Floats
) -> tuple[Whole, Whole, Whole, Floats]:
    """Returns sums over the steps between edges of price, each with the edge at its end: how many there are, what they
    add to each figure, and to the stock value those that lower it; the figures before all steps; and the least and the
    greatest price of each stretch that has steps."""
    hulls = part.hulls(dearer)
    ends = np.searchsorted(hulls.prices, edges, "right")
    changes = hulls.changes(units)
    changes = np.vstack([changes, np.minimum(changes[VALUE], 0)])
    before = np.pad(np.cumsum(changes, axis=1), ((0, 0), (1, 0)))
    # Where a stretch has no step, these are of one beside it, which other parts surpass.
    least = np.append(hulls.prices, np.inf)[ends[:-1]]
    most = np.append(-np.inf, hulls.prices)[ends[1:]]
    start = in_units(hulls.figures[:, hulls.start], units).sum(axis=1)
    sums = np.diff(before[:, ends], axis=1)
    # Parts are joined by the greatest: with its sign turned the least one is that too.
    return np.diff(ends), sums, start, np.array([-least, most])


class Steps(NamedTuple):
    """Steps of a ladder by rising price, and by item if prices are equal: what each adds to the figures, in units."""

    prices: Floats
    owner: Whole
    changes: Whole


def steps_of(
    part: CurvePart, start: int, units: Units, dearer: Dearer, low: float, high: float
) -> Steps:
    """Returns the steps above a price, up to another one. `start` is the place of the part's first item."""
    hulls = part.hulls(dearer)
    some = slice(*np.searchsorted(hulls.prices, (low, high), "right"))
    return Steps(
        hulls.prices[some], hulls.owner[some] + start, hulls.changes(units)[:, some]
    )


def fitting(
    part: CurvePart,
    start: int,
    units: Units,
    dearer: Dearer,
    low: float,
    high: float,
    border: tuple[float, int],
    figure: int,
    way: int,
    spare: int,
) -> Steps:
    """Returns the steps above a price, up to another one, that may be taken from a border on, if there is so much of a
    figure to spare: upwards, or back downwards if `way` is -1. The border is a step, by its price and its item.

    An item for whose step there is too little takes no further one.
    """
    hulls = part.hulls(dearer)
    price, owner = border
    if way > 0:
        first = hulls.before(price, owner - start)
        end = int(np.searchsorted(hulls.prices, high, "right"))
    else:
        first = int(np.searchsorted(hulls.prices, low, "right"))
        end = hulls.before(price, owner - start + 1)
    places = np.arange(first, end)[::way]
    changes = hulls.changes(units)
    owners = hulls.owner[places]
    stays = np.full(len(part.names), len(places))
    too_much = np.flatnonzero(way * changes[figure, places] > spare)
    np.minimum.at(stays, owners[too_much], too_much)
    places = np.sort(places[np.arange(len(places)) < stays[owners]])
    places = places[(hulls.prices[places] > low) & (hulls.prices[places] <= high)]
    return Steps(hulls.prices[places], hulls.owner[places] + start, changes[:, places])


class CurveChoice(NamedTuple):
    """A choice of policies: with what is dearer, each item takes the steps up to that of a price and an item, and so
    many more, or fewer, as `moved` says of some items: their places, rising, and the numbers of steps.
    """

    dearer: Dearer
    price: float
    owner: int
    moved: Whole
    point: Point

    def of_part(self, start: int, count: int) -> CurveChoice:
        """Returns the choice of so many items from a place on, with places in their part."""
        some = self.moved[
            :, slice(*np.searchsorted(self.moved[0], (start, start + count)))
        ]
        return self._replace(owner=self.owner - start, moved=some - [[start], [0]])


class Chosen(NamedTuple):
    """The policy of an item in a choice, with its figures of a period."""

    name: str
    point: int
    level: int
    value: float
    fill: float
    orders: float
    cost: float


def policies_of(part: CurvePart, choice: CurveChoice) -> list[Chosen]:
    """Returns the policies of the items of the part in its choice."""
    hulls = part.hulls(choice.dearer)
    steps = hulls.before(choice.price, choice.owner + 1)
    taken = np.bincount(hulls.owner[:steps], minlength=len(part.names))
    taken[choice.moved[0]] += choice.moved[1]
    vertices = hulls.start + taken
    value, unmet, orders, cost = hulls.figures[:, vertices]
    levels = hulls.point[vertices], hulls.level[vertices]
    columns = *levels, value, 1 - unmet / part.demand, orders, cost
    return [*map(Chosen, part.names, *(column.tolist() for column in columns))]
