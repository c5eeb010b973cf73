"""Computes the candidates of an item for the exchange curve: the best policy by theory for each of a grid of prices.

A price is what a unit of value costs that is not met at once, beside the item's setup and holding costs. For a price
the best policy is a vertex of a lower convex hull: of what policies cost against the demand that they do not meet at
once (Everett, Generalized Lagrange multiplier method, Operations Research 11, 1963). The hull of an item is that of all
order-up-to levels and of gaps S - s (`theory/every_gap.py`): all of them with one lead time, else a grid that is refined
where others may be better. There are candidates for dearer orders too, of which fewer are then bought, and for dearer
stock.
"""
from __future__ import annotations

from collections.abc import Iterable, Sequence
from dataclasses import dataclass

import numpy as np
import numpy.typing as npt

from ..chances import Floats, Whole
from ..plan.question import Terms
from ..theory.every_gap import best_policies
from ..theory.long_run import LongRun

# Answers of other versions are not used again.
VERSION = 6
# Prices of a unit of value that is not met at once, in units of value: eight a decade.
PRICES: Floats = 10.0 ** (np.arange(-40, 33) / 8)
DIGITS = 10  # of a figure that is kept
# How many times the setup an order costs, and how many times the holding stock costs. With the dearest orders, gaps are
# 8^(1/2) times as wide (the economic order quantity), which is within those that theory looks at.
VARIANTS = ((1.0, 1), (1.5, 1), (3.0, 1), (8.0, 1), (1.0, 4), (1.0, 16))
DEARER = (0, 1, 2, 3), (0, 4, 5)  # the variants by rising cost of orders, and of stock


def slopes(owner: Whole, cost: Floats, unmet: Floats) -> Floats:
    """Returns the price at which each point is as good as the next one; infinite for the last one of an owner.

    Points are by owner, with rising cost and falling unmet demand.
    """
    prices = np.full(len(owner), np.inf)
    is_step = owner[1:] == owner[:-1]
    np.divide(np.diff(cost), -np.diff(unmet), out=prices[:-1], where=is_step)
    return prices


def lower_hull(owner: Whole, cost: Floats, unmet: Floats) -> Whole:
    """Returns the places of the vertices of each owner's lower hull: by owner, with rising cost and falling unmet.

    `owner` has whole numbers from 0 on. Prices rise strictly from each vertex to the next.
    """
    order = np.lexsort((unmet, cost, owner))
    least = unmet[order]
    is_first = np.append(True, np.diff(owner[order]) > 0)
    for its in np.split(least, np.flatnonzero(is_first)[1:]):
        np.minimum.accumulate(its, out=its)
    meets_more = is_first | np.append(True, least[1:] < least[:-1])
    return vertices(owner, cost, unmet, order[meets_more])


def vertices(owner: Whole, cost: Floats, unmet: Floats, kept: Whole) -> Whole:
    """Returns those of some places that are vertices of their owner's lower hull: they are by owner, with rising cost
    and falling unmet.

    A point that is not below the line through the points beside it is no vertex, so all such points are left out at
    once, until there are none.
    """
    while True:
        prices = slopes(owner[kept], cost[kept], unmet[kept])
        is_first = np.append(True, owner[kept][1:] != owner[kept][:-1])
        before = np.where(is_first, -np.inf, np.append(-np.inf, prices[:-1]))
        is_vertex = before < prices
        if is_vertex.all():
            return kept
        kept = kept[is_vertex]


def variants_of(
    setup: float, holding: float, demand: float
) -> list[tuple[float, float]]:
    """Returns what an order and an item of stock cost in each of `VARIANTS`.

    If setup is free, a dearer order costs the holding of a period's demand, a number of times.
    """
    return [
        (setup + (orders - 1) * (setup or holding * demand), holding * stock)
        for orders, stock in VARIANTS
    ]


def best_by_price(
    theory: LongRun, value: float, costs: Sequence[tuple[float, float]]
) -> tuple[Whole, Floats]:
    """Returns for each variant's costs the best gaps by price, and their levels, stock, unmet demand and orders: of all
    feasible policies with one lead time, else those that a search finds. A unit has a `value`.
    """
    pairs = np.repeat(np.transpose(costs), len(PRICES), axis=1)
    cases = np.array([*pairs, np.tile(value * PRICES, len(costs))])
    gaps, figures = best_policies(theory, cases)
    return gaps.reshape(len(costs), -1), np.moveaxis(
        figures.reshape(4, len(costs), -1), 1, 0
    )


# A row of candidates: the place of the variant, the place of the first price that it is best for, s and S, stock and
# unmet demand in items, and orders, of a period.
ROW = np.dtype(
    [
        ("variant", "<u1"),
        ("first", "<u1"),
        ("point", "<i8"),
        ("level", "<i8"),
        ("stock", "<f8"),
        ("unmet", "<f8"),
        ("orders", "<f8"),
    ]
)


@dataclass(frozen=True)
class Candidates:
    """The candidates of an item, with its mean demand and what an order and an item of stock cost. `data` has a ROW of
    each."""

    demand: float
    setup: float
    holding: float
    data: bytes

    @classmethod
    def of(
        cls,
        demand: float,
        setup: float,
        holding: float,
        columns: Iterable[Whole | Floats],
    ) -> Candidates:
        """Takes the candidates by the columns of ROW."""
        return cls(demand, setup, holding, np.rec.fromarrays([*columns], ROW).tobytes())

    @property
    def rows(self) -> npt.NDArray[np.void]:
        """Returns the candidates as an array of ROW."""
        return np.frombuffer(self.data, ROW)


def rounded(figures: Floats) -> Floats:
    """Returns figures of at least 0 with as many digits as are kept, and whole ones with all."""
    units = 10.0 ** np.maximum(
        DIGITS - 1 - np.floor(np.log10(np.where(figures > 0, figures, 1.0))), 0
    )
    kept: Floats = np.rint(figures * units) / units
    return kept


def candidates_of(terms: Terms) -> Candidates:
    """Returns the candidates of an item with a price. Raises Refused if it has no theory."""
    item = terms.item
    demand = float(terms.demand.mean)
    setup, holding = (terms.money(terms.rates[name]) for name in ("setup", "holding"))
    assert item.price is not None
    theory = terms.theory
    box = item.box
    gaps, figures = best_by_price(
        theory, float(item.price) * box, variants_of(setup, holding, demand)
    )
    is_new = (np.diff(gaps, prepend=-1) != 0) | (
        np.diff(figures[:, 0], prepend=-1) != 0
    )
    level, stock, unmet, orders = np.moveaxis(figures, 1, 0)[:, is_new]
    levels = np.array([level - theory.items(gaps[is_new]), level], int) * box
    columns = (
        *np.nonzero(is_new),
        *levels,
        *rounded(np.array([stock * box, unmet * box, orders])),
    )
    return Candidates.of(demand * box, setup, holding / box, columns)
