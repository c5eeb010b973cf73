"""Finds the best (s,S) policy of an item by the algorithm of Zheng and Federgruen, as it was published.

Y.-S. Zheng and A. Federgruen, Finding optimal (s,S) policies is about as simple as evaluating a single policy,
Operations Research 39 (1991), 654-665. The names below are written out; each stands beside the paper's own.

An order is placed if the position is at most s. crnsim orders only below its s, so crnsim's s is one above. Levels may
be below 0 here, but not in crnsim.
"""
from __future__ import annotations

from typing import NamedTuple

import numpy as np
import numpy.typing as npt
from scipy.signal import convolve

from crnplan.compiled import compiled

Floats = npt.NDArray[np.float64]
Rates = tuple[float, float, float]


class Optimum(NamedTuple):
    """The best policy: its cost a period, the highest position at which an order is placed, and the order-up-to level."""

    cost: float
    reorder: int
    level: int


@compiled
def stock_cost(table: Floats, rates: Rates, level: int) -> float:
    """Returns G(y), the mean cost of stock and backlog of a period, of a position y after a review. `table` has it from
    0 on, up to all demand of a lead time and a period; `rates` are the mean of that, holding and backlog.
    """
    mean, holding, backlog = rates
    if level < 0:
        return backlog * (mean - level)
    return float(table[level]) if level < len(table) else holding * (level - mean)


@compiled
def grown(
    visits: Floats, sums: Floats, known: int, count: int, turned: Floats
) -> tuple[Floats, Floats, int]:
    """Returns m(j), the mean number of visits to the place j below S in a cycle, for all j below a count, with M(n), the
    sum of those with j < n, and how many are known. `turned` are the chances of demands above 0, the greatest first.
    """
    if count > len(visits):
        more = np.zeros(max(count, 2 * len(visits)) - len(visits))
        visits, sums = np.append(visits, more), np.append(sums, more)
    for place in range(known, count):
        most = min(place, len(turned))
        visits[place] = (
            np.dot(turned[len(turned) - most :], visits[place - most : place])
            * visits[0]
        )
        sums[place + 1] = sums[place] + visits[place]
    return visits, sums, max(known, count)


@compiled
def cycle_cost(
    table: Floats, rates: Rates, setup: float, visits: Floats, reorder: int, level: int
) -> float:
    """Returns k(s,S), the mean cost of a cycle: K plus the sum of m(j) G(S - j) over j < S - s."""
    cycle = setup
    for place in range(level - reorder):
        cycle += visits[place] * stock_cost(table, rates, level - place)
    return cycle


@compiled
def optimum(
    demand: Floats, table: Floats, rates: Rates, setup: float
) -> tuple[float, int, int]:
    """Returns the best policy: its cost c(s,S) = k(s,S) / M(S - s), s and S. Step 0 takes S = y*, which minimizes G, and
    the greatest s below with c(s,S) <= G(s). In step 1 S rises while G(S) is at most the least cost so far, and s with
    it while c(s,S) <= G(s + 1)."""
    turned, known, cycle = demand[:0:-1].copy(), 1, setup
    visits, sums = np.zeros(64), np.zeros(65)
    visits[0] = sums[1] = 1 / (1 - demand[0])
    level = reorder = int(np.argmin(table))
    best = np.inf
    while best > stock_cost(table, rates, reorder) or best == np.inf:
        visits, sums, known = grown(visits, sums, known, level - reorder + 1, turned)
        cycle += visits[level - reorder] * stock_cost(table, rates, reorder)
        reorder -= 1
        best = cycle / sums[level - reorder]
    highest, place = level, level + 1
    while stock_cost(table, rates, place) <= best:
        visits, sums, known = grown(visits, sums, known, place - reorder, turned)
        cycle = cycle_cost(table, rates, setup, visits, reorder, place)
        cost = cycle / sums[place - reorder]
        if cost < best:
            # By the paper s stays below S. Rounding could carry it there if setup is free.
            while reorder + 1 < place and cost <= stock_cost(table, rates, reorder + 1):
                reorder += 1
                cycle -= visits[place - reorder] * stock_cost(table, rates, reorder)
                cost = cycle / sums[place - reorder]
            best, highest = cost, place
        place += 1
    return best, reorder, highest


class Search:
    """The costs of an item's policies, and the search for the best."""

    def __init__(
        self, demand: Floats, lead: int, setup: float, holding: float, backlog: float
    ) -> None:
        """Takes the law of demand, a lead time and costs: see `best_policy`. Raises ValueError if nothing is ever asked
        for."""
        if not demand[1:].sum() > 0:
            raise ValueError("no item is ever asked for")
        law = demand
        for _ in range(lead):
            law = convolve(law, demand)
        above = np.append(
            np.cumsum(law[:0:-1])[::-1], 0.0
        )  # chances of a demand above 0, 1, 2, ..
        lacking = np.cumsum(above[::-1])[::-1]
        self.demand, self.setup = demand, float(setup)
        self.rates = float(lacking[0]), float(holding), float(backlog)
        self.table = (
            holding * (np.arange(len(law)) - lacking[0]) + (holding + backlog) * lacking
        )

    def cost(self, reorder: int, level: int) -> float:
        """Returns c(s,S), the cost of a period."""
        first, count = 1 / (1 - self.demand[0]), level - reorder
        visits, sums, _ = grown(
            np.array([first]), np.array([0, first]), 1, count, self.demand[:0:-1].copy()
        )
        return cycle_cost(
            self.table, self.rates, self.setup, visits, reorder, level
        ) / float(sums[count])

    def best(self) -> Optimum:
        """Returns the best policy."""
        return Optimum(*optimum(self.demand, self.table, self.rates, self.setup))


def best_policy(
    demand: Floats, lead: int, setup: float, holding: float, backlog: float
) -> Optimum:
    """Returns the best policy of an item.

    `demand` has the chances of 0, 1, 2 and so on to be asked for in a period. An order that is placed at the beginning
    of a period arrives `lead` periods later, before that period's demand. `holding` and `backlog` are what an item in
    stock, or owed, costs at the end of a period. Raises ValueError if nothing is ever asked for.
    """
    return Search(demand, lead, setup, holding, backlog).best()
