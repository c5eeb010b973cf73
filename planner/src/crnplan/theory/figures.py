"""Computes what (s,S) policies of a scenario cost in the long run.

Let m be the longest lead time. All orders of the reviews up to period t have arrived in period t + m. So the stock at
the end of that period follows from the position after the review of period t (`PositionWalk`) and from what happens in the m
periods after it: see `shortfalls.py`. With one lead time L, it is that position less the net demand of L + 1 periods
(Zipkin, Foundations of Inventory Management, 2000, chapter 9).

With a review in each n-th period only, an order that may arrive L periods after a review is followed by the next one n
periods later. So in the periods L + j after a review, j = 0 .. n - 1, the stock is the position after that review less
the net demand of L + j + 1 periods. Each j is one in n periods: their figures are those of the mean of these laws.
"""
from __future__ import annotations

from collections.abc import Iterable, Iterator, Sequence
from functools import cached_property
from typing import NamedTuple

import numpy as np

from ..chances import Floats, Whole
from ..policies import Policy
from ..scenario import ScenarioData
from .shortfalls import Shortfalls, lateness
from .walk import (
    LatticeLaw,
    Surplus,
    PositionWalk,
    figures_at,
    mean_of,
    power_of,
    sum_of,
)

MOST_CELLS = 50_000  # of tables with a row for each of many gaps
UNMET, STOCK_LEFT = 1, 3  # rows of `LongRun.figures_from`


class PolicyFigures(NamedTuple):
    """What a policy amounts to in a period of the long run: stock in items, `fill` and `short` as shares."""

    cost: float
    fill: float
    short: float
    stock: float
    orders: float


class Figured(PositionWalk):
    """The figures of a scenario's policies on a lattice."""

    def __init__(self, scenario: ScenarioData, step: int, exact: bool) -> None:
        """Makes the laws of a scenario."""
        super().__init__(scenario, step, exact)
        costs = scenario.costs
        leads = scenario.lead.chances
        self.setup = costs.setup
        self.holding = costs.holding
        self.backlog = costs.backlog
        self.shorts = dict[int, Floats]()
        self.figured = dict[tuple[int, int], PolicyFigures]()
        self.asked = self.demand.mean * step  # the mean demand of a period, in items
        # How far the mean stock less the mean backlog is below the mean low, in items.
        taken = self.one.mean * float(scenario.lead.mean + (self.review + 1) / 2)
        self.offset = step * (self.above_low.mean + taken)
        self.late = lateness(leads)
        self.longest = max(leads)
        # What is independently lost of a stock before a period's net demand, and in addition by how long the review is
        # ago on whose order the stock depends.
        under_way = power_of(self.one, min(leads))
        self.waits = [power_of(self.one, wait) for wait in range(self.review)]
        self.has_one_lead = len(leads) == 1
        # Whether the lows of a gap are those of all wider ones too.
        self.is_nested = self.has_one_lead and not self.spare
        # How many cells a gap's row in a table has above S, and beside those of the gap, about.
        if self.has_one_lead:
            under_way = sum_of(sum_of(under_way, mean_of(self.waits)), self.above_low)
            self.above = 0
            self.beside = under_way.high
        else:
            self.above, self.beside = self.room_beside()
        # Those of orders up to S exactly.
        self.exactly_above = self.above
        self.above += self.spare
        self.beside += self.spare
        self.under_way = under_way
        self.after = sum_of(under_way, self.one)
        self.one_period = Surplus(self.after, step)
        self.one_before = Surplus(sum_of(under_way, self.back.reflected), step)

    def room_beside(self) -> tuple[int, int]:
        """Returns how many cells a shortfall has above S, and beside those of its gap."""
        above, most_late = 0, self.net.high
        for wait, law in enumerate(self.waits):
            reviews = len(self.late[wait :: self.review])
            rise = reviews * max(0, -self.net.low) + max(0, -law.low)
            above = max(above, rise)
            most_late = max(most_late, power_of(self.net, reviews).high + law.high)
        above -= self.above_low.low
        return above, above + most_late

    def figures_from(self, levels: Whole, is_shortest: bool = False) -> Floats:
        """Returns rows with stock costs, unmet demand, the chance of no backlog and the stock at the end of a period
        that starts from lows at these levels, in items; if all lead times were the shortest, whatever else is late.
        """
        after, before = (
            self.of_shortest if is_shortest else (self.one_period, self.one_before)
        )
        return figures_at(
            levels,
            self.step,
            *after.sums,
            *before.sums,
            self.holding,
            self.backlog,
        )

    @cached_property
    def of_shortest(self) -> tuple[Surplus, Surplus]:
        """Returns what is left of a low after a period's demand, and before it, if all lead times were the shortest."""
        if self.has_one_lead or self.review == 1:
            return self.one_period, self.one_before
        under_way = sum_of(self.under_way, mean_of(self.waits))
        laws = sum_of(under_way, self.one), sum_of(under_way, self.back.reflected)
        return Surplus(laws[0], self.step), Surplus(laws[1], self.step)

    def lows_below(self, gaps: Sequence[int]) -> list[Floats]:
        """Returns for each gap the chances of how far a low of `figures_from` is below S, from the cell -above on."""
        if not self.spare:
            return self.exact_lows(gaps)
        return [*map(self.raised_lows, gaps)]

    def raised_lows(self, gap: int) -> Floats:
        """Returns what `lows_below` does, if orders are rounded up: each cycle has the lows of orders up to where it
        begins. With several lead times that leaves out that an earlier cycle may have begun elsewhere.
        """
        shares = self.starts(gap) * self.lows_after(gap)
        begun = np.flatnonzero(shares)
        rows = self.exact_lows([gap + cells for cells in begun.tolist()])
        lows = np.zeros(self.spare + max(map(len, rows)))
        for cells, row in zip(begun.tolist(), rows):
            first = self.spare - cells
            lows[first : first + len(row)] += shares[cells] * row
        return np.trim_zeros(lows / shares.sum(), "b")

    def exact_lows(self, gaps: Sequence[int]) -> list[Floats]:
        """Returns what `lows_below` does, if orders go up to S exactly."""
        if self.has_one_lead:
            lows = self.lows_of(max(gaps))
            return [lows[: gap + 1] / lows[: gap + 1].sum() for gap in gaps]
        for some in self.parts(sorted({*gaps} - self.shorts.keys())):
            rows = self.shortfalls.chances(some)
            ends = rows.shape[1] - np.argmax(rows[:, ::-1] > 0, axis=1)
            for gap, row, end in zip(some.tolist(), rows, ends.tolist()):
                self.shorts[gap] = row[:end]
        return [self.shorts[gap] for gap in gaps]

    def rows_of(self, gaps: Whole) -> Floats:
        """Returns what `lows_below` does, a row for each gap."""
        lows = self.lows_below(gaps.tolist())
        chances = np.zeros((len(lows), max(map(len, lows))))
        for row, its in zip(chances, lows):
            row[: len(its)] = its
        return chances

    @cached_property
    def shortfalls(self) -> Shortfalls:
        """Returns the shortfalls of the gaps, by which the stock before and after the demand of a period is known."""
        return Shortfalls(
            self,
            self.late,
            self.exactly_above,
            self.beside,
            (self.one_before.law, self.one_period.law),
        )

    def stocks(self, gaps: Whole) -> tuple[Floats, int]:
        """Returns what `Shortfalls.stocks` does."""
        if not self.spare:
            return self.shortfalls.stocks(gaps)
        lows = [LatticeLaw.scaled(-self.above, row) for row in self.rows_of(gaps)]
        left = list[LatticeLaw]()
        for taken in (self.one_before.law, self.one_period.law):
            left += [sum_of(low, taken) for low in lows]
        low, high = min(law.low for law in left), max(law.high for law in left)
        chances = np.array([law.between(low, high) for law in left])
        return chances.reshape(2, len(gaps), -1), low

    def below(self, gap: int) -> LatticeLaw:
        """Returns the law of how far the stock at the end of a period is below S, in cells."""
        (lows,) = self.lows_below([gap])
        return sum_of(LatticeLaw.scaled(-self.above, lows), self.after)

    def figures(self, point: int, level: int) -> PolicyFigures:
        """Returns the figures of a policy; if the lattice is not exact, between those of the gaps beside its own."""
        (gap, share), *others = self.gaps_of(point, level)
        figures = self.figures_of_gap(gap, level)
        for other, rest in others:
            pairs = zip(figures, self.figures_of_gap(other, level))
            figures = PolicyFigures(
                *(share * here + rest * there for here, there in pairs)
            )
        return figures

    def pairs_of(self, policies: Iterable[Policy]) -> set[tuple[int, int]]:
        """Returns the gaps, each with an order-up-to level, whose figures those of policies are means of."""
        return {
            (gap, policy.S)
            for policy in policies
            for gap, _ in self.gaps_of(policy.s, policy.S)
        }

    def figures_of_gap(self, gap: int, level: int) -> PolicyFigures:
        """Returns the figures of a gap and an order-up-to level."""
        self.figure({(gap, level)})
        return self.figured[gap, level]

    def figure(self, asked: set[tuple[int, int]]) -> None:
        """Computes the figures of gaps, each with an order-up-to level: together they take less time."""
        if not (new := sorted(asked - self.figured.keys())):
            return
        for (gap, level), row in zip(new, self.lows_below([gap for gap, _ in new])):
            levels = level - self.step * np.arange(-self.above, len(row) - self.above)
            table = self.figures_from(levels)
            orders = 1 / self.periods(gap)
            stock_cost, unmet, held, stock = (table @ row).tolist()
            cost = self.setup * orders + stock_cost
            # Of what is never met at once, rounding leaves a little less than nothing.
            fill, short = max(0.0, 1 - unmet / self.asked), max(0.0, 1 - held)
            self.figured[gap, level] = PolicyFigures(cost, fill, short, stock, orders)

    def parts(self, gaps: Sequence[int] | Whole) -> Iterator[Whole]:
        """Yields rising gaps in parts, whose tables are small. With one lead time all have one table."""
        left = np.array(gaps, int)
        while len(left):
            cells = np.arange(1, len(left) + 1) * (self.beside + left)
            count = len(left)
            if not self.is_nested:
                count = max(1, int(np.searchsorted(cells, MOST_CELLS, "right")))
            yield left[:count]
            left = left[count:]
