"""Runs policies on what has happened to an item: what they come to in its later periods.

Each policy is in use from the first period on. What happens before the later periods is not counted, but leaves a stock
and orders on their way, as they are when a policy has been in use for long. It begins with nothing on order and a stock
between its s and S, by chance, where its position mostly is in the long run. Lead times are drawn from a law. If an item
is not reviewed in each period, it is in the first later one. Orders are rounded up to what can be ordered.
"""
from __future__ import annotations

import itertools
import statistics
from collections.abc import Iterable, Sequence
from dataclasses import dataclass
from fractions import Fraction
from typing import NamedTuple

import numpy as np

from ...crnsim.periods import Realization, Period, Rates, periods_of
from ...demand.fitted import FittedLaw
from ...policies import Lot
from ...read.item import Item
from ..answer import Figures
from ..question import Levels


@dataclass(frozen=True)
class Outcome:
    """What a policy promised for the later periods, and what came: cost in money a period, the share of demand met at
    once, the mean stock in items, orders a period, and how often its levels changed. s (`point`) and S (`level`) are
    those of the first of these periods. Nothing is promised by the rule of thumb. `costs` and `unmet` are money and
    items, by period."""

    point: int
    level: int
    promised_cost: float | None
    promised_fill: float | None
    cost: float
    fill: float | None
    stock: float
    orders: float
    changes: int
    costs: tuple[float, ...]
    unmet: tuple[int, ...]


class MethodRun(NamedTuple):
    """s and S of each period by a method; the cost and the fill rate that it promised for each later one, none if it
    promises nothing; and s and S of each period at each of several aims, the lowest first, none if it has no others.
    """

    levels: Sequence[Levels]
    promises: Sequence[tuple[float, float]] = ()
    aims: Sequence[Sequence[Levels]] = ()


@dataclass(frozen=True)
class Traced(Outcome):
    """What a method comes to, with its stock at the end of each later period. For each of its aims, the lowest first,
    there is a row with what was not met at once in each later period, and with the stock. All are in items.
    """

    stocks: tuple[int, ...]
    unmet_by_aim: tuple[tuple[int, ...], ...]
    stocks_by_aim: tuple[tuple[int, ...], ...]


class Happened:
    """What has happened to an item, of which the first `record` periods are not counted."""

    def __init__(
        self, item: Item, lot: Lot, lead: FittedLaw, seed: int, record: int
    ) -> None:
        """Takes what can be ordered, and draws the lead times of orders from their law."""
        periods, self.record = len(item.counts), record
        random = np.random.default_rng(seed)
        self.past = Realization(
            item.counts,
            item.returns or (0,) * periods,
            lead.draws(random, periods),
            item.review,
            record,
            lot,
        )
        self.start = float(random.random())
        self.rates = Rates(item.setup, 0, item.holding, item.backlog or Fraction(0))

    @property
    def later(self) -> int:
        """Returns how many later periods there are."""
        return len(self.past.demands) - self.record

    def periods(self, levels: Sequence[Levels]) -> list[Period]:
        """Returns the later periods of a policy whose s and S are those of each period."""
        s, S = levels[0]
        start = s + round(self.start * (S - s))
        return periods_of(self.past, levels, start)[self.record :]

    def outcome(
        self, levels: Iterable[Levels], promises: Sequence[tuple[float, float]] = ()
    ) -> Outcome:
        """Returns what s and S of each period come to, with promises of cost and fill for each later one."""
        record, levels, mean = self.record, [*levels], statistics.fmean
        unmet, stocks = list[int](), list[int]()
        costs, orders = list[float](), list[bool]()
        for period in self.periods(levels):
            unmet.append(period.unmet)
            costs.append(float(period.cost(self.rates)))
            stocks.append(max(period.stock, 0))
            orders.append(period.ordered > 0)
        promised: tuple[float | None, float | None] = None, None
        if promises:
            costs_promised, fills = zip(*promises)
            promised = mean(costs_promised), mean(fills)
        asked, changes = sum(self.past.demands[record:]), 0
        for old, new in itertools.pairwise(levels[record:]):
            changes += old != new
        return Outcome(
            *levels[record],
            *promised,
            mean(costs),
            1 - sum(unmet) / asked if asked else None,
            mean(stocks),
            mean(orders),
            changes,
            tuple(costs),
            tuple(unmet),
        )

    def traced(self, run: MethodRun) -> Traced:
        """Returns what a method comes to, also at its other aims."""
        outcome = self.outcome(run.levels, run.promises)
        unmet, stocks = list[tuple[int, ...]](), list[tuple[int, ...]]()
        for levels in (run.levels, *run.aims):
            periods = self.periods(levels)
            unmet.append(tuple(period.unmet for period in periods))
            stocks.append(tuple(max(period.stock, 0) for period in periods))
        return Traced(
            **vars(outcome),
            stocks=stocks[0],
            unmet_by_aim=(*unmet[1:],),
            stocks_by_aim=(*stocks[1:],),
        )

    def of_figures(
        self, figures: Sequence[Figures], before: Sequence[Levels] = ()
    ) -> Outcome:
        """Returns what the policies of the later periods come to. In the record are the levels `before`, or those of the
        first of them."""
        levels = [*before] or [figures[0].levels] * self.record
        levels += [policy.levels for policy in figures]
        return self.outcome(levels, [(policy.cost, policy.fill) for policy in figures])
