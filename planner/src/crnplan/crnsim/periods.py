"""Runs an (s,S) policy on periods whose demand, returns and lead times are known.

docs/FORMATS.md says what happens in a period. Costs equal those of crnsim to the unit on the same draws; this module is
not proved.
"""
from __future__ import annotations

from collections import defaultdict
from collections.abc import Iterable, Sequence
from dataclasses import dataclass
from fractions import Fraction
from typing import NamedTuple

from ..policies import Levels, Lot


@dataclass(frozen=True)
class Realization:
    """What happened in each period: the demand, what customers gave back, and the lead time that an order would have
    had that was placed then, in periods. One in `review` periods has a review, and that of the number `first` has one:
    crnsim reviews in each period. Orders are rounded up to what can be ordered: those of crnsim are not.
    """

    demands: Sequence[int]
    returns: Sequence[int]
    leads: Sequence[int]
    review: int = 1
    first: int = 0
    lot: Lot = Lot()


class Rates(NamedTuple):
    """Costs: of an order, of an item that is ordered, and of an item in stock or owed at the end of a period."""

    setup: Fraction | int
    unit: Fraction | int
    holding: Fraction | int
    backlog: Fraction | int


class Period(NamedTuple):
    """What a period comes to, in items.

    It has what is ordered at its review, the demand less what customers return, the stock at its end, which is below 0
    if items are owed, the stock and all that is on order at its end, and the demand that was not met at once.
    """

    ordered: int
    net_demand: int
    stock: int
    position: int
    unmet: int = 0

    def cost(self, rates: Rates) -> Fraction | int:
        """Returns what the period costs."""
        if self.stock >= 0:
            cost = rates.holding * self.stock
        else:
            cost = rates.backlog * -self.stock
        if self.ordered:
            cost += rates.setup + rates.unit * self.ordered
        return cost


def periods_of(
    past: Realization, levels: Iterable[Levels], initial: int
) -> list[Period]:
    """Returns the periods of a policy that starts with a stock and nothing on order.

    Its s and S may change from one period to the next.
    """
    stock = position = initial
    due = defaultdict[int, int](int)
    periods = list[Period]()
    happened = zip(past.demands, past.returns, past.leads, levels, strict=True)
    for number, (demand, returned, lead, (s, S)) in enumerate(happened):
        offered = stock + due.pop(number, 0) + returned
        ordered = 0
        if position < s and (number - past.first) % past.review == 0:
            ordered = past.lot.order(S - position)
            due[number + lead] += ordered
        unmet = demand - min(demand, max(offered, 0))
        net_demand = demand - returned
        stock = offered - demand
        position += ordered - net_demand
        periods.append(Period(ordered, net_demand, stock, position, unmet))
    return periods
