"""Says which items are late or at risk on a day, and what to expedite first.

An item is late if an order of it is overdue. It is at risk if its stock is less than mean demand up to the next
receipt: the first order that is due after the day, else an order of the day itself, after its lead time. Until then
demand is that of whole periods, by the laws of the plan, if periods are independent.
"""
from __future__ import annotations

import math
from collections.abc import Iterable, Iterator, Mapping
from dataclasses import dataclass
from fractions import Fraction
from functools import cached_property
from operator import attrgetter
from typing import TYPE_CHECKING

import numpy as np

from ..read.columns import DAYS
from ..read.observed import Day
from ..read.stock import NONE, Arrival
from ..remarks import Remark
from ..theory.walk import NOTHING, LatticeLaw, power_of, sum_of
from .answer import Laws

if TYPE_CHECKING:
    from .standing import Standing


def items_of(arrivals: Iterable[Arrival]) -> Fraction:
    """Returns how many items arrive."""
    return sum((arrival.items for arrival in arrivals), NONE)


def demands_of(
    laws: Laws, horizons: Mapping[int, float]
) -> Iterator[tuple[int, float, LatticeLaw]]:
    """Yields numbers of periods, which rise, each with its chance and with the law of the net demand of so many, in
    boxes."""
    total, before, net = NOTHING, 0, LatticeLaw.of(laws.demand, 1)
    if laws.returns:
        net = sum_of(net, LatticeLaw.of(laws.returns, 1).reflected)
    for periods, chance in horizons.items():
        total, before = sum_of(total, power_of(net, periods - before)), periods
        yield periods, chance, total


@dataclass(frozen=True)
class Risk:
    """What an item that is late or at risk may lack before its next receipt. Amounts are in items."""

    standing: Standing

    @property
    def overdue(self) -> Fraction:
        """Returns how many items are overdue."""
        return items_of(self.standing.overdue)

    @property
    def days_late(self) -> int:
        """Returns how many days ago the oldest order was due that is overdue; 0 if none is."""
        day = self.standing.day
        dates = [arrival.due for arrival in self.standing.overdue if arrival.due]
        return (day - min(dates, default=day)).days

    @cached_property
    def receipt(self) -> Day | None:
        """Returns the day of the next receipt; None if that is of an order of the day."""
        day = self.standing.day
        dates = [arrival.due for arrival in self.standing.arrivals if arrival.due]
        return min((date for date in dates if date > day), default=None)

    @property
    def days(self) -> float:
        """Returns the days until the next receipt: of an order of the day its mean lead time."""
        if self.receipt is None:
            return float(self.standing.lead_days)
        return (self.receipt - self.standing.day).days

    @property
    def horizons(self) -> dict[int, float]:
        """Returns the chances of the whole periods until the next receipt."""
        if self.receipt is None:
            return self.standing.horizons
        return {math.ceil(self.days / DAYS[self.standing.every]): 1.0}

    @cached_property
    def there(self) -> Fraction:
        """Returns the stock less what is owed, with what is due on the day."""
        standing = self.standing
        due = (it for it in standing.arrivals if it.due == standing.day)
        return standing.there + items_of(due)

    @property
    def ends_before(self) -> bool:
        """Returns whether the stock is less than mean demand up to the next receipt."""
        return float(self.there) < self.standing.mean * self.days / float(
            DAYS[self.standing.every]
        )

    @cached_property
    def _figures(self) -> tuple[float, float]:
        """Returns the chance of a shortage, and what is short."""
        box, sure = self.standing.laws.box, self.there
        without, short = 0.0, 0.0
        for _, chance, demand in demands_of(self.standing.laws, self.horizons):
            without += chance * demand.above(math.floor(sure / box))
            lacking = np.maximum(demand.cells * box - float(sure), 0.0)
            short += chance * float(lacking @ demand.chances)
        return without, short

    @property
    def chance_without(self) -> float:
        """Returns the chance of a shortage before the next receipt, if nothing that is overdue or has no date comes
        before."""
        return self._figures[0]

    @property
    def short(self) -> float:
        """Returns the items that are expected to lack then."""
        return self._figures[1]

    @property
    def value(self) -> float | None:
        """Returns the money that these are worth; None without a price."""
        price = self.standing.item.price
        return None if price is None else self.short * float(price)

    @cached_property
    def reasons(self) -> list[Remark]:
        """Returns why the item is late or at risk; nothing if it is not."""
        reasons = list[Remark]()
        orders = len(self.standing.overdue)
        if orders:
            items, days = float(self.overdue), self.days_late
            facts = {"orders": orders, "items": items, "days": days}
            reasons.append(Remark("overdue", facts))
        if self.ends_before:
            code = "nothing is due" if self.receipt is None else "stock ends"
            lasts = {"weeks": self.standing.weeks or 0.0, "days": self.days}
            reasons.append(Remark(code, lasts))
        return reasons

    @property
    def order(self) -> tuple[bool, float, float, str]:
        """Returns what sorts first what is best expedited: of the greatest value that is short."""
        return (
            self.value is None,
            -(self.value or 0.0),
            -self.short,
            self.standing.item.name,
        )


def risks_of(standings: Iterable[Standing]) -> list[Risk]:
    """Returns the items that are late or at risk, what to expedite first before others."""
    risks = [it.risk for it in standings if it.risk.reasons]
    return sorted(risks, key=attrgetter("order"))
