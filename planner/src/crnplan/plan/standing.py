"""Says what an item of a plan stands at on a day: its position, whether it is ordered, and how long its stock lasts.

The position of an item is its stock, less what is owed, plus all that is on order. If it is below s, the item is
ordered up to S, unless its planner orders another quantity on that day. The chance of a shortage before delivery is
that of the net demand of a lead time and one more period exceeding what is there by then. It assumes the laws of the
plan, independent periods, and that what is on order comes when it is due; what has no date, or is overdue, comes in
time.
"""
from __future__ import annotations

import datetime
import math
from collections import Counter
from collections.abc import Sequence
from dataclasses import dataclass
from fractions import Fraction
from functools import cached_property

from ..law import Law
from ..policies import Levels, Lot
from ..read.columns import DAYS
from ..read.dates import period_of
from ..read.item import PHASE_OUT, Item
from ..read.observed import Day
from ..read.quantities import Quantity
from ..read.stock import NONE, Arrival, OnHand
from ..remarks import Remark, Value
from .answer import Answer, Laws
from .risk import Risk, demands_of, items_of

MOST_DAYS = 36_525  # from today to a latest date
YEAR_WEEKS = 52  # of demand, from which on it is said that an order has more
Worth = Fraction | None  # None if an item has no price


@dataclass(frozen=True)
class Standing:
    """An item of a plan on a day, of a catalogue whose period is `every`. Amounts are in items. One that is phased out has
    no answer: what is owed of it is ordered. Nor needs one whose planner has set levels. If there is a `quantity`, that
    is ordered, whatever the plan says. `lot` is what can be ordered of it.
    """

    item: Item
    answer: Answer | None
    hand: OnHand
    arrivals: Sequence[Arrival]
    day: Day
    every: str
    quantity: Quantity | None = None
    lot: Lot = Lot()

    @property
    def is_planned(self) -> bool:
        """Returns whether there are s and S by which the item is ordered."""
        is_phased_out = self.item.past == PHASE_OUT
        return is_phased_out or bool(self.answer or self.set_levels)

    @property
    def set_levels(self) -> Levels | None:
        """Returns s and S that its planner has set; None if there are none."""
        return self.item.override.levels if self.item.override else None

    @property
    def levels(self) -> Levels:
        """Returns s and S by which the item is ordered: those that its planner has set, else those of the plan, by a season
        those of the month of the day."""
        if self.set_levels:
            return self.set_levels
        if self.answer is None:
            return 0, 0
        if self.answer.calendar:
            return self.answer.chosen_in(self.period).levels
        return self.answer.chosen.levels

    @property
    def shown_levels(self) -> dict[str, int]:
        """Returns s and S by name; nothing if the item is not planned."""
        return dict(zip("sS", self.levels)) if self.is_planned else {}

    @cached_property
    def period(self) -> int:
        """Returns the number of the period of the day."""
        return period_of(self.day, self.every)

    @cached_property
    def laws(self) -> Laws:
        """Returns the laws of the plan, by a season those of the month of the day; of an item that is phased out those by
        which nothing more is asked for."""
        if self.answer:
            return self.answer.laws_in(self.period)
        return Laws(
            self.item.box, Law((0,), (1,)), Law.of(Counter(self.item.leads)), None
        )

    @property
    def there(self) -> Fraction:
        """Returns the stock less what is owed."""
        return self.hand.stock - self.hand.owed

    @cached_property
    def on_order(self) -> Fraction:
        return items_of(self.arrivals)

    @cached_property
    def position(self) -> Fraction:
        return self.there + self.on_order

    @cached_property
    def is_below(self) -> bool:
        """Returns whether the policy orders: the position is below s."""
        return self.is_planned and self.position < self.levels[0]

    @cached_property
    def is_due(self) -> bool:
        """Returns whether the item is ordered: by its planner's quantity, else by its policy."""
        return self.is_below if self.quantity is None else self.quantity.items > 0

    @property
    def to_level(self) -> Fraction:
        """Returns what lacks up to S; below 0 if the position is above it."""
        return self.levels[1] - self.position

    @cached_property
    def above(self) -> Fraction:
        """Returns what stands above all that an order up to S reaches; 0 if nothing does, or there is no S."""
        if not self.is_planned:
            return NONE
        s, S = self.levels
        return max(-self.to_level - self.lot.most_above(S - s), NONE)

    @cached_property
    def excess(self) -> Worth:
        """Returns what that is worth."""
        return self.worth(self.above)

    @property
    def up_to_level(self) -> int:
        """Returns an order up to S."""
        return self.lot.order(self.to_level)

    @property
    def planned(self) -> int:
        """Returns what the policy orders; 0 if it orders nothing."""
        return self.up_to_level if self.is_below else 0

    @property
    def placed(self) -> int:
        """Returns the planner's quantity, else an order up to S."""
        return self.up_to_level if self.quantity is None else self.quantity.items

    @property
    def packs(self) -> int:
        """Returns the packs of that order."""
        return self.placed // self.lot.pack

    @property
    def is_changed(self) -> bool:
        """Returns whether the planner orders another quantity than the policy."""
        return self.quantity is not None and self.placed != self.planned

    def worth(self, items: Fraction | int) -> Worth:
        """Returns what so many items are worth."""
        return None if self.item.price is None else items * self.item.price

    @property
    def placed_worth(self) -> Worth:
        """Returns what its order is worth."""
        return self.worth(self.placed)

    @cached_property
    def mean(self) -> float:
        """Returns the mean net demand of a period by the laws of the plan."""
        net = self.laws.demand.mean
        if self.laws.returns:
            net -= self.laws.returns.mean
        return float(net * self.laws.box)

    def weeks_of(self, items: Fraction) -> float | None:
        """Returns the weeks of mean demand that so many items are; 0 for less than none, None if nothing is used."""
        if self.mean <= 0:
            return None
        periods = max(0.0, float(items) / self.mean)
        return periods * float(DAYS[self.every] / DAYS["week"])

    @cached_property
    def weeks(self) -> float | None:
        """Returns the weeks until a shortage at mean demand if nothing arrived: of the stock less what is owed."""
        return self.weeks_of(self.there)

    @property
    def weeks_above(self) -> float | None:
        """Returns the weeks of mean demand that the position is above s."""
        return self.weeks_of(self.position - self.levels[0])

    @property
    def last_day(self) -> Day:
        """Returns the day on which an order has to leave so that it arrives, at mean demand and after the mean lead
        time, before the position is used up; the day itself if that is past."""
        periods = 0.0
        if self.mean > 0:
            periods = float(self.position) / self.mean - float(self.laws.lead.mean)
        days = math.floor(periods * float(DAYS[self.every]))
        return self.day + datetime.timedelta(min(max(0, days), MOST_DAYS))

    @property
    def lead_days(self) -> Fraction:
        """Returns the mean lead time in days."""
        return Fraction(self.laws.lead.mean) * DAYS[self.every]

    @property
    def due(self) -> Day:
        """Returns the day on which an order of the day is expected: after the mean lead time, in days rounded up."""
        return self.day + datetime.timedelta(math.ceil(self.lead_days))

    @cached_property
    def overdue(self) -> list[Arrival]:
        """Returns what should have come before the day."""
        return [
            arrival
            for arrival in self.arrivals
            if arrival.due and arrival.due < self.day
        ]

    def there_within(self, periods: int) -> Fraction:
        """Returns the stock less what is owed, and what arrives within so many periods from the day on."""
        end = DAYS[self.every] * periods
        return self.there + items_of(
            arrival
            for arrival in self.arrivals
            if arrival.due is None or (arrival.due - self.day).days < end
        )

    @property
    def horizons(self) -> dict[int, float]:
        """Returns the chances of the periods of a lead time and one more."""
        return {lead + 1: chance for lead, chance in self.laws.lead.chances.items()}

    @cached_property
    def chance(self) -> float:
        """Returns the chance of a shortage before delivery: see the module."""
        total = 0.0
        for periods, chance, demand in demands_of(self.laws, self.horizons):
            boxes = math.floor(self.there_within(periods) / self.laws.box)
            total += chance * demand.above(boxes)
        return total

    @cached_property
    def risk(self) -> Risk:
        """Returns what the item may lack before its next receipt."""
        return Risk(self)

    @property
    def time(self) -> float:
        """Returns the weeks until a shortage of an item that is ordered, by which the most urgent one comes first."""
        return math.inf if not self.is_due or self.weeks is None else self.weeks

    @property
    def urgency(self) -> tuple[float, str]:
        """Returns what sorts the most urgent of items with one time first."""
        return -self.chance if self.is_due else 0.0, self.item.name

    @property
    def reason(self) -> Remark:
        """Returns why the item is ordered."""
        up_to: dict[str, Value] = {"order": float(self.to_level), "S": self.levels[1]}
        if self.hand.owed:
            return Remark("items owed", {"owed": float(self.hand.owed), **up_to})
        if not self.hand.stock:
            return Remark("no stock left", up_to)
        return Remark(
            "below s", {"position": float(self.position), "s": self.levels[0], **up_to}
        )

    @property
    def reasons(self) -> list[Remark]:
        """Returns why so many items are ordered."""
        reasons = [self.reason] if self.is_below else []
        if self.set_levels:
            reasons.append(Remark("by override"))
        if self.quantity and (self.is_changed or self.quantity.reason):
            reason = self.quantity.reason
            reasons.append(
                Remark("by the plan", {"planned": self.planned, "reason": reason})
            )
        if not self.is_changed and self.placed != self.to_level:
            lot = {"pack": self.lot.pack, "least": self.lot.order(1)}
            reasons.append(Remark("rounded up", {"placed": self.placed, **lot}))
        weeks = self.weeks_of(Fraction(self.placed))
        if weeks and weeks > YEAR_WEEKS:
            reasons.append(Remark("more than a year", {"weeks": weeks}))
        return reasons
