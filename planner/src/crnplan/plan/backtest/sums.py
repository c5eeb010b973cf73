"""Adds up the tests of many items on their past, and says which way of planning needs least.

Demand counts in units of an item's own mean, so that all items weigh alike. Costs are added as money. Errors are those of
`estimates.py`.

Ways are compared where they meet as much at once as the plan promised, by what stock and orders cost then. What the plan
met more or less than that by itself is said with the stock that its promise would have needed.
"""
from __future__ import annotations

import math
from collections import defaultdict
from collections.abc import Iterable, Iterator, Mapping, Sequence
from dataclasses import dataclass, replace
from typing import TYPE_CHECKING, Any, NamedTuple

import numpy as np

from ...chances import Floats
from ...remarks import Remark, Value
from .curves import Curve, CurveReading
from .estimates import ALARM, Estimate, Ratio, error_of
from .methods import METHODS, PLANNED, Method
from .one import Backtest

if TYPE_CHECKING:
    from ..changes import Since

BLOCK = 4  # periods
# Fewer items have no verdict.
LEAST_ITEMS = 10
HOLDS, MUCH, LITTLE, UNSURE = "holds", "much", "little", "unsure"
FEW = "few"
SLACK = 0.01  # of the fill: a smaller miss is none
SMALL = 30  # Of classes of fewer items it is said how far they moved.
# The figures of `Sums` that are given by method.
BY_METHOD = (
    "unmet",
    "beside",
    "changes",
    "stock",
    "equal",
    "orders",
)
ALL_ITEMS = ""  # the class that stands for all items


def in_percent(**estimates: Estimate) -> dict[str, Value]:
    """Returns estimates as facts in percent, each with its error."""
    facts = dict[str, Value]()
    for name, estimate in estimates.items():
        facts[name] = 100 * estimate.value
        facts[f"{name}_error"] = 100 * estimate.error
    return facts


class Equal(NamedTuple):
    """A method beside the plan where both meet a share of demand at once: by which shares its stock, and what stock
    and orders cost, are above those of that plan. A method that orders more often holds less.
    """

    fill: float
    stock: Estimate
    spent: Estimate

    @property
    def facts(self) -> dict[str, Value]:
        """Returns its figures, in percent."""
        figures = in_percent(stock=self.stock, spent=self.spent)
        return {"fill": 100 * self.fill, **figures}


def spent_of(found: Remark) -> float:
    """Returns what a way needs beside the plan."""
    return float(str(found.facts["spent"]))


def units_of(tests: Sequence[Backtest | Since]) -> Floats:
    """Returns in which units the demand of each item counts: of its own mean; or if all are planned together with others,
    of money."""
    values, means = [test.value for test in tests], [test.mean for test in tests]
    return np.array(means) if None in values else 1 / np.array(values, float)


class TestGroup:
    """The tests of items of a class, or of all, as ratios of sums over items and periods; or what came of an earlier
    plan in the periods since."""

    def __init__(self, tests: Sequence[Backtest | Since]) -> None:
        self.tests = tests
        lengths = [len(test.demands) for test in tests]
        self.items = np.repeat(np.arange(len(tests)), lengths)
        first = min(test.first for test in tests)
        periods = [test.first - first + np.arange(len(test.demands)) for test in tests]
        self.blocks = np.concatenate(periods) // BLOCK
        self.units = np.repeat(units_of(tests), lengths)
        self.asked = joined(test.demands for test in tests) / self.units

    def _ratio(self, above: Floats, below: Floats) -> Ratio:
        return Ratio(above, below, self.items, self.blocks)

    def outcomes(self, policy: str) -> list[Any]:
        """Returns what a policy comes to, by item."""
        return [getattr(test, policy) for test in self.tests]

    def unmet(self, policy: str) -> Ratio:
        """Returns the share of demand that was not met at once."""
        unmet = joined(outcome.unmet for outcome in self.outcomes(policy))
        return self._ratio(unmet / self.units, self.asked)

    def promised(self) -> Ratio:
        """Returns the share of demand that the plan promised not to meet at once."""
        fills = [outcome.promised_fill or 0.0 for outcome in self.outcomes(PLANNED)]
        unmet = 1 - np.array(fills)[self.items]
        return self._ratio(unmet * self.asked, self.asked)

    def missed(self) -> Ratio:
        """Returns what the plan missed of its promise."""
        return self._ratio(
            self.unmet(PLANNED).above - self.promised().above, self.asked
        )

    def costs(self, policy: str) -> Floats:
        """Returns the costs of a policy by item and period."""
        return joined(outcome.costs for outcome in self.outcomes(policy))

    def dearer(self) -> Ratio:
        """Returns what the plan cost more than it promised, as a share of the promise."""
        costs = [outcome.promised_cost or 0.0 for outcome in self.outcomes(PLANNED)]
        promised = np.array(costs)[self.items]
        return self._ratio(self.costs(PLANNED) - promised, promised)

    def changes(self, policy: str) -> float:
        """Returns how often the levels of an item change in a period, by a policy."""
        changes: int = sum(outcome.changes for outcome in self.outcomes(policy))
        return changes / len(self.items)

    def beside(self, policy: str) -> Ratio:
        """Returns what a policy cost more than the plan, as a share of what that cost."""
        planned = self.costs(PLANNED)
        return self._ratio(self.costs(policy) - planned, planned)

    def drift(self) -> Estimate | None:
        """Returns what the plan left unmet more in the second half of the later periods than in the first; None if
        nothing was asked for in a half."""
        unmet = self.unmet(PLANNED)
        later = 2 * self.blocks > self.blocks.max()
        halves = list[Ratio]()
        for own in (later, ~later):
            if not unmet.below[own].any():
                return None
            rows = unmet.above, unmet.below, unmet.items, unmet.blocks
            halves.append(Ratio(*(row[own] for row in rows)))
        return halves[0].less(halves[1])


class Sides(TestGroup):
    """The tests of items of a class, or of all, with methods side by side."""

    def __init__(self, tests: Sequence[Backtest]) -> None:
        super().__init__(tests)
        holding = np.array([test.holding for test in tests])
        self.holding: Floats = holding[self.items]
        self.setups = np.array([test.setup for test in tests])

    def stock(self, method: str) -> Floats:
        """Returns the stock of a method by item and period, in money."""
        return self.holding * joined(traced.stocks for traced in self.outcomes(method))

    def more_stock(self, method: str) -> Estimate | None:
        """Returns what the stock of a method is above that of the plan, as a share; None if that has none."""
        planned = self.stock(PLANNED)
        more = self._ratio(self.stock(method) - planned, planned)
        return more.estimate if more.total else None

    def orders(self, method: str) -> Floats:
        """Returns how many orders each item has in a period, by a method."""
        orders: Floats = np.array([outcome.orders for outcome in self.outcomes(method)])
        return orders

    def curve(self, method: str) -> Curve:
        """Returns what the aims of a method come to: demand in units of an item's own mean, stock in money."""
        traced = self.outcomes(method)
        unmet, stocks = list[Floats](), list[Floats]()
        for aim in range(len(traced[0].unmet_by_aim)):
            rows = joined(own.unmet_by_aim[aim] for own in traced)
            unmet.append(rows / self.units)
            rows = joined(own.stocks_by_aim[aim] for own in traced)
            stocks.append(self.holding * rows)
        return Curve(self.asked, unmet, stocks)

    def excess(self) -> Estimate | None:
        """Returns by which share the stock of the plan is above what it needs to meet as much at once as it promised, or as
        near to that as it gets at any aim. None without a stock."""
        curve, own = self.curve(PLANNED), self.stock(PLANNED)
        share = curve.nearest(curve, self.promised().value)
        needed = curve.at(share or 0.0)
        if needed is None or not needed.stock:
            return None
        return self._more(CurveReading(float(own.sum()), own), needed)

    def equal(self, method: str) -> Equal | None:
        """Returns a method beside the plan where both meet as much at once as that promised, or as near to it as both
        get at any aim. None if they have nothing in common, or without a stock. Other aims are taken to have the orders of
        a method's own."""
        curves = [self.curve(code) for code in (method, PLANNED)]
        share = curves[0].nearest(curves[1], self.promised().value)
        own, planned = (curve.at(share or 0.0) for curve in curves)
        if share is None or own is None or planned is None or not planned.stock:
            return None
        setups = self.setups[self.items]
        ordering = [setups * self.orders(it)[self.items] for it in (method, PLANNED)]
        spent = own.with_more(ordering[0]), planned.with_more(ordering[1])
        return Equal(1 - share, self._more(own, planned), self._more(*spent))

    def _more(self, own: CurveReading, other: CurveReading) -> Estimate:
        """Returns by which share a stock is above another one."""
        more, influence = own.beside(other)
        return Estimate(more, *error_of(influence, self.items, self.blocks))


def joined(rows: Iterable[Sequence[float]]) -> Floats:
    """Returns the figures of all items, one after another."""
    return np.concatenate([np.array(row, float) for row in rows])


@dataclass(frozen=True)
class Sums:
    """What the tests of the items of a class, or of all, add up to. Figures of today's policies are those of the items that
    have one.

    `promised` is the fill that the plan promised, `unmet` the share of demand by way that was not met at once, `dearer`
    what the plan cost over its promise, `beside` by way what it cost over the plan. `missed` is what the plan missed of
    the promised fill, which so many items have `broken` by more than a point. `excess` is by which share its stock was
    above what it needed to keep its promise. `changes` is how often the levels of an item change in a period, by way.

    By way, `stock` is the stock in money above that of the plan, as a share, `equal` both where they have the same fill,
    and `orders` those of an item in a period. `drift` is what the plan left unmet more in the second half of the later
    periods than in the first."""

    group: str
    items: int
    promised: float
    unmet: Mapping[str, Estimate]
    dearer: Estimate
    beside: Mapping[str, Estimate]
    missed: Estimate
    broken: int
    changes: Mapping[str, float]
    stock: Mapping[str, Estimate]
    equal: Mapping[str, Equal]
    orders: Mapping[str, float]
    drift: Estimate | None
    excess: Estimate | None = None

    @property
    def met(self) -> Mapping[str, float]:
        """Returns the share of demand that each method met at once."""
        return {method: 1 - unmet.value for method, unmet in self.unmet.items()}

    @classmethod
    def of(cls, group: str, tests: Sequence[Backtest]) -> Sums:
        """Adds up tests."""
        parts = TestGroup(tests)
        broken = 0
        for test in tests:
            fill, promised = test.planned.fill, test.planned.promised_fill or 0
            broken += fill is not None and promised - fill > SLACK
        return cls(
            group=group,
            items=len(tests),
            promised=1 - parts.promised().value,
            dearer=parts.dearer().estimate,
            missed=parts.missed().estimate,
            broken=broken,
            drift=parts.drift(),
            excess=Sides(tests).excess(),
            **by_method(tests),
        )

    @property
    def verdict(self) -> Remark:
        """Returns whether the promised fill was met, beyond chance. Facts are points by which more or less was, and in percent
        what its stock was above that of the promise, or below."""
        if not self.has_verdict:
            return Remark(FEW, {"least": LEAST_ITEMS})
        far = abs(self.missed.value)
        if far <= SLACK:
            return Remark(HOLDS)
        if self.excess is None or far - self.missed.quantile * self.missed.error <= 0:
            return Remark(UNSURE)
        points = replace(self.missed, value=far)
        facts = in_percent(points=points, excess=self.excess)
        return Remark(LITTLE if self.missed.value > 0 else MUCH, facts)

    @property
    def has_verdict(self) -> bool:
        """Returns whether the items are enough for a verdict."""
        return self.items >= LEAST_ITEMS

    @property
    def alarm(self) -> float:
        """Returns the chance that an interval of a method does not hold a figure. Several are tested, and all together are
        to be named with 5% if none gains: each has its part of that on one side (Bonferroni).
        """
        return min(ALARM, 2 * ALARM / max(1, len(self.equal)))

    def beyond(self, is_better: bool) -> list[Remark]:
        """Returns the ways whose stock and orders cost less than those of the plan where both meet as much at once, beyond
        their errors, or more: the cheapest first. Their facts are what stock alone, and both, are beside the plan's, in
        percent, and at which fill."""
        found = list[Remark]()
        for method, equal in self.equal.items():
            spent = equal.spent.at(self.alarm)
            is_beyond = spent.high < 0 if is_better else spent.low > 0
            if self.has_verdict and is_beyond:
                found.append(Remark(method, equal.facts))
        return sorted(found, key=spent_of)

    @property
    def gains(self) -> list[Remark]:
        """Returns the ways that need less than the plan beyond their errors, the best first."""
        return self.beyond(True)

    @property
    def losses(self) -> list[Remark]:
        """Returns the ways that need more than the plan beyond their errors, the best first."""
        return self.beyond(False)


def is_asked(tests: Sequence[Backtest]) -> bool:
    """Returns whether anything is asked for in the later periods."""
    return any(any(test.demands) for test in tests)


def sides_of(tests: Sequence[Backtest]) -> Iterator[tuple[Method, Sides]]:
    """Yields each method with the tests of the items that have it, if anything is asked for in these."""
    for method in METHODS:
        own = [test for test in tests if getattr(test, method.code)]
        if own and is_asked(own):
            yield method, Sides(own)


def by_method(tests: Sequence[Backtest]) -> dict[str, Any]:
    """Returns the figures of `Sums` that are given by method. Those beside the plan are not of this."""
    figures: dict[str, dict[str, Any]] = {name: {} for name in BY_METHOD}
    for method, sides in sides_of(tests):
        code = method.code
        own: dict[str, Any] = {
            "unmet": sides.unmet(code).estimate,
            "orders": float(sides.orders(code)[sides.items].mean()),
            "changes": sides.changes(code),
        }
        if code != PLANNED:
            own["beside"] = sides.beside(code).estimate
            own["stock"] = sides.more_stock(code)
            own["equal"] = sides.equal(code)
        for name, figure in own.items():
            if figure is not None:
                figures[name][code] = figure
    return figures


def sums_of(tests: Iterable[Backtest]) -> list[Sums]:
    """Returns the sums of all items, and of each class."""
    groups = defaultdict[str, list[Backtest]](list)
    for test in tests:
        if test.mean > 0:
            groups[ALL_ITEMS].append(test)
            if test.group:
                groups[test.group].append(test)
    return [Sums.of(name, own) for name, own in sorted(groups.items()) if is_asked(own)]


def whole_of(sums: Iterable[Sums]) -> Sums | None:
    """Returns the sums of all items among those of classes; None if there are none."""
    return next((one for one in sums if one.group == ALL_ITEMS), None)


def moves_of(sums: Sequence[Sums]) -> Remark | None:
    """Returns how far what was met at once moved from the first half of the later periods to the second: in the mean of
    small classes, and for all items, in points. None if no class is small."""
    whole, moves = whole_of(sums), list[float]()
    for one in sums:
        if one.group != ALL_ITEMS and one.items < SMALL and one.drift:
            moves.append(100 * abs(one.drift.value))
    if not moves or whole is None or whole.drift is None:
        return None
    facts: dict[str, Value] = {
        "classes": len(moves),
        "least": SMALL,
        "moved": math.fsum(moves) / len(moves),
        "whole": 100 * abs(whole.drift.value),
    }
    return Remark("small classes", facts)
