"""Finds the choice of policies that keeps a budget, and how far a choice is from the best with its service."""
from __future__ import annotations

import math
from collections.abc import Callable
from dataclasses import dataclass

import numpy as np

from ..errors import Refused, argument
from ..theory.levels import NEAR
from .exchange import Items
from .parts import AS_IS, VALUE, CurveChoice, Dearer, Point

# Costs of an order are doubled until there are few enough orders, then halved between the last two.
DOUBLINGS = 13
HALVINGS = 16


def gap_of(items: Items, point: Point, dearer: Dearer = AS_IS) -> float:
    """Returns the share by which setup and holding of a point are at most above the best with its service, and with no
    more orders or stock, if these are dearer."""
    parts = [0.0]
    if dearer != AS_IS:
        parts += (2.0 ** -np.arange(DOUBLINGS)).tolist()
    least = items.least_cost(
        point, *(Dearer(part * dearer.orders, part * dearer.stock) for part in parts)
    )
    if least <= 0:
        return math.inf
    return max(0.0, point.cost / least - 1)


class OffCurve(Refused):
    """A budget that no choice keeps: which one, why, and what to do."""

    def __init__(self, budget: str, why: str, advice: str) -> None:
        super().__init__(f"{budget}: {why}", advice)
        self.why = why


@dataclass(frozen=True)
class Budget:
    """What a choice is to keep: the value of the stock at most, or the share of demand by value met at once at least,
    and perhaps orders of a period at most. Raises Refused for what can't be meant."""

    value: float | None = None
    fill: float | None = None
    orders: float | None = None

    def __post_init__(self) -> None:
        for name, number in (("stock_value", self.value), ("orders", self.orders)):
            if number is not None and not 0 < number < math.inf:
                raise Refused(f"{argument(name, f'{number:g}')} is not above 0")
        if self.value is not None and self.fill is not None:
            raise Refused(
                f"{argument('stock_value')} and {argument('fill')}: each alone names a point of the curve",
                "leave one out",
            )

    def choice(self, items: Items, dearer: Dearer = AS_IS) -> CurveChoice | None:
        """Returns the choice that keeps the stock value or the share; None if none does."""
        ladder = items.ladder(dearer)
        if self.value is not None:
            return ladder.with_value(self.value)
        return ladder.with_fill(self.fill or 0.0)

    def kept(self, choice: CurveChoice | None) -> CurveChoice | None:
        """Returns a choice that has no more orders than are allowed; None if it has more."""
        if choice is None or choice.point.orders > (self.orders or math.inf) * (
            1 + NEAR
        ):
            return None
        return choice


def chosen_by(items: Items, budget: Budget) -> CurveChoice:
    """Returns the choice for a budget: on the curve if one keeps it. Raises OffCurve if none does, and for more than
    the curve has.

    If the stock value or the share lies below the curve, stock is made dearer: there is less of it, with more orders,
    up to those that are allowed. If orders are too many, they are made dearer.
    """
    check_within(items, budget)
    first = budget.choice(items)
    start = items.point(items.ladder().start).fill
    is_below = budget.fill is not None and budget.fill < start * (1 - NEAR)
    if first is not None and not is_below:
        return budget.kept(first) or with_fewer_orders(items, budget, first)
    if budget.orders is not None:
        return with_more_orders(items, budget)
    what, least = "fill", f"begins with {start:.4f} of demand by value"
    if first is None:
        value = items.ladder().extreme(-1) * items.units[VALUE]
        what, least = "stock_value", f"has stock worth {value:,.2f} at least"
    raise OffCurve(
        argument(what, f"{budget.fill or budget.value:,.10g}"),
        f"the curve {least}",
        f"name more, or allow more orders than it has there, by {argument('orders')}",
    )


def check_within(items: Items, budget: Budget) -> None:
    """Raises OffCurve for a budget of more than the curve has."""
    ladder = items.ladder()
    end = items.point(ladder.end)
    if budget.value is not None and budget.value > end.value:
        most = ladder.extreme(1) * items.units[VALUE]
        if budget.value > most * (1 + NEAR):
            raise OffCurve(
                argument("stock_value", f"{budget.value:,.10g}"),
                f"the most stock on the curve is worth {most:,.2f}",
                "name less",
            )
    if budget.fill is not None and budget.fill > end.fill + NEAR:
        raise OffCurve(
            argument("fill", f"{budget.fill:g}"),
            f"the curve ends with {end.fill:.8f} of demand by value",
            "name less",
        )


def with_more_orders(items: Items, budget: Budget) -> CurveChoice:
    """Returns the choice with the greatest extra cost of stock with which there are few enough orders: it uses all that
    are allowed. Raises OffCurve if no choice keeps the budget."""
    choice = _border(
        items.most_extra.stock,
        lambda amount: budget.kept(budget.choice(items, Dearer(stock=amount))),
        budget.kept(budget.choice(items)),
        is_least=False,
    )
    if choice is None:
        least = "this service"
        if budget.value is not None:
            least = "stock of so little value"
        raise OffCurve(
            argument("orders", f"{budget.orders:g}"),
            f"{least} takes more orders, or is not to be had",
            "name more orders or more stock",
        )
    return choice


def with_fewer_orders(items: Items, budget: Budget, first: CurveChoice) -> CurveChoice:
    """Returns the choice with the least extra cost of an order with which there are few enough orders; `first` has too
    many. Raises OffCurve if no choice keeps the budget."""
    fewest = first.point.orders

    def choice_of(amount: float) -> CurveChoice | None:
        nonlocal fewest
        choice = budget.choice(items, Dearer(orders=amount))
        if choice:
            fewest = min(fewest, choice.point.orders)
        return budget.kept(choice)

    choice = _border(items.most_extra.orders, choice_of, None, is_least=True)
    if choice is None:
        raise OffCurve(
            argument("orders", f"{budget.orders:g}"),
            f"with this stock or service there are {fewest:.4g} "
            "orders a period or more",
            "name more",
        )
    return choice


def _border(
    most: float,
    choice_of: Callable[[float], CurveChoice | None],
    first: CurveChoice | None,
    is_least: bool,
) -> CurveChoice | None:
    """Returns the choice with the least extra cost, or the greatest, with which a budget is kept; None if there is
    none. `choice_of` has the choice for an extra cost, `first` is that for none."""
    low = 0.0
    last = first
    for high in (most / 2.0 ** np.arange(DOUBLINGS, -1, -1)).tolist():
        choice = choice_of(high)
        best, beyond = (choice, last) if is_least else (last, choice)
        if best and not beyond:
            for _ in range(HALVINGS):
                middle = (low + high) / 2
                nearer = choice_of(middle)
                best = nearer or best
                low, high = (
                    (low, middle) if bool(nearer) is is_least else (middle, high)
                )
            return best
        low = high
        last = choice
    return None if is_least else last
