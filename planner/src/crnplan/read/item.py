"""The facts of an item: what its plan depends on, and what is only shown of it."""
from __future__ import annotations

from collections.abc import Collection, Sequence
from dataclasses import dataclass, replace
from fractions import Fraction
from functools import cached_property

from ..formats import MOST_DEMAND
from ..law import Law
from ..remarks import Remark
from ..store.stored import columns_of
from .bounds import OrderBounds
from .overrides import DO_NOT_ORDER, Override

# What an item's record says of its past: enough; too little, so that others say what to expect; that nothing was asked
# for, or is no longer. Its master may say the last, or that its stock is used up.
USUAL, NEW, NO_DEMAND, STOPPED, PHASE_OUT = (
    "",
    "new",
    "no demand",
    "stopped",
    "phase out",
)
ENDED = (
    STOPPED,
    PHASE_OUT,
    DO_NOT_ORDER,
)  # the pasts of items that are ordered no longer, the last by their planner
UNORDERED = NO_DEMAND, *ENDED  # those of items of which no order is planned
# The past of an item whose law of demand is stated, and the family of that law.
STATED = "stated"
TEACHING = USUAL, *ENDED  # those of items from which others learn
# From whom an item may learn its law of demand: from no other, from those of its class, or from all.
BORROW = ("none", "class", "all")


def value_of(stock: Fraction | None, price: Fraction | None) -> Fraction | None:
    """Returns what a stock is worth: nothing if it is below 0, None if it or the price is not known."""
    return None if stock is None or price is None else max(stock, Fraction(0)) * price


def some(amounts: Sequence[int]) -> tuple[int, ...]:
    """Returns amounts by period; nothing if all are 0."""
    return tuple(amounts) if any(amounts) else ()


def among(places: Collection[int], kept: Sequence[int]) -> tuple[int, ...]:
    """Returns where some places are if only the kept ones are left, which are in order."""
    if not places:
        return ()
    wanted = {*places}
    return tuple(new for new, place in enumerate(kept) if place in wanted)


@dataclass(frozen=True)
class Item:
    """The facts of an item, the same for one item and for a million. All amounts are of items, and money is exact.

    `counts` is the demand by period, `returns` what came back by period, empty if nothing did, `leads` the lead times
    seen, in periods, and `levels` today's s and S, None if no policy is in use. `setup` is money an order, `holding`
    and `backlog` money an item and period.
    `fill` is the share of demand that is wanted at once, and `no_shortage` the share of periods that are to end with
    nothing owed; an item has a `backlog`, one of these shares, or both. `group` is its class, `borrow` from whom it learns
    its law, perhaps empty. `bounds` are those of its orders and levels. `past` is empty, NEW, STATED or one of UNORDERED.
    `law` is its law of demand in items if one is stated: then it is planned by that, whatever its counts are, of which
    there may be none. `override` is what the planner sets, whatever is chosen. `unknown` has the places,
    from 0, of the periods whose demand is not known: their counts are what was seen. All that fits, tests or sums demand
    takes `known`. `cut` has those of them in which an item was out of stock: at least their counts were asked for.
    `promoted` has the places of the periods with a promotion. Their demand counts, but no season is learned from it. The
    item is reviewed once in `review` periods. `coming` is the greatest demand of a coming period that its season lets
    expect, 0 without one.

    What follows is no part of the plan: `stock` is today's, `price` the money that an item of stock is worth,
    `supplier_min` the money that an order of all items of the `supplier` comes to at least, `first` the number of the
    first period, `line` and `rows` are the line of the master and the rows of demand. `abc` is the class by the value
    of demand, empty without a price, and `category` the class that is shown: `group`, or `abc` if no item of the
    catalogue has a class. `has_goal` says that its own row states what is wanted of it. `status` is what the master says
    of it, perhaps empty, `predecessor` the item whose demand it takes, if it succeeds one, and `successor` the item that takes its own. `receipts` are the days that its received orders took, and `stated` those of its
    master, in the mean, None if it states none.
    """

    name: str
    counts: tuple[int, ...]
    leads: tuple[int, ...]
    levels: tuple[int, int] | None
    setup: Fraction
    holding: Fraction
    backlog: Fraction | None = None
    fill: Fraction | None = None
    returns: tuple[int, ...] = ()
    group: str = ""
    borrow: str = ""
    bounds: OrderBounds = OrderBounds()
    past: str = USUAL
    law: Law | None = None
    override: Override | None = None
    unknown: tuple[int, ...] = ()
    cut: tuple[int, ...] = ()
    no_shortage: Fraction | None = None
    promoted: tuple[int, ...] = ()
    review: int = 1
    stock: Fraction | None = None
    price: Fraction | None = None
    description: str = ""
    supplier: str = ""
    supplier_min: Fraction | None = None
    abc: str = ""
    category: str = ""
    has_goal: bool = False
    status: str = ""
    predecessor: str = ""
    successor: str = ""
    first: int = 0
    line: int = 0
    rows: int = 0
    receipts: tuple[int, ...] = ()
    stated: Fraction | None = None
    remarks: tuple[Remark, ...] = ()
    coming: int = 0

    @cached_property
    def box(self) -> int:
        """Returns how many items are counted as one, so that the demand of a period is within the program's range."""
        known = self.known
        demands = self.law.values if self.law else (*known.counts, *self.least)
        most = max((*demands, *known.returns), default=0)
        most = max(most, self.coming)
        return max(1, -(-most // MOST_DEMAND))

    @property
    def wanted(self) -> Fraction | None:
        """Returns the share that is wanted, of demand at once or of periods without a shortage; None if there is none."""
        return self.fill if self.no_shortage is None else self.no_shortage

    @property
    def known(self) -> Item:
        """Returns the item as if the periods whose demand is not known had not been."""
        return self.without(self.unknown) if self.unknown else self

    @property
    def least(self) -> tuple[int, ...]:
        """Returns the sales of the cut periods, of which each is the least that was asked for."""
        return tuple(self.counts[place] for place in self.cut)

    @property
    def known_places(self) -> list[int]:
        """Returns the places of the periods whose demand is known, from 0."""
        return sorted({*range(len(self.counts))} - {*self.unknown})

    @property
    def demands(self) -> int:
        """Returns how many periods have demand that is known."""
        counts = self.known.counts
        return len(counts) - counts.count(0)

    @property
    def value(self) -> Fraction | None:
        """Returns what today's stock is worth: nothing if it is below 0, None if it or the price is not known."""
        return value_of(self.stock, self.price)

    def part(self, start: int, stop: int) -> Item:
        """Returns the item as it is known by some of its periods alone: from one on, counted from 0, before another."""
        kept = self._kept(range(len(self.counts))[start:stop])
        return replace(kept, first=self.first + start)

    def without(self, places: Collection[int]) -> Item:
        """Returns the item without some of its periods, which are counted from 0."""
        return self._kept(sorted({*range(len(self.counts))} - {*places}))

    def _kept(self, kept: Sequence[int]) -> Item:
        """Returns the item by some of its periods in order, as if the others had not been."""

        def those(amounts: Sequence[int]) -> tuple[int, ...]:
            return tuple(map(amounts.__getitem__, kept if amounts else ()))

        return replace(
            self,
            counts=those(self.counts),
            returns=some(those(self.returns)),
            unknown=among(self.unknown, kept),
            cut=among(self.cut, kept),
            promoted=among(self.promoted, kept),
        )


def overridden(item: Item, override: Override | None) -> Item:
    """Returns an item with an override, and what is to be said of it."""
    if override is None:
        return item
    past = item.past if override.levels else DO_NOT_ORDER
    return replace(
        item, override=override, past=past, remarks=(*item.remarks, override.remark)
    )


# The columns of the facts that a plan depends on; and if items are planned together, each by its weight and class.
PLANNED: tuple[str, ...] = columns_of(Item).names[
    : columns_of(Item).names.index("stock")
]
WEIGHED = (*PLANNED, "price", "category", "has_goal")
