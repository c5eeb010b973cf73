"""Says what to order today by the chosen policies of a plan, what lies too long, and what is owed to customers."""
from __future__ import annotations

import datetime
import itertools
import math
from bisect import bisect_left
from collections import defaultdict
from collections.abc import Iterable, Iterator, Mapping, Sequence
from dataclasses import dataclass
from difflib import get_close_matches
from fractions import Fraction
from functools import cached_property
from operator import attrgetter
from typing import Any

from ..errors import Refused, argument
from ..read.dates import first_day
from ..read.item import ENDED, NO_DEMAND, Item, value_of
from ..read.items import Reading
from ..read.observed import Day
from ..read.opening import Table
from ..read.quiet import QUIET, is_dead, quiet_periods
from ..read.stock import NONE, QUANTITIES, TO_COME, Holdings, OnHand, read_holdings
from ..remarks import Remark
from ..table import names_of
from ..sentences import message
from .answer import Answer
from .catalogue import Decided, PlannedFolder
from .standing import Worth, Standing

MOST_NAMED = 8  # items of a message
OLD_DAYS = 56  # after its record, from which on the age of a plan is said
# Remarks on an item that say why it is ordered no longer.
WHY_ENDED = (
    QUIET,
    "stated status",
    "succeeded",
    "unknown successor",
    "not to be ordered",
)


@dataclass(frozen=True)
class Lying:
    """An item that nobody has asked for during a year of the record, or longer; or that is ordered no longer, as it is
    asked for no longer, is phased out, or its planner has set so. It has what it has, None if that is not known, and
    what is on order."""

    item: Item
    hand: OnHand | None
    on_order: Fraction = NONE

    @property
    def value(self) -> Worth:
        """Returns what its stock is worth; None if that or the price is not known."""
        stock = self.hand.stock if self.hand else None
        return value_of(stock, self.item.price)

    @property
    def periods(self) -> int:
        """Returns for how many periods at the end of the record nobody has asked for it."""
        return quiet_periods(self.item.known.counts)

    @property
    def reasons(self) -> list[Remark]:
        """Returns why no order is planned."""
        return [remark for remark in self.item.remarks if remark.code in WHY_ENDED]


@dataclass(frozen=True)
class Addition:
    """An item that fills up the order of its supplier by its own order up to S, and what the whole order then comes
    to."""

    standing: Standing
    total: Fraction


@dataclass(frozen=True)
class OrderGroup:
    """The items of a class or a supplier. `minimum` is the least order value of a supplier; None if there is none."""

    name: str
    standings: Sequence[Standing]
    dead: Sequence[Lying]
    minimum: Worth = None

    @cached_property
    def due(self) -> list[Standing]:
        return [standing for standing in self.standings if standing.is_due]

    @cached_property
    def value(self) -> Fraction:
        """Returns what all orders are worth, but for those of items without a price."""
        return sum_of_money(standing.placed_worth for standing in self.due)

    @property
    def excess(self) -> Fraction:
        return sum_of_money(standing.excess for standing in self.standings)

    @property
    def dead_value(self) -> Fraction:
        return sum_of_money(lying.value for lying in self.dead)

    @property
    def owed(self) -> Fraction:
        return sum_of_money(standing.hand.owed for standing in self.standings)

    @property
    def short(self) -> Fraction:
        """Returns by how much an order of the supplier lacks its minimum; 0 if nothing is ordered."""
        if not self.due or self.minimum is None:
            return NONE
        return max(self.minimum - self.value, NONE)

    @cached_property
    def lacking(self) -> Fraction:
        """Returns by how much it lacks its minimum with all additions, so that it may wait."""
        total = self.value
        for addition in self.additions():
            total = addition.total
        return max((self.minimum or NONE) - total, NONE)

    def additions(self) -> Iterator[Addition]:
        """Yields what to add next, the item nearest above s in weeks first, until the minimum is met."""
        total, waiting = self.value, list[Standing]()
        for it in self.standings:
            if not it.is_due and it.to_level > 0 and it.weeks_above is not None:
                waiting.append(it)
        for standing in sorted(waiting, key=attrgetter("weeks_above", "item.name")):
            worth = standing.placed_worth
            if self.minimum is None or total >= self.minimum:
                return
            if worth:
                total += worth
                yield Addition(standing, total)


def sum_of_money(parts: Iterable[Worth]) -> Fraction:
    """Returns the sum of amounts of items with a price."""
    return sum((part for part in parts if part is not None), NONE)


@dataclass(frozen=True)
class Today:
    """What a plan says on a day: the items whose stock is known, the most urgent order first, those that are `unknown`,
    with the reason, those that lie too long, and those that have `ended`. `end` is the last day of the record. `holdings`
    are what tables say. `sellers` are all suppliers of the plan in order, with an empty name of items without one.
    `has_quantities` says whether a planner has named quantities.
    """

    day: Day
    end: Day
    standings: Sequence[Standing]
    unknown: Sequence[tuple[Item, Remark]]
    dead: Sequence[Lying]
    minimums: Mapping[str, Fraction]
    has_orders: bool
    sellers: Sequence[str] = ("",)
    ended: Sequence[Lying] = ()
    has_quantities: bool = False
    holdings: Holdings = Holdings(None, {}, {}, frozenset(), {}, ())

    @cached_property
    def whole(self) -> OrderGroup:
        """Returns all items."""
        return OrderGroup("", self.standings, self.dead)

    @property
    def above(self) -> list[Standing]:
        """Returns the items above S, those that last longest first."""

        def order(standing: Standing) -> tuple[float, str]:
            weeks = standing.weeks_of(standing.above) or math.inf
            return -weeks, standing.item.name

        return sorted((it for it in self.standings if it.above), key=order)

    @property
    def owed(self) -> list[Standing]:
        """Returns the items that are owed to customers."""
        return [standing for standing in self.standings if standing.hand.owed]

    @cached_property
    def classes(self) -> list[OrderGroup]:
        groups = self._groups("category", {})
        return groups if any(group.name for group in groups) else []

    @cached_property
    def suppliers(self) -> list[OrderGroup]:
        return self._groups("supplier", self.minimums)

    def _groups(self, role: str, minimums: Mapping[str, Fraction]) -> list[OrderGroup]:
        """Returns the items by what their masters say, if any of them says it."""
        standings = defaultdict[str, list[Standing]](list)
        dead = defaultdict[str, list[Lying]](list)
        for standing in self.standings:
            standings[getattr(standing.item, role)].append(standing)
        for lying in self.dead:
            dead[getattr(lying.item, role)].append(lying)
        return [
            OrderGroup(name, standings[name], dead[name], minimums.get(name))
            for name in sorted({*standings, *dead})
        ]

    @property
    def overdue(self) -> int:
        """Returns how many orders were due before the day."""
        return sum(len(standing.overdue) for standing in self.standings)

    @cached_property
    def changed(self) -> list[Standing]:
        """Returns the items of which the planner orders another quantity than the plan."""
        return [standing for standing in self.standings if standing.is_changed]

    @cached_property
    def _lines(self) -> dict[str, list[Standing]]:
        """Returns the items that are ordered, or that the planner leaves out, by the number of the order."""
        lines = defaultdict[str, list[Standing]](list)
        for standing in self.standings:
            if standing.is_due or standing.is_changed:
                lines[self.number(standing.item.supplier)].append(standing)
        return lines

    def lines_of(self, number: str) -> list[Standing]:
        """Returns the lines of an order by its number, or with an empty one of all orders: those of the most urgent one
        first. What its planner leaves out is among them. Raises Refused for a number of no supplier.
        """
        if not number:
            return [*itertools.chain.from_iterable(self._lines.values())]
        if number not in map(self.number, self.sellers):
            raise Refused(f"{number}: no supplier has an order of this number")
        return self._lines.get(number, [])

    @property
    def omitted(self) -> list[Standing]:
        """Returns those that the plan orders, and the planner does not."""
        return [standing for standing in self.changed if not standing.placed]

    @property
    def added(self) -> list[Standing]:
        """Returns those that the planner orders, and the plan does not."""
        return [standing for standing in self.changed if not standing.planned]

    @cached_property
    def short(self) -> dict[str, OrderGroup]:
        """Returns the suppliers whose orders are below their minimum."""
        return {group.name: group for group in self.suppliers if group.short}

    def latest(self, standing: Standing) -> Day:
        """Returns the day on which an order has to leave: today, as the position is below s. If its supplier's minimum
        is not met whatever is added, it may wait until its last day."""
        group = self.short.get(standing.item.supplier)
        return standing.last_day if group and group.lacking else self.day

    def reasons(self, standing: Standing) -> list[Remark]:
        """Returns why an item is ordered, so many of it, and on which day."""
        group = self.short.get(standing.item.supplier)
        if group is None:
            return standing.reasons
        remark = Remark(
            "may wait" if group.lacking else "fill up",
            {
                "short": float(group.short),
                "minimum": float(group.minimum or 0),
                "latest": str(self.latest(standing)),
            },
        )
        return [*standing.reasons, remark]

    def number(self, supplier: str) -> str:
        """Returns the number of a supplier's order: the day, and its place among all suppliers of the plan."""
        return f"{self.day:%Y%m%d}-{self.place(supplier):03}"

    def place(self, supplier: str) -> int:
        """Returns the place of a supplier among all of the plan, from 1."""
        return bisect_left(self.sellers, supplier) + 1

    @property
    def weeks_old(self) -> int | None:
        """Returns the weeks from the end of the record to the day; None if they are few."""
        days = (self.day - self.end).days
        return days // 7 if days > OLD_DAYS else None


def by_urgency(standings: Iterable[Standing]) -> Iterator[Standing]:
    """Yields the most urgent item first. The chance of a shortage takes long, and decides between few items alone."""
    time = attrgetter("time")
    for _, tied in itertools.groupby(sorted(standings, key=time), time):
        several = [*tied]
        if len(several) > 1:
            several.sort(key=attrgetter("urgency"))
        yield from several


def minimums_of(
    items: Iterable[Item], stated: Mapping[str, Fraction]
) -> dict[str, Fraction]:
    """Returns the least order value of each supplier that has one: as stated, and as the masters say. Raises Refused
    for a supplier with two, and for one that is stated and that no item has."""
    minimums, places = dict(stated), dict.fromkeys(stated, argument("supplier_min"))
    suppliers = set[str]()
    for item in items:
        suppliers.add(item.supplier)
        if not item.supplier or item.supplier_min is None:
            continue
        known = minimums.setdefault(item.supplier, item.supplier_min)
        place = places.setdefault(item.supplier, item.name)
        if known != item.supplier_min:
            two = Remark(
                "two minimums",
                {
                    "supplier": item.supplier,
                    "first": float(known),
                    "place": place,
                    "second": float(item.supplier_min),
                    "item": item.name,
                },
            )
            raise Refused(message(two))
    for name in stated:
        if name not in suppliers:
            close = get_close_matches(name, suppliers, 1)
            raise Refused(
                f"{argument('supplier_min', name)}: no item has this supplier",
                f"did you mean {close[0]!r}?"
                if close
                else "the masters have the column supplier",
            )
    return minimums


class _Sorted:
    """The items of a plan on a day, each where it belongs by what it has and by its answer."""

    def __init__(
        self,
        holdings: Holdings,
        day: Day,
        folder: PlannedFolder,
        known: dict[str, Standing],
    ) -> None:
        """Takes what items were known to stand at, which it keeps up to date."""
        self.holdings, self.day, self.every = holdings, day, folder.every
        self.settings = folder.settings
        self.known = known
        self.standings = list[Standing]()
        self.unknown = list[tuple[Item, Remark]]()
        self.dead, self.ended = list[Lying](), list[Lying]()
        self.unstocked = list[str]()  # of which a planner orders a quantity
        self.has_stock = False

    def hand(self, item: Item) -> OnHand | None:
        """Returns what an item has by the table of stock, else by its master; None if that is not known."""
        if item.name in self.holdings.unread:
            return None
        if self.holdings.on_hand is not None:
            return self.holdings.on_hand.get(item.name)
        return None if item.stock is None else OnHand.of(item.stock)

    def add(self, item: Item, answer: Answer | Remark) -> None:
        hand, is_set = self.hand(item), bool(item.override and item.override.levels)
        is_ended = item.past in ENDED and not is_set
        quantity = self.holdings.quantities.get(item.name)
        if hand is None:
            if quantity and quantity.items:
                self.unstocked.append(item.name)
            if is_ended:
                self.ended.append(Lying(item, None))
            else:
                is_unread = item.name in self.holdings.unread
                code = "unread stock" if is_unread else "no stock"
                self.unknown.append((item, Remark(code)))
            return
        self.has_stock = True
        planned = answer if isinstance(answer, Answer) else None
        arrivals = self.holdings.arrivals.get(item.name, ())
        standing = Standing(
            item,
            planned,
            hand,
            arrivals,
            self.day,
            self.every,
            quantity,
            self.settings.bounds_of(item).lot,
        )
        if self.known.get(item.name) == standing:
            standing = self.known[item.name]  # with what was computed of it
        self.known[item.name] = standing
        is_quiet = is_dead(item.known.counts, self.every)
        is_idle = item.past == NO_DEMAND and is_quiet and not hand.owed
        if is_ended:
            self.ended.append(Lying(item, hand, standing.on_order))
        elif isinstance(answer, Remark) and not (is_set or is_idle or standing.is_due):
            self.unknown.append((item, answer))
        if planned or is_set or standing.is_below or standing.is_due:
            self.standings.append(standing)
        if is_quiet and hand.stock:
            self.dead.append(Lying(item, hand, standing.on_order))


class Days:
    """A planned folder as it is asked on days: by words, and with what it has of its items, which is read once. What an
    item stands at is kept until that changes."""

    def __init__(self, folder: PlannedFolder, words: Reading) -> None:
        """Takes a folder that is open until `decided` is read."""
        self.folder, self.words, read = folder, words, folder.read
        self.prices = {name: price for name, price in read.values("name", "price")}
        self.packs = {name: pack for name, pack in read.cells("name", "bounds_pack")}
        next_day = first_day(read.fact("periods")[1], folder.every)
        self.end = next_day - datetime.timedelta(1)
        # What items stood at last, and the tables that were read last.
        self.known, self.tables = dict[str, Standing](), dict[str, Any]()

    @cached_property
    def decided(self) -> list[Decided]:
        """Returns the items by all their periods, with their answers."""
        return [*self.folder.answers()]

    def holdings(self, tables: Mapping[str, Table | None]) -> Holdings:
        """Reads tables of stock and of what is to come by kind: see `read_holdings`."""
        return read_holdings(tables, self.words, self.prices, self.packs, self.tables)

    def today(self, tables: Mapping[str, Table | None], day: Day) -> Today:
        """Returns what the folder says on a day, with tables of stock and of what is to come by kind. Without a table of
        stock, that of the masters counts. Raises Refused if no stock is known, and as `read_holdings` does.
        """
        holdings = self.holdings(tables)
        found = _Sorted(holdings, day, self.folder, self.known)
        items = list[Item]()
        for item, answer in self.decided:
            found.add(item, answer)
            items.append(item)
        if holdings.on_hand is None and not found.has_stock:
            raise Refused(
                f"{self.folder.path}: no item has a stock in its masters",
                f"name a table by {argument('stock')}",
            )
        if found.unstocked:
            raise Refused(
                f"{argument('quantities')}: the stock of {names_of(found.unstocked, MOST_NAMED)} is not known",
                "add it to the stock, or write 0",
            )
        return Today(
            day=day,
            end=self.end,
            standings=[*by_urgency(found.standings)],
            unknown=found.unknown,
            dead=found.dead,
            minimums=minimums_of(items, self.words.supplier_min),
            has_orders=any(tables.get(kind) is not None for kind in TO_COME),
            sellers=sorted({item.supplier for item in items}),
            ended=found.ended,
            has_quantities=tables.get(QUANTITIES) is not None,
            holdings=holdings,
        )
