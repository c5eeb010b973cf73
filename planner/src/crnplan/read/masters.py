"""Reads the rows of masters: costs, wanted shares, lead times, today's levels, bounds and prices.

If a row lacks what a planner states for all items, it is taken from there.
"""
from __future__ import annotations

import math
from collections.abc import Callable, Iterable, Mapping, Sequence
from fractions import Fraction
from functools import partial
from typing import Any, NamedTuple

from ..money import MOST_DECIMALS
from ..remarks import Value
from .amounts import AMOUNTS, KINDS, PERCENT
from .bounds import OrderBounds
from .cells import Cell, CellFault, Unreadable, fault, printable, shown
from .columns import (
    DAYS,
    MONEY,
    NEEDED,
    ROLES,
    WANTED,
    periods_a_year,
)
from .dates import period_of
from .defaults import DEFAULT, MASTERS, ORDERS, currency_in, distinct
from .table_files import SPANS, WholeTables
from .item import BORROW, Item, value_of
from .items import Reading
from .leads import counts_receipts, leads_from
from .overrides import Override, level_faults, word_of
from .status import REPLACED, SUCCESSOR, status_of
from .tables import TableReader, Values
from .unit_words import SHARES

TEXTS = ("description", "class", "supplier", "override_reason")
# The roles whose readers convert their numbers, and those whose money is exact before it is converted.
CONVERTED = {*WANTED, *SPANS, *MONEY}
OVERRIDE = "override_s", "override_S", "override", "override_reason"


def borrowed_from(cell: Cell) -> str:
    """Returns from whom an item learns its law. Raises Unreadable."""
    source = str(cell).casefold()
    if source not in BORROW:
        raise Unreadable(
            "no borrow", cell, known=f"{', '.join(BORROW[:-1])} or {BORROW[-1]}"
        )
    return source


class Master(NamedTuple):
    """An item without its demand, the decimals of its money, by role where a value that may have a default is from, and
    the period since when there is the item, None if that is not said."""

    item: Item
    decimals: int
    sources: Mapping[str, str]
    since: int | None


class Masters:
    """Reads the rows of masters, with the unit of each column, and what holds if they say nothing."""

    def __init__(self, table: TableReader, whole: WholeTables, words: Reading) -> None:
        self.table = table
        self.whole = whole
        self.words = words
        columns = table.rows.sheet.columns
        self.units = {role: column.unit for role, column in columns.items()}
        self.is_money = self.units.get("order_min") == "money"
        holding = self.units.get("holding", "")
        self.share = holding * (holding in SHARES)
        self.currencies = distinct(whole.currencies)
        self.usual_leads = words.leads(words.every)
        self.usual_review = words.reviews(words.every)
        # The cells of money, by role, with more decimals than are kept.
        self.fine = set[tuple[str, Cell]]()
        table.read_rows(self._readers(), NEEDED["items"] - words.roles, CONVERTED)

    def _readers(self) -> dict[str, Callable[[Cell], Any]]:
        amounts = self.whole.amounts
        times = self.whole.times
        every = self.words.every
        readers: dict[str, Callable[[Cell], Any]] = {
            "holding": self._holding,
            "borrow": borrowed_from,
            "currency": currency_in,
            "override": word_of,
            "status": partial(status_of, stated=self.words.statuses),
            "since": lambda cell: period_of(self.table.dates.day(cell), every),
        }
        for role in WANTED:
            unit = self.units.get(role, "")
            readers[role] = partial(amounts[role].share, unit=unit, role=role)
        for role, reader in times.items():
            reads = {"lead": reader.leads, "review": reader.review}
            unit = self.units.get(role, "")
            time = reads.get(role, reader.span)
            readers[role] = partial(time, unit=unit, every=every)
        for role, kind in AMOUNTS["items"].items():
            readers.setdefault(role, self.table.number(role))
            if "decimals" in KINDS[kind] and role != "holding":
                readers[role] = partial(self._money, role=role, kind=kind)
        readers |= dict.fromkeys(TEXTS, printable)
        return {role: readers[role] for role in ROLES["items"][1:]}

    def _holding(self, cell: Cell) -> Fraction:
        """Returns a holding cost: money, or a share of the price, which is in percent if the column is."""
        reader = self.whole.amounts["holding"]
        if self.share:
            share = reader.share(cell, self.share, "holding")
            return share * 100 if self.share == PERCENT else share
        if cell != "" and reader.amount(cell).unit == PERCENT:
            raise Unreadable("is share", cell)
        return self._money(cell, "holding", "cost")

    def _money(self, cell: Cell, role: str, kind: str) -> Fraction:
        """Returns an amount, rounded to the decimals that are kept. Raises Unreadable, also for one that would be 0."""
        reader = self.whole.amounts[role]
        try:
            return reader.number(cell, kind)
        except Unreadable as why:
            if why.remark.code != "decimals":
                raise
            number = round(reader.number(cell), MOST_DECIMALS)
            if not number:
                raise
        self.fine.add((role, cell))
        return number

    def money_factor(self, role: str) -> Fraction:
        """Returns by what money is multiplied that has a unit."""
        return self.table.factors.get(role, Fraction(1))

    def values(self, row: int | None) -> tuple[Values, list[CellFault]]:
        """Returns the values of a row by role, and what is wrong with its cells; none of both without a row."""
        read: Values = dict.fromkeys(ROLES["items"])
        values, faults = ({}, []) if row is None else self.table.row(row)
        return {**read, **values}, faults

    def price(self, row: int | None) -> Fraction | None:
        """Returns the price of one item of a row; None if it has none that can be read."""
        return self._price(self.values(row)[0])

    def value(self, row: int | None) -> Fraction | None:
        """Returns what the stock of a row is worth; None if its stock or its price is missing or can't be read."""
        return value_of(self.values(row)[0]["stock"], self.price(row))

    def _price(self, read: Values) -> Fraction | None:
        """Returns the price of one item by the values of its row."""
        price: Fraction | None = read["price"]
        if price is None:
            return None
        return price / (read["price_for"] or 1) * self.money_factor("price")

    def read(
        self, row: int, observed: Sequence[int], group: str
    ) -> tuple[Values, list[CellFault]]:
        """Returns the values of a row by role, None of an empty cell, and all that is wrong with the row. `observed`
        are lead times of orders, for a row that says none, and `group` is the class of the item.
        """
        read, faults = self.values(row)
        cells = self.table.rows.cells(row)
        unread = {role for role, _, _ in faults}

        def add(role: str, code: str, **facts: Value) -> None:
            faults.append(fault(role, cells.get(role, ""), code, **facts))

        goals = self.words.goals_of(group, read)
        if not unread & {"backlog", *WANTED}:
            if goals.fill is goals.no_shortage is read["backlog"] is None:
                add("backlog", "no goal")
        if goals.fill is not None and goals.no_shortage is not None:
            add("no_shortage", "two goals")
        has_leads = read["lead"] is not None or observed or self.usual_leads
        if "lead" not in unread and not has_leads:
            add("lead", "nothing of leads")
        if not unread & {"s", "S"}:
            faults += level_faults(cells, ("s", "S"), read["s"], read["S"])
        s, S, word, _ = (read[role] for role in OVERRIDE)
        if not unread & {*OVERRIDE}:
            faults += level_faults(cells, OVERRIDE[:2], s, S, word)
        if "price" not in unread and not read["price"]:
            if self.share or read["holding"] is None and "holding" not in unread:
                add("holding", "no price for share")
            if self.is_money and read["order_min"]:
                add("order_min", "no price for order")
        if len(self.currencies) > 1:
            texts = " and ".join(repr(shown(text)) for text in self.currencies.values())
            add("currency", "currencies", texts=texts)
        return read, faults

    def item(
        self,
        name: str,
        line: int,
        read: Values,
        observed: Sequence[int],
        group: str,
    ) -> Master:
        """Returns the master of an item of a class by the values of its row, of which money is without units."""
        price = self._price(read)
        stated = read["lead"] or ()
        sources = self._sources(read, observed)
        goals = self.words.goals_of(group, read)
        sources |= goals.sources
        read["setup"] = self.words.setup if read["setup"] is None else read["setup"]
        status, other = read["status"] or ("", "")
        days = None
        if stated:
            days = Fraction(sum(stated), len(stated)) * DAYS[self.words.every]
        item = Item(
            name,
            (),
            leads_from(stated, observed, self.words.lead_from) or self.usual_leads,
            None if read["s"] is None else (int(read["s"]), int(read["S"])),
            read["setup"] or Fraction(0),
            self._holding_of(read["holding"], price),
            read["backlog"] and read["backlog"] * self.money_factor("backlog"),
            goals.fill,
            no_shortage=goals.no_shortage,
            review=read["review"] or self.usual_review,
            group=read["class"] or "",
            borrow=read["borrow"] or "",
            bounds=self._bounds(read, price),
            override=Override.of(*(read[role] for role in OVERRIDE)),
            stock=read["stock"],
            price=price,
            description=read["description"] or "",
            supplier=read["supplier"] or "",
            supplier_min=read["supplier_min"],
            category=group,
            has_goal=goals.sources.get("fill") == MASTERS,
            status=status,
            predecessor=other * (status == SUCCESSOR),
            successor=other * (status == REPLACED),
            line=line,
            stated=days,
        )
        return Master(item, decimals_of(map(read.get, MONEY)), sources, read["since"])

    def _sources(self, read: Values, observed: Sequence[int]) -> dict[str, str]:
        """Returns by role where the values of a row are from that may have a default."""
        sources = dict[str, str]()
        for role in ("setup", "holding", "lead"):
            sources[role] = DEFAULT if read[role] is None else MASTERS
        if counts_receipts(bool(read["lead"]), len(observed), self.words.lead_from):
            sources["lead"] = ORDERS
        if self.words.review:
            sources["review"] = DEFAULT if read["review"] is None else MASTERS
        return sources

    def _holding_of(self, stated: Fraction | None, price: Fraction | None) -> Fraction:
        """Returns the holding cost of an item and period: what is stated, which may be a share of the price, else the
        usual share."""
        if stated is None:
            rate = self.words.holding_rate or Fraction(0)
            return rate / periods_a_year(self.words.every) * (price or 0)
        stated *= self.money_factor("holding")
        return stated * (price or 0) if self.share else stated

    def _bounds(self, read: Values, price: Fraction | None) -> OrderBounds:
        """Returns the bounds of an item with a price, by the values of its row without units. A 0 of a system states
        none but for s."""
        least = read["order_min"] or None
        if least and price and self.is_money:
            least /= price
        return OrderBounds(
            int(read["pack"] or 1),
            least and math.ceil(least),
            None if read["s_min"] is None else int(read["s_min"]),
            read["coverage"] or None,
            read["shelf_life"] or None,
        )


def decimals_of(amounts: Iterable[Fraction | None]) -> int:
    """Returns the least number of decimals with which amounts of money are exact."""
    unit = math.lcm(*(amount.denominator for amount in amounts if amount is not None))
    decimals = 0
    while 10**decimals % unit:
        decimals += 1
    return decimals
