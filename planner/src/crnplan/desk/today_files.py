"""Says which files count today, of which day each is, and which of the placed orders the export of open orders names."""
from __future__ import annotations

from collections import Counter
from collections.abc import Mapping, Sequence
from dataclasses import dataclass, replace
from fractions import Fraction

from ..errors import Refused
from ..plan.today import Days
from ..read.cells import text_of
from ..read.columns import ROLES
from ..read.looks import Look, look_at
from ..read.items import Reading
from ..read.several import open_tables
from ..read.sources import Row
from ..read.stock import EXPORTED, ON_ORDER, STOCK, read_holdings
from ..read.configuration import made_from
from ..show.today_tables import OrderDays
from .front import Front
from .kept import OF_MASTERS, Desk, Dropped, Placed

DAYS, FILES = "days", "files of today"  # what the front keeps of them
DAY = len("2026-11-30")


@dataclass(frozen=True)
class LastPlan:
    """The last plan as it is asked for orders: with our name of its masters, how many items these have, and how many are
    planned."""

    days: OrderDays
    masters: str
    named: int
    planned: int


@dataclass(frozen=True)
class TodayFiles:
    """The tables of today by kind, and how many `rows` each has. `stock_files` say the stock: none if it is as the plan has
    read it, and masters if these say it. `days` say of which day each kind is; that of no stock is empty.
    `filed` has the quantities of open orders by item, and `numbered` the texts of the rows that have the number of a placed
    order.
    """

    tables: Mapping[str, str]
    rows: Mapping[str, int]
    stock_files: Sequence[Dropped]
    days: Mapping[str, str]
    filed: Mapping[str, Sequence[str]]
    numbered: Sequence[set[str]]

    @property
    def is_old(self) -> bool:
        """Returns whether the stock is of an earlier day than the open orders."""
        return "" < self.days[STOCK] < self.days.get(ON_ORDER, "")

    def had(self, item: str) -> str:
        """Returns the quantities of the open orders of an item, as an order keeps them."""
        return " ".join(self.filed.get(item, ()))

    def named(self, placed: Sequence[Placed]) -> list[Placed]:
        """Returns the orders that were placed and that the open orders have: by a row with number and item, or by one of item
        and quantity that was not there when the order was placed. Each row is that of one order.
        """
        named = list[Placed]()
        taken = Counter[tuple[str, str]]()
        for order in placed:
            quantity = str(order.quantity)
            key, before = (order.item, quantity), order.had.split().count(quantity)
            now = [*self.filed.get(order.item, ())].count(quantity)
            is_new = not order.is_filed and now > before + taken[key]
            taken[key] += is_new
            texts = {order.number, order.item}
            if order.is_filed or is_new or any(texts <= row for row in self.numbered):
                named.append(order)
        return named

    def settled(self, placed: Sequence[Placed]) -> list[Placed]:
        """Returns orders as they are once other open orders come: those that these name stay named, and no row of these is one
        of the others."""
        named = {*self.named(placed)}
        return [
            replace(it, is_filed=True)
            if it in named
            else replace(it, had=self.had(it.item))
            for it in placed
        ]


def texts_of(row: Row) -> set[str]:
    """Returns the texts of the cells of a row."""
    _, cells = row
    return {*map(text_of, cells)}


def masters_with_stock(own: Front) -> Look | None:
    """Returns what is seen of the masters if they say the stock: they have a column of it, and no file of stock is of their day
    or a later one; else None."""
    desk = own.desk
    masters, stocks = desk.files_of("items"), desk.files_of(STOCK)
    if len(masters) != 1 or any(
        it.added[:DAY] >= masters[0].added[:DAY] for it in stocks
    ):
        return None
    tree = desk.tree

    def seen() -> Look:
        table = desk.table_in(masters[0])
        return look_at("items", table, made_from(Reading, tree), desk.folder.room())

    look = own.once("masters", (masters, tree), seen)
    return look if STOCK in look.columns else None


def stock_words(words: Reading, masters: Look) -> Reading:
    """Returns words by which masters are read as a table of stock: its columns are read as those of the masters."""
    columns = {
        role: masters.columns[role].name if role in masters.columns else ""
        for role in ROLES[STOCK]
    }
    units = words.units.get("items", {})
    own = {role: unit for role, unit in units.items() if role in columns}
    return replace(
        words,
        columns={**words.columns, STOCK: columns},
        units={**words.units, STOCK: own},
        written={**words.written, STOCK: words.written.get("items", {})},
    )


def stock_in(desk: Desk, days: Days, masters: Look) -> str:
    """Writes the stock of masters as a table of stock, and returns its path. An item whose stock can't be read has a row
    without one. Raises Refused if a unit is stated for files of stock, in which the table would be read.
    """
    if days.words.units.get(STOCK):
        raise Refused(
            "the masters are newer than the file of stock, and a unit is stated for files of stock",
            "drop the file of stock of the same day",
        )
    table = {STOCK: desk.table_in(desk.files_of("items")[0])}
    read = read_holdings(table, stock_words(days.words, masters), days.prices)
    sign = desk.tree.get("decimal", ".")
    rows = [(item, "", "") for item in sorted(read.unread)]
    for item, hand in (read.on_hand or {}).items():
        rows.append((item, spelt(hand.stock, sign), spelt(hand.owed, sign)))
    return desk.table(OF_MASTERS, ("item", STOCK, "owed"), rows) or table[STOCK]


def spelt(number: Fraction, sign: str) -> str:
    """Returns a number with no group of digits that could be thousands."""
    if number.denominator == 1:
        return str(number)
    return f"{float(number):.6f}".replace(".", sign)


def last_plan(own: Front) -> LastPlan:
    """Returns the last plan as it is asked for orders, which is read once."""
    tree = own.desk.tree

    def made() -> LastPlan:
        own.known.pop(DAYS, None)  # Both would take much memory.
        with own.reading("") as planned:
            planned.check()
            days = OrderDays(planned, made_from(Reading, tree)).read()
            counts = planned.counts
            name = counts["files"].get("items", {}).get("name", "")
            return LastPlan(
                days, name, counts["items"]["named"], planned.totals.planned
            )

    return own.once(DAYS, (own.version(""), tree), made)


def today_files(own: Front) -> TodayFiles:
    """Returns what the files of today say, which are read once."""
    state = own.desk.state
    numbers = {order.number for order in state.placed}

    def made() -> TodayFiles:
        return _read(own, numbers)

    with own.orders:
        return own.once(FILES, (own.version(""), state.changed, numbers), made)


def _read(own: Front, numbers: set[str]) -> TodayFiles:
    """Reads the files of today, and finds the rows of open orders with some numbers."""
    desk, days = own.desk, last_plan(own).days.days
    tables, files = desk.tables(EXPORTED), {
        kind: desk.files_of(kind) for kind in EXPORTED
    }
    masters = masters_with_stock(own)
    if masters:
        files[STOCK] = desk.files_of("items")
        tables[STOCK] = stock_in(desk, days, masters)
    holdings = days.holdings(tables)
    filed = {
        item: [*map(str, quantities)] for item, quantities in holdings.filed.items()
    }
    dropped = {kind: [it.added[:DAY] for it in its] for kind, its in files.items()}
    has_stock = any(item.stock is not None for item, _ in days.decided)
    planned = own.plan().path.name[:DAY] if has_stock else ""
    first = min(dropped[STOCK], default=planned)
    of_days = {STOCK: str(holdings.as_of or first)}
    if dropped[ON_ORDER]:
        of_days[ON_ORDER] = max(dropped[ON_ORDER])
    open_orders = {ON_ORDER: tables.get(ON_ORDER) if numbers else None}
    with open_tables(open_orders, days.words, desk.folder.room()) as sheets:
        numbered = [
            row
            for sheet in sheets.values()
            for file in sheet.files
            for row in map(texts_of, file.rows())
            if row & numbers
        ]
    rows = {kind: its["read"] for kind, its in holdings.counts.items()}
    return TodayFiles(tables, rows, files[STOCK], of_days, filed, numbered)
