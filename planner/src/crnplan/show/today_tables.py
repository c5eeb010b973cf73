"""The tables of what a plan says on a day, and what they add up to as a text.

They have orders, what is above S, lies dead or is owed, classes and suppliers, additions, and what is left out.
"""
from __future__ import annotations

import datetime
import itertools
import math
import re
import tempfile
from collections.abc import Callable, Iterable, Iterator, Mapping
from dataclasses import dataclass, field, replace
from fractions import Fraction
from functools import cached_property
from pathlib import Path
from typing import TYPE_CHECKING, ClassVar

from ..arguments import judged
from ..errors import Refused
from ..store.files import Folder
from ..money import Currency
from ..plan.catalogue import PlannedFolder, copied_folder, planned_folder
from ..plan.risk import Risk, risks_of
from ..plan.standing import Standing
from ..plan.today import Days, OrderGroup, Today, sum_of_money
from ..read.item import PHASE_OUT
from ..read.items import Reading
from ..read.observed import Day, stated_day
from ..read.opening import Table
from ..read.configuration import made_from, merged, told_of
from ..table import DataTable, Json, Result, names_of
from ..sentences import counted
from .catalogue_tables import (
    REJECT_COLUMNS,
    counted_rows,
    reasons_of,
    rejects_of,
)
from ..columns import columns_of
from .control_tables import CONTROL_COLUMNS, controls_of
from ..drawing.rendering import rendered
from .book import LINES, new_book, sheet_name
from .today_rows import (
    CELLS,
    CLASS,
    SUPPLIER,
    GroupRow,
    TodayRow,
    UnknownRow,
    listed,
    supplier_file,
)

if TYPE_CHECKING:
    import pandas as pd

TODAY, SUMMARY = "today", "today.txt"  # the kind of the folder, and its text
MOST_URGENT, MOST_NAMED = 10, 8
WITHOUT = "without what is on order"
URGENT = [
    "item",
    "stock",
    "on_order",
    "owed",
    "s",
    "S",
    "placed",
    "value",
    "weeks",
    "chance",
    "latest",
]  # of the text
SUPPLIER_FILE = re.compile("today_supplier_[0-9]{3,}[.]csv")
ON_A_DAY = "orders", "lists", "groups", "added", "lines", "at_risk"
# The tables by name, with their columns.
TABLES = {name: columns_of("show", f"today_{name}", CELLS) for name in ON_A_DAY}
TABLES |= {"controls": CONTROL_COLUMNS, "left_out": REJECT_COLUMNS}


class LazyTables(Mapping[str, DataTable]):
    """The tables by name, each of which is made when it is asked for."""

    def __init__(self, make: Callable[[str], DataTable]) -> None:
        self._make, self._known = make, dict[str, DataTable]()

    def __getitem__(self, name: str) -> DataTable:
        if name not in self._known:
            self._known[name] = self._make(name)
        return self._known[name]

    def __iter__(self) -> Iterator[str]:
        return iter(TABLES)

    def __len__(self) -> int:
        return len(TABLES)


def file_of(table: str) -> str:
    """Returns the file of a table."""
    return f"today_{table}.csv"


def named_orders(standings: Iterable[Standing], fact: str) -> str:
    """Returns items, each with what is ordered of it by a fact."""
    names = [f"{getattr(it, fact):,} {it.item.name}" for it in standings]
    return names_of(names, MOST_NAMED)


def short_of(group: OrderGroup) -> tuple[OrderGroup, str, Fraction]:
    """Returns a supplier whose order is below its least value, with what to add, and what is lacking then."""
    added = named_orders((it.standing for it in group.additions()), "placed")
    return group, added, group.lacking


@dataclass(frozen=True, eq=False, repr=False)
class OrdersToday(Result):
    """What a plan says on a day. `frame` has a row for each order, the most urgent first, and then for each item of
    which nothing is known; `text` says what it comes to. docs/TABLES.md has all columns.
    """

    today: Today = field(repr=False)
    every: str = field(default="", repr=False)
    currency: Currency = field(default=Currency(), repr=False)
    plan: str = field(default="", repr=False)  # the digest of the plan
    keys: str = field(default="", repr=False)  # the type of its items' names

    brief: ClassVar = "item supplier position s S placed value chance".split()

    @property
    def content(self) -> list[list[dict[str, Json]]]:
        """Returns the rows of all tables as plain data."""
        return [table.records for table in self.tables.values()]

    def _table(self, name: str, things: Iterable[object]) -> DataTable:
        currency = self.currency
        return DataTable.of(
            TABLES[name],
            [*things],
            currency.decimals,
            "",
            currency=currency.code,
            every=self.every,
            keys=self.keys,
        )

    def _rows(self, standings: Iterable[Standing]) -> list[TodayRow]:
        return [TodayRow(self.today, standing) for standing in standings]

    def _groups(self, role: str, groups: Iterable[OrderGroup]) -> list[GroupRow]:
        return [GroupRow(self.today, role, group) for group in groups]

    @cached_property
    def table(self) -> DataTable:
        """Returns the orders, and items without one since nothing is known of them."""
        unknown = [UnknownRow(item, reason) for item, reason in self.today.unknown]
        return self._table("orders", [*self._rows(self.today.whole.due), *unknown])

    @property
    def urgent(self) -> DataTable:
        """Returns the most urgent orders."""
        most = self.today.whole.due[:MOST_URGENT]
        return rows_of(self, most).with_columns(URGENT)

    def money(self, amount: Fraction | float) -> str:
        """Returns an amount of money with all its decimals.

        :meta private:
        """
        return self.currency.named(f"{float(amount):,.{self.currency.digits}f}")

    @property
    def headline(self) -> str:
        """Returns how many orders there are and what they are worth, how many of them a planner has changed, added and left
        out, and that it is not known what is on order."""
        today, whole = self.today, self.today.whole
        line = f"{self.today.day}: {counted(len(whole.due), 'order')}, worth {self.money(whole.value)}"
        unpriced = sum(standing.item.price is None for standing in whole.due)
        if unpriced:
            line += f", and {unpriced:,} of them without a price"
        if today.has_quantities:
            omitted, added = len(today.omitted), len(today.added)
            changed = len(today.changed) - omitted - added
            line += f" (the planner changed {changed:,}, added {added:,}, left out {omitted:,})"
        if not today.has_orders:
            line += f", {WITHOUT}"
        return line

    def check(self, plan: PlannedFolder) -> None:
        """Raises Refused if these are not the orders of a plan as it is now.

        :meta private:
        """
        if self.plan != plan.digest:
            raise Refused(
                f"{plan.path}: these orders are not those of this plan",
                "ask the plan for its orders again",
            )

    @cached_property
    def risks(self) -> list[Risk]:
        """Returns the items that are late or at risk, what to expedite first before others."""
        return risks_of(self.today.standings)

    @property
    def expedited(self) -> DataTable:
        """Returns what to expedite first of the items that are late or at risk."""
        return self._table("at_risk", self.risks[:MOST_URGENT])

    def _lines(self, groups: Iterable[OrderGroup]) -> DataTable:
        """Returns the lines of the orders of suppliers, each with its most urgent item first."""
        return self._table(
            "lines", self._rows(standing for group in groups for standing in group.due)
        )

    @cached_property
    def sellers(self) -> dict[str, GroupRow]:
        """Returns the suppliers by name, each with what is ordered of it."""
        rows = self._groups(SUPPLIER, self.today.suppliers)
        return {row.group.name: row for row in rows}

    @property
    def by_supplier(self) -> dict[int, tuple[str, DataTable]]:
        """Returns each supplier with an order and the lines of that, by its place among all of the plan."""
        return {
            self.today.place(group.name): (group.name, self._lines([group]))
            for group in self.today.suppliers
            if group.due
        }

    def _made(self, name: str) -> DataTable:
        today, currency = self.today, self.currency
        match name:
            case "orders":
                return self.table
            case "lines":
                return self._lines(today.suppliers)
            case "controls":
                return controls_of(
                    today.holdings.controls, currency.decimals, currency.code
                )
            case "left_out":
                return rejects_of(today.holdings.rejects, self.keys)
        rows: dict[str, Callable[[], Iterable[object]]] = {
            "lists": lambda: listed(today),
            "groups": lambda: itertools.chain(
                self._groups(CLASS, today.classes), self.sellers.values()
            ),
            "added": lambda: itertools.chain.from_iterable(
                group.additions() for group in today.short.values()
            ),
            "at_risk": lambda: self.risks,
        }
        return self._table(name, rows[name]())

    @cached_property
    def tables(self) -> Mapping[str, DataTable]:
        """Returns all tables by name, each of which is made when it is asked for."""
        return LazyTables(self._made)

    @property
    def files(self) -> dict[str, DataTable]:
        """Returns all tables, and the order of each supplier, by the names of their files."""
        files = {file_of(name): table for name, table in self.tables.items()}
        for place, (_, lines) in self.by_supplier.items():
            files[supplier_file(place)] = lines
        return files

    def write(self, folder: Folder, style: str = "en") -> None:
        """Writes all tables, the order of each supplier in a style, and the text into a folder. A table that was written
        there, and is no longer, is removed.

        :meta private:
        """
        files = self.files
        old = [name for name in folder.names if name.endswith(".csv")]
        folder.remove(*(name for name in old if name not in files))
        for name, table in files.items():
            is_order = SUPPLIER_FILE.fullmatch(name)
            folder.write(name, table.lines_in(style if is_order else "en"))
        folder.write(SUMMARY, self.text)

    @judged("call")
    def to_excel(self, path: str | Path) -> None:
        """Writes the orders as a workbook: a sheet with all lines, and one for each supplier with an order.

        Parameters
        ----------
        path : str or Path
            The file, which ends with .xlsx.

        Raises
        ------
        Refused
            If the file can't be written, or if there are more lines than a sheet has.
        """
        with new_book(Path(path), f"Orders of {self.today.day}") as book:
            book.add(LINES, self.tables["lines"])
            for place, (supplier, lines) in self.by_supplier.items():
                book.add(sheet_name(place, supplier), lines)

    @property
    def lists(self) -> pd.DataFrame:
        """Returns by `list` the items above S, those that last longest first; those with stock that nobody has asked for
        during the last year of the record; those owed to customers; and those that are ordered no longer.
        """
        return self.tables["lists"].frame

    @property
    def groups(self) -> pd.DataFrame:
        """Returns what orders, excess, dead stock and items owed come to by class, and by supplier, with the least value of
        its order and what lacks up to it."""
        return self.tables["groups"].frame

    @property
    def added(self) -> pd.DataFrame:
        """Returns what to add to orders below their supplier's minimum, the item nearest above s first."""
        return self.tables["added"].frame

    @property
    def lines(self) -> pd.DataFrame:
        """Returns the orders of suppliers line by line, with numbers, days on which they are due, and reasons."""
        return self.tables["lines"].frame

    @property
    def at_risk(self) -> pd.DataFrame:
        """Returns the items with overdue orders, or with less stock than mean demand up to the next receipt: what to
        expedite first stands first."""
        return self.tables["at_risk"].frame

    @property
    def controls(self) -> pd.DataFrame:
        """Returns rows, sums, value and dates of the tables of today, to tick off against the source."""
        return self.tables["controls"].frame

    @property
    def left_out(self) -> pd.DataFrame:
        """Returns rows of the tables that count for nothing, or are suspicious, with reason and advice."""
        return self.tables["left_out"].frame

    @cached_property
    def text(self) -> str:
        """Returns how many orders there are and what they are worth, the most urgent ones, and all totals."""
        today, risks = self.today, self.risks
        expedited = [
            risk.standing.item.name for risk in risks if risk.standing.on_order
        ]
        ordered = {standing.item.name for standing in today.whole.due}
        unserved = [
            ended
            for ended in today.ended
            if ended.hand
            and ended.hand.owed
            and ended.item.past != PHASE_OUT
            and ended.item.name not in ordered
        ]
        return rendered(
            "today.txt",
            {
                "orders": self,
                "today": today,
                "whole": today.whole,
                "omitted": named_orders(today.omitted, "planned"),
                "files": counted_rows(today.holdings.counts),
                "reasons": reasons_of(today.holdings.rejects),
                "short": [*map(short_of, today.short.values())],
                "unknown": names_of(
                    [item.name for item, _ in today.unknown], MOST_NAMED
                ),
                "ended": sum_of_money(ended.value for ended in today.ended),
                "unserved": len(unserved),
                "expedited": names_of(expedited, MOST_NAMED),
                "late": sum(bool(risk.standing.overdue) for risk in risks),
                "lacking": math.fsum(risk.value or 0.0 for risk in risks),
                "owed": sum_of_money(
                    standing.worth(standing.hand.owed) for standing in today.owed
                ),
            },
        )


def rows_of(orders: OrdersToday, standings: Iterable[Standing]) -> DataTable:
    """Returns some items of a day as the table of its orders has them."""
    return orders._table("orders", orders._rows(standings))


class OrderDays:
    """A planned folder, which is only read, as it is asked for orders on days. Tables are read as those of the plan were,
    unless `words` say otherwise."""

    def __init__(self, folder: PlannedFolder, words: Reading) -> None:
        planned = folder.read.fact("told")
        told = merged(planned, told_of(words))
        kept = replace(
            made_from(Reading, {**told, "every": folder.every}),
            is_where_needed=told.get("where") != planned.get("where"),
        )
        self.days = Days(folder, kept)
        self.facts = folder.every, folder.currency, folder.digest, folder.keys

    def read(self) -> OrderDays:
        """Reads the answers of the folder while that is open, and returns this."""
        self.days.decided
        return self

    def orders(
        self, tables: Mapping[str, Table | None], day: Day | str | None
    ) -> OrdersToday:
        """Returns what the folder says on a day, with tables by kind: see `Plan.orders_today`."""
        asked = stated_day("date", day) or datetime.date.today()
        return OrdersToday(self.days.today(tables, asked), *self.facts)


def orders_today(
    path: Path,
    tables: Mapping[str, Table | None],
    words: Reading,
    day: Day | str | None,
) -> OrdersToday:
    """Returns what a planned folder says on a day: see `OrderDays`."""
    with tempfile.TemporaryDirectory(prefix="crnplan-") as room, copied_folder(
        path, Path(room)
    ) as folder:
        return OrderDays(folder, words).orders(tables, day)


def has_stock(path: Path) -> bool:
    """Returns whether the masters of a planned folder say the stock of an item."""
    with planned_folder(path) as folder:
        return any(stock is not None for (stock,) in folder.read.cells("stock"))


def orders_by_masters(path: Path) -> OrdersToday | None:
    """Returns what a planned folder says today by the stock of its masters; None if these have none."""
    if has_stock(path):
        return orders_today(path, {}, Reading(), None)
    return None
