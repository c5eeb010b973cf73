"""Reads today's tables: stock, what is owed to customers, what is on order or placed since, and what a planner decides.

Quantities are ordered in place of what the plan says, and overrides change the plan itself.
"""
from __future__ import annotations

from collections import defaultdict
from collections.abc import Iterable, Iterator, Mapping, Sequence
from dataclasses import dataclass, field
from fractions import Fraction
from functools import cached_property
from operator import attrgetter
from types import MappingProxyType

import numpy as np

from ..errors import Fault, RefusedFaults
from ..remarks import Remark, Value
from .amounts import AMOUNTS
from .column_words import ORDERED
from .columns import ROLES
from .cells import CellFault, Flags, fault, printable, text_of
from .marks import (
    PLACE,
    closed_rows,
    question,
    questions,
    said_of_marks,
    sizes_of,
    split_items,
)
from .controls import Controls, controls_of, counts_of
from .items import FileCounts, Reject, Reading
from .observed import Day
from .opening import Table
from .overrides import Override, level_faults, word_of
from .quantities import Quantity, quantity_fault
from .several import open_tables
from .sources import Sheet
from .tables import USED, WITH_ITEM, TableReader, Values, alone

KINDS = STOCK, ON_ORDER, PLACED, QUANTITIES = (
    "stock",
    "on_order",
    "placed",
    "quantities",
)  # of the tables
OVERRIDES = "overrides"  # the kind of the table that a plan reads
TO_COME = ON_ORDER, PLACED  # the kinds of what is to come
EXPORTED = STOCK, ON_ORDER  # those that other systems write
NONE = Fraction(0)


@dataclass(frozen=True)
class OnHand:
    """What an item has today, in items: its stock, and what is owed to customers. None of both is below 0."""

    stock: Fraction
    owed: Fraction = NONE

    @classmethod
    def of(cls, stock: Fraction, owed: Fraction = NONE) -> OnHand:
        """Returns what a stock says, of which what is below 0 is owed, with more that is."""
        return cls(max(stock, NONE), owed + max(-stock, NONE))


@dataclass(frozen=True)
class Arrival:
    """Items on order, and the day on which they are due; None if no table says that."""

    items: Fraction
    due: Day | None = None


@dataclass(frozen=True)
class Holdings:
    """What tables say of today, by item. `on_hand` is None without a table of stock. `unread` are items with a row that
    can't be read: what they have is not known. `quantities` are what a planner orders, and `overrides` what is set, None for an
    item of which nothing is set any longer. `counts` say what became of the
    rows of each table, `controls` what they come to, and `remarks` what is to be said of them. `as_of` is the day of the
    stock, None if no column says it. `filed` has what was ordered in each row of open orders, also if nothing is to come.
    """

    on_hand: Mapping[str, OnHand] | None
    arrivals: Mapping[str, Sequence[Arrival]]
    quantities: Mapping[str, Quantity]
    unread: frozenset[str]
    counts: Mapping[str, FileCounts]
    rejects: tuple[Reject, ...]
    remarks: tuple[Remark, ...] = ()
    controls: Controls = field(default_factory=dict)
    as_of: Day | None = None
    filed: Mapping[str, Sequence[Fraction]] = field(default_factory=dict)
    overrides: Mapping[str, Override | None] = field(default_factory=dict)


class _Reader(TableReader):
    """Reads the rows of a table for the items of a plan, whose prices are known, and names those that it leaves out."""

    def __init__(
        self,
        kind: str,
        sheet: Sheet,
        words: Reading,
        prices: Mapping[str, Fraction | None],
        packs: Mapping[str, int],
    ) -> None:
        """Takes the packs of items, if they are not of one item."""
        self.rejects = list[Reject]()
        super().__init__(kind, *alone(kind, sheet), self.rejects.append)
        self.prices, self.packs = prices, packs
        self.unread, self.judged = set[str](), set[str]()
        self.overrides = dict[str, Override | None]()
        self.names = self.rows.names
        self.said = list[Remark]()
        self.asked = list[Remark]()
        self.sizes = sizes_of(self.rows, words.factors)
        self.closed: Flags = np.zeros(len(self.rows), bool)
        for name, closed in closed_rows(self.rows):
            self.closed |= closed & self.rows.good
            self._leave("closed rows", closed, column=name)
        self.as_of = self._keep_latest() if kind == STOCK else None
        self.asked += questions(kind, self.rows, self.sizes)
        readers = {role: self.number(role) for role in AMOUNTS[kind]}
        if "due" in self.rows.columns:
            for remark in self.dates.notes.values():
                self.name("suspicious", 0, "", [("due", "", remark)])
        others = {"due": self.dates.day, "override": word_of, "reason": printable}
        needed = () if kind == OVERRIDES else readers
        self.read_rows({**readers, **others}, needed)

    def is_of(self, sheet: Sheet) -> bool:
        """Returns whether a table is in the same files as the one that was read, and nobody has changed these since."""
        files, others = (
            [(file.name, file.state) for file in table.files]
            for table in (self.rows.sheet, sheet)
        )
        return files == others and all(file.path for file in sheet.files)

    def _read(self, row: int) -> tuple[Values, list[CellFault]]:
        values, faults = self.row(row)
        if not faults:
            faults = [*self._judged(row, values)]
        if not faults and self.kind != OVERRIDES:
            values |= self._in_items(row, values)
        return values, faults

    def _in_items(self, row: int, values: Values) -> Values:
        """Returns the amounts of a row in items, by its unit of measure; of open orders with what is still to come: if no
        column says that, what is ordered less what is received and cancelled."""
        size = values.get("factor")
        if size is None:
            size = self.sizes[text_of(self.rows.cell("measure", row))]
        items: Values = {}
        for role in AMOUNTS[self.kind].keys() & values.keys():
            column = self.rows.sheet.columns[role]
            items[role] = values[role] * (1 if column.unit_said else size)
        if "ordered" in items and "quantity" not in items:
            less = items.get("received", NONE) + items.get("cancelled", NONE)
            items["quantity"] = max(items["ordered"] - less, NONE)
        # How many were ordered in a row of open orders: what is to come if no cell says it.
        items["filed"] = items.get("ordered", items.get("quantity"))
        for name, mark in self.rows.sheet.marks.items():
            if mark.use == ORDERED:
                number = self.amounts["quantity"].known(self.rows.cell(name, row))
                items["filed"] = items["filed"] if number is None else number * size
        return items

    def _leave(self, code: str, others: Flags, **facts: Value) -> None:
        count = np.count_nonzero(others & self.rows.good)
        if count:
            self.leave(others)
            file = self.rows.sheet.file_name
            self.said.append(Remark(code, {"file": file, "rows": count, **facts}))

    def _keep_latest(self) -> Day | None:
        """Returns the last day of a stock, if a column says days, and leaves out the rows of earlier ones: of a table
        that has items again on several days, and at least half of them on the last. If no item has two days in a
        place, they are those of a count, and all rows are used. Else it asks, and so it does for what is no day.
        """
        rows = self.rows
        good, marks = rows.good, rows.sheet.marks
        if "date" not in rows.columns or not good.any():
            return None
        column, values = rows.sheet.columns["date"], rows.counts("date")
        days = self.read_days("date")
        del self.wrong["date"]  # A row counts, whatever its day is.
        last = days.max(where=good, initial=0)
        day = Day.fromordinal(int(last)) if last else None
        places = [rows.columns[it].codes for it in marks if marks[it].use == PLACE]
        _, stocks = np.unique(
            np.stack([rows.items, *places])[:, good], axis=1, return_inverse=True
        )
        pairs = np.unique(np.stack([stocks.ravel(), days[good]]), axis=1)
        is_known = (days[good] > 0).all()
        is_once = pairs.shape[1] == stocks.max() + 1
        if len(values) == 1 or f"={column.name}" in marks or is_known and is_once:
            return day
        named = {*rows.items[good].tolist()}
        on_last = {*rows.items[good & (days == last)].tolist()}
        if is_known and 2 * len(on_last) >= len(named):
            others = len(named - on_last)
            self._leave("earlier stock", days < last, day=str(day), items=others)
        else:
            asked = question("unknown days", STOCK, column.name, values, {*values})
            self.asked.append(asked)
        return day

    def _judged(self, row: int, values: Values) -> Iterator[CellFault]:
        """Yields what is wrong with the values of a row, each of which can be read."""
        stock = values.get("stock") or NONE
        owed = values.get("owed") or NONE
        if stock < 0 < owed:
            facts = {
                "stock": f"{float(stock):g}",
                "least": f"{float(max(-stock, owed)):g}",
                "most": f"{float(owed - stock):g}",
            }
            yield fault("owed", self.rows.cell("owed", row), "owed twice", **facts)
        name = self.names[self.rows.items[row]]
        if self.kind == OVERRIDES:
            yield from self._judged_override(row, name, values)
        if self.kind != QUANTITIES or name not in self.prices:
            return
        if name in self.judged:
            yield fault("item", name, "several quantities", item=name)
        self.judged.add(name)
        wrong = quantity_fault(values["quantity"], name, self.packs.get(name, 1))
        if wrong:
            yield "quantity", self.rows.cell("quantity", row), wrong

    def _judged_override(
        self, row: int, name: str, values: Values
    ) -> Iterator[CellFault]:
        """Yields what is wrong with what a planner sets of an item, in one row. Rows of one item say the same."""
        s, S, word, reason = map(values.get, ROLES[OVERRIDES][1:])
        wrong = [*level_faults(self.rows.cells(row), ("s", "S"), s, S, word)]
        override = None if wrong else Override.of(s, S, word, reason)
        if self.overrides.setdefault(name, override) != override:
            wrong.append(fault("item", name, "several overrides", item=name))
        yield from wrong

    @cached_property
    def found(self) -> dict[str, list[Values]]:
        """Returns the items of the plan with the values of their rows, but for those with a row that can't be read."""
        good = self.rows.good
        lines = self.rows.lines.tolist()
        twins = self.rows.twins(good)
        rows_of = self.rows.by_item(good)
        became = dict[int, str]()
        found = dict[str, list[Values]]()
        for item in np.unique(self.rows.items[good]).tolist():
            name = self.names[item]
            read = list[Values]()
            rows = rows_of(item).tolist()
            for row in rows:
                values, faults = self._read(row)
                if faults:
                    self.unread.add(name)
                    self.reject(row, faults)
                if row in twins and self.kind != OVERRIDES:
                    first = self.rows.sheet.called(lines[twins[row]])
                    twin = fault("item", name, "equal rows", first=first)
                    self.name("suspicious", lines[row], name, [twin])
                read.append(values)
            is_used = name in self.prices and name not in self.unread
            became[item] = USED if is_used else WITH_ITEM
            if is_used:
                found[name] = read
            elif name not in self.unread:
                unknown = fault("item", name, "not in the plan")
                self.name("item", lines[rows[0]], name, [unknown])
        self.close(became)
        return found

    @cached_property
    def filed(self) -> dict[str, list[Fraction]]:
        """Returns what was ordered in each row of open orders, by item, also in closed ones."""
        filed = defaultdict[str, list[Fraction]](list)
        for name, rows in self.found.items():
            filed[name] += [values["filed"] for values in rows]
        for row in np.flatnonzero(self.closed).tolist():
            unit = text_of(self.rows.cell("measure", row))
            if unit not in self.sizes and "factor" not in self.rows.columns:
                continue  # How many items it was of is not known, and nobody is asked.
            values, faults = self._read(row)
            if not faults:
                filed[self.names[self.rows.items[row]]].append(values["filed"])
        return dict(filed)

    @cached_property
    def hands(self) -> dict[str, OnHand]:
        hands = dict[str, OnHand]()
        for name, rows in self.found.items():
            places = [OnHand.of(row["stock"], row.get("owed", NONE)) for row in rows]
            stock = sum((place.stock for place in places), NONE)
            hands[name] = OnHand(stock, sum((place.owed for place in places), NONE))
        return hands

    @cached_property
    def controls(self) -> Controls:
        def price_of(item: int) -> Fraction | None:
            return self.prices.get(self.names[item])

        return controls_of(self, price_of, self.sizes)

    def decided(self) -> dict[str, list[Values]]:
        """Returns what `found` does. Raises RefusedFaults with all that is wrong: nothing is ordered by a table that can't be
        read."""
        found = self.found
        rejects = (reject for reject in self.rejects if reject.kind == "row")
        faults = [Fault(it.remark, it.file, it.line) for it in rejects]
        if faults:
            raise RefusedFaults(sorted(faults, key=attrgetter("file", "line")))
        return found


def read_holdings(
    tables: Mapping[str, Table | None],
    words: Reading,
    prices: Mapping[str, Fraction | None],
    packs: Mapping[str, int] = MappingProxyType({}),
    known: dict[str, _Reader] | None = None,
) -> Holdings:
    """Reads the tables of today, by kind, for the items of a plan, whose prices are known, and packs if they are not of one
    item. Rows of one item add up; but a quantity has one row. Raises Refused and RefusedFaults for tables that can't be
    read, and for quantities with faults. Other rows with faults are in `rejects`. `known` has exported tables that were read before,
    for the same items, and keeps those that are read now: rows of unchanged files are not read again.
    """
    known = {} if known is None else known
    readers = dict[str, _Reader]()
    with open_tables(tables, words) as sheets:
        for kind, sheet in sheets.items():
            if kind in known and known[kind].is_of(sheet):
                readers[kind] = known[kind]
            else:
                readers[kind] = _Reader(kind, sheet, words, prices, packs)
    faults = list[Fault]()
    for reader in readers.values():
        faults += map(reader.rows.sheet.fault_of, reader.asked)
    if faults:
        raise RefusedFaults(faults)
    stock, on_order = readers.get(STOCK), readers.get(ON_ORDER)
    arrivals = defaultdict[str, list[Arrival]](list)
    quantities = dict[str, Quantity]()
    overrides = dict[str, Override | None]()
    for kind, reader in readers.items():
        for name in reader.decided() if kind == OVERRIDES else ():
            overrides[name] = reader.overrides[name]
        for name, (row, *_) in reader.decided().items() if kind == QUANTITIES else ():
            quantities[name] = Quantity(int(row["quantity"]), row.get("reason") or "")
        for name, rows in reader.found.items() if kind in TO_COME else ():
            lines = [row for row in rows if row["quantity"]]
            arrivals[name] += [Arrival(it["quantity"], it.get("due")) for it in lines]
    known.clear()
    known |= {kind: readers[kind] for kind in EXPORTED if kind in readers}
    return Holdings(
        stock.hands if stock else None,
        {name: lines for name, lines in arrivals.items() if lines},
        quantities,
        frozenset().union(*(reader.unread for reader in readers.values())),
        *_said_by(readers.values()),
        stock.as_of if stock else None,
        on_order.filed if on_order else {},
        overrides,
    )


def _said_by(
    readers: Iterable[_Reader],
) -> tuple[dict[str, FileCounts], tuple[Reject, ...], tuple[Remark, ...], Controls]:
    """Returns what became of the rows of all tables, what is left out and said of them, and what they come to."""
    rejects = list[Reject]()
    remarks = list[Remark]()
    counts = dict[str, FileCounts]()
    controls: Controls = {}
    for reader in readers:
        rows, kind = reader.rows, reader.kind
        rejects += reader.rejects
        remarks += said_of_marks(kind, rows, split_items(rows))
        remarks += reader.said
        controls |= reader.controls
        size, blank = len(rows), len(rows.blank)
        counts[kind] = counts_of(kind, rows.sheet, size, blank, controls)
    rejects.sort(key=lambda reject: (reject.file, reject.line))
    return counts, tuple(rejects), tuple(remarks), controls
