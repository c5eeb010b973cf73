"""Sums what the rows of tables say into control totals, to tick off against the source.

Totals are by file and by what became of the rows. All sums are exact.
"""
from __future__ import annotations

import math
from collections import Counter
from collections.abc import Callable, Iterable, Mapping
from dataclasses import astuple, dataclass, field
from fractions import Fraction
from typing import Any

import numpy as np
import numpy.typing as npt

from .amounts import AMOUNTS
from .cells import Flags, Numbers
from .items import FileCounts
from .observed import Day, sums_of
from .sources import FILE_BITS, Sheet
from .tables import OTHER, REJECTED, STATES, USED, WITH_ITEM, TableReader, values_of

PriceOf = Callable[[int], Fraction | None]  # of an item by its code
# The amounts that are summed, of which the first one has a value.
SUMMED: dict[str, tuple[str, ...]] = {
    kind: tuple(role for role in roles if role != "factor")
    for kind, roles in AMOUNTS.items()
}
SUMMED |= {"items": ("stock",), "laws": ()}
# The columns whose first and last dates are named.
DATED = {
    "demand": "date",
    "orders": "ordered",
    "stock": "date",
    "on_order": "due",
    "placed": "due",
    "out_of_stock": "from",
}
MOST_EXACT = 1 << 62  # of sums of whole numbers of 64 bits
NONE = Fraction(0)


@dataclass(frozen=True)
class Control:
    """What rows of a file come to: how many they are, the sum of their amounts by role, as they stand in the file, what
    these are worth by the prices of the masters (None without a price), their first and last date, and how many of them
    have an amount that can't be read, which is in no sum.
    """

    rows: int = 0
    amounts: Mapping[str, Fraction] = field(default_factory=dict)
    value: Fraction | None = None
    first: Day | None = None
    last: Day | None = None
    unread: int = 0

    def __add__(self, other: Control) -> Control:
        """Returns what the rows of both come to."""
        amounts = {**self.amounts}
        for role, amount in other.amounts.items():
            amounts[role] = amounts.get(role, NONE) + amount
        value = self.value
        if other.value is not None:
            value = other.value + (value or NONE)
        first = min(filter(None, [self.first, other.first]), default=None)
        last = max(filter(None, [self.last, other.last]), default=None)
        rows, unread = self.rows + other.rows, self.unread + other.unread
        return Control(rows, amounts, value, first, last, unread)


# Controls by kind of table, file and state.
Controls = dict[tuple[str, str, str], Control]


def tree_of(controls: Controls) -> list[Any]:
    """Returns controls as JSON has them, with texts for what is no whole number."""
    return [[*key, *astuple(control)] for key, control in controls.items()]


def controls_in(tree: Iterable[Any]) -> Controls:
    """Returns controls that were kept as a tree."""
    controls: Controls = {}
    for kind, file, state, rows, amounts, value, *days, unread in tree:
        sums = {role: Fraction(amount) for role, amount in amounts.items()}
        first, last = (day and Day.fromisoformat(str(day)) for day in days)
        worth = value and Fraction(value)
        control = Control(rows, sums, worth, first, last, unread)
        controls[kind, file, state] = control
    return controls


def together(parts: Iterable[Controls]) -> Controls:
    """Returns the controls of parts of tables as those of the tables."""
    whole: Controls = {}
    for part in parts:
        for key, control in part.items():
            whole[key] = whole.get(key, Control()) + control
    return whole


def counts_of(
    kind: str, sheet: Sheet, read: int, blank: int, controls: Controls
) -> FileCounts:
    """Returns what became of the rows of a table, of which so many were read, and are blank."""
    became = Counter[str]()
    for (own, _, state), control in controls.items():
        if own == kind:
            became[state] += control.rows
    return {
        "name": sheet.file_name,
        "read": read,
        "blank": blank,
        "used": became[USED],
        "rejected": became[REJECTED],
        "with_item": became[WITH_ITEM],
        "other": became[OTHER],
    }


def names_of_files(sheet: Sheet) -> list[str]:
    """Returns the names of the files of a table, with their folders if two have one name."""
    names = [file.file_name for file in sheet.files]
    if len({*names}) < len(names):
        return [file.name for file in sheet.files]
    return names


def whole_numbers(numbers: Iterable[Fraction | None]) -> tuple[list[int], int]:
    """Returns numbers, of which None is 0, as whole ones, and how many of these are 1."""
    known = [number or NONE for number in numbers]
    scale = math.lcm(*(number.denominator for number in known))
    return [int(number * scale) for number in known], scale


class _Sums:
    """Sums the rows of a table: their amounts as they stand there, what these are worth, and their days, 0 of a row without
    one. `unread` are rows with an amount that can't be read."""

    def __init__(
        self, table: TableReader, price_of: PriceOf, factors: Mapping[str, int]
    ) -> None:
        """Takes the price of an item by its code, and how many items a unit of measure counts as."""
        self.table, self.price_of = table, price_of
        self.columns = table.rows.columns
        self.unread: Flags = np.zeros(len(table.rows), bool)
        self.days: Numbers = np.zeros(len(table.rows), np.int64)
        date = DATED.get(table.kind, "")
        if date in self.columns:
            cells, day_of = self.columns[date].distinct, table.dates.day
            days, _ = values_of(cells, lambda cell: day_of(cell).toordinal(), 0)
            self.days = self.columns[date].of_rows(days, np.int64)
        sizes, size = table.rows.sizes(factors), 1
        if "factor" in self.columns:
            column, read = self.columns["factor"], table.amounts["factor"].known
            numbers, size = whole_numbers(map(read, column.distinct))
            sizes = column.of_rows(numbers, object)
        # The amounts of the rows by role, as whole numbers, and how many of these are 1.
        self.amounts = dict[str, tuple[npt.NDArray[Any], int]]()
        for role in SUMMED[table.kind]:
            if role in self.columns:
                self.amounts[role] = self._numbers(role, int(sizes.max(initial=1)))
        for role, (packs, scale) in [*self.amounts.items()][:1]:
            self.packs = packs * sizes
            self.size = Fraction(table.factors.get(role, 1)) / scale / size

    def _numbers(self, role: str, times: int) -> tuple[npt.NDArray[Any], int]:
        """Returns the number of each row in a column, 0 of one that has none, as `whole_numbers` does. They may be multiplied
        so many times."""
        column = self.columns[role]
        known = [*map(self.table.amounts[role].known, column.distinct)]
        cells = zip(column.distinct, known)
        wrong = (cell != "" and number is None for cell, number in cells)
        self.unread |= column.of_rows(wrong, bool)
        numbers, scale = whole_numbers(known)
        most = max((abs(number) for number in numbers), default=0) * times
        kind = np.int64 if most * len(column.codes) < MOST_EXACT else object
        return column.of_rows(numbers, kind), scale

    def control(self, rows: Numbers) -> Control:
        """Returns what some rows come to."""
        amounts = dict[str, Fraction]()
        for role, (numbers, scale) in self.amounts.items():
            amounts[role] = Fraction(int(numbers[rows].sum()), scale)
        days = self.days[rows]
        days = days[days > 0].tolist()
        ends = min, max
        first, last = (Day.fromordinal(end(days)) if days else None for end in ends)
        unread = np.count_nonzero(self.unread[rows])
        return Control(len(rows), amounts, self._worth(rows), first, last, unread)

    def _worth(self, rows: Numbers) -> Fraction | None:
        """Returns what some rows are worth; None if no item of them has a price."""
        if not self.amounts:
            return None
        items, which = np.unique(self.table.rows.items[rows], return_inverse=True)
        sums = sums_of(which, self.packs[rows], len(items)).tolist()
        worths = list[Fraction]()
        for price, packs in zip(map(self.price_of, items.tolist()), sums):
            if price is not None:
                worths.append(price * packs)
        return sum(worths, NONE) * self.size if worths else None


def controls_of(
    table: TableReader, price_of: PriceOf, factors: Mapping[str, int]
) -> Controls:
    """Returns the controls of the rows of a table, by the price of each item, also of files without rows. A unit of measure
    counts so many items as `factors` says."""
    sums = _Sums(table, price_of, factors)
    names = names_of_files(table.rows.sheet)
    controls: Controls = {(table.kind, name, USED): Control() for name in names}
    groups = (table.rows.lines >> FILE_BITS) * len(STATES) + table.states
    order = np.argsort(groups, kind="stable")
    found, starts = np.unique(groups[order], return_index=True)
    for group, rows in zip(found.tolist(), np.split(order, starts[1:])):
        file, state = divmod(group, len(STATES))
        controls[table.kind, names[file], STATES[state]] = sums.control(rows)
    return controls
