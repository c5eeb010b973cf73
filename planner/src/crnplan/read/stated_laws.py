"""Reads laws of demand that are stated for items, as other tools forecast them: a table of one form, see law_forms.py.

A law is that of the demand of each coming period. An item with such a law needs no history.
"""
from __future__ import annotations

import itertools
import statistics
from collections.abc import Mapping, Sequence
from fractions import Fraction
from functools import partial
from typing import TYPE_CHECKING, Any, NamedTuple, Union

import numpy as np

from ..law import Law
from ..remarks import Remark, Value
from ..vocabulary import Kind
from .amounts import AMOUNTS, UNITS
from .cells import (
    Cell,
    Flags,
    Numbers,
    Unreadable,
    fault,
    plain_name,
    text_of,
)
from .dates import period_of
from .frames import TABLE
from .items import Left
from .law_forms import (
    LAWS,
    MOMENTS,
    PATHS,
    QUANTILES,
    TIME,
    VALUES,
    Unlawful,
    form_of,
    law_of_chances,
    law_of_moments,
    law_of_quantiles,
    law_of_weights,
    moments_of_paths,
)
from .opening import Table
from .tables import TableReader

if TYPE_CHECKING:
    import pandas as pd

# Laws by item as a table of one form, or as values.
StatedTable = Union[Table, Mapping[str, Law], "pd.Series"]
PERIOD = "period"  # what a period of the plan is called, whatever it is
# The columns of shares: in percent if they are, or if a cell says so.
SHARES = {"chance", "quantile"}


class Stated(NamedTuple):
    """A law that is stated, in items, and what is to be said of it."""

    law: Law
    remark: Remark


class StatedLaws:
    """The laws of a table, by item. Rows with faults are rejected, and their items have no law."""

    def __init__(self, table: TableReader, every: str) -> None:
        self.table, self.every = table, every
        self.rows = rows = table.rows
        self.form = form_of(rows.columns)
        self.numbers = dict[str, Any]()
        for role, kind in AMOUNTS[LAWS].items():
            if role in rows.columns:
                if role == "value" and self.form == VALUES:
                    kind = "items"
                unit = rows.sheet.columns[role].unit if role in SHARES else None
                read = partial(table.amounts[role].number, kind=kind, unit=unit)
                column = table.read(role, read, Fraction(0))
                self.numbers[role] = column.of_rows(table.values[role], object)
        self.periods = np.zeros(len(rows), np.int64)
        if self.form == PATHS:
            self.periods = table.read_whole(TIME, self._period)
        for role in ("every", *(TIME,) * (self.form != PATHS)):
            if role in rows.columns:
                table.read_whole(role, self._check_time)
        self.bad: Flags = rows.good & table.bad
        table.reject_all(self.bad)
        self.rows_of = rows.by_item(rows.good)

    def _period(self, cell: Cell) -> int:
        """Returns the number of the period of a path: as it stands there, or that of a date."""
        text = text_of(cell)
        if text.isdecimal() and text.isascii():
            return int(text)
        return period_of(self.table.dates.day(cell), self.every)

    def _check_time(self, cell: Cell) -> int:
        """Raises Unreadable for a time of a law that is not the period of the plan."""
        unit = UNITS.get(plain_name(text_of(cell)), "")
        if text_of(cell) not in ("", PERIOD) and unit != self.every:
            raise Unreadable("other time of a law", cell, every=self.every)
        return 0

    def line(self, item: int) -> int:
        """Returns the first line of an item; 0 if it has none."""
        lines = self.rows.lines[self.rows_of(item)]
        return int(lines[0]) if len(lines) else 0

    def mean(self, item: int) -> Fraction | None:
        """Returns the mean of the law of an item; None if it has none."""
        try:
            stated = self.law(item, (1,))
        except Left:
            return None
        return stated and stated.law.mean

    def law(self, item: int, leads: Sequence[int]) -> Stated | None:
        """Returns the law of an item whose orders take some periods; None if none is stated. Raises Left."""
        rows = self.rows_of(item)
        if not len(rows):
            return None
        line = int(self.rows.lines[rows[0]])
        if self.bad[rows].any():
            count = int(self.bad[rows].sum())
            raise Left(LAWS, line, fault("item", "", "rejected law", count=count))
        try:
            return MAKERS[str(self.form)](self, rows, round(statistics.mean(leads)))
        except Unlawful as why:
            cell = self.rows.cell(why.role, int(rows[0])) if len(rows) == 1 else ""
            raise Left(LAWS, line, (why.role, cell, why.remark)) from why

    def by(self, role: str, other: str, rows: Numbers) -> dict[Fraction, Fraction]:
        """Returns the numbers of a column of rows by those of another one. Raises Unlawful if one of these stands twice."""
        keys, numbers = self.numbers[role][rows], self.numbers[other][rows]
        found = dict(zip(keys, numbers))
        if len(found) < len(keys):
            raise Unlawful(role, "twice in a law", role=role)
        return found

    def of_values(self, rows: Numbers, lead: int) -> Stated:
        """Returns the law of values with chances, or with whole weights."""
        role = "weight" if "weight" in self.numbers else "chance"
        parts = {
            int(value): part for value, part in self.by("value", role, rows).items()
        }
        if not any(value and part for value, part in parts.items()):
            raise Unlawful(role, "law without demand")
        if role == "chance":
            law = law_of_chances(parts)
        else:
            law = law_of_weights({value: int(part) for value, part in parts.items()})
        return self.stated(law, {"values": len(law.values)})

    def of_moments(self, rows: Numbers, lead: int) -> Stated:
        """Returns the law of a mean and a variance."""
        if len(rows) > 1:
            raise Unlawful("mean", "several laws", count=len(rows))
        (first,) = rows
        mean = float(self.numbers["mean"][first])
        if "variance" in self.numbers:
            variance = float(self.numbers["variance"][first])
        else:
            variance = float(self.numbers["deviation"][first] ** 2)
        law = law_of_moments(mean, variance)
        return self.stated(law, {"mean": mean, "variance": variance})

    def of_quantiles(self, rows: Numbers, lead: int) -> Stated:
        """Returns the law of quantiles."""
        values = self.by("quantile", "value", rows)
        law = law_of_quantiles(values)
        return self.stated(law, {"count": len(rows), "most": float(max(values))})

    def of_paths(self, rows: Numbers, lead: int) -> Stated:
        """Returns the law of sample paths, which all have the same periods, without a gap."""
        paths, periods = self.rows.columns["path"].codes[rows], self.periods[rows]
        names, places = np.unique(paths, return_inverse=True)
        first, last = int(periods.min()), int(periods.max())
        ahead = last - first + 1
        cells = places * ahead + periods - first
        size = {"paths": len(names), "ahead": ahead}
        if len(rows) != len(names) * ahead or len(np.unique(cells)) < len(rows):
            raise Unlawful(TIME, "uneven paths", rows=len(rows), **size)
        values = np.zeros(len(rows))
        values[cells] = self.numbers["value"][rows].astype(float)
        mean, variance = moments_of_paths(values.reshape(-1, ahead), lead + 1)
        facts: dict[str, Value] = {"mean": mean, "variance": variance, **size}
        facts |= {"together": lead + 1, "is_apart": int(lead + 1 > ahead)}
        return self.stated(law_of_moments(mean, variance), facts)

    def stated(self, law: Law, facts: Mapping[str, Value]) -> Stated:
        """Returns a law with what is said of it: its form, with facts."""
        return Stated(
            law, Remark(f"law of {self.form}", {"every": self.every, **facts})
        )


MAKERS = {
    VALUES: StatedLaws.of_values,
    MOMENTS: StatedLaws.of_moments,
    QUANTILES: StatedLaws.of_quantiles,
    PATHS: StatedLaws.of_paths,
}


def read_stated(laws: Any) -> Any:
    """Returns the path of a table, or a table: also that of laws by item, a dict or a Series of `Law`. Raises Refused."""
    import pandas as pd

    if not isinstance(laws, (Mapping, pd.Series)):
        return TABLE.read(laws)
    rows = list[tuple[object, int, int]]()
    for item, law in laws.items():
        if not isinstance(law, Law):
            return TABLE.read(laws)
        rows += zip(itertools.repeat(item), law.values, law.weights)
    return pd.DataFrame(rows, columns=["item", "value", "weight"])


STATED = Kind(read_stated)
