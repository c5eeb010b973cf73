"""Has the movements of an item, as rows of demand state them, the rows that can't be read, and those of a promotion.

Rows from one day to another say what the received orders of an item took, and when it was out of stock."""
from __future__ import annotations

from collections.abc import Callable
from typing import NamedTuple

import numpy as np

from ..formats import MOST_LEAD
from .column_words import MARKS
from .cells import (
    Cell,
    CellFault,
    Flags,
    Numbers,
    Unreadable,
    fault,
    named_lines,
    plain_name,
    text_of,
)
from .dates import periods_of_days
from .items import OUTSIDE
from .observed import Record
from .rows import far_above
from .tables import TableReader

OUT = "out_of_stock"  # the kind of the table
Spans = Callable[[int], Numbers]  # two rows of numbers of an item, by its code
NO_SPANS: Spans = lambda item: np.zeros((2, 0), np.int64)


def is_marked(cell: Cell) -> bool:
    """Returns whether a cell says that its row is of a promotion. Raises Unreadable for one that says neither."""
    mark = MARKS.get(plain_name(text_of(cell)))
    if mark is None:
        raise Unreadable("no mark", cell)
    return mark


class Movements(NamedTuple):
    """The movements of an item in the order of their rows: lines, periods, amounts asked for and back, 1 for rows that
    say a period and no amount, and 1 for rows of a promotion."""

    lines: Numbers
    periods: Numbers
    asked: Numbers
    back: Numbers
    blank: Numbers
    marked: Numbers

    @property
    def known(self) -> Movements:
        """Returns the movements with an amount."""
        if not self.blank.any():
            return self
        return Movements(*(values[self.blank == 0] for values in self))

    def promoted_places(self, first: int, count: int) -> set[int]:
        """Returns the places of the periods with a row of a promotion, of so many from one on."""
        places = self.periods[self.marked == 1] - first
        return {place for place in places.tolist() if 0 <= place < count}

    def far(self, called: Callable[[int], int | str]) -> tuple[int, CellFault] | None:
        """Returns the first line with an amount far above all others, as if counted a thousand times too large, and what is
        wrong there, with lines as they are called; None if there is none."""
        for role, amounts in (("quantity", self.asked), ("returned", self.back)):
            far = far_above(amounts)
            if far:
                ranked = np.argsort(-amounts, kind="stable")
                lines = self.lines[ranked[:far]].tolist()
                largest, least, below = amounts[ranked[[0, far - 1, far]]].tolist()
                named = named_lines([*map(called, lines)])
                times = least // below
                facts = {"lines": named, "times": times, "next": below}
                return lines[0], fault(role, largest, "far", **facts)
        return None


def unread_in(
    demand: TableReader, bad: Flags, blank: Flags, facts: Numbers
) -> tuple[Spans, Spans, dict[str, int]]:
    """Returns the functions that give the facts of the rows of an item that have no amount that can be read, but a date,
    and of those without such a date; and how many there are that can't be read. The facts of a row are its period, twice,
    and its amount."""
    rows, wrong = demand.rows, demand.wrong["date"]
    undated = [code for code in wrong if wrong[code].code not in OUTSIDE]
    is_undated = rows.good & bad & rows.having("date", undated)
    is_dated = rows.good & ~rows.having("date", wrong)
    counts = {
        "unread_rows": int((is_dated & bad).sum()),
        "undated_rows": int(is_undated.sum()),
        "undated_items": int(facts[-1, is_undated].sum()),
    }
    gaps = is_dated & (bad | blank)
    return rows.by_item(gaps, facts), rows.by_item(is_undated, facts), counts


def places_of_spans(spans: Numbers, first: int, count: int) -> set[int]:
    """Returns the places of the periods from the first to the last one of each span, of so many from one on."""
    places = set[int]()
    for start, end in spans[:2].T.tolist():
        places.update(range(max(start - first, 0), min(end - first + 1, count)))
    return places


def receipts_in(table: TableReader, every: str) -> tuple[Spans, int]:
    """Returns the function that gives what the received orders of an item took, in periods and in days, and how many
    orders are open. Orders with faults are rejected. One that was placed on any day of period t and received on any day of
    period t + L took L periods, and 1 if both fell in one period.
    """
    rows = table.rows
    placed, received, is_open = table.read_spans("ordered", "received")
    days = received - placed
    leads = periods_of_days(received, every) - periods_of_days(placed, every)
    leads = np.maximum(1, leads)

    def judged(row: int) -> CellFault:
        cell = rows.cell("received", row)
        if days[row] < 0:
            ordered = text_of(rows.cell("ordered", row))
            return fault("received", cell, "before order", ordered=ordered)
        lead = int(leads[row])
        return fault("received", cell, "lead range", lead=lead, most=MOST_LEAD)

    good = rows.good & ~is_open
    bad = good & (table.bad | (days < 0) | (leads > MOST_LEAD))
    table.reject_all(bad, judged)
    receipts_of = rows.by_item(good & ~bad, np.stack([leads, days]))
    return receipts_of, np.count_nonzero(rows.good & is_open)


def outages_in(table: TableReader, record: Record) -> Spans:
    """Returns the function that gives the first and the last period of each time in which an item was out of stock. A row
    has the first and the last day of it, or lasts to the end of the record. A period with such a day has no demand that is
    known: its sales are only a part of that. Rows with faults are rejected.
    """
    rows = table.rows
    first, last, is_open = table.read_spans("from", "to")

    def judged(row: int) -> CellFault:
        start = text_of(rows.cell("from", row))
        return fault("to", rows.cell("to", row), "ends before", start=start)

    is_reversed = (last < first) & ~is_open
    bad = rows.good & (table.bad | is_reversed)
    table.reject_all(bad, judged)
    last[is_open] = record.last.toordinal()
    spans = np.stack([periods_of_days(days, record.every) for days in (first, last)])
    return rows.by_item(rows.good & ~bad, spans)
