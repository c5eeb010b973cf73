"""Looks for dates of which a spreadsheet may have interchanged day and month.

A spreadsheet of another country reads the dates of a text file that it can, with the month for the day, and leaves the
others as texts: those with a day above 12. So a column has dates with a day of at most 12 beside texts with days above
12 alone. The order of the rows may show which of both is right.
"""
from __future__ import annotations

import datetime
from collections.abc import Mapping, Sequence
from typing import NamedTuple

from .cells import Cell
from .date_forms import DATE_FORMS, DOTTED, ISO, SPLIT, Written, days_among, written

Day = datetime.date
SIGNED = (DATE_FORMS[SPLIT], DATE_FORMS[DOTTED])
# So many dates are in order by no chance.
LEAST_ORDERED = 6


class Turned(NamedTuple):
    """Whether day and month are interchanged in each date of a column that a spreadsheet has read as one: None if that is
    not known; and the first text that made it likely, empty if nothing did, with its pattern.
    """

    by_cell: Mapping[Cell, bool | None]
    text: str = ""
    pattern: str = ""


def interchanged(day: Day) -> Day:
    """Returns a date with its day, of at most 12, and its month interchanged."""
    return day.replace(month=day.day, day=day.month)


def pattern_of(parts: Written) -> str:
    """Returns the pattern of a text that shows whether the day or the month is first."""
    sign = parts.sign or "."
    first = f"%d{sign}%m" if parts.is_day_first else f"%m{sign}%d"
    return f"{first}{sign}{'%Y' if len(parts.year) == 4 else '%y'}"


def is_ordered(days: list[Day]) -> bool:
    """Returns whether days are in order, forwards or backwards."""
    return days in (sorted(days), sorted(days, reverse=True))


def day_of_sheet(cell: Cell, parts: Written | None) -> Day | None:
    """Returns the day of a date that a spreadsheet knows as one, or writes as 2026-03-31; None for another cell."""
    if isinstance(cell, Day):
        return cell
    if parts is None or parts.form != DATE_FORMS[ISO]:
        return None
    days = days_among((int(parts.year), int(parts.month or 0), int(parts.day or 0)))
    return days[0] if days else None


def day_of_text(parts: Written) -> Day | None:
    """Returns the day of a text of which one of day and month is above 12; None for another one."""
    if parts.is_day_first is None:
        return None
    ends = [int(parts.month or 0), int(parts.day or 0)]
    month, day = ends if parts.is_day_first else ends[::-1]
    days = days_among((parts.whole_year, month, day))
    return days[0] if days else None


def turned(column: Sequence[Cell]) -> Turned:
    """Returns which dates of a column, whose cells are in the order of their rows, have day and month interchanged."""
    read = dict[Cell, Day]()
    texts = dict[str, Written]()
    days = dict[Cell, Day | None]()  # of all of these
    for cell in column:
        parts = written(cell) if isinstance(cell, str) else None
        day = day_of_sheet(cell, parts)
        if day:
            days[cell] = read[cell] = day
        elif parts and parts.form in SIGNED:
            days[cell] = day_of_text(parts)
            texts[str(cell)] = parts
    sides = {parts.is_day_first for parts in texts.values()}
    is_like_it = len(sides) == 1 and None not in days.values() and bool(read)
    if not is_like_it or max(day.day for day in read.values()) > 12:
        return Turned(dict.fromkeys(read, False))
    sound = list[Day]()
    other = list[Day]()
    for day, cell in ((days.get(cell), cell) for cell in column):
        if day:
            sound.append(day)
            other.append(interchanged(day) if cell in read else day)
    is_turned = is_ordered(other)
    decides = is_ordered(sound) != is_turned and len(sound) >= LEAST_ORDERED
    text, parts = next(iter(texts.items()))
    return Turned(
        dict.fromkeys(read, is_turned if decides else None), text, pattern_of(parts)
    )
