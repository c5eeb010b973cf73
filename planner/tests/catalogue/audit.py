"""Reads the demand of a catalogue by a second program: csv and datetime of Python, and no line of crnplan.

It shares no code with what it checks. It knows the file's own forms, and takes a row if all its cells can be read.
"""
from __future__ import annotations

import contextlib
import csv
import datetime
from collections import Counter, defaultdict
from dataclasses import dataclass, field
from pathlib import Path

FORMS = ("%Y-%m-%d", "%d.%m.%Y", "%d/%m/%Y", "%d.%m.%y %H:%M")
Week = tuple[int, int]


@dataclass
class Audit:
    """What the second program finds: rows read, the rows taken by item, and sums by item and ISO week, without rows whose
    quantity is empty; and the weeks of an item with a row whose quantities can't be read.
    """

    read: int = 0
    taken: Counter[str] = field(default_factory=Counter)
    asked: defaultdict[str, Counter[Week]] = field(
        default_factory=lambda: defaultdict(Counter)
    )
    back: defaultdict[str, Counter[Week]] = field(
        default_factory=lambda: defaultdict(Counter)
    )
    unread: defaultdict[str, set[Week]] = field(
        default_factory=lambda: defaultdict(set)
    )


def day_of(
    text: str, first: datetime.date, last: datetime.date
) -> datetime.date | None:
    """Returns the day of a text between two days; None if there is none."""
    for form in FORMS:
        with contextlib.suppress(ValueError):
            day = datetime.datetime.strptime(text, form).date()
            return day if first <= day <= last else None
    return None


def audit(path: Path, above: int, first: datetime.date, last: datetime.date) -> Audit:
    """Reads a file with so many lines above its rows: document, item, date, quantity, returned."""
    found = Audit()
    with path.open(encoding="utf-8", newline="") as file:
        for row in list(csv.reader(file, delimiter=";"))[above:]:
            if not any(row):
                continue
            found.read += 1
            day = day_of(row[2], first, last)
            if len(row) != 5 or not row[1] or day is None:
                continue
            week = day.isocalendar()[:2]
            if not (row[3] == "" or row[3].isdigit()) or not row[4].isdigit():
                found.unread[row[1]].add(week)
            else:
                found.taken[row[1]] += 1
                if row[3]:
                    found.asked[row[1]][week] += int(row[3])
                    found.back[row[1]][week] += int(row[4])
    return found
