"""Has the record of a table of demand, and sums of its amounts by period."""
from __future__ import annotations

import functools
from collections.abc import Mapping, Sequence
from dataclasses import dataclass
from typing import Any

import numpy as np
import numpy.typing as npt

from ..errors import Refused, argument
from ..formats import MOST_WEIGHT
from ..remarks import Remark
from ..toml.documents import shown
from ..vocabulary import read_argument
from ..sentences import message
from .cells import Numbers, Unreadable
from .dates import DateReader, Day as Day, period_of
from .frames import cell_of

# A row so many days away from the rest, if at most one row in so many is, has a wrong date.
FAR_DAYS, RARE = 366, 1_000
# An item that is first seen after so many periods begins at its first movement.
HALF_YEAR = {"day": 183, "week": 26, "month": 6}
YEAR = {"day": 365, "week": 52, "month": 12}  # in periods


@dataclass(frozen=True)
class Record:
    """The record of a catalogue: its ends, and the codes by which a day before or after it is left out."""

    every: str
    first: Day
    last: Day
    before: str
    after: str

    @functools.cached_property
    def periods(self) -> range:
        return range(
            period_of(self.first, self.every), period_of(self.last, self.every) + 1
        )

    def check(self, day: Day) -> None:
        """Raises Unreadable if a day is not in the record."""
        if not self.first <= day <= self.last:
            code = self.before if day < self.first else self.after
            raise Unreadable(code, day=str(day), last=str(self.last))

    def first_of(self, period: int) -> int:
        """Returns where the history of an item begins that is first seen in a period."""
        first = self.periods[0]
        return first if period <= first + HALF_YEAR[self.every] else period


def day_of(value: object) -> Day:
    """Returns a day that is stated: a text, or a date or a time of any library. Raises Refused."""
    cell = cell_of(value)
    try:
        found = DateReader().look([cell]).day(cell) if isinstance(value, str) else cell
    except Unreadable as fault:
        raise Refused(str(fault)) from fault
    if isinstance(found, Day):
        return found
    raise Refused(f"{shown(value)} is no date", "write 2026-02-01")


def stated_day(name: str, day: object) -> Day | None:
    """Returns the day that an argument states; None without one. Raises Refused with its name."""
    return None if day is None else read_argument(name, day, day_of)


def check_ends(start: Day | None, end: Day | None) -> None:
    """Raises Refused for stated ends of a record of which the first is after the last."""
    if start and end and start > end:
        raise Refused(
            f"{argument('start', str(start))} is after {argument('end', str(end))}; change one of them"
        )


def _near(days: Sequence[Day], counts: Mapping[Day, int]) -> Day:
    """Returns the first of these days, in order of their distance, that is not far before the rest."""
    most = max(1, sum(map(counts.__getitem__, days)) // RARE)
    passed = 0
    nearest = days[0]
    for day, later in zip(days, days[1:]):
        passed += counts[day]
        if passed > most:
            break
        if abs((later - day).days) > FAR_DAYS:
            nearest = later
    return nearest


def record_of(
    counts: Mapping[Day, int],
    every: str,
    start: Day | None,
    end: Day | None,
    today: Day,
    may_be_empty: bool = False,
) -> Record:
    """Returns the record of a file whose days have so many rows. Without `start` and `end` it is from the first to the
    last movement, without rare days that are more than a year away from all others, and without days after `today`. If
    these are half of all movements, none is rare. Raises Refused if no day is left, unless it may be empty and both ends
    are stated, or for too many periods.
    """
    latest = end or today
    earliest = start or Day.min
    days = sorted(day for day in counts if earliest <= day <= latest)
    is_stated = may_be_empty and start and end
    if not days and not is_stated:
        ends = {"start": str(start or "the beginning"), "end": str(latest)}
        raise Refused(message(Remark("no demand in the record", ends)))
    first = start or _near(days, counts)
    last = end or _near(days[::-1], counts)
    near = sum(counts[day] for day in days if first <= day <= last)
    if 2 * near <= sum(map(counts.__getitem__, days)):
        first = start or days[0]
        last = end or days[-1]
    before = "before start" if start else "far before"
    record = Record(every, first, last, before, "after end" if end else "late date")
    size = len(record.periods)
    if size > MOST_WEIGHT:
        many = Remark(
            "too many periods", {"count": size, "every": every, "most": MOST_WEIGHT}
        )
        raise Refused(message(many))
    return record


def _met(counts: list[int], period: int, amount: int) -> bool:
    """Takes an amount off demand by period, which is changed: off its period if that has enough, else off the last
    earlier one that has, else off the last earlier ones together. Returns whether they have enough.
    """
    places = range(period, -1, -1)
    enough = next((place for place in places if counts[place] >= amount), None)
    for place in places if enough is None else [enough]:
        taken = min(amount, counts[place])
        counts[place] -= taken
        amount -= taken
    return amount == 0


def sums_of(
    periods: Numbers, amounts: npt.NDArray[Any], count: int
) -> npt.NDArray[Any]:
    """Returns the sum of the amounts, whole numbers, in each of so many periods from 0."""
    if (
        np.abs(amounts).sum() < 1 << 53
    ):  # So all sums are exact in floating point, in which numpy is fast.
        return np.bincount(periods, amounts.astype(float), count).astype(np.int64)
    sums = np.zeros(count, amounts.dtype)
    np.add.at(sums, periods, amounts)
    return sums


def summed(
    periods: Numbers, amounts: Numbers, count: int
) -> tuple[list[int], int, int | None]:
    """Returns demand by period without what was undone, how many amounts were taken off earlier periods, and the place
    of the first movement that nothing can meet; None if there is none. Each movement has a period from 0 and an amount,
    below 0 for one that undoes sales."""
    sums = sums_of(periods, amounts, count)
    if sums.min() >= 0:
        return sums.tolist(), 0, None
    undone = np.flatnonzero(amounts < 0)
    np.subtract.at(sums, periods[undone], amounts[undone])
    counts = sums.tolist()
    moved = 0
    for place in undone[np.argsort(periods[undone], kind="stable")].tolist():
        period = int(periods[place])
        amount = -int(amounts[place])
        moved += counts[period] < amount
        if not _met(counts, period, amount):
            return counts, moved, place
    return counts, moved, None
