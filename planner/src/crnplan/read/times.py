"""Reads times as people write them: lead times, of which a cell may list several, and other times.

A number has the unit behind it, else that of its column; `2 weeks 3 days` is one time of 17 days.
"""
from __future__ import annotations

import itertools
import re
from collections.abc import Collection, Iterator, Mapping, Sequence
from fractions import Fraction

from ..formats import MOST_LEAD
from .amounts import DECIMALS, ReadAmount, ColumnReader, amounts_of
from .cells import Cell, Unreadable
from .columns import DAYS, conversion, periods_of

# A time is a sum of numbers, each with its unit, empty for that of the column. A cell is read as some times.
TimePart = tuple[Fraction, str]
Time = tuple[TimePart, ...]
Times = tuple[Time, ...]
PERIOD = "period"  # the unit of numbers that count periods of the plan
# What stands between the lead times of a list, and the commas that may do so by the decimal sign.
SEPARATOR, COMMA_AND_BLANK, COMMA = (
    re.compile(sign) for sign in (r"\s*[;/|]\s*", r",\s+", r"\s*,\s*")
)
COMMAS = {".": (COMMA_AND_BLANK, COMMA), ",": (COMMA_AND_BLANK,)}
# Between two amounts without a separator: behind a unit, or a blank between digits.
BETWEEN = re.compile(r"(?<=[^\W\d_])\s*(?=[0-9])|(?<=[0-9])\s+(?=[0-9])")


def part_of(text: str, decimal: str, is_listed: bool) -> TimePart | None:
    """Returns the number and the unit of a text by a decimal sign; None if it has none. A number of a list neither is 0
    nor begins with one, as 5 in 12,05."""
    amount = amounts_of(text).get(decimal)
    if amount is None or amount.currency:
        return None
    if is_listed and (not amount.number or re.match("0[0-9]", text)):
        return None
    return amount.number, amount.unit


def parts_of(texts: Sequence[str], decimal: str) -> list[TimePart]:
    """Returns the numbers and units of the texts of a list, without those that have none."""
    parts = (part_of(text, decimal, True) for text in texts)
    return [part for part in parts if part is not None]


def listed(text: str, texts: Sequence[str], decimal: str, sign: str) -> Iterator[Times]:
    """Yields the lists of single numbers that the texts within a text say, with a sign between: also those in which the
    sign stands between the thousands of a number, as 1 1 100 may be 1 and 1100. Between blanks alone all have one unit.
    """
    parts = parts_of(texts, decimal)
    if len(parts) < len(texts):
        return
    lists = [parts]
    for place in range(1, len(texts)):
        joined = f"{texts[place - 1]}{sign}{texts[place]}"
        both = part_of(joined, decimal, True)
        if both is not None and joined in text:
            lists.append([*parts[: place - 1], both, *parts[place + 1 :]])
    for own in lists:
        if sign == "," or len({unit for _, unit in own}) == 1:
            yield tuple((part,) for part in own)


def times_within(text: str, decimal: str, is_listed: bool) -> set[Times]:
    """Returns the readings of a text without separators, which may be listed with others: one number, numbers of one
    unit, each of which is a time, or one time whose units become smaller."""
    whole = part_of(text, decimal, is_listed)
    found: set[Times] = set() if whole is None else {((whole,),)}
    texts = BETWEEN.split(text)
    if len(texts) == 1:
        return found
    found.update(listed(text, texts, decimal, " "))
    parts = [part for part in parts_of(texts, decimal) if part[1] in DAYS]
    lengths = [DAYS[unit] for _, unit in parts]
    if len(parts) == len(texts) and lengths == sorted({*lengths}, reverse=True):
        found.add((tuple(parts),))
    return found


def in_order(parts: Sequence[Collection[Times]]) -> Iterator[Times]:
    """Yields the readings of parts that stand behind each other, each of which has some."""
    for times in itertools.product(*parts):
        yield tuple(itertools.chain(*times))


def times_of_part(part: str, decimal: str, is_listed: bool) -> set[Times]:
    """Returns the readings of a part of a text that has no separators but commas, which may be listed with others."""
    times = times_within(part, decimal, is_listed)
    for comma in COMMAS[decimal]:
        pieces = comma.split(part)
        if len(pieces) > 1:
            times.update(
                in_order([times_within(each, decimal, True) for each in pieces])
            )
            times.update(listed(part, pieces, decimal, ","))
    return times


MOST_REVIEW = 52  # periods from one review to the next


class TimeReader(ColumnReader[Times]):
    """Reads the times of a column: texts, or numbers as a sheet stores them."""

    none = "no time"

    def readings(self, text: str) -> Mapping[str, Collection[Times]]:
        """Returns the readings of a text by each decimal sign. With the point, a comma stands between lead times."""
        texts = SEPARATOR.split(text)
        readings: dict[str, Collection[Times]] = {}
        for decimal in DECIMALS:
            parts = [times_of_part(part, decimal, len(texts) > 1) for part in texts]
            readings[decimal] = [*in_order(parts)]
        return readings

    def plain(self, number: Fraction) -> Times:
        return (((number, ""),),)

    def named(self, reading: Times) -> tuple[Fraction, str]:
        texts = list[str]()
        total = Fraction(0)
        for time in reading:
            words = list[str]()
            for number, unit in time:
                total += number
                ending = "s" * (unit in DAYS and number != 1)
                words.append(ReadAmount(number, unit=unit + ending).text)
            texts.append(" ".join(words))
        return total, " and ".join(texts)

    def periods(self, time: Time, unit: str, every: str, cell: Cell) -> Fraction:
        """Returns a time in periods. `unit` is that of the column, empty if it is not known. Raises Unreadable."""
        total = Fraction(0)
        for number, own in time:
            known = own or unit
            if not known and number:
                raise Unreadable("no unit of time", cell)
            if known not in ("", PERIOD, *DAYS):
                raise Unreadable("unit of time", cell, word=known)
            if known in DAYS:
                number *= conversion("lead", known, every)[0]
            total += number
        return total

    def leads(self, cell: Cell, unit: str, every: str) -> list[int]:
        """Returns the lead times of a cell in whole periods: one, or several that were observed. Raises Unreadable."""
        leads = list[int]()
        for time in self.read(cell):
            periods = self.periods(time, unit, every, cell)
            if unit == PERIOD and periods.denominator > 1:
                raise Unreadable("no whole lead time", cell)
            leads += periods_of(periods) if periods > 0 else [int(periods)]
        for lead in leads:
            if not 1 <= lead <= MOST_LEAD:
                raise Unreadable("lead range", lead=lead, most=MOST_LEAD)
        return leads

    def span(self, cell: Cell, unit: str, every: str) -> Fraction:
        """Returns the one time of a cell, in periods. Raises Unreadable."""
        times = self.read(cell)
        periods = self.periods(times[0], unit, every, cell)
        if len(times) > 1 or periods < 0:
            raise Unreadable(self.none, cell)
        return periods

    def review(self, cell: Cell, unit: str, every: str) -> int:
        """Returns the time from one review to the next, in whole periods. Raises Unreadable."""
        periods = self.span(cell, unit, every)
        if periods.denominator == 1 and 1 <= periods <= MOST_REVIEW:
            return int(periods)
        number = float(periods)
        raise Unreadable(
            "no review", cell, periods=number, every=every, most=MOST_REVIEW
        )
