"""Reads the dates of a table, as people write them, and numbers the days, weeks and months that they are in.

All dates of a table together decide whether the day or the month comes first, and in which language the names of
months are. The time of day and its zone are read over.

A date that may be two days is rejected with both, never guessed. A whole week or month is read as its first day if the
periods of the record are weeks or months.
"""
from __future__ import annotations

import calendar
import contextlib
import datetime
import re
from collections.abc import Callable, Iterable, Mapping, Sequence

import numpy as np

from ..errors import Refused, argument
from ..remarks import Remark
from ..toml import documents
from .cells import Cell, Numbers, Unreadable, bare_cell, plain_name, shown
from .date_forms import (
    DATE_FORMS,
    ISO,
    NUMBERED,
    SHORT,
    WEEK,
    WEEK_WORDS,
    Written,
    day_of_serial,
    days_among,
    without_time,
    written,
)
from .month_names import months_of, plain_month
from .turned_dates import Day as Day, Turned, interchanged, turned

EVERY = ("day", "week", "month")
EPOCH = Day(1970, 1, 1).toordinal()  # from which numpy counts days
FIRST_YEAR, LAST_YEAR = 1980, 2199
# In two centuries, and on no day or month that stands for one that a pattern lacks.
PROBES = (Day(2026, 3, 31), Day(1999, 12, 4))
# The pattern that stands for days as a spreadsheet numbers them.
EXCEL = "excel"
# What is wrong with a cell that is no date at all.
NO_DATES = ("no date", "no form", "number of a day", "serial", "other pattern")
PLAIN_WEEKS = {*map(plain_name, WEEK_WORDS)}
# The number of a week without its year.
SHORT_WEEK = re.compile(f"(?:{WEEK})?[ .-]*[0-9]{{1,2}}", re.IGNORECASE)
# The years of months that are written with two digits are no more than so many apart, or are days.
MOST_YEARS = 10
# Examples of what is stated of dates that may have the day or the month first, by whether the day comes first.
STATED = {True: "31/03/2026", False: "03/31/2026"}


def check_format(pattern: str) -> None:
    """Raises Refused for a pattern of strptime that doesn't say a whole date."""
    try:
        is_whole = pattern == EXCEL or all(
            datetime.datetime.strptime(day.strftime(pattern), pattern).date() == day
            for day in PROBES
        )
    except (ValueError, re.error):
        is_whole = False
    if not is_whole:
        raise Refused(
            f"{documents.shown(pattern)} is no pattern of a whole date",
            "write one such as %d.%m.%Y (%d is the day, %m the month, %Y the year, %y its last two digits), or "
            f"{EXCEL} for a spreadsheet's numbers of days",
        )


def dated_cell(cell: Cell) -> Cell:
    """Returns a date without its time of day, if it is in a usual form."""
    bare = bare_cell(cell)
    return without_time(bare) if isinstance(bare, str) and written(bare) else bare


def real_day(text: str, make: Callable[..., Day], *parts: int) -> Day:
    """Returns a day of the calendar, which a text says. Raises Unreadable."""
    try:
        return make(*parts)
    except ValueError as fault:
        raise Unreadable("no day", text) from fault


class DateReader:
    """Reads the dates of a table, after a look at all of its columns with dates.

    `sides` has by sign, a slash or a dash, the first date that has the day first, and the first that hasn't. `months`
    has what the names of months mean, and `turned` which dates of a spreadsheet have day and month interchanged: None
    if that is not known. `notes` are what is to be said of the dates.
    """

    def __init__(
        self,
        patterns: Sequence[str] = (),
        every: str | None = None,
        day_first: Mapping[str, bool] | None = None,
    ) -> None:
        """Takes patterns of strptime, which stand in place of the usual forms, the period of the record if it is known,
        and by sign whether the day comes first, if that is stated."""
        self.patterns = patterns
        self.every = every
        self.notes = dict[str, Remark]()
        self.sides: dict[str, dict[bool, str]] = {
            sign: {first: STATED[first].replace("/", sign)}
            for sign, first in (day_first or {}).items()
        }
        self.names = set[str]()
        self.months: Mapping[str, Mapping[int, str]] = {}
        self.turned: dict[Cell, bool | None] = {}
        self.likely = Turned({})
        self.years = set[int]()
        self.has_weeks = False  # whether numbers beside years are those of weeks
        self.is_of_weeks = False  # whether a column is named by its weeks

    def look(self, cells: Iterable[Cell], name: str = "") -> DateReader:
        """Looks at the dates of a column, in the order of their rows, and at its name: in one of weeks, numbers beside years are
        those of weeks. Returns itself."""
        if {*plain_name(name).split()} & PLAIN_WEEKS:
            self.has_weeks = self.is_of_weeks = True
        if self.patterns:
            return self
        column = [*cells]
        dates = dict[str, Written]()
        for cell in column:
            parts = written(cell) if isinstance(cell, str) else None
            if parts:
                dates[str(cell)] = parts
        for text, parts in dates.items():
            self._look_at(text, parts)
        if self.names:
            self.months = months_of(self.names)
        for text, parts in dates.items():
            if self._settled(parts).period == self.every != "day":
                self.notes.setdefault(
                    "whole periods",
                    Remark("whole periods", {"text": shown(text), "every": self.every}),
                )
                break
        self._look_for_turned(column)
        return self

    def _look_at(self, text: str, parts: Written) -> None:
        # The year may be first in a short date with dashes.
        is_short = parts.sign == "-" and len(parts.year) == 2
        if parts.sign and parts.is_day_first is not None and not is_short:
            self.sides.setdefault(parts.sign, {}).setdefault(parts.is_day_first, text)
        if parts.form in NUMBERED:
            self.has_weeks |= int(parts.month or 0) > 12
        if parts.form == SHORT:
            self.years.add(parts.whole_year)
        if parts.name:
            self.names.add(plain_month(parts.name))

    def _settled(self, parts: Written) -> Written:
        """Returns the parts of a date, in which a number beside the year is that of a week if one of the table is above 12."""
        if self.has_weeks and parts.form in NUMBERED:
            return parts._replace(week=parts.month, month=None)
        return parts

    def _look_for_turned(self, column: Sequence[Cell]) -> None:
        """Looks for dates whose day and month a spreadsheet may have interchanged."""
        found = turned(column)
        for cell, is_turned in found.by_cell.items():
            if self.turned.setdefault(cell, is_turned) is not is_turned:
                self.turned[cell] = None
        self.likely = self.likely if self.likely.text else found
        decided = [cell for cell in found.by_cell if found.by_cell[cell] is not None]
        if found.text and decided:
            code = "turned" if found.by_cell[decided[0]] else "not turned"
            self.notes["turned"] = Remark(
                code,
                {
                    "count": len(decided),
                    "text": str(decided[0]),
                    "other": found.text,
                    "day": str(self.day(decided[0])),
                },
            )

    def is_date(self, cell: Cell) -> bool:
        """Returns whether a cell is a date, or one that may be two, or a whole period."""
        try:
            self.read(cell)
        except Unreadable as why:
            return why.remark.code not in NO_DATES
        return True

    def doubt(self) -> Remark | None:
        """Returns what is wrong with the first date of which it is not known whether day and month are interchanged; None
        if there is none."""
        for cell in self.turned:
            if self.turned[cell] is None:
                try:
                    self.read(cell)
                except Unreadable as why:
                    return why.remark
        return None

    def read(self, cell: Cell) -> tuple[Day, str]:
        """Returns a date and its form, named by an example or by a pattern. Raises Unreadable."""
        if cell == "":
            raise Unreadable("no date")
        if isinstance(cell, Day):
            date, form = self._of_sheet(cell)
        elif self.patterns:
            date, form = self._by_pattern(str(cell))
        else:
            date, form = self._by_form(str(cell))
        if not FIRST_YEAR <= date.year <= LAST_YEAR:
            raise Unreadable("year", cell, first=FIRST_YEAR, last=LAST_YEAR)
        return self._turned(cell, date), form

    def day(self, cell: Cell) -> Day:
        """Returns a date, as `read` does."""
        return self.read(cell)[0]

    def _of_sheet(self, day: Day) -> tuple[Day, str]:
        """Returns the date of a cell that a spreadsheet knows as one, and its form. A pattern may say that day and month
        are interchanged."""
        try:
            return self._by_pattern(day.isoformat())
        except Unreadable as why:
            if why.remark.code != "other pattern":
                raise
        return day, DATE_FORMS[ISO]

    def _turned(self, cell: Cell, day: Day) -> Day:
        """Returns a date with day and month interchanged if the rows show that a spreadsheet did so. Raises Unreadable if it
        may be either."""
        is_turned = self.turned.get(cell, False)
        if is_turned is False or day.day == day.month:
            return day
        other = interchanged(day)
        if is_turned is None:
            raise Unreadable(
                "may be turned",
                str(cell),
                turned=str(other),
                other=shown(self.likely.text),
                pattern=self.likely.pattern,
            )
        return other

    def _by_pattern(self, text: str) -> tuple[Day, str]:
        """Returns the date of a text that is written by a pattern, with or without a time of day behind it."""
        dates: dict[Day, str] = {}
        for pattern in self.patterns:
            if pattern == EXCEL:
                day = day_of_serial(text)
                if day:
                    dates[day] = pattern
                continue
            for bare in (text, without_time(text)):
                with contextlib.suppress(ValueError):
                    dates.setdefault(
                        datetime.datetime.strptime(bare, pattern).date(), pattern
                    )
        if len(dates) > 1:
            raise Unreadable("two patterns", text, dates=" or ".join(map(str, dates)))
        if not dates:
            raise Unreadable("other pattern", text, patterns=" or ".join(self.patterns))
        return next(iter(dates.items()))

    def _by_form(self, text: str) -> tuple[Day, str]:
        """Returns the date of a text that is written in a usual form."""
        parts = written(text)
        if parts is None:
            if serial := day_of_serial(text):
                raise Unreadable("serial", text, day=str(serial))
            if self.is_of_weeks and SHORT_WEEK.fullmatch(text):
                raise Unreadable("number of a week", text)
            is_number = without_time(text).isdecimal()
            raise Unreadable("number of a day" if is_number else "no form", text)
        parts = self._settled(parts)
        form = parts.form if len(parts.year) == 4 else parts.form.replace("2026", "26")
        if parts.period != "day":
            return self._first_day(text, parts), form
        month = self._month(text, parts)
        if parts.sign:
            return self._split(text, parts, form)
        return real_day(text, Day, parts.whole_year, month, int(parts.day or 0)), form

    def _month(self, text: str, parts: Written) -> int:
        """Returns the number of the month that a date names. Raises Unreadable."""
        if parts.month:
            return int(parts.month)
        months = self.months.get(plain_month(parts.name or ""), {})
        if not months:
            raise Unreadable("no form", text)
        if len(months) > 1:
            names = [
                f"{calendar.month_name[month]} ({months[month]})" for month in months
            ]
            raise Unreadable("two months", text, months=" or ".join(names))
        return next(iter(months))

    def _split(self, text: str, parts: Written, form: str) -> tuple[Day, str]:
        """Returns a date with slashes or dashes, which may have the day or the month first, and its form."""
        first = int(parts.day or 0)
        second = int(parts.month or 0)
        year = parts.whole_year
        if parts.sign == "-" and len(parts.year) == 2:
            other = parts._replace(year=f"{first:02}").whole_year
            days = days_among(
                (year, second, first),
                (year, first, second),
                (other, second, int(parts.year)),
            )
            if len(days) > 1:
                raise Unreadable("short year", text, days=" or ".join(map(str, days)))
            day = days[0] if days else real_day(text, Day, year, second, first)
            return day, form.replace("/", "-")
        sides = self.sides.get(str(parts.sign), {})
        is_clear = (first > 12) != (second > 12)
        if max(first, second) <= 12 and first != second and len(sides) != 1:
            named = " and ".join(repr(shown(side)) for side in sides.values())
            days = days_among((year, second, first), (year, first, second))
            raise Unreadable(
                "day and month" if named else "day or month",
                text,
                sides=named,
                days=" or ".join(map(str, days)),
                sign=parts.sign,
            )
        if not (parts.is_day_first if is_clear else True in sides):
            form = form.replace("31/03", "03/31")
            first, second = second, first
        form = form.replace("/", str(parts.sign))
        return real_day(text, Day, year, second, first), form

    def _first_day(self, text: str, parts: Written) -> Day:
        """Returns the first day of a whole week or month. Raises Unreadable if the periods of the record are others."""
        year = parts.whole_year
        if parts.last:
            monday = int(parts.month or 0), int(parts.day or 0)
            first = real_day(text, Day, year, *monday)
            if str(first + datetime.timedelta(6)) != parts.last:
                raise Unreadable("no form", text)
            if first.weekday():
                raise Unreadable("other week", text)
        elif parts.week:
            first = real_day(text, Day.fromisocalendar, year, int(parts.week), 1)
        else:
            first = real_day(text, Day, year, self._month(text, parts), 1)
        if parts.form == SHORT and max(self.years) - min(self.years) > MOST_YEARS:
            raise Unreadable(
                "short month",
                text,
                period=period_name(period_of(first, "month"), "month"),
            )
        if parts.period != self.every:
            is_numbered = parts.form in NUMBERED and parts.period == "month"
            code = "month or week" if is_numbered else "other period"
            raise Unreadable(
                code if self.every else "no day but a period",
                text,
                period=parts.period,
                every=self.every,
                day=str(first),
                week=f"{year}-W{int(parts.month or 0):02}",
            )
        return first


def periods_of_days(days: Numbers, every: str) -> Numbers:
    """Returns the numbers of the days, ISO weeks (from Monday) or months of dates, which are given as ordinal numbers.
    The next period has the next number."""
    if every == "month":
        months: Numbers = (days - EPOCH).astype("datetime64[D]").astype(
            "datetime64[M]"
        ).astype(np.int64) + 12 * 1970
        return months
    # Day 1 of the calendar was a Monday.
    return days if every == "day" else (days - 1) // 7


def period_of(date: datetime.date, every: str) -> int:
    """Returns the number of the day, ISO week or month of a date."""
    return int(periods_of_days(np.array([date.toordinal()]), every)[0])


def first_day(period: int, every: str) -> datetime.date:
    if every == "month":
        return datetime.date(period // 12, period % 12 + 1, 1)
    return datetime.date.fromordinal(period if every == "day" else 7 * period + 1)


def period_name(period: int, every: str) -> str:
    """Returns the name of a period: 2026-03-31, 2026-W14 or 2026-03."""
    first = first_day(period, every)
    if every == "week":
        year, week, _ = first.isocalendar()
        return f"{year}-W{week:02}"
    return first.isoformat()[: 10 if every == "day" else 7]
