"""Knows the forms in which people write dates, whole weeks and months, and splits a text into their parts."""
from __future__ import annotations

import contextlib
import datetime
import functools
import re
from typing import NamedTuple

from .cells import HEADINGS

# A year of two digits is from 1969 to 2068, as in POSIX.
YEAR = "(?P<year>[0-9]{4}|[0-9]{2})"
YEAR_4, MONTH, DAY = (
    "(?P<year>[0-9]{4})",
    "(?P<month>[0-9]{1,2})",
    "(?P<day>[0-9]{1,2})",
)
NAME, BETWEEN = r"(?P<name>[^\W\d_][^\d,/]{0,24}?)", r"[ .,/-]*"
# Behind the number of a day: `6.`, `6th`, `6º`.
NTH = "(?:st|nd|rd|th|er|[.ºª°])?"
WEEK_WORDS: list[str] = ["KW", "CW", "W", *HEADINGS["units"]["week"]]
WEEK = f"(?:{'|'.join(sorted(WEEK_WORDS, key=len, reverse=True))})"
WEEK_NUMBER = "(?P<week>[0-9]{1,2})"
# One with slashes or dashes may have the month first.
SPLIT = re.compile(rf"{DAY}(?P<sign>[/-]){MONTH}(?P=sign){YEAR}")
DOTTED = re.compile(rf"{DAY}\.{MONTH}\.{YEAR}")
ISO = re.compile(f"{YEAR_4}-{MONTH}-{DAY}")
# The forms, each as one of its kind is written. Those of weeks and months have no day.
DATE_FORMS = {
    ISO: "2026-03-31",
    re.compile(f"{YEAR_4}/{MONTH}/{DAY}"): "2026/03/31",
    # Eight digits have one reading at most: no month is 19 or 20, as a year behind day and month begins.
    re.compile("(?P<year>[0-9]{4})(?P<month>[0-9]{2})(?P<day>[0-9]{2})"): "20260331",
    DOTTED: "31.03.2026",
    SPLIT: "31/03/2026",
    re.compile(f"{YEAR_4} ?[年년] ?{MONTH} ?[月월] ?{DAY} ?[日일]"): "2026年3月31日",
    re.compile(f"{YEAR_4}[ /-]?W{WEEK_NUMBER}", re.IGNORECASE): "2026-W14",
    re.compile(
        rf"{WEEK}\.?[ -]?{WEEK_NUMBER}[ ,./-]+{YEAR}", re.IGNORECASE
    ): "W14 2026",
    re.compile(f"{YEAR_4}[ ,./-]+{WEEK}[ -]?{WEEK_NUMBER}", re.IGNORECASE): "2026 W14",
    # As pandas writes a week.
    re.compile(
        f"{YEAR_4}-{MONTH}-{DAY}/(?P<last>[0-9]{{4}}-[0-9]{{2}}-[0-9]{{2}})"
    ): "2026-03-30/2026-04-05",
    re.compile(f"{YEAR_4}[/-]{MONTH}"): "2026-03",
    # The number may be that of a week.
    re.compile(f"{MONTH}[./-]{YEAR_4}"): "03/2026",
    re.compile("(?P<year>20(?:1[3-9]|[2-9][0-9]))(?P<month>[0-9]{2})"): "202603",
    re.compile(f"{YEAR_4} ?[年년] ?{MONTH} ?[月월]"): "2026年3月",
    re.compile(
        f"{DAY}{NTH}{BETWEEN}{NAME}{BETWEEN}{YEAR}", re.IGNORECASE
    ): "31 Mar 2026",
    re.compile(f"{NAME}{BETWEEN}{DAY}{NTH}[ ,-]+{YEAR}", re.IGNORECASE): "Mar 31, 2026",
    re.compile(f"{YEAR_4}{BETWEEN}{NAME}{BETWEEN}{DAY}", re.IGNORECASE): "2026 Mar 31",
    re.compile(f"{NAME}{BETWEEN}{YEAR_4}", re.IGNORECASE): "Mar 2026",
    # As a spreadsheet shows a month. `Mar 26` is a day.
    re.compile(f"{NAME}(?:[-/]| ?')(?P<year>[0-9]{{2}})", re.IGNORECASE): "Mar-26",
    re.compile(f"{YEAR_4}{BETWEEN}{NAME}", re.IGNORECASE): "2026 Mar",
}
# Months that may be weeks, and a year that may be a day.
NUMBERED, SHORT = ("03/2026", "202603"), "Mar-26"
TIME = re.compile(
    r"(?:T| +)(?:[01]?[0-9]|2[0-3]):[0-5][0-9](?::[0-5][0-9](?:[.,][0-9]+)?)?(?: ?[AaPp][Mm])?"
    r"(?: ?(?:Z|UTC|GMT|[+-][0-9]{2}:?[0-9]{2}))?$"
)
# Days as a spreadsheet numbers them from its day 0 on, perhaps with a part of a day. 20,000 is in 1954, 60,000 in 2064.
SERIAL = re.compile("(?P<days>[2-5][0-9]{4}|60000)(?:[.,][0-9]+)?")
# Spreadsheets count a 29 February 1900, which never was: so day 0 of all later days is 30 December.
DAY_0 = datetime.date(1899, 12, 30)


class Written(NamedTuple):
    """A text in one of the forms, named by an example, and its parts as they are written: None for those it lacks."""

    form: str
    year: str
    month: str | None = None
    day: str | None = None
    sign: str | None = None
    name: str | None = None
    week: str | None = None
    last: str | None = None

    @property
    def period(self) -> str:
        """Returns what the text names: a day, a week or a month."""
        if self.week or self.last:
            return "week"
        return "day" if self.day else "month"

    @property
    def whole_year(self) -> int:
        """Returns the year in full."""
        year = int(self.year)
        if len(self.year) == 4:
            return year
        return year + (2000 if year < 69 else 1900)

    @property
    def is_day_first(self) -> bool | None:
        """Returns whether the day stands before the month, of a date that begins with one of them and has signs between
        them; None if both may be a month, or none."""
        first = int(self.day or 0) > 12
        second = int(self.month or 0) > 12
        is_dotted = self.form == DATE_FORMS[DOTTED]
        return None if first == second or is_dotted and second else first


def days_among(*parts: tuple[int, int, int]) -> list[datetime.date]:
    """Returns the days of the calendar, once each, among years, months and days."""
    days = dict[datetime.date, None]()
    for year, month, day in parts:
        with contextlib.suppress(ValueError):
            days[datetime.date(year, month, day)] = None
    return [*days]


def without_time(text: str) -> str:
    """Returns a date without its time of day, if it has one."""
    return TIME.sub("", text)


# Each text is asked for when its column is looked at, and again when it is read.
@functools.lru_cache(1 << 12)
def written(text: str) -> Written | None:
    """Returns the parts of a date, perhaps with a time of day; None if it is in no usual form."""
    bare = without_time(text)
    for pattern, form in DATE_FORMS.items():
        parts = pattern.fullmatch(bare)
        if parts:
            return Written(form, **parts.groupdict())
    return None


def day_of_serial(text: str) -> datetime.date | None:
    """Returns the day that a spreadsheet numbers so; None if a text is no such number."""
    number = SERIAL.fullmatch(text)
    return DAY_0 + datetime.timedelta(int(number["days"])) if number else None
