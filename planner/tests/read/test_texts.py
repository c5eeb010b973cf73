"""Tests with random numbers and dates: what is written in an accepted form is read as itself."""
from __future__ import annotations

import datetime

from hypothesis import given
from hypothesis import strategies as st

from crnplan.read.amounts import AmountReader, amounts_of
from crnplan.read.dates import DateReader, first_day, period_name, period_of
from crnplan.read.cells import Unreadable

Day = datetime.date
DAYS = st.dates(Day(1980, 1, 1), Day(2199, 12, 31))
EVERY = st.sampled_from(["day", "week", "month"])
FORMS = "%Y-%m-%d %d.%m.%Y %d.%m.%y %d/%m/%Y %d/%m/%y %m/%d/%Y %m/%d/%y".split()
TIMES = ["", " 08:15", "T08:15:30", "T08:15:30.250Z", " 8:15 PM", "T23:59:59+01:00"]


@given(st.text("0123456789.,-+ '\u00a0x", max_size=12))
def test_any_text(text: str) -> None:
    """Any text is read as a number or rejected with a reason and advice."""
    for sign in (".", ",", None):
        try:
            number = AmountReader(sign).number(text, "whole")
        except Unreadable as why:
            assert "; " in str(why)
        else:
            assert number in {amount.number for amount in amounts_of(text).values()}


@given(DAYS, st.sampled_from(FORMS), st.sampled_from(TIMES), st.booleans())
def test_date_in_any_form(day: Day, form: str, time: str, is_short: bool) -> None:
    """A date in any accepted form, with any time, is read as itself, if another date shows whether the day is first."""
    if "%y" in form:
        day = day.replace(year=1980 + day.year % 89, day=min(day.day, 28))
    text = day.strftime(form)
    if is_short and "/" in form:
        first, second, year = text.split("/")
        text = "/".join([first.lstrip("0"), second.lstrip("0"), year])
    reader = DateReader().look([text, Day(2026, 3, 31).strftime(form)])
    assert reader.read(text + time)[0] == day
    assert DateReader([form]).read(day.strftime(form) + time)[0] == day


@given(DAYS, EVERY)
def test_periods(day: Day, every: str) -> None:
    """A date lies in its period, whose name is that of the calendar, and the next period has the next number."""
    number = period_of(day, every)
    first, after = first_day(number, every), first_day(number + 1, every)
    assert first <= day < after
    assert period_of(first, every) == number
    assert period_of(after, every) == number + 1
    form = {"day": "%Y-%m-%d", "week": "%G-W%V", "month": "%Y-%m"}[every]
    assert period_name(number, every) == day.strftime(form)
