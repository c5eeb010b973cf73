"""Tests what is said of an earlier plan on the periods since, if it was by month: against a simulation that is written here."""
from __future__ import annotations

import datetime
import math
from collections.abc import Sequence
from pathlib import Path

import numpy as np
import pandas as pd
import pytest

from crnplan.demand.index import Index
from crnplan.demand.learning import Prior
from crnplan.plan.answer import Answer, YearPart
from crnplan.plan.changes import since_of
from crnplan.plan.how import NONE
from crnplan.plan.one import plan_asked
from crnplan.plan.seasons import Seasons
from crnplan.read.dates import period_of
from crnplan.read.item import Item
from planner.tests.plan.items import alone, item_of

LEAD, RECORD, SINCE, YEAR = 6, 130, 8, 52  # weeks
PARTS = 26
WAVE = 1 + 0.5 * np.sin(2 * math.pi * np.arange(PARTS) / PARTS)
SEASONS = Seasons("week", {"warm": Index(tuple(WAVE.tolist()), 0.001, 1.0, 2)})
FIRST = period_of(datetime.date(2022, 1, 3), "week")
THURSDAYS = pd.date_range("2022-01-06", periods=RECORD + SINCE, freq="7D")


def met_with(item: Item, calendar: Sequence[YearPart], start: int) -> float:
    """Returns the share of demand that levels by month met at once in the last weeks, from a stock on: before, each week has
    those of the same week of the coming year."""
    stock, due, met = start, [0] * (len(item.counts) + LEAD), 0
    for week, asked in enumerate(item.counts):
        number = item.first + week
        while number < calendar[0].first:
            number += YEAR
        (row,) = (row for row in calendar if row.first <= number < row.end)
        stock += due[week]
        position = stock + sum(due[week + 1 :])
        if position < row.s:
            due[week + LEAD] = row.S - position
        if week >= RECORD:
            met += min(asked, max(stock, 0))
        stock -= asked
    return met / sum(item.counts[RECORD:])


def test_levels_of_each_month_before_the_plan(program: Path) -> None:
    """The levels of an earlier plan are in use before it too, each in its time: those of a low part of the year alone would leave
    less on hand after a high one."""
    means = 8 * WAVE[np.minimum((THURSDAYS.dayofyear - 1) // 14, PARTS - 1)]
    counts = np.random.default_rng(5).poisson(means).tolist()
    old, now = (
        item_of(counts=tuple(own), group="warm", first=FIRST, leads=(LEAD,))
        for own in (counts[:RECORD], counts)
    )
    settings = alone(every="week", seasons=SEASONS)
    answer = plan_asked((old, None), settings, Prior(NONE), str(program))
    assert isinstance(answer, Answer)
    came = since_of((old, answer), now, settings, FIRST + RECORD)
    assert came and came.planned.fill is not None
    s, S = answer.chosen_in(FIRST + 3 * YEAR).levels
    wanted = {met_with(now, answer.calendar, start) for start in range(s, S + 1)}
    assert any(came.planned.fill == pytest.approx(fill) for fill in wanted)
