"""A catalogue of a dozen items some weeks after an earlier plan, and what has changed since by item."""
from __future__ import annotations

import dataclasses
import datetime
import functools
from pathlib import Path
from typing import Any

import pandas as pd

import crnplan as crn
from crnplan.demand.learning import Prior
from planner.tests.backtest.test_catalogue import START
from planner.tests.planned_tables import whole_frame

ITEMS, BEFORE, WEEKS = 12, 52, 60
LEVELS = ["s_chosen", "S_chosen"]
OWN = Prior("none")


def of_frame(frame: pd.DataFrame) -> pd.DataFrame:
    """Returns rows by their item."""
    return frame.set_index("item")


def day(week: int) -> datetime.date:
    """Returns the Monday of a week."""
    return START + datetime.timedelta(7 * week)


@dataclasses.dataclass(eq=False)
class Month:
    """The tables of a catalogue some weeks after an earlier plan, the folder of that, and the words of both."""

    sales: pd.DataFrame
    masters: pd.DataFrame
    before: Path
    words: dict[str, Any]

    def until(self, week: int) -> dict[str, Any]:
        """Returns the sales before a week, with the masters and the words of a plan of them."""
        sales = self.sales[self.sales.date < pd.Timestamp(day(week))]
        return {
            **self.words,
            "sales": sales,
            "masters": self.masters,
            "end": day(week) - datetime.timedelta(1),
        }

    def plan(self, **words: Any) -> crn.Plan:
        """Plans all weeks after the earlier plan."""
        return crn.plan(**{**self.until(WEEKS), "after": self.before, **words})

    @functools.cached_property
    def earlier(self) -> pd.DataFrame:
        """Returns the decisions of the earlier plan by item."""
        return of_frame(whole_frame(crn.open_plan(self.before)))

    @functools.cache
    def planned(self, least_gain: float | None = None) -> crn.Plan:
        """Returns the plan of all weeks after the earlier plan, which nobody changes."""
        return self.plan(least_gain=least_gain)

    def changes(self, least_gain: float | None = None) -> pd.DataFrame:
        """Returns by item what has changed since the earlier plan."""
        return of_frame(self.planned(least_gain).changes)
