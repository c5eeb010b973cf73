"""Makes shops of real sales, as far as packages of R have them: cheese by chain and city, and orange juice by store and
brand, in cases (`fair.py`).

Prices are such that all items sell for as much, so that sums by value are in units of the mean demand of an item. An order
takes two weeks, and costs as much as is best for orders of four weeks.
"""
from __future__ import annotations

from datetime import timedelta
from functools import cache

import numpy as np
import pandas as pd

from planner.studies.fair import COVER, LEAD, Moving, real_sets
from planner.studies.made_shops import HOLDING, START, WEEK, YEAR, Shop

SOLD = "cheese", "juice"
WORTH = 100.0  # what an item sells for a week, in the mean of its record


@cache
def sets() -> dict[str, Moving]:
    return real_sets()


def sold_shop(name: str) -> Shop:
    """Returns the shop of a real set, whose groups are chains or brands."""
    moving = sets()[name]
    counts = np.array([member.counts for member in moving.members])
    items, weeks = counts.shape
    names = [f"{name}-{place:03}" for place in range(items)]
    prices = np.round(WORTH / moving.means, 2)
    holding = prices * HOLDING / YEAR
    setups = np.round(moving.means * holding * COVER**2 / 2, 2)
    low = np.round(moving.means * (LEAD + 2)).astype(int) + 1
    masters = pd.DataFrame(
        {
            "article": names,
            "group": [member.group for member in moving.members],
            "unit price": prices,
            "order cost": np.maximum(setups, 0.01),
            "lead time (days)": LEAD * WEEK,
            "reorder point": low,
            "max stock": low + 1 + np.round(4 * moving.means).astype(int),
        }
    )
    dates = [START + timedelta(WEEK * week) for week in range(weeks)]
    sales = pd.DataFrame(
        {
            "date": np.tile(np.array(dates, object), items),
            "article": np.repeat(names, weeks),
            "quantity": counts.ravel(),
            "returned": 0,
        }
    )
    return Shop(
        masters,
        sales.sort_values(["date", "article"]),
        tuple(masters["group"]),
        counts,
        np.zeros_like(counts),
        counts.astype(float),
        prices,
        np.full(items, LEAD),
        holding,
        setups,
        moving.record,
    )
