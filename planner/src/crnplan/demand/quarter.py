"""Finds whether a class of items is asked for more in some weeks of a quarter, as at the ends of months of 4, 4 and 5 weeks.

Each quarter has 13 weeks, by the numbers of weeks. The test and the shrinking are those of years (index.py), with quarters
in their place, of which two years have eight. A record with a year of 53 weeks has its quarters a week later from then on.
The study planner/studies/calendars.py measures how often it errs.
"""
from __future__ import annotations

from collections.abc import Sequence

import numpy as np

from .index import FALSE_ALARMS, FLAT, differs, filled, index_of
from .seasons import CALENDAR, QUARTER, YEARS
from .standing_out import Amounts, class_means

LEAST = YEARS * CALENDAR["week"]["season"] // QUARTER  # quarters


def quarter_of(items: Sequence[Amounts]) -> tuple[float, ...]:
    """Returns how many times the usual is asked for in each of the weeks whose numbers leave 0, 1.. when they are divided by
    13. Empty if the test sees no difference, it is small, or there are fewer than 10 items or two years.
    """
    first, means = class_means(items)
    size = len(means) // QUARTER
    start = len(means) - size * QUARTER
    means = filled(means[start:], np.arange(size * QUARTER) // QUARTER)
    if size < LEAST or not np.isfinite(means).all():
        return ()
    quarters = means.reshape(size, QUARTER)
    index = index_of(quarters / quarters.mean(axis=1, keepdims=True))
    if index.chance > FALSE_ALARMS or not differs(index, FLAT):
        return ()
    return tuple(np.roll(index.values, (first + start) % QUARTER).tolist())
