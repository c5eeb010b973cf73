"""Says by the record of an item whether it is asked for no longer.

If all orders of the periods of a record are as likely, the chance that all demands fall into the first ones is that of
drawing these periods without putting one back (Feller, An Introduction to Probability Theory and Its Applications,
volume I, section II.6). That is an exact test of whether the last periods have the mean of the others.

An item has stopped if that chance is at most `CHANCE` of its months, counted back from the end of the record: so of a
thousand active items one at most is taken for stopped. A record often begins with the first demand, so its first period
is left out. Demands of one month count as one, since they often belong together. The premise is that months are
independent and of one law. So an item must have been quiet for a year too, which no season explains, and for longer than
ever before. Of items that are asked for in projects alone, of 2 to 12 weeks, with 40 weeks between them on average,
6% are taken for stopped after three years (planner/tests/plan/test_stopped.py).
"""
from __future__ import annotations

import itertools
import math
from collections.abc import Sequence

from ..remarks import Remark
from .dates import period_name
from .item import Item
from .observed import YEAR

QUIET = "asked for no longer"  # the code of what is said of an item that has stopped by its record
CHANCE = 0.001  # of an active item to be taken for stopped
MONTH = {"day": 28, "week": 4, "month": 1}  # in periods


def quiet_periods(counts: Sequence[int]) -> int:
    """Returns for how many of its last periods nobody has asked for an item."""
    quiet = 0
    for count in reversed(counts):
        if count:
            break
        quiet += 1
    return quiet


def chance_of_quiet(counts: Sequence[int]) -> float:
    """Returns the chance that so many of the last periods, or more, have no demand if all orders of the periods are as
    likely: 1 if there is no demand at all."""
    demands = len(counts) - counts.count(0)
    return math.comb(len(counts) - quiet_periods(counts), demands) / math.comb(
        len(counts), demands
    )


def longest_before(counts: Sequence[int]) -> int:
    """Returns the most periods without demand in a row between two demands."""
    asked = [place for place, count in enumerate(counts) if count]
    longest = 0
    for earlier, later in itertools.pairwise(asked):
        longest = max(longest, later - earlier - 1)
    return longest


def is_dead(counts: Sequence[int], every: str) -> bool:
    """Returns whether nobody has asked for an item during the last year of its record, whatever that means."""
    return quiet_periods(counts) >= YEAR[every]


def months_of(counts: Sequence[int], every: str) -> list[int]:
    """Returns what was asked for in each whole month, counted back from the end of a record."""
    size = MONTH[every]
    return [
        sum(counts[start : start + size])
        for start in range(len(counts) % size, len(counts), size)
    ]


def is_quiet(counts: Sequence[int], every: str) -> bool:
    """Returns whether an item has been quiet for longer than ever before, and so long that it is hardly active. It has had
    demand, in days, weeks or months."""
    if quiet_periods(counts) <= longest_before(counts):
        return False
    return chance_of_quiet(months_of(counts[1:], every)) <= CHANCE


def has_stopped(counts: Sequence[int], every: str) -> bool:
    """Returns whether an item is asked for no longer: see the module. It has had demand, in days, weeks or months."""
    return is_dead(counts, every) and is_quiet(counts, every)


def quiet_remark(item: Item, every: str) -> Remark:
    """Returns for how long nobody has asked for an item, and how likely that is of an active one."""
    counts = item.known.counts
    quiet = quiet_periods(counts)
    return Remark(
        QUIET,
        {
            "periods": quiet,
            "every": every,
            "last": period_name(item.first + item.known_places[-1 - quiet], every),
            "chance": chance_of_quiet(months_of(counts[1:], every)),
        },
    )
