"""Tests the plan of an item on its own past: plans at the end of a record, and runs policies on the periods after it.

The plan is that of `plan_one` but for its run: theory chooses the policy, and says what it costs and meets in the long
run.
"""
from __future__ import annotations

import dataclasses
import statistics
from collections.abc import Mapping, Sequence
from dataclasses import dataclass
from typing import Any

from ...read.item import Item
from ...remarks import Remark
from ..one import or_fault
from ..prices import weight_of
from .methods import METHODS, Walk, Walked, Way
from .outcomes import Traced

SHORT_RECORD = "short record"  # periods, needed
NO_HISTORY = "stated without history"


@dataclass(frozen=True)
class Backtest:
    """An item's test on its past. `first` is the number of the first later period, `demands` what was asked in these,
    `mean` the mean demand of all its periods, `setup` money an order and `holding` money an item and period. `today` is
    None without a policy today. `planned` is the catalogue's plan as a whole. It is the same `alike` if each item meets by
    itself what it wants, `seasonless` without seasons, `followed` at the level of the last periods, and `still` at that of
    the record: None if the plan has no such way. `averaged`, `smoothed` and `cover` are rules of thumb. `value` is the price of an item that is planned
    together with others, by whose value its demand counts."""

    name: str
    group: str
    record: int
    first: int
    mean: float
    setup: float
    holding: float
    demands: tuple[int, ...]
    today: Traced | None
    planned: Traced
    alike: Traced | None
    seasonless: Traced | None
    followed: Traced | None
    still: Traced | None
    averaged: Traced
    smoothed: Traced
    cover: Traced
    value: float | None = None


def backtest_one(as_read: Item, walk: Walk, ways: Mapping[str, Way]) -> Backtest:
    """Returns an item's test on its past: see `Walked`. Raises Refused if it could not be planned at the end of its
    record."""
    walked, record = Walked(as_read, walk, ways), walk.record
    item = walked.item
    traced = dict[str, Any]()
    for method in METHODS:
        run = method.run(walked)
        traced[method.code] = run and walked.happened.traced(run)
    return Backtest(
        name=item.name,
        group=item.category,
        record=record,
        first=item.first + walked.places[record],
        mean=statistics.fmean(item.counts),
        setup=float(item.setup),
        holding=float(item.holding),
        demands=item.counts[record:],
        **traced,
        value=None if walked.question.price is None else weight_of(item),
    )


def backtest_item(item: Item, walk: Walk, ways: Mapping[str, Way]) -> Backtest | Remark:
    """Returns an item's test on its past, or why it has none. Unknown periods are left out, as if they had not been, so
    what a policy would have met in these counts for nothing. A law that is stated does not count.
    """
    if item.law and not item.counts:
        return Remark(NO_HISTORY)
    item = dataclasses.replace(item, law=None)  # Nobody has stated that of the past.
    periods, needed = len(item.known_places), walk.record + walk.every
    if periods < needed:
        return Remark(SHORT_RECORD, {"periods": periods, "needed": needed})
    return or_fault(item, backtest_one, walk, ways)
