"""Plans items from a record by themselves, keeps the plans, and says what breaks their promises: the part of `walk_forward`
that runs.

Beside the kept plan are refitted ones, exponential smoothing anew in each period, and the kept plan with all periods in a
random order. What that misses too is due to demands that a record is too short to show: rare large ones. The rest is due
to time: its level, its season, and runs of high demand.
"""
from __future__ import annotations

import operator
import tempfile
from collections.abc import Iterator, Mapping, Sequence
from dataclasses import replace
from pathlib import Path
from typing import NamedTuple

import numpy as np
import pandas as pd

from crnplan.api import take_tables
from crnplan.demand.level import smoothed
from crnplan.errors import Refused
from crnplan.plan.backtest.catalogue import TESTS
from crnplan.plan.backtest.estimates import NO_BLOCK, Estimate, Ratio
from crnplan.plan.backtest.lessons import Lessons, Records
from crnplan.plan.backtest.methods import Walk, Walked, Way
from crnplan.plan.backtest.one import Backtest, backtest_one
from crnplan.plan.backtest.outcomes import MethodRun, Outcome, Traced
from crnplan.plan.backtest.rules import Forecast, normal_levels, wanted_share
from crnplan.plan.backtest.sums import (
    FEW,
    HOLDS,
    LEAST_ITEMS,
    SLACK,
    UNSURE,
    Sums,
    TestGroup,
)
from crnplan.plan.how import Settings
from crnplan.read.catalogue_reading import CATALOGUE, READ
from crnplan.read.defaults import KEEP
from crnplan.read.item import Item
from crnplan.read.items import Reading
from crnplan.store.files import own_folder
from crnplan.store.means import Means
from crnplan.store.stored import Store

VERDICTS = HOLDS, LUCK, UNSURE, TIME, RARE, BOTH = (
    HOLDS,
    "luck",
    UNSURE,
    "time",
    "rare",
    "both",
)
ALONE = Settings(season="none", follow="none", alike=True)


class Kept(NamedTuple):
    """The test of an item whose plan is kept, with refitted ones as `followed`; and what that plan comes to with all periods
    in a random order, the demands of these, and whether a later demand is above the largest of the record.
    """

    test: Backtest
    shuffled: Outcome
    demands: tuple[int, ...]
    is_above: bool


def shuffled(item: Item, seed: int) -> Item:
    """Returns an item whose periods come in a random order."""
    order = np.random.default_rng(seed).permutation(len(item.counts)).tolist()
    pick = operator.itemgetter(*order)
    returns = pick(item.returns) if item.returns else ()
    return replace(item, counts=pick(item.counts), returns=returns)


def kept_walk(item: Item, walk: Walk, ways: Mapping[str, Way]) -> Walked:
    """Returns an item with the plan of its record for all later periods."""
    return Walked(item, Walk(walk.record, len(item.counts)), ways)


def smoothing(walked: Walked) -> Traced:
    """Returns what exponential smoothing comes to anew in each period."""
    item, lead = walked.item, walked.question.lead.figures
    share, variance = [wanted_share(item)], lead.variance or 0.0
    levels = [
        normal_levels(item, share, Forecast(*known), lead.mean, variance)[0]
        for known in smoothed(item.counts)
    ]
    return walked.happened.traced(MethodRun(levels))


def kept_of(item: Item, walk: Walk, ways: Mapping[str, Way]) -> Kept:
    """Returns the test of an item. Raises Refused if it can't be planned in either order."""
    walked = kept_walk(item, walk, ways)
    again = backtest_one(item, walk, ways)
    other = shuffled(walked.item, walked.question.seed("shuffled"))
    by_chance = kept_walk(other, walk, ways)
    test = replace(
        again,
        planned=walked.happened.traced(walked.run(walked.planned)),
        followed=again.planned,
        smoothed=smoothing(walked),
    )
    plan = by_chance.planned[0].figures
    outcome = by_chance.happened.of_figures([plan] * by_chance.happened.later)
    known, record = walked.item.counts, walk.record
    is_above = max(known[record:]) > max(known[:record])
    return Kept(test, outcome, other.counts[record:], is_above)


def each_kept(sales: pd.DataFrame, masters: pd.DataFrame, walk: Walk) -> Iterator[Kept]:
    """Yields the tests of the items of a catalogue that are asked for and can be planned."""
    with tempfile.TemporaryDirectory() as room, own_folder(
        Path(room), CATALOGUE
    ) as folder:
        take_tables(folder, sales, masters, None, None, Reading(far=KEEP), 1)
        with Records(folder.path / READ, walk.record) as read, Store(
            folder.store(TESTS), Backtest
        ) as tests:
            lessons = Lessons.of(folder, tests, read, ALONE, Means(1))
            for item in read.whole_items():
                if len(item.counts) < walk.record + walk.every:
                    continue
                try:
                    kept = kept_of(item, walk, lessons.ways)
                except Refused:
                    continue
                if kept.test.mean:
                    yield kept


class Parts(NamedTuple):
    """What a miss of the promise consists of: all of it, what remains in a random order, and the rest."""

    missed: Estimate
    chance: Estimate
    time: Estimate

    @classmethod
    def of(cls, tests: Sequence[Kept]) -> Parts:
        group = TestGroup([one.test for one in tests])
        demands = np.concatenate([one.demands for one in tests])
        unmet = np.concatenate([one.shuffled.unmet for one in tests])
        promised = np.array([one.shuffled.promised_fill for one in tests])[group.items]
        asked = demands / group.units
        lost = unmet / group.units - (1 - promised) * asked
        untimed = np.full(len(asked), NO_BLOCK)
        missed, chance = group.missed(), Ratio(lost, asked, group.items, untimed)
        return cls(missed.estimate, chance.estimate, missed.less(chance))

    def verdict(self, items: int) -> str:
        """Returns what breaks the promise, if anything does."""
        if items < LEAST_ITEMS:
            return FEW
        rare = self.chance.low > SLACK
        if self.missed.value <= SLACK:
            return LUCK if rare else HOLDS
        time = self.time.low > 0 and self.time.value > SLACK
        if self.missed.low > SLACK and not rare and not time:  # by both together
            time = self.time.value > self.chance.value
            rare = not time
        if rare and time:
            return BOTH
        if rare or time:
            return RARE if rare else TIME
        return UNSURE


class KeptSums(NamedTuple):
    """The sums of the tests of a catalogue, and the parts of what its plans missed."""

    sums: Sums
    parts: Parts
    above: int

    @property
    def verdict(self) -> str:
        return self.parts.verdict(self.sums.items)

    @classmethod
    def of(cls, tests: Sequence[Kept]) -> KeptSums:
        above = sum(one.is_above for one in tests)
        return cls(Sums.of("", [one.test for one in tests]), Parts.of(tests), above)
