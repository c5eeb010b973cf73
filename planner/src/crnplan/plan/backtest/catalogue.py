"""Tests the plans of all items of a catalogue on their past.

What was tested before is not tested again, unless the item, the settings or what items learn from one another have
changed.
"""
from __future__ import annotations

import dataclasses
import json
from collections.abc import Iterator, Sequence
from dataclasses import dataclass
from typing import Any

from ...compiled import load_compiler
from ...store.files import IN_KEPT, Folder, faults_of
from ...store.means import Means
from ...read.catalogue_reading import READ, Catalogued
from ...read.item import WEIGHED, Item
from ...remarks import Remark
from ...store.stored import Store
from ...store.work import Work
from ..catalogue import PlannedFolder, whole_digest
from ..how import Settings
from .lessons import Lessons, Records, unlearned
from .methods import Walk
from .one import Backtest, backtest_item
from .sums import Sums, sums_of, whole_of

TESTS = f"{IN_KEPT}backtest.sqlite"
# A fact of the store: the text that the digests of finished tests have, and the settings of the kept plan.
TESTED = "tested"


@dataclass(frozen=True)
class Tested:
    """The tests of a catalogue: how its past was walked through, how many items its tables name, each that can be
    planned with its test or why it has none, the sums of all items and of classes, remarks on what was learned, how
    many items were tested now and before, and the type of whole numbers that name items.
    """

    walk: Walk
    every: str
    decimals: int
    named: int
    items: Sequence[tuple[Item, Backtest | Remark]]
    sums: Sequence[Sums]
    learned: Sequence[Remark]
    now: int
    kept: int
    keys: str = ""

    @property
    def whole(self) -> Sums | None:
        """Returns the sums of all items; None if none is tested."""
        return whole_of(self.sums)


@dataclass(frozen=True)
class Past:
    """What the test in the folder of a plan says of all its items, None if it tests none. `is_old` says whether it is
    of other rows or settings than the plan.
    """

    sums: Sums | None
    is_old: bool


OLD = Past(None, True)


def plain(settings: Settings) -> Any:
    """Returns settings as they are kept beside tests."""
    return json.loads(json.dumps(dataclasses.asdict(settings), default=float))


def past_of(planned: PlannedFolder) -> Past | None:
    """Returns what the test in the folder of a plan says; None if there is none."""
    if not (planned.path / TESTS).is_file():
        return None
    path, own = planned.read.path, plain(unlearned(planned.settings))
    with (
        Store(planned.path / TESTS, Backtest) as tests,
        Catalogued(path, is_known=True, planned=WEIGHED) as read,
    ):
        fact = tests.fact(TESTED)
        if fact is None:
            return None
        if not tests.is_ours:
            return OLD
        common, settings, *_ = json.loads(fact)  # An earlier version kept more.
        if settings != own or tests.digest != whole_digest(read, common):
            return OLD
        answers = (test for _, _, test in tests.answers())
        sums = sums_of(test for test in answers if isinstance(test, Backtest))
        return Past(whole_of(sums), False)


def backtest_into(
    folder: Folder, settings: Settings, walk: Walk, means: Means
) -> Tested:
    """Tests the catalogue that was read into a folder, and keeps all tests there. Items learn from one another as they
    would have at the end of their records."""
    path = folder.path / READ
    with (
        faults_of(folder.path),
        Records(path, walk.record) as read,
        Store(folder.store(TESTS), Backtest) as tests,
    ):
        lessons = Lessons.of(folder, tests, read, settings, means)
        common = lessons.common(walk)
        work = Work(
            tests,
            lambda: read.digests(common),
            read.whole_item,
            backtest_item,
            (walk, lessons.ways),
            load=load_compiler,
        )
        basis = json.dumps([common, plain(lessons.stated)])
        work.finish(means.workers(), {TESTED: basis}, shown=means.shown)
        items = list[tuple[Item, Backtest | Remark]]()
        for item, (_, _, test) in zip(read.whole_items(), tests.answers(), strict=True):
            items.append((item, test))
        return Tested(
            walk,
            read.fact("every"),
            read.fact("decimals"),
            read.fact("counts")["items"]["named"],
            items,
            sums_of(test for _, test in items if isinstance(test, Backtest)),
            (*lessons.remarks, *remarks_of_stated(items)),
            work.now,
            work.kept,
            read.fact("keys"),
        )


def remarks_of_stated(
    items: Sequence[tuple[Item, Backtest | Remark]]
) -> Iterator[Remark]:
    """Yields that some items have a stated law, by which none is tested, if there are such."""
    stated = [item for item, test in items if item.law and isinstance(test, Backtest)]
    if stated:
        yield Remark("stated in tests", {"items": len(stated)})
