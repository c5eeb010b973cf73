"""What the items of a catalogue have learned up to the end of their records, and how each way plans by that."""
from __future__ import annotations

import dataclasses
from collections.abc import Iterator, Mapping
from dataclasses import dataclass, field
from functools import cached_property
from pathlib import Path
from typing import Any

from ...demand import AUTO
from ...demand.learning import Prior
from ...demand.seasons import CALENDAR, YEARS
from ...errors import Refused
from ...spelling import worded
from ...read.catalogue_reading import Catalogued
from ...read.item import WEIGHED, Item
from ...remarks import Remark
from ...store.files import IN_KEPT, Folder
from ...store.means import Means
from ...store.stored import Store
from ..aims import Aims
from ..correction import LEAST_ITEMS, OF_FILLS, tried_on, ways_of
from ..how import LEARNED, Settings
from ..learned import following_of, learned_of, seasons_of
from ..following import Following
from ..seasons import Seasons, whole_years
from ..together import Finding, wants_aims
from .methods import ALIKE, FOLLOWED, PLANNED, SEASONLESS, STILL, Walk, Way

OF_RECORDS = OF_FILLS._replace(store=f"{IN_KEPT}backtest_trials.sqlite")


class Records(Catalogued):
    """A catalogue as it was at the end of the record of each item. Nobody has stated a law then."""

    def __init__(self, path: Path, record: int) -> None:
        super().__init__(path, planned=WEIGHED)
        self.record = record

    def items(self, *name: str) -> Iterator[Item]:
        for item in self.whole_items(*name):
            yield dataclasses.replace(item.part(0, self.record), law=None)

    def whole_items(self, *name: str) -> Iterator[Item]:
        """Yields the items in order, or that of a name, by all their periods."""
        return super().items(*name)

    def whole_item(self, name: str) -> Item | None:
        """Returns the item of a name by all its periods; None if there is none."""
        return next(self.whole_items(name), None)

    @property
    def length(self) -> int:
        return min(super().length, self.record)


class OfRecords(Finding):
    """Finds the prices of the records of a catalogue. What these offer is kept apart from what all periods do."""

    stores = (
        f"{IN_KEPT}backtest_offers.sqlite",
        f"{IN_KEPT}backtest_finer.sqlite",
        f"{IN_KEPT}backtest_offers_past.sqlite",
    )

    def __init__(
        self,
        folder: Folder,
        read: Records,
        settings: Settings,
        prior: Prior,
        means: Means,
    ) -> None:
        super().__init__(folder, read, settings, prior, means)
        self.part = f"record {read.record}"


def unlearned(settings: Settings) -> Settings:
    """Returns settings without what a catalogue has learned: that is of all its periods, also of those on which plans are
    tested."""
    return dataclasses.replace(settings, **dict.fromkeys(LEARNED))


def alone(settings: Settings) -> Settings:
    """Returns settings by which each item meets by itself what it wants."""
    return dataclasses.replace(
        settings, alike=True, together={}, at_least=None, prices=None
    )


@dataclass(frozen=True)
class Learning:
    """What items learn by: a folder, which keeps what was tried, all their periods, their records, the stated settings, what
    laws learn, and the means. `remarks` say what is not tested."""

    folder: Folder
    tests: Store[Any]
    whole: Catalogued
    read: Records
    settings: Settings
    prior: Prior
    means: Means
    remarks: list[Remark] = field(default_factory=list)

    @cached_property
    def seen(self) -> Seasons | None:
        """Returns the seasons that all periods show; None if there are none."""
        seasons = seasons_of(self.tests, self.whole, self.settings, True)
        return seasons if seasons and has_seasons(self.whole, seasons) else None

    def seasons(self) -> Seasons | None:
        """Returns the seasons of the catalogue as the records show them; None if there are none. Records of less than two
        years have those that all periods show, but their values."""
        seen = self.seen
        if seen is None:
            return None
        every = seen.every
        if whole_years(every, self.read.length) >= YEARS:
            seen = seasons_of(self.tests, self.read, self.settings, True)
            return seen if seen and has_seasons(self.read, seen) else None
        records = seen.as_of(self.read.items())
        facts = {"record": self.read.length, "least": YEARS * CALENDAR[every]["season"]}
        self.remarks.append(
            Remark("seasons of records" if records else "seasons untested", facts)
        )
        return records

    def following(self, settings: Settings) -> Following | None:
        """Returns how far classes follow their level, as all periods say; None if none does."""
        seasons = self.seen if settings.seasons else None
        on = dataclasses.replace(settings, follow=AUTO, seasons=seasons)
        following = following_of(self.tests, self.whole, on, True)
        return following if following and following.classes else None

    def corrected(self, way: Way) -> Way:
        """Returns a way that aims as the past of the records corrects it, if it is to."""
        if not way.settings.correct or not wants_aims(self.read, way.settings):
            return way
        on = ways_of(way.settings)
        words = self.folder, self.read, on, way.prior, self.means, OF_RECORDS
        tried = tried_on(*words, f"record {self.read.record}")
        if len(tried) < LEAST_ITEMS:
            facts = {"items": len(tried), "least": LEAST_ITEMS}
            self.remarks.append(Remark("not corrected", facts))
            return way
        settings = dataclasses.replace(way.settings, aims=Aims.of(tried))
        return way._replace(settings=settings)

    def priced(self, way: Way) -> Way:
        """Returns a way with the prices at which the records meet what items want together, if they want any."""
        if not way.settings.shares:
            return way
        words = self.folder, self.read, way.settings, way.prior, self.means
        try:
            prices = OfRecords(*words).prices()
        except Refused as why:
            self.remarks.append(Remark("not together", {"what": worded(why.what)}))
            return way._replace(settings=alone(way.settings))
        settings = dataclasses.replace(
            way.settings, prices=prices if prices.groups else None
        )
        return way._replace(settings=settings)

    def ways(self) -> dict[str, Way]:
        """Returns the plan of the catalogue as a whole, and the ways that differ from it."""
        seasons, prior = self.seasons(), self.prior
        settings = dataclasses.replace(self.settings, seasons=seasons)
        if seasons:
            prior = learned_of(self.tests, self.read, settings, True).prior
        following = self.following(settings)
        is_followed = settings.follow == AUTO
        own = dataclasses.replace(
            settings, following=following if is_followed else None
        )
        planned = self.priced(self.corrected(Way(own, prior)))
        ways = {PLANNED: planned}
        if planned.settings.prices:
            ways[ALIKE] = planned._replace(settings=alone(planned.settings))
        if seasons:
            flat = dataclasses.replace(planned.settings, seasons=None)
            ways[SEASONLESS] = Way(flat, self.prior)
        if following:
            other = None if is_followed else following
            moved = dataclasses.replace(planned.settings, following=other)
            ways[STILL if is_followed else FOLLOWED] = planned._replace(settings=moved)
        return ways


def has_seasons(read: Catalogued, seasons: Seasons) -> bool:
    """Returns whether a class or an item has a season."""
    return bool(seasons.classes) or any(map(seasons.of_item, read.items()))


@dataclass(frozen=True)
class Lessons:
    """What the items of a catalogue have learned up to the end of their records: the `stated` settings, the ways in which
    it is planned, and remarks on all that."""

    stated: Settings
    ways: Mapping[str, Way]
    remarks: tuple[Remark, ...]

    @classmethod
    def of(
        cls,
        folder: Folder,
        tests: Store[Any],
        read: Records,
        stated: Settings,
        means: Means,
    ) -> Lessons:
        """Learns from the records of a catalogue."""
        stated = unlearned(stated)
        learned = learned_of(tests, read, stated, True)
        stated = dataclasses.replace(
            stated, borrow=learned.usual, every=read.fact("every")
        )
        with Catalogued(read.path, planned=WEIGHED) as whole:
            on = Learning(folder, tests, whole, read, stated, learned.prior, means)
            ways = on.ways()
        remarks = (*learned.remarks, *on.remarks)
        return cls(stated, ways, remarks)

    def common(self, walk: Walk) -> str:
        """Returns what all tests depend on, as a text."""
        ways = self.ways.values()
        return repr([way.settings.common(repr(walk), way.prior) for way in ways])
