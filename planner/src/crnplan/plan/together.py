"""Finds the price at which the items of a group together meet the share of demand that is wanted at once.

By theory each item says what its best policies leave unmet at some prices. Of these the first is taken at which all
together meet enough, and then again of finer ones below it, so that the share is met and hardly more is. Plans by a
short record promise too much, so with a correction the price is the one with which quarters of the record, each planned
from the others, met the wanted share together.
"""
from __future__ import annotations

import json
import math
import statistics
from collections import Counter
from collections.abc import Callable, Iterator, Mapping
from dataclasses import replace
from fractions import Fraction
from typing import Any, NamedTuple

import numpy as np

from ..chances import Floats
from ..demand.learning import Prior
from ..errors import Refused, argument
from ..read.catalogue_reading import Catalogued
from ..read.item import UNORDERED, USUAL, Item
from ..store.files import IN_KEPT, Folder
from ..store.means import Means
from ..store.stored import Store
from .correction import LEAST_ITEMS
from .offers import Asked, Offer, OfferSums, met_on_past, offer_of, past_of
from .one import each_answer
from .prices import Price, Prices, weight_of
from .how import Settings
from .learned import learned_once

PRICES = "prices"  # a fact of the store of answers
COARSE, FINER, ON_PAST = (
    f"{IN_KEPT}{name}.sqlite" for name in ("offers", "finer_offers", "past_offers")
)
# Prices of a unit of weight, times what a typical one costs to hold for a period: eight a decade.
GRID: Floats = 10.0 ** (np.arange(-16, 57) / 8)
FINE = 32  # prices between two of these, which are 0.9% apart
MORE = 24  # of these, above the one by theory, are tried on the past
DIGITS = 4  # of a price


class OnPast(NamedTuple):
    """The shares that `tried` items together met on the past with some rising prices. Between two both follow by the
    logarithm of the price. A price that met less than a lower one met as much."""

    prices: tuple[float, ...]
    met: Floats
    tried: int

    @property
    def unmet(self) -> Floats:
        return np.minimum.accumulate(1 - self.met)

    def price(self, wanted: float) -> float:
        """Returns the price with which the wanted share was met; if none is, the highest."""
        logs = np.log(self.prices)
        log = float(np.interp(1 - wanted, self.unmet[::-1], logs[::-1]))
        return rounded(np.exp([log]))[0]

    def share(self, price: float) -> float:
        """Returns the share that was met with a price."""
        return 1 - float(np.interp(math.log(price), np.log(self.prices), self.unmet))


def members_of(
    read: Catalogued, settings: Settings
) -> Iterator[tuple[str, str, float]]:
    """Yields in order the name of each item that is planned together with others, with its group and what a unit of its
    weight costs to hold. Raises Refused if most of those for which a share is wanted have no price, by which they would
    weigh."""
    counts = Counter[bool]()
    # What decides with which others an item is planned: its demand need not be read.
    fields = "name holding backlog no_shortage price category has_goal past".split()
    for cells in read.values(*fields):
        facts = dict(zip(fields, cells))
        item = Item(counts=(), leads=(), levels=None, setup=Fraction(0), **facts)
        if item.past in UNORDERED or settings.named_group(item) is None:
            continue
        group = settings.group_of(item)
        counts[group is not None] += 1
        if group is not None:
            yield item.name, group, float(item.holding) / weight_of(item)
    if settings.together and counts[False] > counts[True]:
        raise Refused(
            f"{counts[False]:,} of {counts.total():,} items that are to be planned together have no price, by which "
            "they would weigh",
            "give them one in the masters",
        )


def wants_aims(read: Catalogued, settings: Settings) -> bool:
    """Returns whether some item is to have a fill rate of its own, which a correction corrects."""
    if not settings.shares or settings.floor is not None:
        return True
    members = {name for name, *_ in members_of(read, settings)}
    return any(
        fill is not None and past == USUAL and name not in members
        for name, fill, past in read.cells("name", "fill", "past")
    )


def rounded(prices: Floats) -> tuple[float, ...]:
    """Returns rising prices with a few digits."""
    return tuple(sorted({float(f"{price:.{DIGITS}g}") for price in prices.tolist()}))


class Finding:
    """Finds the prices of all groups of a catalogue. Offers are kept in the folder, in three stores; `part` says of which
    part of the record they are, if not of all."""

    stores = COARSE, FINER, ON_PAST
    part = ""

    def __init__(
        self,
        folder: Folder,
        read: Catalogued,
        settings: Settings,
        prior: Prior,
        means: Means,
    ) -> None:
        """Looks at which items there are. Raises Refused if a group has none, or if most have no price."""
        self.folder, self.read, self.settings = folder, read, settings
        self.prior, self.means = prior, means
        self.groups = dict[str, str]()
        units = dict[str, list[float]]()
        for name, group, unit in members_of(read, settings):
            self.groups[name] = group
            units.setdefault(group, []).append(unit)
        for group in sorted(settings.together.keys() - units.keys()):
            raise Refused(
                f"{self.stated(group)}: no item is planned by it: none is of such a class, or each has a backlog cost or "
                "no price",
                "leave it out",
            )
        self.units = {
            group: statistics.median_low(units[group]) for group in sorted(units)
        }

    def stated(self, group: str) -> str:
        """Returns the word that wants a share of a group."""
        share = f"{self.settings.shares[group]:g}"
        return argument("together", f"{group}={share}" if group else share)

    def offers(
        self,
        asked: Mapping[str, Asked],
        kept: str,
        function: Callable[..., Offer],
        names: Mapping[str, str],
    ) -> Iterator[tuple[str, Offer]]:
        """Returns in order the offers of items by name, which are kept in a store; `names` has their groups."""
        common = json.dumps([self.settings.common(self.part, self.prior), asked])
        return each_answer(
            self.folder.store(kept),
            Offer,
            lambda: ((name, self.read.digest(name, common)) for name in names),
            self.read.item,
            (function, self.settings, self.prior, asked),
            "offers",
            self.means,
        )

    def sums(self, asked: Mapping[str, Asked], kept: str) -> dict[str, OfferSums]:
        """Returns the sums of the offers of groups by theory, of those that have some. Raises Refused for a named group
        that has none."""
        sums = {group: OfferSums() for group in asked}
        names = {name: group for name, group in self.groups.items() if group in asked}
        for name, offer in self.offers(asked, kept, offer_of, names):
            sums[names[name]].add(name, offer)
        for group in self.settings.together.keys() & asked.keys():
            if not sums[group].asked:
                raise Refused(f"{self.stated(group)}: none of its items can be planned")
        return {group: some for group, some in sums.items() if some.asked}

    def prices(self) -> Prices:
        """Returns the prices of all groups. Raises Refused if a share is not met at any price."""
        grids = {group: rounded(GRID * unit) for group, unit in self.units.items()}
        in_coarse, in_finer, _ = self.stores
        coarse = self.sums(grids, in_coarse)
        places = {group: self.place_of(group, coarse[group]) for group in coarse}
        past = dict[str, OnPast]()
        if self.settings.correct:
            past = self.on_past(coarse, grids, places)
        asked = dict[str, Asked]()
        for group, place in places.items():
            low, high = grids[group][max(place - 1, 0)], grids[group][place]
            prices = {*rounded(np.geomspace(low, high, FINE + 1))}
            if group in past:
                prices.add(past[group].price(self.settings.shares[group]))
            asked[group] = tuple(sorted(prices))
        finer = self.sums(asked, in_finer)
        return Prices(
            {
                group: self.price_of(group, finer[group], asked[group], past.get(group))
                for group in finer
            }
        )

    def place_of(self, group: str, sums: OfferSums) -> int:
        """Returns the place of the first price at which enough is met; if there is none, the last one of a group that is
        not named. Raises Refused for one that is."""
        places = np.flatnonzero(sums.met >= self.settings.shares[group])
        if not len(places):
            if group not in self.settings.together:
                return len(sums.met) - 1
            raise Refused(
                f"{self.stated(group)}: within their bounds its items meet {sums.met.max():.4%} together at most",
                "write a lower share",
            )
        return int(places[0])

    def on_past(
        self,
        coarse: Mapping[str, OfferSums],
        grids: Mapping[str, tuple[float, ...]],
        places: Mapping[str, int],
    ) -> dict[str, OnPast]:
        """Returns what groups met on the past with prices of the grid, from about that by theory on. Raises Refused for a
        group with fewer than 30 items that can be tried."""
        drawn = {group: sums.drawn for group, sums in coarse.items()}
        names = {name: group for group, some in drawn.items() for name in some.names}
        asked = {
            group: grids[group][max(place - 1, 0) : place + MORE + 1]
            for group, place in places.items()
        }
        ordered = dict(sorted(names.items()))
        tried = dict(self.offers(asked, self.stores[-1], past_of, ordered))
        sizes = self.sizes_of(ordered)
        shares = dict[str, OnPast]()
        for group, some in drawn.items():
            own = {name: tried[name] for name in some.names if name in tried}
            if len(own) < LEAST_ITEMS:
                if group not in self.settings.together:
                    continue
                raise Refused(
                    f"{self.stated(group)}: {len(own)} items can be tried on their past, and a correction needs "
                    f"{LEAST_ITEMS}",
                    f"plan without {argument('correct')}",
                )
            met = met_on_past(own, some, sizes, coarse[group].asked)
            shares[group] = OnPast(asked[group], met, len(own))
        return shares

    def sizes_of(self, names: Mapping[str, str]) -> dict[str, float]:
        """Returns what items ask for by theory, of which it is kept."""
        with Store(self.folder.store(self.stores[0]), Offer) as offers:
            answers = {name: offers.answer(name) for name in names}
        return {
            name: offer.asked
            for name, offer in answers.items()
            if isinstance(offer, Offer)
        }

    def price_of(
        self, group: str, sums: OfferSums, asked: Asked, past: OnPast | None
    ) -> Price:
        """Returns the price of a group by the sums at finer prices, but no less than that of the past."""
        wanted, place = self.settings.shares[group], self.place_of(group, sums)
        if past:
            place = max(place, asked.index(past.price(wanted)))
        price = asked[place]
        return Price(
            wanted,
            price,
            float(sums.met[place]),
            sums.items,
            past.share(price) if past else None,
            past.tried if past else 0,
        )


def settled(settings: Settings) -> Settings:
    """Returns settings without those on which no price depends."""
    usual: dict[str, Any] = {
        "level": Settings.level,
        "periods": Settings.periods,
        "replications": Settings.replications,
        "least_gain": None,
        "overruns": None,
    }
    return replace(settings, **usual)


def prices_of(
    folder: Folder,
    answers: Store[Any],
    read: Catalogued,
    settings: Settings,
    prior: Prior,
    means: Means,
    again: bool,
) -> Prices:
    """Returns the prices by which items are planned together. Those that were found before are used again as they are,
    also if items change, unless they are to be learned `again`, or items are planned in another way. Raises Refused.
    """
    on = settled(settings)

    def learned() -> Prices:
        return Finding(folder, read, on, prior, means).prices()

    basis = on.common("", prior)
    return learned_once(answers, PRICES, Prices, basis, again, learned)
