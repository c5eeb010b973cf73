"""How the items of a catalogue are planned: by which laws and seasons, for what, within which bounds."""
from __future__ import annotations

import json
from collections.abc import Mapping, Sequence
from dataclasses import asdict, dataclass, replace
from fractions import Fraction
from typing import Any

from ..arguments import read_share
from ..demand import AUTO, SEASON_WAYS
from ..demand.families import METHODS
from ..demand.index import Index
from ..demand.learning import Prior
from ..errors import Refused, argument
from ..formats import MOST_ITEMS, MOST_PERIODS, MOST_REPLICATIONS, MOST_WEIGHT
from ..money import whole_in
from ..read.bounds import OrderBounds
from ..read.defaults import SHARE, shares_of
from ..read.item import BORROW, PLANNED, WEIGHED, Item
from ..store.digests import number_of, sha256
from ..vocabulary import (
    PAIRS,
    YES,
    Kind,
    Vocabulary,
    choice,
    documented,
    numbers,
    word,
)
from .aims import Aims, Overruns
from .bounds import MOST_COVERAGE
from .following import Following
from .prices import REST, Prices, weight_of
from .seasons import Seasons

SEED_BITS = 32  # of the number that follows from the seed for each item and purpose
# The settings that are learned of a catalogue, by name.
LEARNED: Mapping[str, Any] = {
    "aims": Aims,
    "overruns": Overruns,
    "prices": Prices,
    "seasons": Seasons,
    "following": Following,
}
VERSION = 12  # Answers of others are not used again.
NONE, CLASS, ALL = BORROW
# Of what all items together may leave unmet, so many times as much is unmet of a single one at most. That costs hardly any
# stock: planner/studies/floors.py.
MOST_TIMES = 3.0


def parts_of(value: Any) -> dict[str, float]:
    """Returns shares by class as floats. Raises Refused."""
    return {group: float(share) for group, share in shares_of(value).items()}


def seed_of(value: Any) -> str:
    """Returns the text of a seed, or of a whole number. Raises Refused."""
    return value if isinstance(value, str) else str(whole_in(value))


PART = Kind(read_share, SHARE.type, SHARE.metavar)


@documented
@dataclass(frozen=True, init=False, repr=False)
class Settings(Vocabulary):
    """Says how the items of a catalogue are planned, for several calls at once.

    Examples
    --------
    >>> settings = crn.Settings(season="none", seed=7)
    >>> plan = crn.plan(sales, masters, settings=settings, jobs=1)
    """

    # The words, and fields that the package sets: of the period and the season, and what is learned of a catalogue.

    seed: str = word(
        Kind(seed_of, "str or int"), "crnplan", "The keys of all items follow from it."
    )
    fit: str = word(
        choice(*METHODS, metavar="METHOD"),
        METHODS[0],
        "How laws of demand are fitted: see `fit_demand`.",
    )
    borrow: str | None = word(
        choice(*BORROW),
        help="From which items each learns its law of demand; by default all if there are 100. The masters may have a column "
        "borrow.",
    )
    confidence: float | None = word(
        PART,
        help="Keep a wanted share under this share of the laws that the item's history allows.",
    )
    level: float = word(PART, 0.95, "The level of the intervals.")
    periods: int = word(
        numbers(1, MOST_PERIODS),
        MOST_PERIODS,
        "The periods of a replication of a run by crnsim.",
    )
    replications: int = word(
        numbers(2, MOST_REPLICATIONS), 24, "The replications of a run by crnsim."
    )
    every: str | None = None
    season: str = word(
        choice(*SEASON_WAYS),
        AUTO,
        "Plan classes and items with a season by parts of the year, two weeks or a month long, where tests see one (auto), "
        "or all items as if there were none.",
    )
    follow: str = word(
        choice(*SEASON_WAYS),
        AUTO,
        "Plan items at the level of their last periods, as far as the past of their class says that what comes follows it "
        "(auto), or at that of their record (none).",
    )
    least_gain: float | None = word(
        PART,
        help="After an earlier plan, keep levels if a change gains less than this share of their cost, as 2%.",
    )
    correct: bool = word(
        YES,
        False,
        "Aim at fill rates at which the catalogue's past has met the wanted ones, and promise costs of items with a backlog "
        "cost by what such plans cost on it.",
    )
    order_min: int | None = word(
        numbers(1, MOST_ITEMS),
        help="The items of the smallest order, where the masters state none.",
    )
    max_coverage: int | None = word(
        numbers(1, MOST_WEIGHT),
        help="S covers at most N periods of mean demand; without it S less s covers at most two years.",
    )
    s_min: int | None = word(
        numbers(0, MOST_ITEMS),
        help="The smallest s; by default 1 for items with a wanted fill rate, else 0.",
    )
    together: Mapping[str, float] = word(
        Kind(
            parts_of, "share, dict, or texts as 'A=98%'", "SHARE | CLASS=SHARE", PAIRS
        ),
        {},
        "As `fill`, as 95%, or of a class, as A=98%, but of all items without a backlog cost or `no_shortage`, in place of fill rates "
        "of their masters, and without a floor.",
    )
    at_least: float | None = word(
        PART,
        help="What each item meets at least that is planned together with others, as 85%; by default it leaves unmet at most three times "
        "what `fill` or `service` do.",
    )
    alike: bool = word(
        YES,
        False,
        "Each item meets by itself what `fill` or `service` want, in place of all together.",
    )
    fill: Fraction | None = word(SHARE, hidden=True)
    service: Mapping[str, Fraction] = word(
        Kind(shares_of, "", shape=PAIRS), {}, hidden=True
    )
    aims: Aims | None = None
    overruns: Overruns | None = None
    prices: Prices | None = None
    seasons: Seasons | None = None
    following: Following | None = None

    def _check(self) -> None:
        self._check_together()
        if self.fit != "auto" and self.borrow not in (None, NONE):
            raise Refused(
                f"{argument('fit', self.fit)} fits each item alone, and "
                f"{argument('borrow', str(self.borrow))} learns from others",
                "leave one out",
            )

    def _check_together(self) -> None:
        """Raises Refused for words on what is wanted together that can't be meant."""
        least = self.at_least
        if not self.shares and least is not None:
            raise Refused(
                f"{argument('at_least')} is of items that are planned together",
                f"say what share these meet by {argument('together')}",
            )
        if self.together and self.confidence is not None:
            raise Refused(
                f"{argument('confidence')} keeps a fill rate of each item, and {argument('together')} has one share of "
                "all items",
                "leave one out",
            )
        if least is not None and least >= min(self.shares.values()):
            raise Refused(
                f"{argument('at_least', f'{least:g}')} is no less than what all items are to meet together",
                "write a lower share",
            )

    @property
    def planned_by(self) -> Sequence[str]:
        """Returns the columns of items that their plans depend on.

        :meta private:
        """
        return WEIGHED if self.shares else PLANNED

    @property
    def shares(self) -> Mapping[str, float]:
        """Returns the shares of demand by value that items meet together, by class: those of `together`, and what `fill` and
        `service` want of items whose rows say nothing, unless each meets it by itself.

        :meta private:
        """
        if self.alike or self.confidence is not None:
            return self.together
        usual = {REST: self.fill, **self.service}
        shares = {name: float(share) for name, share in usual.items() if share}
        return {**shares, **self.together}

    @property
    def floor(self) -> float | None:
        """Returns what each of the items at least meets that are planned together: what is stated, or a share that costs
        little, if nothing but `fill` and `service` is.

        :meta private:
        """
        if self.at_least is not None or self.together or not self.shares:
            return self.at_least
        return max(0.0, 1 - MOST_TIMES * (1 - min(self.shares.values())))

    def named_group(self, item: Item) -> str | None:
        """Returns the group for which a share is wanted that would have an item, whether it has a price or not: the one
        of its class, or that of the rest; None if there is none.

        :meta private:
        """
        if item.backlog is not None or item.no_shortage is not None:
            return None
        group = item.category if item.category in self.shares else REST
        if item.has_goal and group not in self.together:
            return None
        return group if group in self.shares else None

    def group_of(self, item: Item) -> str | None:
        """Returns the group with which an item is planned together; None if it is planned by itself.

        :meta private:
        """
        return self.named_group(item) if weight_of(item) else None

    def common(self, program: str, prior: Prior) -> str:
        """Returns what all answers depend on, with the digest of the program and what was learned, as a text. The least
        gain is left out: it only counts beside an earlier plan.

        :meta private:
        """
        learned = sha256(prior.text)
        settings = asdict(self)
        del settings["least_gain"]
        return json.dumps([VERSION, program, learned, settings], default=float)

    def bounds_of(self, item: Item) -> OrderBounds:
        """Returns the bounds of an item: those of its masters, else those of the settings.

        :meta private:
        """
        own = item.bounds
        s_min, coverage, usual = own.s_min, own.coverage or None, None
        if s_min is None:
            s_min = self.s_min
        if s_min is None:
            s_min = int(item.wanted is not None)
        if coverage is None and self.max_coverage is not None:
            coverage = Fraction(self.max_coverage)
        if coverage is None:
            usual = MOST_COVERAGE.get(self.every or "")
        return replace(
            own,
            order_min=own.order_min or self.order_min,
            s_min=s_min,
            coverage=coverage,
            order_coverage=usual,
        )

    def seed_of(self, purpose: str, name: str) -> int:
        """Returns the seed of random numbers for a purpose, which follows from an item's name and the seed.

        :meta private:
        """
        return number_of(f"{self.seed}\n{purpose}\n{name}", SEED_BITS)


def without_season(item: Item, settings: Settings) -> tuple[Item, Index | None]:
    """Returns an item with the counts that it would have had without its season, and its index; as it is, and None, if it
    is not planned by a season."""
    seasons = None if item.law else settings.seasons
    index = seasons.of_item(item) if seasons else None
    if not seasons or not index:
        return item, None  # A law that is stated is as it is.
    return seasons.flat(item, index, settings.seed_of("season", item.name)), index


def flat_of(item: Item, settings: Settings) -> tuple[Item, Settings]:
    """Returns an item by its known periods alone, with the counts that it would have had without its season; and settings
    that know of no season, and follow no level. A part of a record that is planned from the rest is not later than that:
    the level of the last periods says nothing of it, so the law of the rest is as it was.
    """
    item, _ = without_season(item, settings)
    return item.known, replace(settings, seasons=None, following=None)
