"""What items that are planned together leave unmet at some prices: by theory, and on the past."""
from __future__ import annotations

import math
from collections.abc import Mapping, Sequence
from dataclasses import dataclass, field

import numpy as np
import numpy.typing as npt

from ..chances import Floats, Whole
from ..demand.learning import Prior
from ..read.item import Item
from ..remarks import Remark
from .choice import by_prices
from .correction import in_blocks
from .drawn import Draws, DrawnItems, estimated
from .how import Settings, flat_of
from .prices import weight_of
from .question import Levels, NoPolicy, Question, question_of

MOST_TRIED, MOST_TAKEN = (
    1_000,
    600,
)  # items of a group on the past, and those for certain
Asked = tuple[float, ...]  # rising prices, at which items say what they leave unmet


@dataclass(frozen=True)
class Offer:
    """What an item asks for a period, in units of weight, and by price what its policies leave unmet of that."""

    asked: float
    unmet: tuple[float, ...]


@dataclass
class OfferSums:
    """The sums of offers of a group, how many there are, and which items are tried on the past."""

    items: int = 0
    asked: float = 0.0
    unmet: Floats = field(default_factory=lambda: np.zeros(1))
    draws: Draws = field(default_factory=lambda: Draws(MOST_TRIED, MOST_TAKEN))

    def add(self, name: str, offer: Offer) -> None:
        self.items += 1
        self.asked += offer.asked
        self.unmet = self.unmet + offer.unmet
        self.draws.add(name, offer.asked)

    @property
    def met(self) -> Floats:
        """Returns the share of demand that is met at once at each price."""
        return 1 - self.unmet / self.asked

    @property
    def drawn(self) -> DrawnItems:
        """Returns the items that are tried on the past."""
        return self.draws.drawn(self.asked)


class ByPrice:
    """The policies of an item for some prices of a unit of weight: `levels` in boxes, and their unmet demand. If they meet less than the item meets at least, it has the cheapest policy that does. Raises NoPolicy if there is none."""

    levels: npt.NDArray[np.int64]
    unmet: Floats

    def __init__(self, question: Question, prices: Sequence[float]) -> None:
        theory, least = question.theory, question.aim
        weight = question.item.box * weight_of(question.item)
        gaps, figures = by_prices(
            question, theory, [weight * price for price in prices]
        )
        if not len(gaps):
            raise NoPolicy(Remark("no policy", {"fill": least}))
        tops: Whole = figures[0].astype(int)
        self.levels = np.array([tops - theory.items(gaps), tops])
        self.unmet = figures[2]
        if least is None:
            return
        mean = float(question.demand.mean)
        is_less = self.unmet > (1 - least) * mean
        if is_less.any():
            best = theory.nearest(least)
            fill = theory.figures(*best.levels).fill
            self.levels[:, is_less] = np.reshape(best.levels, (2, 1))
            self.unmet[is_less] = (1 - fill) * mean

    @property
    def pairs(self) -> list[Levels]:
        """Returns s and S for each price."""
        return [(s, S) for s, S in self.levels.T.tolist()]


def offer_of(
    item: Item, settings: Settings, prior: Prior, asked: Mapping[str, Asked]
) -> Offer:
    """Returns the offer of an item by theory, as its group is asked. Raises Refused if it can't be planned."""
    question = question_of(item, settings, prior).flat
    policies = ByPrice(question, asked[question.together or ""])
    weight = item.box * weight_of(question.item)
    return Offer(
        weight * float(question.demand.mean), tuple((weight * policies.unmet).tolist())
    )


def past_of(
    item: Item, settings: Settings, prior: Prior, asked: Mapping[str, Asked]
) -> Offer:
    """Returns the offer of an item on its past: what policies by prices leave unmet in quarters of its record that they
    have not seen. Raises Refused if it can't be planned."""
    prices = asked[settings.group_of(item) or ""]

    def planned(question: Question) -> list[Levels]:
        return ByPrice(question, prices).pairs

    item, on = flat_of(item, settings)
    unmet = in_blocks(item, on, prior, planned)
    weight = weight_of(item) / len(item.counts)
    return Offer(weight * sum(item.counts), tuple((weight * unmet).tolist()))


def met_on_past(
    offers: Mapping[str, Offer],
    drawn: DrawnItems,
    sizes: Mapping[str, float],
    total: float,
) -> Floats:
    """Returns the share of demand that all items of a group met at once on the past, at each price, by the offers of
    those that were tried. `sizes` are by theory what these ask for, and `total` is that of all.
    """
    taken = [offers[name] for name in sorted(drawn.taken) if name in offers]
    others = [name for name in sorted(drawn.chances) if name in offers]
    left = total - math.fsum(sizes[name] for name in drawn.taken)
    own_sizes = np.array([sizes[name] for name in others])
    chances = np.array([drawn.chances[name] for name in others])
    tried, sums = [*taken, *(offers[name] for name in others)], list[float]()
    for row in zip(*((offer.asked, *offer.unmet) for offer in tried)):
        total = math.fsum(row[: len(taken)])
        if others:
            parts = np.array(row[len(taken) :])
            total += estimated(parts, own_sizes, chances, left)
        sums.append(total)
    asked, *unmet = sums
    return 1 - np.array(unmet) / asked
