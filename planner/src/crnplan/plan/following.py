"""Follows the level of items: by how many times the law of their record they are planned, as the past of their class says.
"""
from __future__ import annotations

from collections import defaultdict
from collections.abc import Iterable, Mapping
from dataclasses import dataclass

from ..demand.fitted import FittedLaw
from ..demand.level import BlockSums, factor_of, weight_of
from ..demand.rate import at_rate
from ..formats import MOST_DEMAND
from ..law import Law
from ..read.item import NEW, Item
from ..remarks import Remark


@dataclass(frozen=True)
class AtLevel:
    """How an item is planned whose level is followed: the law of its record, how many times that its demand is now, and
    the weight of the smoothed level in that."""

    law: FittedLaw
    factor: float
    weight: float

    def of(self, law: Law) -> Law:
        """Returns a law of the record as it is now."""
        return at_rate(law, self.factor)

    @property
    def remark(self) -> Remark:
        """Returns what is to be said of it."""
        return Remark("level followed", {"factor": self.factor, "weight": self.weight})


@dataclass(frozen=True)
class Following:
    """The weights of the smoothed level by class: of those that follow it. Items without a class are one, whose name is
    empty."""

    classes: Mapping[str, float]

    @classmethod
    def of(cls, items: Iterable[Item]) -> Following:
        """Learns the weights of the classes of items, which are without their seasons."""
        groups = defaultdict[str, list[BlockSums]](list)
        for item in items:
            groups[item.group].append(BlockSums.of(item.known.counts))
        weights = {name: weight_of(groups[name]) for name in sorted(groups)}
        return cls({name: weight for name, weight in weights.items() if weight})

    def at_level(self, item: Item, law: FittedLaw) -> AtLevel | None:
        """Returns how an item without its season is planned by the law of its record. None for one whose law is stated,
        that is new, is counted in boxes or has a short record, whose class does not follow its level, or whose demand would
        be beyond the range of a law."""
        counts, weight = item.known.counts, self.classes.get(item.group)
        if not weight or item.law or item.past == NEW or item.box > 1:
            return None
        factor = factor_of(counts, weight)
        if factor == 1 or max(counts) * factor >= MOST_DEMAND:
            return None
        return AtLevel(law, factor, weight)
