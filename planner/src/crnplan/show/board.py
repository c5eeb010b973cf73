"""Computes the first screen of a catalogue's page, for those who decide.

It has what the plan saves a year, service and stock before and after, in all and by class, and what was left out.
"""
from __future__ import annotations

import math
from collections.abc import Mapping, Sequence
from dataclasses import dataclass
from operator import itemgetter
from typing import NamedTuple

from ..plan.answer import CHOSEN, SAME, TODAY
from ..plan.catalogue import PlannedFolder
from ..plan.survey import Survey
from ..plan.totals import Totals
from ..read.columns import periods_a_year
from ..drawing.rendering import Money, Unit
from ..drawing.plots import Scale

MOST_CLASSES = 6
ALL, NO_CLASS = "all", "no class"
BEFORE_AND_AFTER = TODAY, CHOSEN
# The parts of the cost of a policy, and all together, in words, with the names of their sums.
ALL_PARTS = "cost"
PARTS = {
    "orders": "ordering",
    "stock": "holding",
    "late deliveries": "late",
    "together": ALL_PARTS,
}
MOST_TIMES = 1_000  # as much as the largest saving may a cost be in the unit of savings
LEAST_SERVICE = 5.0  # percent, by which the axis of service begins below the least one


class ClassRow(NamedTuple):
    """A class: its items with a policy today, what a year saves, and with today's levels and the new ones the share of
    demand met at once, None if it is not known, and the value of the mean stock."""

    name: str
    items: int
    saving: float
    fills: tuple[float | None, ...]
    values: tuple[float, ...]

    @classmethod
    def of(
        cls, name: str, sums: Sequence[Totals], periods: float, by_value: bool
    ) -> ClassRow:
        """Returns the row of one class, or of several together."""

        def added(part: str) -> float:
            return math.fsum(totals[part] for totals in sums)

        items = sum(totals.compared for totals in sums)
        part, weight = ("met", added("demand")) if by_value else ("fill", float(items))
        fills, values = [], []
        for policy in BEFORE_AND_AFTER:
            fills.append(added(f"{part}_{policy}") / weight if weight else None)
            values.append(added(f"value_{policy}"))
        return cls(name, items, periods * added("saving"), tuple(fills), tuple(values))


class ServicePicture(NamedTuple):
    """Service in percent and stock before and after: the scales of both, the latter in so much of money."""

    service: Scale
    stock: Scale
    size: float

    def across(self, fill: float) -> float:
        """Returns the place of a share of demand, in percent of the width."""
        return self.service.at(100 * fill) / 10

    def along(self, value: float) -> float:
        """Returns the place of a value of stock, in percent of the width."""
        return self.stock.at(value / self.size) / 10


class CostPart(NamedTuple):
    """A part of the cost of a year, in money: with today's levels and with the new ones."""

    name: str
    today: float
    chosen: float

    @property
    def saving(self) -> float:
        return self.today - self.chosen


@dataclass(frozen=True)
class Board:
    """The figures of the first screen. Money is that of a year, `periods` of the plan's. Service is `by_value`, or the
    mean over items if none has a price."""

    money: Money
    periods: float
    by_value: bool
    all: ClassRow
    rows: Sequence[ClassRow]
    parts: Sequence[CostPart]
    changed: int

    @property
    def unit(self) -> Unit:
        """Returns the unit of savings."""
        return self.money.unit(row.saving for row in (self.all, *self.rows))

    @property
    def value_unit(self) -> Unit:
        """Returns the unit of the value of stock."""
        return self.money.unit(self.all.values)

    @property
    def shown(self) -> Sequence[ClassRow]:
        """Returns the rows of the table: all items, and their classes if there are several."""
        if len(self.rows) > 1:
            return [self.all, *self.rows]
        return [self.all]

    @property
    def part_unit(self) -> Unit:
        """Returns the unit of the parts of the cost."""
        return self.money.unit(
            amount for part in self.parts for amount in (part.today, part.chosen)
        )

    @property
    def saved_unit(self) -> Unit:
        """Returns the unit of what is saved of these parts: a smaller one if that is far less than they cost."""
        unit = self.money.unit(part.saving for part in self.parts)
        if unit.size * MOST_TIMES <= self.part_unit.size:
            return unit
        return self.part_unit

    @property
    def held(self) -> float:
        """Returns what the new levels save of holding stock."""
        return next(part.saving for part in self.parts if part.name == "stock")

    @property
    def picture(self) -> ServicePicture | None:
        """Returns service and stock before and after; None if nothing has a price."""
        fills = [
            100 * fill for row in self.shown for fill in row.fills if fill is not None
        ]
        if not self.by_value or not fills:
            return None
        size = self.value_unit.size
        values = [value / size for row in self.shown for value in row.values]
        least = max(0.0, min(fills) - LEAST_SERVICE)
        return ServicePicture(Scale.between(least, 100.0), Scale.of(values), size)


def size_of(sums: tuple[str, Totals]) -> tuple[float, str]:
    """Returns what sorts classes: what they save or lose."""
    name, totals = sums
    return -abs(totals["saving"]), name


def rows_of(
    classes: Mapping[str, Totals], periods: float, by_value: bool
) -> list[ClassRow]:
    """Returns the classes that save or lose most, in order of their names, and all others as one row."""
    ranked = sorted(classes.items(), key=size_of)
    most = MOST_CLASSES
    if len(ranked) > most:
        most -= 1
    rows = [
        ClassRow.of(name or NO_CLASS, [sums], periods, by_value)
        for name, sums in ranked[:most]
    ]
    rows.sort(key=itemgetter(0))
    others = [sums for _, sums in ranked[most:]]
    if others:
        rows.append(ClassRow.of(f"{len(others)} others", others, periods, by_value))
    return rows


def parts_of(totals: Totals, periods: float) -> list[CostPart]:
    """Returns what the parts of the cost come to in a year of so many periods."""
    return [
        CostPart(
            words,
            periods * totals[f"{name}_{TODAY}"],
            periods * totals[f"{name}_{CHOSEN}"],
        )
        for words, name in PARTS.items()
    ]


def board_of(folder: PlannedFolder, survey: Survey, money: Money) -> Board:
    """Returns the first screen of a plan."""
    totals, periods = survey.totals, float(periods_a_year(folder.every))
    by_value = totals["demand"] > 0
    return Board(
        money=money,
        periods=periods,
        by_value=by_value,
        all=ClassRow.of(ALL, [totals], periods, by_value),
        rows=rows_of(survey.classes, periods, by_value),
        parts=parts_of(totals, periods),
        changed=totals.compared - totals.verdicts[SAME],
    )
