"""The rows of the tables of what a plan says on a day, and their cells that are no facts of these."""
from __future__ import annotations

from collections.abc import Callable, Iterator, Mapping, Sequence
from dataclasses import dataclass
from typing import Any, NamedTuple

from ..plan.risk import Risk
from ..plan.standing import Worth, Standing
from ..plan.today import OrderGroup, Lying, Today
from ..read.item import Item
from ..read.observed import Day
from ..remarks import Remark
from .catalogue_tables import codes_of, words_of

CLASS, SUPPLIER = "class", "supplier"  # what items are grouped by


def supplier_file(place: int) -> str:
    """Returns the file of the order of a supplier, by its place: no name comes from masters."""
    return f"today_supplier_{place:03}.csv"


@dataclass(frozen=True)
class TodayRow:
    """An item on a day with what it stands at."""

    today: Today
    standing: Standing

    @property
    def item(self) -> Item:
        return self.standing.item

    @property
    def reasons(self) -> Sequence[Remark]:
        return self.today.reasons(self.standing)

    @property
    def latest(self) -> Day | None:
        return self.today.latest(self.standing)

    @property
    def number(self) -> str:
        """Returns the number of the order of its supplier."""
        return self.today.number(self.item.supplier)


@dataclass(frozen=True)
class UnknownRow:
    """An item of which nothing is known but why."""

    item: Item
    remark: Remark
    standing: None = None
    latest: None = None

    @property
    def reasons(self) -> Sequence[Remark]:
        return [self.remark]


class Listed(NamedTuple):
    """An item of a list of a day by the name of that: where it stands, or how it lies, and what that is worth."""

    name: str
    value: Worth
    standing: Standing | None = None
    lying: Lying | None = None
    weeks: float | None = None

    @property
    def of(self) -> Standing | Lying | None:
        return self.standing or self.lying

    @property
    def reasons(self) -> Sequence[Remark]:
        """Returns why it is ordered no longer."""
        return self.lying.reasons if self.lying else ()


def listed(today: Today) -> Iterator[Listed]:
    """Yields the items of each list: above S, dead, owed, and ordered no longer."""
    for it in today.above:
        yield Listed("above", it.excess, it, weeks=it.weeks_of(it.above))
    for lying in today.dead:
        yield Listed("dead", lying.value, lying=lying)
    for it in today.owed:
        yield Listed("owed", it.worth(it.hand.owed), it)
    for lying in today.ended:
        yield Listed(lying.item.past, lying.value, lying=lying)


@dataclass(frozen=True)
class GroupRow:
    """The items of a class or a supplier, by its role, on a day."""

    today: Today
    role: str
    group: OrderGroup

    @property
    def items(self) -> int:
        return len(self.group.standings)

    @property
    def orders(self) -> int:
        return len(self.group.due)

    @property
    def number(self) -> str:
        """Returns the number of today's order of a supplier; empty if nothing is ordered."""
        if self.group.due and self.role == SUPPLIER:
            return self.today.number(self.group.name)
        return ""

    @property
    def file(self) -> str:
        """Returns the file of today's order of a supplier that has one."""
        return supplier_file(self.today.place(self.group.name))


Reasoned = TodayRow | UnknownRow | Listed | Risk


def codes(row: Reasoned) -> str:
    return codes_of(row.reasons)


def said(row: Reasoned) -> str:
    return words_of(row.reasons)


def next_receipt(risk: Risk) -> Day | str:
    return risk.receipt or ""


CELLS: Mapping[str, Callable[[Any], Any]] = {
    "code": codes,
    "why": said,
    "next_receipt": next_receipt,
}
