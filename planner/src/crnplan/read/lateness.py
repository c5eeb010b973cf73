"""Computes how late suppliers are: what the receipts of their orders took beside the lead times that masters state."""
from __future__ import annotations

import math
from collections.abc import Iterator
from dataclasses import dataclass, field
from fractions import Fraction

from ..remarks import Remark
from .catalogue_reading import Catalogued
from .leads import LEAST_RECEIPTS, RECEIPTS, UNLIKE, counts_receipts, is_late

SHARE = Fraction(9, 10)  # of receipts, which take no longer than their quantile
MOST_SUPPLIERS = 5  # that are named


@dataclass
class Lateness:
    """What the receipts of a supplier took: their `days`, and of those with a lead time that is `stated` this, and how many
    were late. `unused` ones count for no lead time of the plan.
    """

    supplier: str
    items: int = 0
    days: list[int] = field(default_factory=list)
    stated: list[Fraction] = field(default_factory=list)
    late: int = 0
    unused: int = 0

    def add(
        self, receipts: tuple[int, ...], stated: Fraction | None, lead_from: str
    ) -> None:
        """Adds the receipts of an item."""
        self.items += 1
        self.days += receipts
        if not counts_receipts(stated is not None, len(receipts), lead_from):
            self.unused += len(receipts)
        if stated is not None:
            self.stated += [stated] * len(receipts)
            self.late += sum(is_late(days, stated) for days in receipts)

    @property
    def share(self) -> float | None:
        """Returns the share of receipts that took longer than stated; None if nothing is stated."""
        return self.late / len(self.stated) if self.stated else None

    @property
    def mean_stated(self) -> float | None:
        return float(sum(self.stated) / len(self.stated)) if self.stated else None

    @property
    def seen(self) -> float:
        return sum(self.days) / len(self.days)

    @property
    def quantile(self) -> int:
        """Returns the least number of days that at least `SHARE` of the receipts did not exceed."""
        return sorted(self.days)[math.ceil(SHARE * len(self.days)) - 1]

    @property
    def order(self) -> tuple[bool, float, str]:
        """Returns what sorts the latest supplier first."""
        return self.share is None, -(self.share or 0.0), self.supplier


def suppliers_of(read: Catalogued) -> list[Lateness]:
    """Returns how late suppliers are, the latest first: those of planned items with receipts."""
    known: dict[str, Lateness] = {}
    if "orders" not in read.fact("counts")["files"]:
        return []
    lead_from = read.fact("told").get("lead_from", RECEIPTS)
    for supplier, receipts, stated in read.values("supplier", "receipts", "stated"):
        if receipts:
            known.setdefault(supplier, Lateness(supplier)).add(
                receipts, stated, lead_from
            )
    return sorted(known.values(), key=lambda lateness: lateness.order)


def receipt_remarks(read: Catalogued) -> Iterator[Remark]:
    """Yields how many receipts are not used, and the suppliers who are late with more than a tenth of several."""
    suppliers = suppliers_of(read)
    unused = sum(supplier.unused for supplier in suppliers)
    if unused:
        yield Remark("unused receipts", {"receipts": unused, "least": LEAST_RECEIPTS})
    late = list[Lateness]()
    for supplier in suppliers:
        compared = len(supplier.stated)
        if compared >= LEAST_RECEIPTS and supplier.late > UNLIKE * compared:
            late.append(supplier)
    for supplier in late[:MOST_SUPPLIERS]:
        yield Remark(
            "late supplier",
            {
                "supplier": supplier.supplier,
                "receipts": len(supplier.days),
                "seen": supplier.seen,
                "stated": supplier.mean_stated,
                "late": supplier.share,
            },
        )
