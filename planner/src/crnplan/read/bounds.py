"""The bounds of the orders and the levels of an item, as its masters or its settings state them."""
from __future__ import annotations

from dataclasses import dataclass
from fractions import Fraction

from ..policies import Lot


@dataclass(frozen=True)
class OrderBounds:
    """What a buyer can order and keep of an item; None where nothing is stated.

    Orders are rounded up to packs of `pack` items, and have at least `order_min` items. s is at least `s_min` items. S is at
    most the mean demand of `coverage` periods, and of `shelf_life` periods, in which items must be used. S - s is at
    most the mean demand of `order_coverage` periods, which no master states: it holds where no coverage is stated.
    """

    pack: int = 1
    order_min: int | None = None
    s_min: int | None = None
    coverage: Fraction | None = None
    shelf_life: Fraction | None = None
    order_coverage: Fraction | None = None

    @property
    def lot(self) -> Lot:
        """Returns what can be ordered."""
        return Lot(self.pack, self.order_min or 0)
