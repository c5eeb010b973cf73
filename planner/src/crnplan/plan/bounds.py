"""The bounds of an item's policies: which policies may be chosen.

A bound of S may leave no policy with a wanted fill rate, so only a stated one holds. If none is stated, S - s is bounded,
which is about what is ordered at once. That leaves a policy for each fill rate, since s and S may both be higher.
"""
from __future__ import annotations

import math
from dataclasses import replace
from fractions import Fraction

from ..formats import MOST_ITEMS
from ..law import Law
from ..read.bounds import OrderBounds
from ..theory.feasible import Feasible

# The periods of demand that S - s covers at most, if no coverage is stated: two years.
MOST_COVERAGE = {"day": Fraction(728), "week": Fraction(104), "month": Fraction(24)}
COVERAGES = COVERAGE, ORDER_COVERAGE = "coverage", "order_coverage"
SHELF_LIFE = "shelf_life"


def feasible_of(bounds: OrderBounds, box: int, demand: Law) -> Feasible:
    """Returns the policies within bounds, in boxes of so many items, as the demand of a period is.

    S is never held below the least s. What can be ordered bounds no level: the order is rounded up to that.
    """
    feasible = Feasible(-(-(bounds.s_min or 0) // box))
    if bounds.order_coverage is not None:
        most = math.floor(bounds.order_coverage * demand.mean)
        feasible = replace(feasible, most_gap=min(most, MOST_ITEMS))
    spans = [span for span in (bounds.coverage, bounds.shelf_life) if span is not None]
    if spans:
        most = max(math.floor(min(spans) * demand.mean), feasible.least_point)
        feasible = replace(feasible, most_level=min(most, MOST_ITEMS))
    return feasible
