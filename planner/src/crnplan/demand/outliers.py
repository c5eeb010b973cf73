"""Finds demands that lie far above all others."""
from __future__ import annotations

import functools
import math
from collections.abc import Sequence

import numpy as np
from scipy import special

# Demands far above all others: the chance to find one where there is none, how many are looked for, and among how many.
OUTLIERS = 0.01
MOST_OUTLIERS = 3
LEAST_DEMANDS = 10


@functools.cache
def rosner_bound(size: int, above: int, level: float) -> float:
    """Returns how many deviations above the mean the largest number may lie, if so many above it were taken away.

    Source: Rosner, Percentage points for a generalized ESD many-outlier procedure, 1983, with a level of one side.
    """
    left = size - above
    student = float(special.stdtrit(left - 2, 1 - level / left))
    return (left - 1) * student / math.sqrt((left - 2 + student**2) * left)


def outliers_of(demands: Sequence[int], pack: int) -> list[int]:
    """Returns the demands that lie far above all others, the largest first: at most three, by Rosner's test of the
    logarithms of the demands above 0, in packs. The variance of a rounding is added to theirs, since otherwise a 2
    among many demands of 1 would lie far above them."""
    ranked = sorted((demand for demand in demands if demand), reverse=True)
    if len(ranked) < LEAST_DEMANDS:
        return []
    packs = np.array(ranked) / pack
    far = 0
    logarithms = np.log(packs)
    roundings = 1 / (12 * packs**2)
    for above in range(MOST_OUTLIERS):
        left = len(packs) - above
        distances = logarithms[above:] - logarithms[above:].sum() / left
        variance = distances @ distances / (left - 1) + roundings[above:].sum() / left
        if distances[0] > rosner_bound(len(packs), above, OUTLIERS) * math.sqrt(
            variance
        ):
            far = above + 1
    return ranked[:far]
