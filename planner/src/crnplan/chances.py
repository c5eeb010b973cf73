"""Computes with laws as arrays: the chances of 0, 1, 2 and so on."""
from __future__ import annotations

from collections.abc import Iterable
from typing import Any

import numpy as np
import numpy.typing as npt

from .compiled import compiled
from .formats import MOST_DEMAND

Floats = npt.NDArray[np.float64]
Whole = npt.NDArray[np.int64]

LEAST_TAIL = 1e-7  # what is cut off a law
DEMANDS = np.arange(MOST_DEMAND + 1)  # all that a scenario can have


@compiled
def add_times(total: Floats, row: Floats, weight: float) -> None:
    """Adds a row, times a weight, to a total of as many cells. By itself, the loop takes several cells at a time."""
    for cell in range(len(total)):
        total[cell] += weight * row[cell]


def scaled(chances: Floats) -> Floats:
    """Returns chances with a sum of 1."""
    return np.asarray(chances / chances.sum())


def cut(chances: Floats) -> Floats:
    """Returns a law without the end of its tail, with a sum of 1."""
    below = np.cumsum(chances)
    return scaled(
        chances[: int(np.searchsorted(below, below[-1] * (1 - LEAST_TAIL))) + 1]
    )


def in_items(chances: Floats, pack: int) -> Floats:
    """Returns the law of the items in packs of which this is the law, up to the greatest demand of a scenario."""
    items = np.zeros((len(chances) - 1) * pack + 1)
    items[::pack] = chances
    return scaled(items[: MOST_DEMAND + 1])


def mixture(parts: Iterable[tuple[float, Floats]]) -> Floats:
    """Returns the mixture of laws with these shares."""
    laws = [*parts]
    chances = np.zeros(max(len(law) for _, law in laws))
    for share, law in laws:
        chances[: len(law)] += share * law
    return chances


def blurred(chances: Floats, part: Any, axis: int = 0) -> Floats:
    """Returns chances of which a part of each goes to each neighbour along an axis. At an edge it stays."""
    lines = np.moveaxis(chances, axis, 0)
    below = np.concatenate([lines[:1], lines[:-1]])
    above = np.concatenate([lines[1:], lines[-1:]])
    return np.moveaxis((1 - 2 * part) * lines + part * (below + above), 0, axis)
