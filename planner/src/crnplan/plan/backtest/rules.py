"""Rules of thumb beside the plans: what an order has to cover by a forecast, with a safety stock of a few lines.

The forecast is the mean of all periods before, or exponential smoothing, each with its squared error; or the mean of the
last periods, of which some more are covered. Source: Silver, Pyke and Thomas, Inventory and Production Management in
Supply Chains, fourth edition, 2017, chapters 4 (smoothing, and the mean squared error as the measure of spread) and 6
(order quantity, the safety factor of a wanted fill rate, and time supplies).
"""
from __future__ import annotations

import math
from collections.abc import Sequence
from typing import NamedTuple

import numpy as np
from scipy.special import ndtr

from ...chances import Floats
from ...demand.level import smoothed
from ...read.item import Item
from ..question import Levels

MOST_FACTOR = 8.0  # the largest safety factor, on either side
HALVINGS = 40
RECENT = 26  # The mean of so many last periods is covered.
COVERS = 0, 1, 2, 4, 8  # periods that are covered beside a lead time and a review


class Forecast(NamedTuple):
    """The mean of the demand of a period, and its squared error."""

    mean: float
    square: float


def averaged(demands: Sequence[int]) -> Forecast:
    """Returns the forecast by the mean of all periods before."""
    return Forecast(float(np.mean(demands)), float(np.var(demands, ddof=1)))


def smoothed_last(demands: Sequence[int]) -> Forecast:
    """Returns the forecast by exponential smoothing for the next period."""
    *_, last = smoothed([*demands, 0])
    return Forecast(*last)


def loss(factors: Floats) -> Floats:
    """Returns the mean of what a standard normal number is above each factor."""
    density = np.exp(-(factors**2) / 2) / np.sqrt(2 * np.pi)
    return np.asarray(density - factors * ndtr(-factors))


def safety_factors(shares: Sequence[float], quantity: float) -> Floats:
    """Returns the factors with which shares of demand are met at once, or of periods end without items owed: both have
    the same rule. The order quantity is in standard deviations."""
    unmet = (1 - np.array(shares)) * quantity
    low, high = np.full_like(unmet, -MOST_FACTOR), np.full_like(unmet, MOST_FACTOR)
    for _ in range(HALVINGS):
        middle = (low + high) / 2
        is_short = loss(middle) - loss(middle + quantity) > unmet
        low, high = np.where(is_short, middle, low), np.where(is_short, high, middle)
    return low


def wanted_share(item: Item) -> float:
    """Returns the wanted share, of demand at once or of periods without items owed, or else the latter that backlog and
    holding make best."""
    if item.wanted is not None:
        return float(item.wanted)
    assert item.backlog is not None
    return float(item.backlog / (item.backlog + item.holding))


def quantity_of(item: Item, mean: float) -> float:
    """Returns the order quantity of least cost, of a period at least."""
    best = float(2 * item.setup / item.holding) * mean
    return max(math.sqrt(best), mean, 1.0)


def pairs_of(points: Floats, quantity: float) -> list[Levels]:
    """Returns s and S by what is to be covered."""
    low = np.maximum(np.ceil(points), 0).astype(int)
    return [(s, s + math.ceil(quantity)) for s in low.tolist()]


def normal_levels(
    item: Item,
    shares: Sequence[float],
    forecast: Forecast,
    lead: float,
    variance: float,
) -> list[Levels]:
    """Returns s and S by a forecast, for each share that is to be met at once. An order must last for its lead time, in
    periods of this mean and variance, and until the next review.
    """
    mean, periods = max(forecast.mean, 0.0), lead + item.review
    deviation = math.sqrt(periods * forecast.square + mean**2 * variance)
    quantity, points = quantity_of(item, mean), np.full(len(shares), periods * mean)
    if deviation:
        points += deviation * safety_factors(shares, quantity / deviation)
    return pairs_of(points, quantity)


def cover_levels(item: Item, demands: Sequence[int], lead: float) -> list[Levels]:
    """Returns s and S by the mean of the last periods, for each number of periods that are covered beside the mean lead time
    and a review."""
    mean = max(float(np.mean(demands[-RECENT:])), 0.0)
    points = (lead + item.review + np.array(COVERS)) * mean
    return pairs_of(points, quantity_of(item, mean))
