"""Reads the stock that a method needs for a share of demand met at once, on the curve of its aims.

At each aim the items of a class leave a share of demand unmet, and hold a stock, in money. Between two aims the stock is
read by the logarithm of what is unmet, in which the stock of a normal law is nearly straight. All is a sum of parts, of
items and periods, so that the error of what is read follows from how far each part moves it (the delta method; see
Cameron, Gelbach and Miller 2011, in `estimates.py`).
"""
from __future__ import annotations

import itertools
from collections.abc import Sequence
from dataclasses import dataclass
from functools import cached_property

import numpy as np

from ...chances import Floats

FLOOR = 0.05  # of the share that is read, added to all shares, so that nothing unmet has a logarithm


@dataclass(frozen=True)
class CurveReading:
    """A stock that was read on a curve, and by how much each part of the curve's sums moves it. These add up to it."""

    stock: float
    parts: Floats

    def with_more(self, parts: Floats) -> CurveReading:
        """Returns the stock with what each part costs beside."""
        return CurveReading(self.stock + float(parts.sum()), self.parts + parts)

    def beside(self, other: CurveReading) -> tuple[float, Floats]:
        """Returns by which share this stock is above another one of the same parts, and by how much each part moves
        that."""
        ratio = self.stock / other.stock
        return ratio - 1, (self.parts - ratio * other.parts) / other.stock


@dataclass(frozen=True)
class Curve:
    """What the aims of a method come to, the lowest first: a row for each with what each part leaves unmet of its demand,
    and with its stock. `asked` is the demand of each part."""

    asked: Floats
    unmet: Sequence[Floats]
    stocks: Sequence[Floats]

    @cached_property
    def shares(self) -> list[float]:
        """Returns the share of demand that each aim leaves unmet."""
        total = float(self.asked.sum())
        return [float(row.sum()) / total for row in self.unmet]

    def nearest(self, other: Curve, share: float) -> float | None:
        """Returns what is nearest to a share of demand unmet between the most and the least that aims of both curves leave;
        None if there is nothing in common, or a curve has no aims."""
        if not self.shares or not other.shares:
            return None
        least = max(min(self.shares), min(other.shares))
        most = min(max(self.shares), max(other.shares))
        return min(max(share, least), most) if least <= most else None

    def at(self, share: float) -> CurveReading | None:
        """Returns the stock that leaves a share of demand unmet; None if that is not between those of two aims."""
        for place, (high, low) in enumerate(itertools.pairwise(self.shares)):
            if share > 0 and high >= share >= low:
                return self._between(place, share)
        return None

    def _between(self, place: int, share: float) -> CurveReading:
        """Returns the stock that leaves a share unmet between an aim and the next one."""
        near, total = slice(place, place + 2), float(self.asked.sum())
        above = np.array(self.shares[near]) + FLOOR * share
        high, low = np.log(above)
        if high == low:
            return CurveReading(float(self.stocks[place].sum()), self.stocks[place])
        way = (high - np.log(share + FLOOR * share)) / (high - low)
        weights = np.array([1 - way, way])
        stocks = np.array(self.stocks[near])
        rows = np.array(self.unmet[near])
        moved = (
            (rows - np.outer(self.shares[near], self.asked)) / total / above[:, None]
        )
        step = float(stocks[1].sum() - stocks[0].sum()) / (high - low)
        parts: Floats = weights @ stocks + step * (weights @ moved)
        return CurveReading(float(weights @ stocks.sum(axis=1)), parts)
