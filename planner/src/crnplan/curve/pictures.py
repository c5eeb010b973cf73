"""Describes the exchange curve once, for its pictures on a page, in a file and in a workbook."""
from __future__ import annotations

from collections.abc import Iterable, Sequence
from typing import Any, NamedTuple

import numpy as np

from ..drawing.plots import OF_CHOSEN, Line, NamedPoint, Plot, Scale, path_of
from ..drawing.rendering import Money, percent
from .parts import Point

TITLE = "How much service the stock can give for its value"
AXIS, SERVICE, LINE = (
    "value of the mean stock",
    "demand met at once, by value",
    "one price for all items",
)
ROOM, BELOW = (
    1.35,
    4.0,
)  # times the greatest stock of a named point, and percent below the least service of one
BLUE, ORANGE, GREY, BLACK = "#08458c", "#e8862e", "#777777", "#000000"


class Marker(NamedTuple):
    """How a point is drawn: its colour, and its form, which differs without colour: as a spreadsheet names it, and in
    pixels around the point."""

    colour: str
    form: str
    path: str

    @property
    def of_sheet(self) -> dict[str, Any]:
        """Returns the marker as a chart of a spreadsheet has it."""
        colour = {"color": self.colour}
        return {"type": self.form, "size": 10, "fill": colour, "border": colour}


# Of the named points in their order.
MARKERS = (
    Marker(ORANGE, "circle", "M-6 0a6 6 0 1 0 12 0a6 6 0 1 0-12 0z"),
    Marker(GREY, "diamond", "M0-8 8 0 0 8-8 0z"),
    Marker(BLUE, "triangle", "M0-8 7.5 6-7.5 6z"),
    Marker(BLUE, "square", "M-6-6H6V6H-6z"),
    Marker(BLACK, "star", "M0-9 2.5-3 9-3 4 1.5 6 8 0 4-6 8-4 1.5-9-3-2.5-3z"),
)


def curve_ends(named: Iterable[Point]) -> tuple[float, float]:
    """Returns where the axis of stock ends, and that of service begins, in percent, by the named points of an exchange
    curve: the end of the curve is far away."""
    points = [*named]
    most = max(point.value for point in points)
    least = min(point.fill for point in points)
    return ROOM * most, max(0.0, 100 * least - BELOW)


def clipped(
    points: Sequence[tuple[float, float]], right: float, bottom: float
) -> list[tuple[float, float]]:
    """Returns the part of a rising curve up to a value and above a share, with the points where it crosses these. One
    point is left of a curve that lies elsewhere."""
    values, shares = np.array(sorted(points)).T
    places = np.unique(np.clip(values, np.interp(bottom, shares, values), right))
    return [*zip(places.tolist(), np.interp(places, values, shares).tolist())]


def exchange_plot(curve: Sequence[tuple[str, Point]], money: Money) -> Plot:
    """Returns the exchange curve as a line, and its named points: the value of stock against service in percent."""
    named = {name: point for name, point in curve if name}
    end, bottom = curve_ends(named.values())
    unit = money.unit([end])
    across = Scale.of([end / unit.size or 1.0])
    up = Scale.between(bottom, 100.0, sign="%")

    def place(point: Point) -> tuple[float, float]:
        return point.value / unit.size, 100 * point.fill

    points = list[NamedPoint]()
    for number, (name, point) in enumerate(named.items()):
        value, share = place(point)
        stock, met = money.exact(point.value), percent(point.fill, 2)
        said = f"{name}: {met} met at once with a stock of {stock}"
        x, y = round(across.at(value) / 10, 2), round(100 - up.at(share) / 10, 2)
        form = MARKERS[number].path
        points.append(NamedPoint(name, said, f"point-{number}", form, x, y))
    line = [place(point) for name, point in curve if not name]
    path = path_of(across, up, clipped(line, across.high, bottom))
    return Plot(
        title="Exchange curve: demand met at once against the value of the stock",
        description=f"{'; '.join(point.said for point in points)}.",
        heights=up.heights,
        marks=across.marks,
        across=money.heading(AXIS, unit),
        lines=[Line(LINE, OF_CHOSEN, path)],
        points=points,
    )
