"""Describes the pictures of an item's page: its history, and its laws."""
from __future__ import annotations

import itertools
from collections.abc import Iterable, Sequence
from typing import NamedTuple

from ..demand.fitted import QUANTILES
from ..demand.rate import at_rate
from ..plan.item import Depth
from ..read.item import Item
from ..drawing.plots import (
    HIGH,
    MEAN,
    OF_CHOSEN,
    OF_TODAY,
    Line,
    Plot,
    Scale,
    bars,
    marks_of,
    steps,
)
from ..drawing.rendering import number, tick

ALONE = "the law of this item alone"
MOST_BARS = 520
UNKNOWN = "; what is grey is not known"
OF_ALONE = "of-alone"  # the class of lines of the law of the item alone
Histogram = Sequence[tuple[int, int]]  # values with their weights


def drawn_demand(item: Item) -> tuple[list[int], list[bool]]:
    """Returns the demand of each period as it is drawn, of which nothing is if none was seen, and whether it is unknown."""
    unknown, cut = {*item.unknown}, {*item.cut}
    counts = list[int]()
    for place, count in enumerate(item.counts):
        counts.append(0 if place in unknown - cut else count)
    return counts, [place in unknown for place in range(len(counts))]


def gaps_of(is_unknown: Sequence[bool], scale: Scale) -> str:
    """Returns bars of full height where demand is unknown."""
    return bars([scale.high * is_gap for is_gap in is_unknown], scale)


def spanned(values: Sequence[float], digits: int) -> str:
    """Returns the least and the greatest of some values; one number if both are shown alike."""
    least, most = number(min(values), digits), number(max(values), digits)
    return least if least == most else f"{least} to {most}"


def history_plot(depth: Depth, names: Sequence[str], every: str) -> Plot:
    """Returns the demand by period as bars, of the last periods if they are many. Lines are the mean of the law, which
    counts in boxes, and what 99 of 100 periods do not exceed by it: with a season, as it is in each period.
    """
    item, law = depth.question.as_read, depth.question.all_year
    season, rates = depth.question.season, [1.0]
    if season and item.counts:
        rates = season.by_period[-MOST_BARS:].tolist()
    counts, is_unknown = drawn_demand(item)
    figures = {rate: law.like(at_rate(law, rate)).figures for rate in {*rates}}
    box = law.box
    means = [box * figures[rate].mean for rate in rates]
    highs = [box * figures[rate].quantiles[QUANTILES[1]] for rate in rates]
    mean_name = f"mean of the law: {spanned(means, 2)} a {every}"
    high_name = f"99 of 100 {every}s by the law: at most {spanned(highs, 0)}"
    shown, across = counts[-MOST_BARS:], every
    if len(counts) > MOST_BARS:
        across = f"{every}; the {len(counts) - MOST_BARS:,} before are not drawn"
    scale = Scale.of([*shown, *means, *highs], is_whole=True)
    if any(is_unknown):
        across += UNKNOWN
    return Plot(
        title=f"Demand by {every}, and the law that it is planned by",
        description=f"{mean_name}; {high_name}.",
        heights=scale.heights,
        marks=marks_of(names[-MOST_BARS:]) if names else [],
        across=across,
        lines=[
            steps(mean_name, MEAN, means, scale),
            steps(high_name, HIGH, highs, scale),
        ],
        bars=bars(shown, scale),
        gaps=gaps_of(is_unknown[-MOST_BARS:], scale),
    )


class DrawnLaw(NamedTuple):
    """A law of a period's demand, or what was seen of it: its class, and its values with their weights."""

    name: str
    css: str
    counts: Histogram

    @property
    def total(self) -> int:
        return sum(weight for _, weight in self.counts)

    def line(self, across: Scale, up: Scale) -> Line:
        """Returns the chances of larger demands as a line with a step behind each value."""
        path, total = "M0 0", self.total
        left = total
        for value, weight in self.counts:
            left -= weight
            path += f"H{across.at(value):g}V{up.down(left / total):g}"
        return Line(self.name, self.css, path)

    def said(self, ticks: Iterable[float]) -> str:
        """Returns in how many periods demand is at least so large."""
        shares = []
        for least in ticks:
            above = sum(weight for value, weight in self.counts if value >= least)
            shares.append(f"at least {tick(least)} in {above / self.total:.2%}")
        return f"{self.name}: {', '.join(shares)}"


def laws_drawn(depth: Depth) -> list[DrawnLaw]:
    """Returns what was seen, the law, and that of the item alone, but for laws that are as what was seen: with a season,
    all of the part of the year."""
    question = depth.question
    seen = [*zip(question.seen.values, question.seen.weights)]
    drawn = []
    if seen:
        drawn.append(DrawnLaw("what was seen", OF_TODAY, seen))
    for name, css, law in (
        ("the law", OF_CHOSEN, question.as_sold),
        (ALONE, OF_ALONE, depth.single),
    ):
        if law:
            counts = [*zip(law.values, law.weights)]
            if counts != seen:
                drawn.append(DrawnLaw(name, css, counts))
    return drawn


def law_plot(depth: Depth, every: str) -> Plot:
    """Returns in how many periods demand is at least so large, as it was seen, by the law, and by that of the item
    alone. Its words say it at the marks of the axis."""
    laws = laws_drawn(depth)
    ends, chances = [], []
    for law in laws:
        value, weight = law.counts[-1]
        ends.append(value)
        chances.append(weight / law.total)
    scale = Scale.of_chances(min(chances))
    across = Scale.of(ends, is_whole=True)
    things = "boxes" if depth.question.item.box > 1 else "items"
    ticks = [*filter(None, across.ticks)]
    return Plot(
        title=f"In how many {every}s demand is so large, as it was seen and by the law",
        description="; ".join(law.said(ticks) for law in laws) + ".",
        heights=scale.heights,
        marks=across.marks,
        across=f"{things} that a {every} asks for, at least",
        lines=[law.line(across, scale) for law in laws],
    )
