"""Draws the test of a catalogue on its past as one HTML page: what was promised and what came."""
from __future__ import annotations

from collections.abc import Sequence

from ..plan.backtest.catalogue import Tested
from ..plan.backtest.one import Backtest
from ..plan.backtest.methods import PLANNED
from ..plan.backtest.sums import moves_of, sides_of
from ..read.item import Item
from .backtest_tables import class_rows, first_line, side_rows
from ..drawing.plots import Line, Plot, Scale, path_of
from ..drawing.rendering import percent, rendered
from .verdicts import METHOD_WORDS, gains_said, past_said

MOST_WORST = 12
MOST_STOCK = 300.0  # percent of that of the plan, which a picture shows
PROMISED = "of-promised"
LEAST_END = 99.0  # percent, up to which an axis of service begins
Tests = Sequence[tuple[Item, Backtest]]


def method_curves(tests: Sequence[Backtest]) -> dict[str, list[tuple[float, float]]]:
    """Returns by way its stock, in percent of that of the plan, and what it met at once with that, in percent, at
    each of its aims."""
    curves = dict[str, list[tuple[float, float]]]()
    for method, sides in sides_of(tests):
        curve, kept = sides.curve(method.code), sides.stock(PLANNED).sum() or 1.0
        points = list[tuple[float, float]]()
        for share, stocks in zip(curve.shares, curve.stocks):
            points.append((100 * float(stocks.sum() / kept), 100 - 100 * share))
        if points:
            curves[method.code] = points
    return curves


def curve_plot(tests: Sequence[Backtest], promised: float) -> Plot:
    """Returns what each way met at once by its stock, over its aims, with what was promised. Stocks are in percent of
    that of the plan."""
    curves, said = method_curves(tests), list[str]()
    for code, points in curves.items():
        (low, least), (high, most) = points[0], points[-1]
        name = METHOD_WORDS[code].name
        said.append(f"{name}: {least:.1f}% with {low:.0f}, {most:.1f}% with {high:.0f}")
    every = [point for points in curves.values() for point in points]
    across = Scale.of([min(MOST_STOCK, max((x for x, _ in every), default=0.0))])
    up = Scale.between(min([LEAST_END, *(y for _, y in every)]), 100.0, sign="%")
    lines = [Line(f"promised: {percent(promised)}", PROMISED, up.level(100 * promised))]
    for code, points in curves.items():
        shown = [(x, y) for x, y in points if x <= across.high]
        path = path_of(across, up, shown)
        lines.append(Line(METHOD_WORDS[code].name, METHOD_WORDS[code].style, path))
    return Plot(
        title="Demand met at once by stock, over the aims of each way",
        description=f"Stock in percent of the plan's. {'; '.join(said)}.",
        heights=up.heights,
        marks=across.marks,
        across="mean stock in money, in percent of the plan's",
        lines=lines,
    )


def missed(pair: tuple[Item, Backtest]) -> float:
    """Returns by how much of a period's mean demand an item missed its promise."""
    _, test = pair
    promised = test.planned.promised_fill or 0
    return (sum(test.planned.unmet) - (1 - promised) * sum(test.demands)) / (
        test.mean or 1
    )


def worst_of(tested: Tests) -> Tests:
    """Returns the items that missed most of their promised fill, in shares of their mean demand."""
    return sorted(tested, key=missed, reverse=True)[:MOST_WORST]


def summed_of(tested: Tested) -> Tests:
    """Returns the items whose tests count in the sums, with these."""
    return [
        (item, test)
        for item, test in tested.items
        if isinstance(test, Backtest) and test.mean > 0
    ]


def backtest_page(tested: Tested) -> str:
    """Returns the page of a catalogue's test on its past."""
    pairs = summed_of(tested)
    tests = [test for _, test in pairs]
    sums = tested.whole
    return rendered(
        "backtest.html",
        {
            "headline": first_line(sums),
            "tested": tested,
            "sums": sums,
            "verdict": past_said,
            "every": tested.every,
            "gains": gains_said,
            "sides": side_rows,
            "classes": class_rows(tested.sums),
            "moves": moves_of(tested.sums),
            "worst": worst_of(pairs),
            "curves": curve_plot(tests, sums.promised) if sums else None,
        },
    )
