"""Makes pictures from numbers, for pages and files: scales, marks and lines.

Shapes of a picture are SVG, in thousandths of its width and height. Words and numbers beside them do not stretch, so they
stay readable if the picture is narrow. Pictures by matplotlib would triple an item's page, be white in a dark theme, and
have letters of 5 pixels on a phone.
"""
from __future__ import annotations

import math
from collections.abc import Iterable, Sequence
from typing import NamedTuple

from .rendering import tick

UNITS = 1000  # of the width, and of the height, of a picture
MOST_TICKS = 5  # at an axis
STEPS = 1.0, 2.0, 2.5, 5.0  # their distances but for powers of ten
SLACK = 1e-10  # of a number of steps, which is rounded
MOST_SIGNS = 12  # of texts at an axis that have room on a narrow page
MARKS = 4  # parts of an axis between names
BAR = 0.85  # of the width of a period
# The classes of lines: of today's policy or what was seen, and of the chosen policy or its law.
OF_TODAY, OF_CHOSEN = "of-today", "of-chosen"
# The classes of lines of a mean, and of what is seldom exceeded.
MEAN, HIGH = "of-mean", "of-high"
AxisMark = tuple[float, str, str]  # its place, its text and its class


def round_steps(least: float, is_whole: bool) -> list[float]:
    """Returns round distances up to the first one that is at least so large, the largest first."""
    power = math.log10(least) // 1
    steps = [digit * 10.0 ** (power + more) for more in (-1, 0, 1) for digit in STEPS]
    if is_whole:
        steps = [1.0, *(step for step in steps if step > 1 and step == round(step))]
    while len(steps) > 1 and steps[-2] >= least:
        steps.pop()
    return steps[::-1]


def round_numbers(low: float, high: float, is_whole: bool) -> tuple[float, ...]:
    """Returns the multiples of a round step in a range: some five, or two at least, and whole ones if there are two."""
    has_whole = is_whole and math.floor(high) > math.ceil(low)
    ticks: tuple[float, ...] = ()
    for step in round_steps((high - low) / MOST_TICKS, has_whole):
        first, last = math.ceil(low / step - SLACK), math.floor(high / step + SLACK)
        multiples = [place * step for place in range(first, last + 1)]
        ticks = tuple(value for value in multiples if low <= value <= high)
        if len(ticks) > 1:
            break
    return ticks


class Scale(NamedTuple):
    """A range of values and round numbers in it, perhaps in percent; or of the logarithms of chances, and powers of
    ten."""

    low: float
    high: float
    ticks: tuple[float, ...]
    is_of_chances: bool = False
    sign: str = ""

    @classmethod
    def of(
        cls, values: Sequence[float], is_whole: bool = False, sign: str = ""
    ) -> Scale:
        """Returns the scale of these values and 0. `is_whole` keeps its round numbers whole."""
        low, high = min(0.0, *values), max(0.0, *values)
        return cls.between(low, high if high > low else low + 1, is_whole, sign)

    @classmethod
    def between(
        cls, low: float, high: float, is_whole: bool = False, sign: str = ""
    ) -> Scale:
        return cls(low, high, round_numbers(low, high, is_whole), sign=sign)

    @classmethod
    def of_chances(cls, least: float) -> Scale:
        """Returns the scale of chances from the least one, which is above 0, to 1 at the top."""
        exponent = min(math.floor(math.log10(least)), -1)
        powers = tuple(10.0**power for power in range(exponent, 1))
        return cls(exponent, 0, powers, True)

    def at(self, value: float) -> float:
        """Returns the place of a value, from 0 to 1,000; 0 for no chance."""
        if self.is_of_chances:
            value = math.log10(value) if value > 0 else self.low
        return round(UNITS * (value - self.low) / (self.high - self.low), 1)

    def down(self, value: float) -> float:
        """Returns how far a value stands below the upper edge of a picture, as SVG counts."""
        return UNITS - self.at(value)

    def level(self, value: float) -> str:
        """Returns the path of a line at a value, from one side to the other."""
        return f"M0 {self.down(value):g}H{UNITS}"

    def word(self, value: float) -> str:
        """Returns the text of a round number."""
        if self.is_of_chances:
            return f"1 in {1 / value:,.0f}"
        return tick(value) + self.sign

    @property
    def heights(self) -> list[AxisMark]:
        """Returns the places at an axis, their texts and the class of their lines."""
        return [
            (self.at(value), self.word(value), "gridline" if value else "zero")
            for value in self.ticks
        ]

    @property
    def marks(self) -> list[AxisMark]:
        """Returns the places at an axis below a narrow picture, their texts and their class: that of inner ones, which
        a narrow page leaves out, if there is no room for all."""
        words = [tick(value) for value in self.ticks]
        is_long = len("".join(words)) > MOST_SIGNS
        outer = {0.0, self.ticks[0], self.ticks[-1]}
        marks = []
        for value, word in zip(self.ticks, words):
            css = "inner" if is_long and value not in outer else ""
            marks.append((self.at(value), word, css))
        return marks


class Line(NamedTuple):
    name: str
    css: str
    path: str


def path_of(across: Scale, up: Scale, points: Iterable[tuple[float, float]]) -> str:
    """Returns the path of a line through points."""
    places = [f"{across.at(x):g} {up.down(y):g}" for x, y in points]
    return f"M{'L'.join(places)}"


def bars(heights: Sequence[float], scale: Scale) -> str:
    """Returns the path of bars, one for each period."""
    width = UNITS / max(len(heights), 1)
    path = ""
    for place, height in enumerate(heights):
        if height:
            top = f"V{scale.down(height):g}h{BAR * width:.1f}V{UNITS}z"
            path += f"M{place * width:.1f} {UNITS}{top}"
    return path


def steps(name: str, css: str, heights: Sequence[float], scale: Scale) -> Line:
    """Returns a line with a step for each period."""
    path = f"M0 {scale.down(heights[0]):g}"
    for place, height in enumerate(heights, 1):
        path += f"V{scale.down(height):g}H{UNITS * place / len(heights):g}"
    return Line(name, css, path)


class NamedPoint(NamedTuple):
    """A named point of a picture: what it says, its style and form, and where it stands, in percent of the picture."""

    name: str
    said: str
    css: str
    form: str
    x: float
    y: float


class Plot(NamedTuple):
    """A picture: what it shows, as a title and in figures; the marks upwards, and the marks and the name of the axis
    across. Bars are a path, and so are gaps: periods that are not known."""

    title: str
    description: str
    heights: Sequence[AxisMark]
    marks: Sequence[AxisMark]
    across: str
    lines: Sequence[Line]
    bars: str = ""
    gaps: str = ""
    points: Sequence[NamedPoint] = ()


def marks_of(names: Sequence[str]) -> list[AxisMark]:
    """Returns some names at an axis: their places, and their class. A narrow page has no room for the inner ones."""
    last = len(names) - 1
    marks = []
    places = [round(last * part / MARKS) for part in range(MARKS + 1)]
    for part, place in enumerate(dict.fromkeys(places)):
        css = "inner" if part % 2 else ""
        if place == 0:
            css = "first"
        if place == last:
            css = "last"
        marks.append((UNITS * place / max(last, 1), names[place], css))
    return marks
