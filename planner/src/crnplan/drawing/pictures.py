"""Draws results as pictures that a notebook shows and a file keeps, with their own colours and texts.

They are those of pages. All can be read in grey.
"""
from __future__ import annotations

import re
from collections.abc import Iterable, Mapping, Sequence
from dataclasses import dataclass, field
from pathlib import Path
from typing import NamedTuple

from ..store.files import named_bytes
from .plots import OF_CHOSEN, UNITS, Line, AxisMark, Plot, Scale
from .rendering import rendered, templates

# In pixels: of a picture and of a plot; of a line of a legend, or a row; above all plots; above and below each.
WIDTH, HEIGHT, LINE = 760, 280, 22
HEAD, GAP, FOOT = 42, 12, 60
MARGIN, LETTER, MOST_LETTERS = 24, 9, 30  # at the left, by the letters there
ROW = "row"  # the class of a row's name
MOST_BARS = 15  # items whose savings are drawn


@dataclass(frozen=True)
class Picture:
    """A picture as SVG, which a notebook shows."""

    title: str
    svg: str = field(repr=False)

    @classmethod
    def of(cls, plots: Sequence[Plot], title: str = "") -> Picture:
        """Draws plots one below another, with the title of the first one or another."""
        parts, top = list[PicturePart](), HEAD
        for plot in plots:
            parts.append(PicturePart(plot, top, plot.title if title else ""))
            top = parts[-1].bottom
        title = title or plots[0].title
        facts = {"title": title, "parts": parts, "width": WIDTH, "height": top}
        return cls(title, rendered("picture.svg", {**facts, "style": style()}))

    def _repr_svg_(self) -> str:
        return self.svg

    def save(self, path: str | Path) -> None:
        """Writes the picture into a file that the user has named. Raises Refused if it cannot be written."""
        with named_bytes(Path(path)) as file:
            file.write(self.svg.encode("utf-8"))


class PicturePart(NamedTuple):
    """A plot of a picture, which begins so many pixels below its upper edge, perhaps with a title of its own."""

    plot: Plot
    top: int
    title: str

    @property
    def named(self) -> list[Line]:
        """Returns the lines of the legend."""
        return [line for line in self.plot.lines if line.name]

    @property
    def keys(self) -> int:
        """Returns how far down the legend begins."""
        return self.top + LINE * bool(self.title)

    @property
    def frame(self) -> int:
        """Returns how far down the legend ends and the plot begins."""
        count = len(self.named) + len(self.plot.points)
        return self.keys + LINE * count + GAP

    @property
    def height(self) -> int:
        """Returns the height of the plot, by its rows if it has some."""
        rows = [css for _, _, css in self.plot.heights if css == ROW]
        return LINE * len(rows) or HEIGHT

    @property
    def left(self) -> int:
        """Returns how far to the right the plot begins, by what is written beside it."""
        return MARGIN + LETTER * max(len(text) for _, text, _ in self.plot.heights)

    @property
    def bottom(self) -> int:
        return self.frame + self.height + FOOT


def style() -> str:
    """Returns the style of pictures with the light colours in place of their names, which few programs know."""
    texts = templates(False)
    light, _, _ = texts.get_template("palette.css").render().partition("}")
    colours: dict[str, str] = dict(re.findall(r"--(\w+): ([^;]+);", light))
    both = (texts.get_template(f"{name}.css").render() for name in ("plots", "picture"))
    return re.sub(r"var\(--(\w+)\)", lambda name: colours[name[1]], "\n".join(both))


def rows_of(names: Iterable[str]) -> list[AxisMark]:
    """Returns the middles of rows, the first at the top, with their names."""
    shown = [
        f"{name[:MOST_LETTERS]}…" if name[MOST_LETTERS:] else name for name in names
    ]
    size = UNITS / len(shown)
    return [
        (UNITS - (place + 0.5) * size, name, ROW) for place, name in enumerate(shown)
    ]


def savings_picture(savings: Mapping[str, float], money: str) -> Picture:
    """Draws what the chosen policies of items save, or lose, most above, in so much money."""
    most = sorted(savings, key=lambda name: -abs(savings[name]))[:MOST_BARS]
    names = sorted(most, key=lambda name: -savings[name])
    across = Scale.of([savings[name] for name in names])
    rows, path = rows_of(names), ""
    half = 0.4 * UNITS / len(rows)
    for name, (middle, _, _) in zip(names, rows):
        top, zero = UNITS - middle - half, across.at(0)
        path += f"M{zero:g} {top:g}H{across.at(savings[name]):g}v{2 * half:g}H{zero:g}z"
    title = "Items with the greatest savings and losses"
    said = f"saving of the chosen policy beside today's, in {money}"
    lines = [Line("", "zero", f"M{across.at(0):g} 0v{UNITS:g}")]
    plot = Plot(title, title, rows, across.marks, said, lines, bars=path)
    return Picture.of([plot])
