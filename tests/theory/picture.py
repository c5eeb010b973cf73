"""Draws docs/theory.svg: what crnsim estimates, beside what theory expects (samples.py).

The same samples always give the same file; texts stay texts.
"""
from __future__ import annotations

import math
from collections.abc import Iterator, Sequence
from typing import Any

from crnplan.drawing.plots import HIGH
from crnplan.drawing.plots import OF_TODAY, UNITS, Line, Plot, Scale, bars, path_of
from crnplan.drawing.pictures import Picture

NORMAL_95 = 1.959964
MOST_Z, STEPS = 4, 2  # of the histogram, with so many bars for each unit of z
TITLE = "Mean costs by crnsim, less the exact ones by theory"


def caption_of(zs: Sequence[float]) -> str:
    """Returns the line below the picture, from the z of each policy's mean cost with each key."""
    mean = sum(zs) / len(zs)
    deviation = math.sqrt(sum((z - mean) ** 2 for z in zs) / (len(zs) - 1))
    return (
        f"{len(zs):,} mean costs: greatest |z| {max(map(abs, zs)):.2f}, mean of z {mean:.3f}, "
        f"standard deviation of z {deviation:.3f}"
    )


def deviations_of(
    samples: Any, costs: Sequence[Sequence[float]]
) -> Iterator[tuple[float, float]]:
    """Yields the deviation of each policy's mean cost over all keys from the expected one, in % of the expected cost.

    With it comes half the width of its 95% interval, in % too.
    """
    for sample, expected in zip(samples, costs):
        for place, cost in enumerate(expected):
            keys = [key[place][0] for key in sample]
            mean = float(sum(it[0] for it in keys)) / len(keys)
            error = math.sqrt(float(sum(it[1] for it in keys))) / len(keys)
            yield 100 * (mean / cost - 1), 100 * NORMAL_95 * error / cost


def intervals_plot(
    deviations: Sequence[tuple[float, float]], groups: Sequence[str]
) -> Plot:
    """Returns each policy's deviation with its interval, group by group; every second group has a ground."""
    count, most = len(deviations), max(abs(off) + width for off, width in deviations)
    up = Scale.between(-most, most, sign="%")
    paths = {OF_TODAY: "", HIGH: ""}
    for place, (off, width) in enumerate(deviations):
        across, low, high = UNITS * (place + 0.5) / count, off - width, off + width
        css = HIGH if abs(off) > width else OF_TODAY
        paths[css] += f"M{across:.1f} {up.down(high):g}V{up.down(low):g}"
    missing = sum(abs(off) > width for off, width in deviations)
    part = UNITS / len(groups)
    marks = [(part * (place + 0.5), name, "") for place, name in enumerate(groups)]
    grounds = [
        f"M{part * it} 0h{part}v{UNITS}h-{part}z" for it in range(0, len(groups), 2)
    ]
    return Plot(
        title="Estimated less exact mean cost of each policy, with its 95% interval",
        description=f"{count} policies in {len(groups)} groups: {', '.join(groups)}.",
        heights=up.heights,
        marks=marks,
        across=f"{count} policies, by their law of demand",
        lines=[
            Line("holds 0", OF_TODAY, paths[OF_TODAY]),
            Line(
                f"misses 0: {missing} do, and {count // 20} are expected to",
                HIGH,
                paths[HIGH],
            ),
        ],
        gaps="".join(grounds),
    )


def histogram(zs: Sequence[float]) -> Plot:
    """Returns the shares of all z as bars, with the standard normal density."""
    counts = [0] * (2 * STEPS * MOST_Z)
    for z in zs:
        counts[min(max(math.floor(STEPS * (z + MOST_Z)), 0), len(counts) - 1)] += 1
    up, across = Scale.of([0.5]), Scale.between(-MOST_Z, MOST_Z)
    places = [place / 20 for place in range(-20 * MOST_Z, 20 * MOST_Z + 1)]
    normal = [(z, math.exp(-z * z / 2) / math.sqrt(2 * math.pi)) for z in places]
    return Plot(
        title="Density of z, a deviation over its standard error",
        description=caption_of(zs),
        heights=up.heights,
        marks=across.marks,
        across=caption_of(zs),
        lines=[Line("standard normal density", HIGH, path_of(across, up, normal))],
        bars=bars([STEPS * count / len(zs) for count in counts], up),
    )


def draw(
    path: str,
    samples: Any,
    costs: Sequence[Sequence[float]],
    groups: Sequence[str],
    zs: Sequence[float],
) -> None:
    """Draws the picture into a file."""
    deviations = [*deviations_of(samples, costs)]
    Picture.of([intervals_plot(deviations, groups), histogram(zs)], TITLE).save(path)
