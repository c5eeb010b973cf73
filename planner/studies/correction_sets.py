"""Yields the sets of series on which ways to correct fill rates are compared.

They are real series, as far as packages of R are installed, and made ones. Long series are cut into several sets by time;
of sets with more than 100 series every fifth is taken.
"""
from __future__ import annotations

from collections.abc import Iterator, Sequence
from typing import NamedTuple

import numpy as np
from scipy.signal import lfilter

from crnplan.chances import Floats
from planner.studies.real_series import Series, real_series
from planner.studies.walk_forward import MADE, MANY, STRIDE

LEAST_ITEMS = 10
SMALL = "small"  # a set for a test, in no table


class Catalogue(NamedTuple):
    """A set: its series, how many periods the record has, and after which one the last one ends."""

    name: str
    series: Sequence[Series]
    record: int
    stop: int


def _shifts(random: np.random.Generator, periods: int) -> Floats:
    """Draws demand whose level changes by chance, once in 40 periods, by a factor whose logarithm deviates by 0.5."""
    changes = np.where(
        random.random(periods) < 1 / 40, random.normal(0, 0.5, periods), 0.0
    )
    mean = np.exp(random.uniform(np.log(1), np.log(30)) + np.cumsum(changes))
    return random.negative_binomial(3, 3 / (3 + mean))


def _outbreaks(random: np.random.Generator, periods: int) -> Floats:
    """Draws demand with an outbreak once in 30 periods, which then falls by a quarter in each period."""
    starts = np.where(
        random.random(periods) < 1 / 30, random.exponential(8, periods), 0.0
    )
    level = lfilter([1], [1, -0.75], starts)
    return random.negative_binomial(
        3, 3 / (3 + np.exp(random.uniform(np.log(0.5), np.log(15))) * (1 + level))
    )


KINDS = {
    "steady": MADE["steady"],
    "promotions": MADE["promotions"],
    "shifts": _shifts,
    "outbreaks": _outbreaks,
}


def made(
    kind: str, number: int, record: int, items: int = 40, later: int = 52
) -> Catalogue:
    """Returns a made set."""
    random = np.random.default_rng([[*KINDS].index(kind), number, record])
    return Catalogue(
        f"{kind} {number}, {record}",
        [
            Series(
                f"{kind} {place}", tuple(KINDS[kind](random, record + later).tolist())
            )
            for place in range(items)
        ],
        record,
        record + later,
    )


def cut(
    name: str, series: Sequence[Series], record: int, later: int, step: int
) -> Iterator[Catalogue]:
    """Yields sets that begin after so many periods each, as long as ten series last."""
    lengths = sorted((len(one.counts) for one in series), reverse=True)
    last = lengths[min(LEAST_ITEMS, len(lengths)) - 1]
    for number, start in enumerate(range(0, last - record - later + 1, step), 1):
        taken = [
            one._replace(counts=one.counts[start:])
            for one in series
            if len(one.counts) >= start + record + later
        ]
        yield Catalogue(f"{name} {number}, {record}", taken, record, record + later)


# The record, the later periods, and after how many periods the next set of the same series begins.
CUTS = {
    "cheese": [(39, 22, 99)],
    "juice": [(52, 44, 99)],
    "prescriptions": [(13, 10, 99)],
    "homes": [(52, 52, 60)],
    **dict.fromkeys(
        ("cases", "flu", "measles", "rides"), [(52, 52, 260), (104, 52, 260)]
    ),
}


def catalogues(is_small: bool = False) -> Iterator[Catalogue]:
    """Yields the small set, and all others unless that is to be all."""
    yield made("shifts", 9, 26, 12, 26)._replace(name=SMALL)
    if is_small:
        return
    for number in (1, 2):
        yield from (
            made(kind, number, record) for kind in KINDS for record in (52, 104)
        )
    for name, series in real_series().items():
        taken = series[::STRIDE] if len(series) > MANY else series
        for record, later, step in CUTS.get(name, ()):
            yield from cut(name, taken, record, later, step)
