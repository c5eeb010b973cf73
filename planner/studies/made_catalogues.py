"""Makes catalogues of items whose laws of demand are known, for the study of borrowing.

An item is a law of demand, the chances of 0, 1, 2 and so on, with its class. All demand is independent. The kinds
`DESIGNED` were used to design the method. Those of `UNSEEN` were written down before the first result was looked at.
"""
from __future__ import annotations

import math
from collections.abc import Callable
from typing import NamedTuple

import numpy as np
from scipy import stats

from crnplan.chances import Floats

LEAST_TAIL = 1e-10  # what is cut off a law


class Made(NamedTuple):
    """An item: its law of demand and its class."""

    law: Floats
    item_class: str = "one"


class Catalogue(NamedTuple):
    """Items with their histories."""

    items: list[Made]
    histories: list[list[int]]


def cut(chances: Floats) -> Floats:
    """Returns a law without the end of its tail."""
    above = np.cumsum(chances[::-1])[::-1]
    kept: Floats = chances[: int((above > LEAST_TAIL).sum())]
    return kept / kept.sum()


def near(
    random: np.random.Generator,
    median: float,
    deviation: float,
    low: float,
    high: float,
) -> float:
    """Draws a lognormal number with a median and a deviation of its logarithm, and keeps it within limits."""
    return float(
        np.clip(median * math.exp(deviation * random.standard_normal()), low, high)
    )


def share(random: np.random.Generator, first: float, second: float) -> float:
    """Draws the share of periods with demand from a beta law."""
    return float(np.clip(random.beta(first, second), 0.02, 0.9))


def negative_binomial(mean: float, size: float) -> Floats:
    """Returns a negative binomial law with a mean and a size k."""
    most = mean + 40 * math.sqrt(mean + mean * mean / size) + 60
    law: Floats = stats.nbinom.pmf(np.arange(int(most)), size, size / (size + mean))
    return cut(law)


def poisson(mean: float) -> Floats:
    """Returns a Poisson law."""
    return cut(
        stats.poisson.pmf(np.arange(int(mean + 12 * math.sqrt(mean) + 30)), mean)
    )


def hurdle(chance: float, sizes: Floats) -> Floats:
    """Returns the law of demand that is there with a chance, from the law of sizes 1, 2 and so on."""
    return cut(np.concatenate([[1 - chance], chance * sizes]))


def packed(law: Floats, pack: int) -> Floats:
    """Returns the law of the items in packs."""
    items = np.zeros((len(law) - 1) * pack + 1)
    items[::pack] = law
    return items


def intermittent(random: np.random.Generator) -> Made:
    """Draws an item of rare demand, of the family that the grid has; half of the items have geometric sizes."""
    chance, mean = share(random, 2, 12), near(random, 5, 0.6, 0.3, 40)
    size = 1.0 if random.random() < 0.5 else near(random, 1, 0.6, 0.3, 20)
    return Made(hurdle(chance, negative_binomial(mean, size)))


def parts_and_sellers(random: np.random.Generator) -> Made:
    """Draws a spare part or an item that sells in most periods, both with equal chances."""
    if random.random() < 0.5:
        sizes = negative_binomial(
            near(random, 6, 0.7, 0.3, 40), near(random, 0.8, 0.3, 0.3, 5)
        )
        return Made(hurdle(share(random, 2, 22), sizes), "part")
    return Made(
        negative_binomial(near(random, 8, 0.5, 1, 40), near(random, 6, 0.4, 1, 50)),
        "seller",
    )


def two_sizes(random: np.random.Generator) -> Made:
    """Draws an item of one of two classes alike in frequency, with sizes of mean 3 or 15."""
    large = random.random() < 0.5
    sizes = negative_binomial(
        near(random, 14 if large else 2, 0.3, 0.3, 40), near(random, 1, 0.3, 0.3, 20)
    )
    return Made(hurdle(share(random, 2, 12), sizes), "large" if large else "small")


def wide(random: np.random.Generator) -> Made:
    """Draws an item from all of the family: others say little of it."""
    chance = 1 / (1 + math.exp(-random.uniform(-3, 4)))
    mean = math.exp(random.uniform(math.log(0.3), math.log(40)))
    size = math.exp(random.uniform(math.log(0.3), math.log(30)))
    return Made(hurdle(chance, negative_binomial(mean, size)))


def odd_families(random: np.random.Generator) -> Made:
    """Draws an item outside the family: packs, projects beside a Poisson demand, or even sizes."""
    kind = int(random.integers(3))
    if kind == 0:
        return Made(
            packed(
                poisson(near(random, 0.4, 0.5, 0.08, 2)),
                int(random.choice([4, 6, 10, 12])),
            ),
            "packs",
        )
    if kind == 1:
        law, project = 0.95 * poisson(near(random, 2, 0.5, 0.5, 6)), int(
            random.integers(20, 41)
        )
        law = np.concatenate([law, np.zeros(max(0, project + 1 - len(law)))])
        law[project] += 0.05
        return Made(law / law.sum(), "projects")
    most = int(random.integers(4, 21))
    return Made(hurdle(share(random, 2, 8), np.full(most, 1 / most)), "even")


def customers(random: np.random.Generator) -> Made:
    """Draws an item of a Poisson number of customers, each of whom takes a rounded lognormal number.

    The transform of such a law is e^(rate * (that of the sizes - 1)) (Feller, An Introduction to Probability Theory and
    Its Applications, volume I, section XII.2).
    """
    rate, median = near(random, 0.3, 0.9, 0.03, 3), near(random, 4, 0.6, 1, 20)
    deviation = near(random, 0.8, 0.3, 0.3, 1.5)
    cells = int(median * math.exp(4 * deviation)) + 2
    sizes = np.diff(
        stats.lognorm(deviation, scale=median).cdf(np.arange(cells) + 0.5), prepend=0.0
    )
    sizes[1] += sizes[0]
    sizes[0] = 0.0
    room = 1 << (4 * cells).bit_length()
    law = np.fft.irfft(
        np.exp(rate * (np.fft.rfft(sizes / sizes.sum(), room) - 1)), room
    )
    return Made(cut(np.clip(law, 0, None)))


def shop(random: np.random.Generator) -> Made:
    """Draws a steady Poisson seller, a spare part with sizes of 1 plus a Poisson number, or packs."""
    kind = int(random.integers(3))
    if kind == 0:
        return Made(poisson(near(random, 10, 0.6, 2, 40)), "steady")
    if kind == 1:
        return Made(
            hurdle(share(random, 1.5, 30), poisson(near(random, 1, 0.6, 0.1, 5))),
            "part",
        )
    return Made(
        packed(
            poisson(near(random, 0.6, 0.6, 0.1, 3)), int(random.choice([5, 6, 10, 24]))
        ),
        "packs",
    )


def alike(random: np.random.Generator) -> Made:
    """Draws an item of a tight catalogue: demand in 15% of periods, geometric sizes of mean 5, all but the same."""
    return Made(
        hurdle(
            share(random, 60, 340),
            negative_binomial(near(random, 4, 0.1, 0.3, 40), 1.0),
        )
    )


DESIGNED: dict[str, Callable[[np.random.Generator], Made]] = {
    "intermittent": intermittent,
    "parts and sellers": parts_and_sellers,
    "two sizes": two_sizes,
    "wide": wide,
    "odd families": odd_families,
}
UNSEEN: dict[str, Callable[[np.random.Generator], Made]] = {
    "customers": customers,
    "shop": shop,
}
KINDS = DESIGNED | UNSEEN | {"alike": alike}


def drawn(law: Floats, periods: int, random: np.random.Generator) -> list[int]:
    """Draws a history."""
    places = np.searchsorted(np.cumsum(law)[:-1], random.random(periods), side="right")
    return [int(it) for it in places]


def catalogue(kind: str, items: int, periods: int, seed: int) -> Catalogue:
    """Makes a catalogue. The same seed makes the same one."""
    random = np.random.default_rng([[*KINDS].index(kind), periods, seed])
    made = [KINDS[kind](random) for _ in range(items)]
    return Catalogue(made, [drawn(it.law, periods, random) for it in made])
