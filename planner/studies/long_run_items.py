"""Makes items of a synthetic catalogue: three years of weekly demand, lead times, costs, and today's policy.

Of 100 items 9 move fast, 36 smoothly, 43 intermittently, 11 in lumps, and 1 very fast. Some are new, some come in packs
of 10, some come back. A quarter has lead times from its orders, some others have several. For 60% being short has a
cost, of 9 to 99 times holding. The others are to meet a share of the demand at once.
"""
from __future__ import annotations

import math
from collections import Counter
from collections.abc import Iterator
from dataclasses import dataclass

import numpy as np

from crnplan.formats import MOST_DEMAND, MOST_LEAD
from crnplan.law import Law

WEEKS = 156
KINDS = ["fast", "smooth", "intermittent", "lumpy", "very_fast"]
MOST_RATE = 10_000
MOST_SETUP = 100_000_000


@dataclass(frozen=True)
class Item:
    """An item: laws by week, whole costs, today's levels, and the share of demand to meet at once, if that is asked."""

    number: int
    demand: Law
    returns: Law | None
    lead: Law
    setup: int
    holding: int
    backlog: int
    fill: float | None
    today: tuple[int, int]


def quantities(
    rng: np.random.Generator, kind: str, weeks: int
) -> Iterator[tuple[int, int]]:
    """Yields what is asked for and what comes back in each week."""
    mean = 0.0
    if kind in ("fast", "very_fast", "smooth"):
        low, high = {"fast": (20, 600), "very_fast": (3000, 30000), "smooth": (1, 20)}[
            kind
        ]
        mean = math.exp(rng.uniform(math.log(low), math.log(high)))
    rare, size = (
        ((0.05, 0.35), (0.0, math.log(20)))
        if kind == "intermittent"
        else ((0.01, 0.06), (math.log(2), math.log(120)))
    )
    chance, size_mean = rng.uniform(*rare), math.exp(rng.uniform(*size))
    pack = 10 if rng.random() < 0.08 and kind in ("fast", "very_fast") else 1
    has_returns = rng.random() < 0.04 and kind in ("smooth", "fast")
    for _ in range(weeks):
        if mean:
            shape = max(1.0, mean / rng.choice([1.5, 3])) if kind != "smooth" else 3.0
            asked = (
                round(int(rng.negative_binomial(shape, shape / (shape + mean))) / pack)
                * pack
            )
            lines = (
                [asked]
                if kind == "smooth"
                else [
                    int(it) for it in rng.multinomial(asked // pack, [0.2] * 5) * pack
                ]
            )
        else:
            asked = (
                int(rng.geometric(1 / max(1.0001, size_mean)))
                if rng.random() < chance
                else 0
            )
            rng.integers(5)
            lines = [asked]
        yield asked, sum(
            int(rng.binomial(it, 0.25)) if has_returns and rng.random() < 0.6 else 0
            for it in lines
            if it
        )


def lead_times(
    rng: np.random.Generator, lead: int, by_orders: bool, several: bool
) -> list[int]:
    """Returns lead times in weeks: from days of single orders, from a list, or one."""
    if by_orders:
        found = []
        for _ in range(int(rng.integers(4, 25))):
            rng.integers(0, WEEKS - lead - 4)
            rng.integers(5)
            found.append(-(-max(2, int(rng.normal(7 * lead, 3.5))) // 7))
            rng.random()
        return found
    return (
        [max(1, lead + int(it)) for it in rng.integers(-1, 3, 6)] if several else [lead]
    )


def counted(numbers: list[int], box: int = 1) -> Law:
    """Returns the law of observed numbers, in boxes."""
    return Law.of(Counter(round(it / box) for it in numbers))


def item_of(rng: np.random.Generator, number: int) -> Item | None:
    """Returns the next item; None if nothing of it was ever asked for."""
    kind = str(rng.choice(KINDS, p=[0.09, 0.36, 0.43, 0.11, 0.01]))
    rng.choice(4, p=[0.7, 0.15, 0.1, 0.05])
    weeks = WEEKS if rng.random() > 0.07 else int(rng.integers(3, 40))
    pairs = list(quantities(rng, kind, weeks))
    asked, back = [it for it, _ in pairs], [it for _, it in pairs]
    average, spread = max(float(np.mean(asked)), 1e-3), float(np.std(asked))
    holding = (
        round(round(float(np.exp(rng.normal(2.5, 1.3))), 2) * 0.22 / 52, 4) or 0.0001
    )
    setup = float(rng.choice([12, 25, 45, 80, 150]))
    lead = int(
        rng.choice([1, 2, 3, 4, 6, 8, 12], p=[0.2, 0.25, 0.2, 0.15, 0.1, 0.07, 0.03])
    )
    by_orders, several = rng.random() < 0.25, rng.random() < 0.15
    batch = min(math.sqrt(2 * setup * average / max(holding, 1e-4)), 40 * average + 2)
    s = max(
        0,
        round(
            average * (lead + 1)
            + rng.choice([0.3, 1, 2.5]) * spread * math.sqrt(lead + 1)
        ),
    )
    levels = s, s + max(1, round(batch * rng.choice([0.4, 1, 1.8])))
    rng.choice(15)
    rng.integers(10, 99)
    rng.normal(s + (levels[1] - s) / 2 - average * lead, spread)
    ratio, fill = 0.0, None
    if rng.random() < 0.6:
        ratio = float(rng.choice([9, 19, 49, 99]))
    else:
        fill = float(rng.choice([0.95, 0.95, 0.98, 0.99, 0.975]))
    leads = counted(
        [min(it, MOST_LEAD) for it in lead_times(rng, lead, by_orders, several)]
    )
    if not any(asked):
        return None
    box = (
        1
        if max(asked) <= MOST_DEMAND
        else 10
        if max(asked) <= 10 * MOST_DEMAND
        else 100
    )
    scale = min(MOST_RATE / (box * holding * max(1.0, ratio)), MOST_SETUP / setup)
    returns = counted(back, box) if any(back) else None
    return Item(
        number,
        counted(asked, box),
        returns,
        leads,
        round(setup * scale),
        max(1, round(box * holding * scale)),
        round(ratio * box * holding * scale),
        fill,
        (round(levels[0] / box), round(levels[1] / box)),
    )


def items_of(seed: int, count: int = 3000) -> Iterator[Item]:
    """Yields the items of a catalogue of which something was asked for, in order."""
    rng = np.random.default_rng(seed)
    yield from (item for number in range(count) if (item := item_of(rng, number)))
