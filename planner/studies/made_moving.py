"""Makes sets of items whose demand moves in a known way, for the fair comparison of ways of planning.

Each has three classes of 20 items, of 156 weeks. Means are lognormal, of median 10. Demand is negative binomial about a
level that moves: `steady` with a variance of one and a half times the mean, `erratic` with a size of 1.2. What moves is
alike in a class, as seasons and promotions mostly are, or each item's own, as shifts are.
"""
from __future__ import annotations

from collections.abc import Callable

import numpy as np

from crnplan.chances import Floats
from planner.studies.fair import Member, Moving

WEEKS, RECORD, EVERY, WINDOW = 156, 104, 4, 104
YEAR = 52
CLASSES, ITEMS = 3, 20
# What of a year's mean is asked for in each month.
INDEX = np.array([0.6, 0.65, 0.8, 0.9, 1.0, 1.1, 1.25, 1.5, 1.6, 1.2, 0.8, 0.6])
MONTHS = len(INDEX)
SIZE = 1.2  # of erratic demand
GROWTH = 0.3  # of the level in a year, up or down, with a trend
SHIFT = 0.5  # the deviation of the logarithm of a shift of the level
PROMOTED, LIFT = (
    0.06,
    3.0,
)  # the share of weeks with a promotion, and how many times the usual is asked for then
# Returns the level of an item by week, beside its mean, by the class and random numbers of the item and of the class.
Level = Callable[[int, np.random.Generator, np.random.Generator], Floats]


def flat(group: int, own: np.random.Generator, shared: np.random.Generator) -> Floats:
    return np.ones(WEEKS)


def season(group: int, own: np.random.Generator, shared: np.random.Generator) -> Floats:
    """Returns a season of the class, whose peak comes in another month for each."""
    index = np.roll(INDEX / INDEX.mean(), group * MONTHS // CLASSES)
    month = np.arange(WEEKS) % YEAR * MONTHS // YEAR
    return np.asarray(index[month])


def trend(group: int, own: np.random.Generator, shared: np.random.Generator) -> Floats:
    """Returns a level that rises in the first class, stays in the second, and falls in the third."""
    years = np.arange(WEEKS) / YEAR
    return np.asarray((1 + GROWTH) ** ((1 - group) * years))


def shifts(group: int, own: np.random.Generator, shared: np.random.Generator) -> Floats:
    """Returns a level that jumps once in the mean, in a week of the item's own."""
    jumps = own.random(WEEKS) < 1 / WEEKS
    steps = np.where(jumps, own.normal(0, SHIFT, WEEKS), 0)
    return np.asarray(np.exp(np.cumsum(steps)))


def mixed(group: int, own: np.random.Generator, shared: np.random.Generator) -> Floats:
    """Returns a level that stands still, or jumps as that of `shifts`, of every other item."""
    if own.random() < 0.5:
        return flat(group, own, shared)
    return shifts(group, own, shared)


def promotions(
    group: int, own: np.random.Generator, shared: np.random.Generator
) -> Floats:
    """Returns a level that is three times as high in weeks of the class."""
    return np.where(shared.random(WEEKS) < PROMOTED, LIFT, 1.0)


KINDS: dict[str, tuple[Level, bool]] = {
    "flat, steady": (flat, True),
    "flat, erratic": (flat, False),
    "season, steady": (season, True),
    "season, erratic": (season, False),
    "trend": (trend, True),
    "shifts": (shifts, True),
    "promotions": (promotions, True),
    "mixed": (mixed, True),
}


def made_set(kind: str, seed: int = 1) -> Moving:
    """Returns the set of a kind."""
    level, is_steady = KINDS[kind]
    place, members = [*KINDS].index(kind), []
    for group in range(CLASSES):
        for number in range(ITEMS):
            shared = np.random.default_rng([seed, place, group])
            own = np.random.default_rng([seed, place, group, number])
            means = own.lognormal(np.log(10), 0.8) * level(group, own, shared)
            size = 2 * means if is_steady else SIZE
            counts = own.negative_binomial(size, size / (size + means))
            name, label = f"{kind} {group}-{number}", f"class {group}"
            members.append(Member(name, name, label, counts))
    return Moving(kind, tuple(members), RECORD, EVERY, WINDOW, has_classes=True)
