"""Makes catalogues of many kinds of demand, by which ways of planning are judged that were not tuned on them.

A kind has 48 items in three classes, two years of record and one to come, by week. Means are lognormal, of median 12.
Demand is negative binomial about a level that a kind moves, with a variance of 1.5 to 4 times its mean. An order takes 1
to 4 weeks. Real sales (`fair.py`) have their own items and weeks.
"""
from __future__ import annotations

from collections.abc import Callable, Iterator
from dataclasses import dataclass
from datetime import date
from typing import NamedTuple

import numpy as np

from crnplan.chances import Floats, Whole
from planner.studies.fair import LEAD, Member, Moving, real_sets
from planner.studies.made_moving import (
    RECORD,
    WEEKS,
    YEAR,
    Level,
    flat,
    promotions,
    shifts,
    trend,
)

START = date(2023, 1, 2)  # the Monday of the first week
CLASSES, ITEMS = 3, 16
MEDIAN, DEVIATION = 12.0, 0.9  # of the means of items a week, and of their logarithms
SPREADS = 1.5, 4.0  # of the variances of a week beside its mean
LEADS = 4  # the longest lead time in weeks
SEEN_LEADS = 12  # receipts that a record has where lead times vary
# Easter Sundays, and how many times the usual each class sells in the week that ends there; before it half of that.
EASTERS = date(2023, 4, 9), date(2024, 3, 31), date(2025, 4, 20)
EASTER_LIFTS = 2.0, 3.5, 5.0
MONTHS = 4, 4, 5  # the weeks of the months of a quarter
LAST_WEEK = 2.5  # what the last week of a month sells beside each other one
NEW = 10, 40  # the weeks that a new item has
SOLD = "cheese", "juice"
HEIGHT, TIME = 0.1, 0.7  # deviations of a season from year to year, its time in weeks


class Open(NamedTuple):
    """An item of a kind: what is asked for, with its class as group; what its record shows of that, from a week on; and
    the lead times that the record shows."""

    member: Member
    seen: Whole
    begin: int
    receipts: tuple[int, ...]


# Draws what is asked for by week, by the means of the weeks and how large variances are beside them.
Draw = Callable[[Floats, float, np.random.Generator], Whole]


def negative_binomial(
    means: Floats, spread: float, random: np.random.Generator
) -> Whole:
    return random.negative_binomial(means / (spread - 1), 1 / spread)


def by_dealers(means: Floats, spread: float, random: np.random.Generator) -> Whole:
    """Draws what up to four dealers order: a lot of some weeks each time that their customers have used one up."""
    dealers = int(random.integers(1, 5))
    asked = np.zeros(WEEKS, int)
    for _ in range(dealers):
        customers = negative_binomial(means / dealers, spread, random)
        lot = max(1, round(means.mean() / dealers * random.uniform(3, 9)))
        used = random.integers(lot) + np.cumsum(customers)
        asked += lot * np.diff(used // lot, prepend=0)
    return asked


def by_lumps(means: Floats, spread: float, random: np.random.Generator) -> Whole:
    """Draws some customers a week, each of whom takes a geometric number of items."""
    customers = random.poisson(means / spread)
    more = random.negative_binomial(np.maximum(customers, 1), 1 / spread)
    return np.where(customers > 0, customers + more, 0)


def yearly(shape: Floats, shared: np.random.Generator) -> Floats:
    """Returns a season by week, whose height and time differ a little from year to year."""
    years = []
    for _ in range(WEEKS // YEAR):
        weeks = (np.arange(YEAR) + shared.normal(0, TIME)) % YEAR
        height = np.exp(shared.normal(0, HEIGHT))
        moved = np.interp(weeks, np.arange(YEAR), shape, period=YEAR)
        years.append(1 + height * (moved - 1))
    return np.maximum(np.concatenate(years), 0.02)


def bump(least: float, week: float, width: float, most: float) -> Floats:
    """Returns a year of mean 1 with one peak."""
    far = (np.arange(YEAR) - week + YEAR / 2) % YEAR - YEAR / 2
    shape = least + most * np.exp(-0.5 * (far / width) ** 2)
    return np.asarray(shape / shape.mean())


GARDEN, HEATING = bump(0.45, 18, 5, 1.9), bump(0.5, 2, 8, 1.3)
AUGUST = bump(0.75, 33, 2, 3.2)


def season(group: int, own: np.random.Generator, shared: np.random.Generator) -> Floats:
    """Returns the season of a garden, of heating, or of four weeks in August."""
    return yearly((GARDEN, HEATING, AUGUST)[group], shared)


def mixed(group: int, own: np.random.Generator, shared: np.random.Generator) -> Floats:
    """Returns seasons with trends, levels that jump, and promotions."""
    parts = (kind(group, own, shared) for kind in (season, trend, shifts, promotions))
    return np.asarray(np.prod([*parts], axis=0))


def doubles(
    group: int, own: np.random.Generator, shared: np.random.Generator
) -> Floats:
    """Returns a level that doubles or halves for two items of five, once, in the record or up to half a year later."""
    week, is_moved = own.integers(YEAR, RECORD + YEAR // 2), own.random() < 0.4
    times = own.choice([0.5, 2.0]) if is_moved else 1.0
    return np.where(np.arange(WEEKS) < week, 1.0, times)


def easter(group: int, own: np.random.Generator, shared: np.random.Generator) -> Floats:
    level, lift = np.ones(WEEKS), EASTER_LIFTS[group]
    for sunday in EASTERS:
        week = (sunday - START).days // 7
        level[week], level[week - 1] = lift, max(1.0, lift / 2)
    return level


def months(group: int, own: np.random.Generator, shared: np.random.Generator) -> Floats:
    """Returns months of 4, 4 and 5 weeks with most in the last one."""
    ends = np.cumsum(MONTHS * (WEEKS // sum(MONTHS))) - 1
    level = np.ones(WEEKS)
    level[ends] = LAST_WEEK
    return level / level.mean()


def correlated(
    group: int, own: np.random.Generator, shared: np.random.Generator
) -> Floats:
    """Returns weeks of the class that are good or bad for all items, and alike from one to the next."""
    noise, logs = shared.normal(0, 0.3, WEEKS), np.zeros(WEEKS)
    for week in range(1, WEEKS):
        logs[week] = 0.5 * logs[week - 1] + noise[week]
    return np.asarray(np.exp(logs - logs.var() / 2))


def declining(
    group: int, own: np.random.Generator, shared: np.random.Generator
) -> Floats:
    """Returns a level that falls by up to a half in a year."""
    return np.asarray((1 - own.uniform(0, 0.5)) ** (np.arange(WEEKS) / YEAR))


@dataclass(frozen=True)
class Make:
    """A kind: what moves its level, how demand is drawn about it, and the median of means; whether empty shelves cut the
    sales of the record, items are new, and lead times vary; whether its items have few demands, so that they may learn
    from one another; and the fill rate at which ways are compared."""

    level: Level = flat
    draw: Draw = negative_binomial
    median: float = MEDIAN
    is_cut: bool = False
    is_new: bool = False
    varies: bool = False
    learns: bool = False
    wanted: float = 0.95


KINDS = {
    "flat": Make(),
    "promotions": Make(promotions),
    "season": Make(season),
    "mixed": Make(mixed),
    "doubles": Make(doubles),
    "easter": Make(easter),
    "dealers": Make(draw=by_dealers),
    "4-4-5": Make(months),
    "cut sales": Make(is_cut=True),
    "correlated": Make(correlated),
    "new": Make(is_new=True, learns=True),
    "spares": Make(declining, by_lumps, 0.2, learns=True, wanted=0.9),
    "lead times": Make(varies=True),
}


def sold_of(asked: Whole, lead: int, random: np.random.Generator) -> Whole:
    """Returns what a shop sells that orders too late: what its shelves lack is lost."""
    mean, sold = asked.mean(), asked.copy()
    point = mean * (lead + random.uniform(0.3, 1.2))
    order, stock = round(4 * mean), round(point + 2 * mean)
    due = np.zeros(WEEKS + lead, int)
    for week, wanted in enumerate(asked):
        stock += due[week]
        if stock + due[week + 1 :].sum() < point:
            due[week + lead] += order
        sold[week] = min(wanted, stock)
        stock -= sold[week]
    return sold


def made_item(kind: str, seed: int, group: int, number: int) -> Open:
    """Makes an item of a kind."""
    make, place = KINDS[kind], [*KINDS].index(kind)
    shared = np.random.default_rng([seed, place, group])
    own = np.random.default_rng([seed, place, group, number])
    mean = own.lognormal(np.log(make.median), DEVIATION)
    spread, lead = own.uniform(*SPREADS), 1 + number % LEADS
    asked = make.draw(mean * make.level(group, own, shared), spread, own)
    seen = sold_of(asked, lead, own) if make.is_cut else asked
    begin = RECORD - int(own.integers(*NEW, endpoint=True)) if make.is_new else 0
    leads: int | Whole = lead
    receipts: tuple[int, ...] = (lead,)
    if make.varies:
        leads = own.integers(1, 2 * lead + 1, WEEKS)
        receipts = tuple(own.integers(1, 2 * lead + 1, SEEN_LEADS).tolist())
    name, label = f"{kind} {group}-{number}", f"{seed} class {group}"
    member = Member(name, label, label, asked, lead=leads)
    return Open(member, seen, begin, receipts)


@dataclass(frozen=True)
class Catalogue:
    """The items of a kind, how many periods are their record, the fill rate at which ways are compared, and whether items
    learn from one another."""

    items: tuple[Open, ...]
    record: int
    wanted: float
    learns: bool = False

    @property
    def weeks(self) -> int:
        """Returns how many weeks come after the record."""
        return len(self.items[0].member.counts) - self.record


def sold_catalogue(moving: Moving, wanted: float) -> Catalogue:
    """Returns the items of a real set."""
    items = [Open(one, one.counts, 0, (LEAD,)) for one in moving.members]
    return Catalogue(tuple(items), moving.record, wanted)


def catalogue_of(kind: str, seed: int, items: int = ITEMS) -> Catalogue:
    """Returns a catalogue of a kind, of so many items a class. Real sales have one, whatever the seed is."""
    if kind in SOLD:
        return sold_catalogue(real_sets()[kind], 0.95)
    made = (
        made_item(kind, seed, group, number)
        for group in range(CLASSES)
        for number in range(items)
    )
    make = KINDS[kind]
    return Catalogue(tuple(made), RECORD, make.wanted, make.learns)


def kinds_there() -> Iterator[str]:
    """Yields the kinds, with those of real sales whose packages of R are installed."""
    yield from KINDS
    yield from (name for name in SOLD if name in real_sets())
