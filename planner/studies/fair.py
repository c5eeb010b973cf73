"""Compares ways of planning by the stock that each needs for the same realized fill.

A way plans each item as it was at the end of a record, and again after every few periods, for several nominal shares at
once. Its levels then meet what came. With a higher nominal share a way has more stock and meets more: so each way is a
curve of realized fill against mean stock, and two ways are compared where both realize the same fill. Beside that, what
a way promises or aims at counts for nothing.

An order comes after 2 periods, and costs as much as a mean period's demand does in stock for 8 periods: then orders for
4 periods are best. Sums are over items, each in units of the mean of its own demand. Errors are from 400 samples with
replacement, of clusters (stores, cities, regions) and of groups (brands) at once, since items of one move together.
"""
from __future__ import annotations

from collections.abc import Callable, Collection, Iterable, Mapping, Sequence
from concurrent.futures import ProcessPoolExecutor
from dataclasses import dataclass
from functools import cached_property, partial
from typing import NamedTuple

import numpy as np

from crnplan.chances import Floats, Whole
from planner.studies.real_series import Series, real_series

LEAD = 2
COVER = 4  # periods of demand that an order has for the least cost of orders and stock
BEFORE = 13  # periods that are simulated before those that count
SAMPLES = 400
SEED = 1
# The shares at which ways aim, so that each of the fills below is met by some.
NOMINAL = (0.8, 0.87, 0.92, 0.95, 0.97, 0.98, 0.9875, 0.9925, 0.9965, 0.9985, 0.9995)
FILLS = (0.9, 0.95, 0.98)
CASE = 24  # units of juice and of cheese
STORES = 3  # One store of so many is taken of orange juice.


class Member(NamedTuple):
    """An item of a set: its name, the cluster and the group that it moves with, its demand by period, the number of the
    first of these, and how many periods an order takes, or one of each period."""

    name: str
    cluster: str
    group: str
    counts: Whole
    first: int = 0
    lead: int | Whole = LEAD


@dataclass(frozen=True)
class Moving:
    """A set of items: how many periods are their record, after how many more they are planned again, how many of the
    last periods a plan sees, and whether its groups are classes that a planner knows.
    """

    name: str
    members: tuple[Member, ...]
    record: int
    every: int
    window: int
    has_classes: bool = False

    @cached_property
    def means(self) -> Floats:
        """Returns the mean demand of each item in its record, for costs of orders, at least 0.01."""
        records = [member.counts[: self.record].mean() for member in self.members]
        return np.maximum(records, 0.01)


# Returns the levels s and S of an item that is planned by some counts, with the costs of an order: a row for each share
# of `NOMINAL`.
Plan = Callable[[Member, float], Sequence[tuple[int, int]]]


def setup_of(mean: float) -> float:
    """Returns what an order costs beside a holding cost of 1: that for which orders of `COVER` periods are best."""
    return mean * COVER**2 / 2


def levels_of(moving: Moving, plan: Plan, place: int) -> Whole:
    """Returns the levels of an item in each period from the end of the record on: periods, shares, s and S. A plan sees
    the last periods alone. Where nothing was asked for in these, the last levels stay; at first they are by the record.
    """
    member, levels = moving.members[place], []
    setup = setup_of(moving.means[place])
    for period in range(moving.record, len(member.counts)):
        if (period - moving.record) % moving.every == 0:
            first = max(0, period - moving.window)
            if not levels and not member.counts[first:period].any():
                first = 0
            known = member._replace(counts=member.counts[first:period], first=first)
            if known.counts.any():
                planned = np.array(plan(known, setup), int)
        levels.append(planned)
    return np.array(levels)


def walked(moving: Moving, plan: Plan, jobs: int = 1) -> list[Whole]:
    """Returns `levels_of` for each item, by several processes."""
    places = range(len(moving.members))
    if jobs == 1:
        return [levels_of(moving, plan, place) for place in places]
    with ProcessPoolExecutor(jobs) as pool:
        return [*pool.map(partial(levels_of, moving, plan), places, chunksize=8)]


class Met(NamedTuple):
    """What levels came to in the periods that count, by share: demand that was not met at once, what was asked, stock
    at the ends of periods, orders, and how many periods there were."""

    unmet: Floats
    asked: float
    stock: Floats
    orders: Floats
    periods: int


def met_by(counts: Whole, record: int, levels: Whole, lead: int | Whole = LEAD) -> Met:
    """Returns what levels come to from the end of a record on. They are simulated from some periods before, with the
    first levels, a stock of S and nothing on order. In a period what is due arrives, the position is reviewed, demand is
    met as far as stock reaches, and the rest is owed. An order takes `lead` periods, or those of its own period.
    """
    first = max(0, record - BEFORE)
    shares, leads = levels.shape[1], np.broadcast_to(lead, len(counts))
    due = np.zeros((len(counts) + int(leads.max()), shares))
    stock = levels[0, :, 1].astype(float)
    position = stock.copy()
    unmet, held, orders = np.zeros((3, shares))
    for period in range(first, len(counts)):
        s, S = levels[max(0, period - record)].T
        stock += due[period]
        is_ordered = position < s
        due[period + leads[period]] += np.where(is_ordered, S - position, 0)
        position = np.where(is_ordered, S, position)
        short = counts[period] - np.clip(stock, 0, counts[period])
        stock -= counts[period]
        position -= counts[period]
        if period >= record:
            unmet += short
            orders += is_ordered
            held += np.maximum(stock, 0)
    later = counts[record:]
    return Met(unmet, float(later.sum()), held, orders, len(later))


def all_met(
    moving: Moving, ways: Mapping[str, Sequence[Whole]]
) -> dict[str, list[Met]]:
    """Returns what the levels of each item come to, by way. All ways of an item are simulated at once."""
    met: dict[str, list[Met]] = {name: [] for name in ways}
    for member, *levels in zip(moving.members, *ways.values(), strict=True):
        both = np.concatenate(levels, axis=1)
        every = met_by(member.counts, moving.record, both, member.lead)
        ends = np.cumsum([own.shape[1] for own in levels])
        parts = (np.split(every[place], ends[:-1]) for place in (0, 2, 3))
        for name, unmet, stock, orders in zip(met, *parts):
            own = Met(unmet, every.asked, stock, orders, every.periods)
            met[name].append(own)
    return met


def samples_of(moving: Moving) -> Floats:
    """Returns how often each item counts, a row for all once, and one for each sample."""
    random = np.random.default_rng(SEED)
    weights = np.ones((SAMPLES + 1, len(moving.members)))
    clusters = [member.cluster for member in moving.members]
    groups = [member.group for member in moving.members]
    for names in (clusters, groups):
        known, places = np.unique(names, return_inverse=True)
        if len(known) < 2 or names is groups and groups == clusters:
            continue
        drawn = random.multinomial(len(known), [1 / len(known)] * len(known), SAMPLES)
        weights[1:] *= drawn[:, places]
    return weights[weights.sum(axis=1) > 0]


class Curve(NamedTuple):
    """The realized fill of a way by sample and share, and its mean stock and cost in periods of demand."""

    fill: Floats
    stock: Floats
    cost: Floats

    @classmethod
    def of(cls, moving: Moving, every: Sequence[Met], samples: Floats) -> Curve:
        """Adds up what the levels of all items come to."""
        # Of an item with no demand at all, nothing counts.
        means = [float(member.counts.mean()) or np.inf for member in moving.members]
        unit = np.array(means)[:, None]
        unmet = samples @ (np.array([met.unmet for met in every]) / unit)
        asked = samples @ (np.array([[met.asked] for met in every]) / unit)
        periods = samples @ np.array([[met.periods] for met in every])
        stock = samples @ (np.array([met.stock for met in every]) / unit)
        orders = samples @ np.array([met.orders for met in every])
        cost = stock + setup_of(1) * orders
        return cls(1 - unmet / asked, stock / periods, cost / periods)


def at_fill(fill: Floats, amounts: Floats, wanted: float) -> Floats:
    """Returns the amount where a fill is realized, for each sample: between two shares by the logarithms of it and of
    what is unmet. NaN where the fill is not reached, or always exceeded."""
    found = np.full(len(fill), np.nan)
    for place, (own, amount) in enumerate(zip(fill, amounts, strict=True)):
        rising = np.maximum.accumulate(own)
        if rising[0] <= wanted <= rising[-1]:
            depth = -np.log(np.maximum(1 - rising, 1e-9))
            log = np.interp(-np.log(1 - wanted), depth, np.log(amount))
            found[place] = np.exp(log)
    return found


class Estimate(NamedTuple):
    """A figure of all items, and its standard error; NaN if too few samples have it."""

    value: float
    error: float

    @classmethod
    def of(cls, samples: Floats) -> Estimate:
        """Takes the figure of all items, and those of the samples."""
        is_known = np.isfinite(samples[1:])
        error = float(np.nanstd(samples[1:])) if is_known.mean() > 0.8 else np.nan
        return cls(float(samples[0]), error)


def compared(
    moving: Moving,
    ways: Mapping[str, Sequence[Whole]],
    base: str,
    aiming: Collection[str],
) -> Iterable[dict[str, float | str]]:
    """Yields the rows of `rows_of` of ways with their levels, for all of `FILLS`."""
    return rows_of(moving, all_met(moving, ways), base, aiming)


def rows_of(
    moving: Moving,
    ways: Mapping[str, Sequence[Met]],
    base: str,
    aiming: Collection[str],
    fills: Sequence[float] = FILLS,
    nominal: Sequence[float] = NOMINAL,
) -> Iterable[dict[str, float | str]]:
    """Yields a row for each way and each of some fills: the stock that it needs to realize that fill, by how many percent
    that is more than another way needs, and of ways that are `aiming` at nominal shares the fill that they realize if they
    aim at it."""
    samples = samples_of(moving)
    curves = {name: Curve.of(moving, every, samples) for name, every in ways.items()}
    for wanted in fills:
        share = nominal.index(wanted) if wanted in nominal else None
        beside = at_fill(curves[base].fill, curves[base].stock, wanted)
        for name, curve in curves.items():
            stock = at_fill(curve.fill, curve.stock, wanted)
            more = Estimate.of(100 * (stock / beside - 1))
            row: dict[str, float | str] = {
                "set": moving.name,
                "items": len(moving.members),
                "way": name,
                "fill": wanted,
                "stock": Estimate.of(stock).value,
                "more": more.value,
                "more_error": more.error,
            }
            if share is not None and name in aiming:
                realized = Estimate.of(100 * curve.fill[:, share])
                row |= {"realized": realized.value, "realized_error": realized.error}
            yield row


def members_of(
    series: Iterable[Series],
    names: Callable[[str], tuple[str, str]],
    record: int,
    periods: int,
    unit: int = 1,
) -> tuple[Member, ...]:
    """Returns the series that are long enough and have demand in the record, in units of so many; `names` gives the
    cluster and the group of a name. Of each so many periods count."""
    members = []
    for name, counts in series:
        demand = np.rint(np.array(counts[:periods]) / unit).astype(int)
        known = demand[:record]
        is_asked = (
            np.count_nonzero(known) >= 4 and np.count_nonzero(known[: record // 2]) >= 2
        )
        if len(demand) == periods and is_asked:
            members.append(Member(name, *names(name), demand))
    return tuple(members)


def of_juice(name: str) -> tuple[str, str]:
    """Returns the store and the brand of a series of orange juice."""
    _, store, _, brand = name.split()
    return store, brand


def of_cheese(name: str) -> tuple[str, str]:
    """Returns the city and the chain of a series of cheese."""
    city, _, chain = name.partition("   ")
    return city, chain


def of_cases(name: str) -> tuple[str, str]:
    """Returns the data set of a series of cases, twice: its places move together."""
    data = name.rpartition(" ")[0]
    return data, data


def of_itself(name: str) -> tuple[str, str]:
    """Returns the name of a series twice: each is a cluster of its own."""
    return name, name


def real_sets() -> dict[str, Moving]:
    """Returns the real sets whose packages of R are installed."""
    known = real_series()
    sets = (
        ("cheese", "cheese", of_cheese, 39, 61, CASE, 26),
        ("juice", "juice", of_juice, 78, 108, CASE, 52),
        ("cases", "cases", of_cases, 104, 156, 1, 52),
        ("homes", "homes", of_itself, 104, 168, 1, 52),
    )
    made = dict[str, Moving]()
    for name, of, names, record, periods, unit, window in sets:
        members = members_of(known.get(of, ()), names, record, periods, unit)
        if names is of_juice:
            members = tuple(one for one in members if int(one.cluster) % STORES == 0)
        if members:
            made[name] = Moving(name, members, record, 4, window)
    return made
