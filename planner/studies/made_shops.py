"""Makes catalogues as the exports of a shop, whose demand is of another make than that of the other studies.

A class has a shape of the year by day, which is no step of months: a sine whose height and time change from year to year,
three weeks before Christmas at four times the usual, or a garden's half year near nothing. Sales come by day: more on
Fridays and Saturdays, and after the 25th, when wages are paid. Each week of an item deviates by a lognormal factor, and
each week of a class by another; then amounts are Poisson. In some shops customers order several at once. Promotions are
of a class, begin on a Thursday, last ten days and leave a dip of two weeks. Some items are new, end, move to another
level for good, or are partly given back a week later.
"""
from __future__ import annotations

from collections.abc import Callable, Mapping
from dataclasses import dataclass
from datetime import date, timedelta

import numpy as np
import pandas as pd

from crnplan.chances import Floats, Whole

START = date(2021, 1, 4)  # a Monday, of the first week of its year
WEEK, YEAR = 7, 52
LATER = YEAR  # weeks that are judged
WEEKDAYS = np.array([0.8, 0.8, 0.9, 1.0, 1.4, 1.6, 0.5])
WAGES, WAGES_LIFT = (
    25,
    1.4,
)  # from which day of a month more is sold, and how many times as much
MEDIAN, SPREAD = 12.0, 0.9  # of the means of items a week, and of their logarithms
LIFT, DIP = 3.0, 0.7  # what a promotion multiplies, and the two weeks after it
PROMOTED, DIPPED, APART = 10, 14, 56  # days of both, and between promotions in the mean
NEAR_NOTHING = 0.03
CHRISTMAS = 4.0
SIZE = 4.0  # the mean of a customer's order, in shops whose customers order several at once
GIVEN_BACK = 0.08
HOLDING = 0.2  # of the price a year
# Multiplies the mean of a class by day, whose days of the year are shares of it, by year.
Shape = Callable[[Floats, Whole, np.random.Generator], Floats]


def flat(time: Floats, years: Whole, random: np.random.Generator) -> Floats:
    return np.ones(len(time))


def wave(time: Floats, years: Whole, random: np.random.Generator) -> Floats:
    """Returns a sine that begins anywhere; its height and its time differ from year to year."""
    count = int(years.max()) + 1
    heights = random.normal(0.55, 0.07, count)[years]
    starts = random.random() + random.normal(0, 0.025, count)[years]
    return np.asarray(1 + heights * np.sin(2 * np.pi * (time - starts)))


def christmas(time: Floats, years: Whole, random: np.random.Generator) -> Floats:
    """Returns three weeks before Christmas at four times the usual."""
    return np.where((time > 337 / 365) & (time < 358 / 365), CHRISTMAS, 1.0)


def garden(time: Floats, years: Whole, random: np.random.Generator) -> Floats:
    """Returns half a year near nothing, and a summer that begins some days earlier or later each year."""
    count = int(years.max()) + 1
    starts = 0.22 + random.normal(0, 0.02, count)[years]
    summer = np.sin(np.pi * np.clip((time - starts) / 0.5, 0, 1))
    return np.asarray(NEAR_NOTHING + 2 * summer)


@dataclass(frozen=True)
class Make:
    """A make of shop: the shape of each class; the deviations of the logarithms of an item's weeks and of a class's;
    whether there are promotions, customers order several at once, and items move, come, end and are given back; and the
    weeks of the record."""

    shapes: Mapping[str, Shape]
    own: float = 0.25
    shared: float = 0.05
    is_promoted: bool = False
    is_lumpy: bool = False
    is_moving: bool = False
    record: int = 3 * YEAR


MAKES = {
    "flat": Make({"paper": flat, "ink": flat, "tape": flat}, record=2 * YEAR),
    "lumpy": Make({"bolts": flat, "pipes": flat, "paint": flat}, 0.5, is_lumpy=True),
    "promotions": Make({"coffee": flat, "beer": flat, "juice": wave}, is_promoted=True),
    "waves": Make({"ice": wave, "tea": wave, "soap": wave}, record=2 * YEAR),
    "garden": Make({"plants": garden, "tools": wave, "pots": flat}),
    "christmas": Make({"toys": christmas, "sweets": christmas, "bread": flat}),
    "mixed": Make(
        {"toys": christmas, "ice": wave, "bolts": flat},
        0.35,
        is_lumpy=True,
        is_moving=True,
    ),
}


@dataclass(frozen=True)
class Shop:
    """A shop: its masters and its movements as tables, and for each item its class, what is asked for and given back by
    week, the mean of that, its price, its lead time in weeks, what it costs a week to hold, and an order. The first weeks,
    up to `record`, are known to the first plan.
    """

    masters: pd.DataFrame
    sales: pd.DataFrame
    groups: tuple[str, ...]
    counts: Whole
    returned: Whole
    means: Floats
    prices: Floats
    leads: Whole
    holding: Floats
    setups: Floats
    record: int


def usual_days(days: int) -> tuple[Floats, Floats, Whole]:
    """Returns what each day sells beside the mean, which share of its year has passed, and its year from 0."""
    dates = pd.date_range(START, periods=days)
    sold = WEEKDAYS[dates.weekday] * np.where(dates.day >= WAGES, WAGES_LIFT, 1.0)
    return sold / sold.mean(), (dates.dayofyear - 1) / 365.25, dates.year - START.year


def promotions(days: int, random: np.random.Generator) -> Floats:
    """Returns what promotions of a class multiply by day."""
    times, day = np.ones(days), int(random.integers(APART))
    while day < days:
        begin = day // WEEK * WEEK + 3
        end = begin + PROMOTED
        times[begin:end], times[end : end + DIPPED] = LIFT, DIP
        day = end + DIPPED + int(random.exponential(APART - PROMOTED - DIPPED))
    return times


def moved(days: int, place: int, random: np.random.Generator) -> Floats:
    """Returns what multiplies an item by day: one of each five is new, ends, or moves to another level."""
    times, day = np.ones(days), int(random.integers(days // 3, days - 90))
    if place % 5 == 0:
        kind = place // 5 % 3
        times[day:] = (1.0, 0.0, np.exp(random.normal(0, 0.5)))[kind]
        times[:day] *= kind > 0
    return times


def drawn(means: Floats, random: np.random.Generator, is_lumpy: bool) -> Whole:
    """Draws the sales of days."""
    if not is_lumpy:
        return random.poisson(means)
    orders = random.poisson(means / SIZE)
    more = random.negative_binomial(np.maximum(orders, 1), 1 / SIZE)
    return np.where(orders > 0, orders + more, 0)


def by_week(days: Floats | Whole) -> Floats | Whole:
    """Returns the sums of weeks."""
    return days.reshape(-1, WEEK).sum(axis=1)


def made_shop(name: str, items: int, seed: int = 1) -> Shop:
    """Returns a shop of a make with so many items, of its record and a later year."""
    make = MAKES[name]
    weeks = make.record + LATER
    days = weeks * WEEK
    usual, time, years = usual_days(days)
    sources = [[seed, [*MAKES].index(name), it] for it in range(items + 9)]
    shared = dict[str, Floats]()
    for place, (group, shape) in enumerate(make.shapes.items()):
        random = np.random.default_rng(sources[items + place])
        times = usual * shape(time, years, random)
        times *= np.exp(random.normal(0, make.shared, weeks)).repeat(WEEK)
        shared[group] = times * (promotions(days, random) if make.is_promoted else 1.0)
    groups = tuple([*shared][place % len(shared)] for place in range(items))
    rows, masters, all_means = list[pd.DataFrame](), list[tuple[object, ...]](), []
    counts, returned = np.zeros((2, items, weeks), int)
    for place, group in enumerate(groups):
        random = np.random.default_rng(sources[place])
        mean = random.lognormal(np.log(MEDIAN), SPREAD)
        means = mean / WEEK * shared[group]
        if make.is_moving:
            means = means * moved(days, place, random)
        own = np.exp(random.normal(-(make.own**2) / 2, make.own, weeks)).repeat(WEEK)
        sold = drawn(means * own, random, make.is_lumpy)
        back = np.zeros(days, int)
        if make.is_moving and place % 4 == 1:
            back[WEEK:] = random.binomial(sold[:-WEEK], GIVEN_BACK)
        counts[place], returned[place] = by_week(sold), by_week(back)
        all_means.append(by_week(means))
        item = f"{group}-{place:03}"
        moves = pd.DataFrame({"quantity": sold, "returned": back})
        moves.insert(0, "date", [START + timedelta(day) for day in range(days)])
        moves.insert(1, "article", item)
        rows.append(moves[(sold > 0) | (back > 0)])
        masters.append((item, group, *terms(mean, random)))
    columns = ["article", "group", "unit price", "order cost", "lead time (days)"]
    table = pd.DataFrame(masters, columns=[*columns, "reorder point", "max stock"])
    prices = table["unit price"].to_numpy()
    return Shop(
        table,
        pd.concat(rows).sort_values(["date", "article"]),
        groups,
        counts,
        returned,
        np.array(all_means),
        prices,
        table["lead time (days)"].to_numpy() // WEEK,
        prices * HOLDING / YEAR,
        table["order cost"].to_numpy(),
        make.record,
    )


def terms(
    mean: float, random: np.random.Generator
) -> tuple[float, float, int, int, int]:
    """Returns the price of an item, the cost of its orders, its lead time in days, and today's s and S."""
    price = round(float(random.lognormal(np.log(15), 0.9)), 2)
    weeks = int(random.integers(1, 5))
    cover = random.uniform(2, 7)  # weeks of demand that the best orders have
    setup = round(mean * price * HOLDING / YEAR * cover**2 / 2, 2)
    low = 1 + round(mean * (weeks + 2))
    return price, max(setup, 0.01), weeks * WEEK, low, low + 1 + round(4 * mean)
