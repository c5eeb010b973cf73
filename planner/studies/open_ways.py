"""Plans open kinds by crnplan's own calls, in each way that it has words for, for many aims or prices at once.

- `item`: each item meets a share, as `crnplan plan --fill` has it; `item, flat` without seasons.
- `together`: one price of what is not met at once for all items, as `--together` has it.
- `follow`: as `crnplan plan` follows levels, beside either; `borrow`: laws learned from all items, `empirical`: laws that are the record.
"""
from __future__ import annotations

from collections.abc import Callable, Iterator, Mapping, Sequence
from dataclasses import replace
from fractions import Fraction
from typing import NamedTuple

import numpy as np

from crnplan.chances import Whole
from crnplan.demand.learning import Prior, learn
from crnplan.errors import CrnplanError
from crnplan.plan.following import Following
from crnplan.plan.how import ALL, NONE, Settings, without_season
from crnplan.plan.question import Levels, Question, question_of
from crnplan.plan.seasons import Seasons
from crnplan.read.dates import period_of
from crnplan.read.item import Item
from planner.studies.fair import setup_of
from planner.studies.moving import by_fill, by_price
from planner.studies.open_kinds import START, Catalogue, Open
from planner.studies.plain_rules import AIMS

WEEK = "week"
# What an item that is not met at once costs beside a week of it in stock: from low service to high.
PRICES = (0.25, 0.5, 1, 2, 4, 7, 12, 20, 35, 70, 150, 400, 1500)
LEARNING = 30  # items from which others learn
NO_LEVELS = 1, 1  # of an item without a law
# Ways that plan as others do if a catalogue has no season, or follows no level.
SAME = {"item, flat": "item", "item, follow": "item", "together, follow": "together"}
# Returns policies by the names of ways.
Plan = Callable[[Question], Mapping[str, Sequence[Levels]]]


def item_of(one: Open, period: int, record: int) -> Item:
    """Returns an item as it is known before a period, with costs by its record."""
    counts = one.seen[one.begin : period]
    mean = max(float(one.seen[one.begin : record].mean()), 0.01)
    return Item(
        one.member.name,
        tuple(counts.tolist()),
        one.receipts,
        None,
        Fraction(setup_of(mean)).limit_denominator(100),
        Fraction(1),
        None,
        Fraction(19, 20),
        group=one.member.group,
        first=period_of(START, WEEK) + one.begin,
    )


def filled(name: str) -> Plan:
    """Returns a plan by fill rates that has a name."""
    return lambda asked: {name: by_fill(asked, AIMS)}


def usual(asked: Question) -> dict[str, Sequence[Levels]]:
    return {"item": by_fill(asked, AIMS), "together": by_price(asked, PRICES)}


def followed(asked: Question) -> dict[str, Sequence[Levels]]:
    return {
        "item, follow": by_fill(asked, AIMS),
        "together, follow": by_price(asked, PRICES),
    }


def borrowed(asked: Question) -> dict[str, Sequence[Levels]]:
    return {
        "item, borrow": by_fill(asked, AIMS),
        "together, borrow": by_price(asked, PRICES),
    }


class Way(NamedTuple):
    """How questions are asked and answered, and what items have learned; it has ways by these names."""

    settings: Settings
    plan: Plan
    names: tuple[str, ...]
    prior: Prior | None = None


def ways_of(items: Sequence[Item], learns: bool) -> Iterator[Way]:
    """Yields the ways that differ, with what the items teach."""
    seasons = Seasons.of(WEEK, items)
    on = Settings(borrow=NONE, every=WEEK, seasons=seasons)
    yield Way(on, usual, ("item", "together"))
    following = Following.of(without_season(item, on)[0] for item in items)
    if following.classes:
        moved = replace(on, follow="auto", following=following)
        yield Way(moved, followed, ("item, follow", "together, follow"))
    if seasons.classes or seasons.own:
        flat = Settings(borrow=NONE, every=WEEK)
        yield Way(flat, filled("item, flat"), ("item, flat",))
    seen = replace(on, fit="empirical")
    yield Way(seen, filled("item, empirical"), ("item, empirical",))
    if learns:
        counts = [np.array(item.known.counts, np.uint32) for item in items]
        prior = learn(counts, None, ALL, least=LEARNING)
        lent = replace(on, borrow=ALL)
        yield Way(lent, borrowed, ("item, borrow", "together, borrow"), prior)


def by_week(item: Item, way: Way, weeks: int) -> dict[str, Whole]:
    """Returns s and S of each coming week and aim or price, by the name of the way."""
    none = np.tile(NO_LEVELS, (weeks, len(AIMS), 1))
    levels = {name: none.copy() for name in way.names}
    try:
        asked = question_of(item, way.settings, way.prior)
        months = [(0, weeks, asked)]
        if asked.season:
            start = item.first + len(item.counts)
            months = [
                (max(0, month.first - start), month.end - start, asked.during(month))
                for month in asked.season.year
                if month.first < start + weeks
            ]
        for first, end, question in months:
            for name, policies in way.plan(question).items():
                levels[name][first:end] = np.array(policies)
    except CrnplanError:
        pass  # There is no law, as of an item without demand.
    return levels


def planned(catalogue: Catalogue, period: int, weeks: int) -> dict[str, list[Whole]]:
    """Returns s and S of all items by each coming week and aim or price, by way."""
    items = [item_of(one, period, catalogue.record) for one in catalogue.items]
    levels = dict[str, list[Whole]]()
    for way in ways_of(items, catalogue.learns):
        for item in items:
            for name, own in by_week(item, way, weeks).items():
                levels.setdefault(name, []).append(own)
    for name, same in SAME.items():
        levels.setdefault(name, levels[same])
    return levels
