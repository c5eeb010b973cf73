"""The ways of planning that a test runs side by side on the past of an item: of each its code, and its s and S in each period.

Whole ways plan an item as `crnplan plan` would have done then: from its periods until then, anew every so often, with the
season, the level and the price that the catalogue teaches. Beside them are today's levels, and rules of thumb. Each is run
as it aims by itself, and at several aims about that. What these come to is a curve of stock against demand met at once,
on which ways are compared at one fill rate: see `curves.py`. A further way is a field of `Backtest`, an entry of METHODS
with its code, and its words in show/texts.toml; and an entry in `Lessons` if items learn for it.
"""
from __future__ import annotations

import dataclasses
import itertools
import math
from collections.abc import Callable, Iterable, Iterator, Mapping, Sequence
from dataclasses import dataclass
from functools import cached_property, partial
from typing import NamedTuple

from ...demand.fitted import FittedLaw
from ...demand.learning import Prior
from ...errors import Refused
from ...read.item import Item
from ..aims import FILLS
from ..answer import TODAY, Figures
from ..choice import choice_of
from ..following import Following
from ..how import Settings
from ..offers import ByPrice
from ..question import Levels, Question, question_of
from ..seasons import InSeason, Stretch
from .outcomes import Happened, MethodRun
from .rules import (
    Forecast,
    averaged,
    cover_levels,
    normal_levels,
    smoothed_last,
    wanted_share,
)

PLANNED = "planned"
ALIKE, SEASONLESS = "alike", "seasonless"
FOLLOWED, STILL = "followed", "still"
AVERAGED, SMOOTHED, COVER = "averaged", "smoothed", "cover"
# The aims of a way leave so many times unmet what it aims to leave unmet by itself, or have a price that is so many
# times lower.
FACTORS = 5.0, 2.0, 1.0, 1 / 3, 1 / 10
# Five times what a low aim leaves unmet would be more than all.
LEAST_AIM, MOST_AIM = 0.1, FILLS[-1]
# The aims of today's policies move both levels by so many standard deviations of demand until an order is there.
SHIFTS = -2, -1, 0, 1, 2


@dataclass(frozen=True)
class Walk:
    """How the past is walked through: plans are made of the first `record` periods, and anew after each `every` periods
    more, of all periods until then, or of the last `window` of them."""

    record: int = 52
    every: int = 13
    window: int | None = None

    def stretches(self, periods: int) -> Iterator[tuple[int, int, int]]:
        """Yields for each plan the first period that it is made of, the first that it is for, and the one after it."""
        for origin in range(self.record, periods, self.every):
            start = 0
            if self.window and origin > self.record:
                start = max(0, origin - self.window)
            yield start, origin, min(origin + self.every, periods)


class Way(NamedTuple):
    """How the items of a catalogue are planned: by settings, with what was learned for them; and what laws learn."""

    settings: Settings
    prior: Prior


def aims_about(share: float) -> list[float]:
    """Returns the fill rates about one at which a way is run, rising."""
    rates = list[float]()
    for factor in FACTORS:
        rates.append(min(max(1 - factor * (1 - share), LEAST_AIM), MOST_AIM))
    return rates


@dataclass(frozen=True)
class PlanInUse:
    """A plan of an item that is in use for so many later periods: its question, and its policy by theory."""

    question: Question
    figures: Figures
    periods: int

    @cached_property
    def aims(self) -> list[Levels]:
        """Returns s and S, in items, by the law of the plan and with the gap of its policy, for each fill rate about that
        at which it aims; without one, that of its policy. If the item has a price together with others, they are those of
        prices about it."""
        question, box = self.question, self.question.item.box
        prices, group = question.settings.prices, question.together
        if prices and group is not None:
            price = prices.groups[group].price
            pairs = ByPrice(question, [price / factor for factor in FACTORS]).pairs
            return [(s * box, S * box) for s, S in pairs]
        theory, s, S = question.theory.free, self.figures.point, self.figures.level
        gap = theory.gap_of(s // box, S // box)
        shares = aims_about(question.aim or self.figures.fill)
        ((_, tops),) = theory.levels_with_fill([gap], shares)
        span = int(theory.items(gap))
        return [(max(0, top - span) * box, top * box) for top in tops]


def chosen(question: Question) -> Figures:
    """Returns the best policy, as theory sees it."""
    return question.figures(choice_of(question).best)


def part_of(season: InSeason, number: int) -> Stretch:
    """Returns the part of the coming year that has a period, or the one a year or more before it. A year of weeks has 52."""
    first, end = season.year[0].first, season.year[-1].end
    within = first + (number - first) % (end - first)
    return next(part for part in season.year if within < part.end)


def by_part(
    question: Question, numbers: Sequence[int]
) -> Iterator[tuple[Question, int]]:
    """Yields the question of each part of the year that periods are in, by their numbers, and how many these are."""
    season = question.season
    if season is None:
        yield question, len(numbers)
        return
    for part, own in itertools.groupby(numbers, partial(part_of, season)):
        yield question.during(part), len([*own])


def at_level(question: Question, following: Following | None) -> Question:
    """Returns a question at the level of the last periods, as far as that is followed, or of the whole record."""
    record = dataclasses.replace(
        question, demand=question.of_record, season=None, level=None
    )
    level = following and following.at_level(record.item, record.demand)
    return record.moved(level or None, question.season)


class Walked:
    """An item's periods with its plans on them, by the ways of its catalogue."""

    def __init__(self, as_read: Item, walk: Walk, ways: Mapping[str, Way]) -> None:
        """Plans an item as it was at the end of its record, and anew later, by its known periods, one after another. Raises
        Refused if it could not be planned first."""
        self.as_read, self.item = as_read, as_read.known
        self.places = as_read.known_places
        self.walk, self.ways = walk, ways
        self.planned = self.plans(self.asked(ways[PLANNED]))
        self.question = self.planned[0].question
        self.happened = Happened(
            self.item,
            self.question.bounds.lot,
            self.question.lead,
            self.question.seed("past"),
            walk.record,
        )

    def asked(
        self, way: Way, question: Question | None = None
    ) -> Iterator[tuple[Question, int]]:
        """Yields what a way asks for at the end of the record and anew later, by parts of the year if the item has a
        season, and for how many periods. If no question can be asked of some periods, the last one stays. Raises Refused if
        there is none."""
        item, places = self.as_read, self.places
        for start, origin, end in self.walk.stretches(len(places)):
            known = item.part(places[start], places[origin])
            try:
                question = question_of(known, *way)
            except Refused:
                if question is None:
                    raise
            numbers = [item.first + place for place in places[origin:end]]
            yield from by_part(question, numbers)

    def plans(
        self, asked: Iterable[tuple[Question, int]], last: PlanInUse | None = None
    ) -> list[PlanInUse]:
        """Returns the plans of what is asked for. If there is no policy, the last one stays. Raises Refused if there is
        none."""
        plans = list[PlanInUse]()
        for question, periods in asked:
            try:
                last = PlanInUse(question, chosen(question), periods)
            except Refused:
                if last is None:
                    raise
                last = dataclasses.replace(last, periods=periods)
            plans.append(last)
        return plans

    def changed(self, change: Callable[[Question], Question]) -> list[PlanInUse]:
        """Returns the same plans with another question, where that changes."""
        plans = list[PlanInUse]()
        for plan in self.planned:
            asked = change(plan.question)
            if asked is plan.question:
                plans.append(plan)
            else:
                plans += self.plans([(asked, plan.periods)], plan)
        return plans

    def run(self, plans: Sequence[PlanInUse]) -> MethodRun:
        """Returns the run of plans, each of which is in use for its later periods, and the first in the record too."""
        record = plans[0].figures.levels
        levels, promises = [record] * self.walk.record, list[tuple[float, float]]()
        for plan in plans:
            levels += [plan.figures.levels] * plan.periods
            promises += [(plan.figures.cost, plan.figures.fill)] * plan.periods
        aims = list[list[Levels]]()
        for column in zip(*(plan.aims for plan in plans)):
            by_period = [column[0]] * self.walk.record
            for own, plan in zip(column, plans):
                by_period += [own] * plan.periods
            aims.append(by_period)
        return MethodRun(levels, promises, aims)


def moved(levels: Levels, more: float) -> Levels:
    """Returns s and S that are higher by so many items, or lower, but s is at least 0."""
    s, S = levels
    point = max(0, s + round(more))
    return point, point + S - s


def today_of(walked: Walked) -> MethodRun | None:
    """Returns today's policy, with what the plan says of it, and with both levels moved; None if there is none."""
    question, levels = walked.question.flat, walked.item.levels
    if levels is None or question.levels is None:
        return None
    demand, lead = question.demand.figures, question.lead.figures
    square = (lead.mean + 1) * (demand.variance or 0.0)
    square += demand.mean**2 * (lead.variance or 0.0)
    spread = question.item.box * math.sqrt(square)
    figures, happened = question.figures(question.levels), walked.happened
    periods = len(happened.past.demands)
    aims = [[moved(levels, shift * spread)] * periods for shift in SHIFTS]
    promises = [(figures.cost, figures.fill)] * happened.later
    return MethodRun([levels] * periods, promises, aims)


def as_a_whole(walked: Walked, way: Way) -> list[PlanInUse]:
    """Returns the plans of the catalogue as a whole."""
    return walked.planned


def alike(walked: Walked, way: Way) -> list[PlanInUse]:
    """Returns the same plans, but each item meets by itself what it wants."""

    def alone(question: Question) -> Question:
        if question.together is None:
            return question
        known = question.theory
        return dataclasses.replace(question, settings=way.settings, known=known)

    return walked.changed(alone)


def seasonless(walked: Walked, way: Way) -> list[PlanInUse]:
    """Returns plans as if there were no season."""
    first = walked.planned[0]
    if not first.question.season:
        return walked.planned
    return walked.plans(walked.asked(way, first.question), first)


def levelled(walked: Walked, way: Way) -> list[PlanInUse]:
    """Returns the same plans, but at the level of the last periods, or of the record."""
    following = way.settings.following
    return walked.changed(lambda asked: at_level(asked, following))


# Returns s and S of an item for each aim, by its demand before and the law of its lead time.
Rule = Callable[[Item, Sequence[int], FittedLaw], Sequence[Levels]]


def normal_by(forecast: Callable[[Sequence[int]], Forecast]) -> Rule:
    """Returns the rule by a forecast with a normal safety stock."""

    def levels(item: Item, demands: Sequence[int], lead: FittedLaw) -> list[Levels]:
        shares, law = aims_about(wanted_share(item)), lead.figures
        facts = forecast(demands), law.mean, law.variance or 0.0
        return normal_levels(item, shares, *facts)

    return levels


def covered(item: Item, demands: Sequence[int], lead: FittedLaw) -> list[Levels]:
    """Returns the levels of periods of cover."""
    return cover_levels(item, demands, lead.figures.mean)


def ruled(rule: Rule, walked: Walked) -> MethodRun:
    """Returns the run of a rule, which promises nothing, at the times of the plans. The middle one of its aims is its own."""
    past, lead = walked.happened.past, walked.question.lead
    net = [asked - back for asked, back in zip(past.demands, past.returns)]
    aims = list[list[Levels]]()
    for start, origin, end in walked.walk.stretches(len(net)):
        levels = rule(walked.item, net[start:origin], lead)
        aims = aims or [[own] * origin for own in levels]
        for row, own in zip(aims, levels):
            row += [own] * (end - origin)
    return MethodRun(aims[len(aims) // 2], aims=aims)


@dataclass(frozen=True)
class Method:
    """A way of planning that is run on the past: its code; the s and S that it has for an item, None if it has none; and
    whether it promises anything."""

    code: str
    run: Callable[[Walked], MethodRun | None]
    is_promising: bool = True


def of_way(code: str, plans: Callable[[Walked, Way], list[PlanInUse]]) -> Method:
    """Returns the method of a way, which only catalogues with such a one have."""

    def run(walked: Walked) -> MethodRun | None:
        way = walked.ways.get(code)
        return walked.run(plans(walked, way)) if way else None

    return Method(code, run)


METHODS = (
    Method(TODAY, today_of),
    of_way(PLANNED, as_a_whole),
    of_way(ALIKE, alike),
    of_way(SEASONLESS, seasonless),
    of_way(FOLLOWED, levelled),
    of_way(STILL, levelled),
    Method(AVERAGED, partial(ruled, normal_by(averaged)), is_promising=False),
    Method(SMOOTHED, partial(ruled, normal_by(smoothed_last)), is_promising=False),
    Method(COVER, partial(ruled, covered), is_promising=False),
)
