"""Tries fill rates on the past of a catalogue, so that its plans aim at those that meet the wanted ones.

A policy that has 95% by its law of demand mostly has less on periods that come: a record is too short to show large
demands that are rare, and demand changes. The past of one item says too little of that, that of many says enough. So
each quarter of an item's record is left out in turn. The item is planned from the rest, at several fill rates, and what
these policies do not meet at once in that quarter is counted. planner/studies/correction.py compares this with other
ways.
"""
from __future__ import annotations

import itertools
import math
from collections.abc import Callable, Iterator, Sequence
from dataclasses import dataclass, replace
from typing import Any, NamedTuple

import numpy as np

from ..chances import Floats
from ..crnsim.periods import Realization, Period, Rates, periods_of
from ..demand.learning import Prior
from ..errors import Refused, argument
from ..store.files import IN_KEPT, Folder
from ..store.means import Means
from ..read.catalogue_reading import Catalogued
from ..read.item import USUAL, Item
from ..read.quiet import is_quiet
from ..remarks import Remark
from ..store.stored import Store
from ..theory.long_run import LongRun
from .aims import FILLS, Aims, CostTrial, Overruns, Trial
from .choice import best_of
from .learned import drawn_of_groups, learned_once
from .one import each_answer
from .how import Settings, flat_of
from .question import Levels, Question, question_of

TRIALS, COST_TRIALS = f"{IN_KEPT}trials.sqlite", f"{IN_KEPT}cost_trials.sqlite"
AIMS = "aims"  # a fact of the store of answers
LEAST_ITEMS, MOST_ITEMS = 30, 1_000  # that are tried
BLOCKS = 4  # of a record
WIDE = 10  # Policies whose gap has so many cells keep it at all fill rates.
Figure = Callable[[Period], float]


def levels_of(theory: LongRun) -> list[Levels]:
    """Returns the cheapest policy for each of `FILLS`, in boxes. Raises Refused if there is none."""
    middle = theory.best(FILLS[len(FILLS) // 2])
    gap = theory.gap_of(*middle.levels)
    if middle.cost < math.inf and gap >= WIDE:
        ((_, levels),) = theory.levels_with_fill([gap], FILLS)
        items = theory.items(gap)
        return [(max(0, int(level) - items), int(level)) for level in levels]
    policies = [theory.best(fill) for fill in FILLS]
    if max(policies).cost == math.inf:
        raise Refused("no policy meets a tried fill rate at once")
    return [policy.levels for policy in policies]


def counted_by(
    policies: Sequence[Levels], past: Realization, start: float, figure: Figure
) -> Floats:
    """Returns a figure of each period under policies: a row for each policy and a column for each period. They begin
    with nothing on order, and with a stock that is a share of the way from s to S.
    """
    rows = dict[Levels, list[float]]()
    for s, S in {*policies}:
        levels, stock = [(s, S)] * len(past.demands), s + round(start * (S - s))
        rows[s, S] = [figure(period) for period in periods_of(past, levels, stock)]
    return np.array([rows[levels] for levels in policies])


def blocks_of(periods: int) -> Iterator[tuple[int, int]]:
    """Yields the first period of each block of a record, and the one after it."""
    yield from itertools.pairwise(
        round(periods * place / BLOCKS) for place in range(BLOCKS + 1)
    )


def unmet_of(period: Period) -> float:
    """Returns the demand that was not met at once in a period."""
    return float(period.unmet)


def in_blocks(
    item: Item,
    settings: Settings,
    prior: Prior,
    planned: Callable[[Question], Sequence[Levels]],
    figure: Figure = unmet_of,
) -> Floats:
    """Returns the sum of a figure, by default of unmet demand, under each policy of a plan, whose levels are in boxes,
    over all blocks of an item's record, of which each is planned from the others. The record comes twice, and its second
    time counts, so that a stock and orders are there as in the long run. Raises Refused if the item can't be planned.
    """
    periods = len(item.counts)
    if not any(item.counts):
        raise Refused("it has no demand")
    if settings.every and is_quiet(item.counts, settings.every):
        raise Refused("it is hardly asked for any longer")
    returns = item.returns or (0,) * periods
    sums = np.zeros(1)
    for first, end in blocks_of(periods):
        question = question_of(item.without(range(first, end)), settings, prior)
        box, random = question.item.box, np.random.default_rng(question.seed("trial"))
        leads = question.lead.draws(random, 2 * periods)
        facts = leads, item.review, periods, question.bounds.lot
        past = Realization(2 * item.counts, 2 * returns, *facts)
        policies = [(s * box, S * box) for s, S in planned(question)]
        by_period = counted_by(policies, past, float(random.random()), figure)
        sums = sums + by_period[:, periods + first : periods + end].sum(axis=1)
    return sums


def trial_of(item: Item, settings: Settings, prior: Prior) -> Trial:
    """Returns what policies for `FILLS` leave unmet of an item's record. Raises Refused if it can't be planned."""

    def planned(question: Question) -> list[Levels]:
        return levels_of(question.theory.free)

    item, on = flat_of(item, settings)
    unmet = in_blocks(item, on, prior, planned)
    mean = float(np.mean(item.counts))
    return Trial(mean, len(item.counts), tuple((unmet / mean).tolist()))


def cost_trial_of(item: Item, settings: Settings, prior: Prior) -> CostTrial:
    """Returns what policies of an item with a backlog cost cost in periods of its record that they had not seen, and what
    they had promised by theory. Raises Refused if it can't be planned."""
    promised = list[float]()

    def planned(question: Question) -> list[Levels]:
        best, _ = best_of(question)
        promised.append(question.figures(best.levels).cost)
        return [best.levels]

    item, on = flat_of(item, settings)
    periods, mean = len(item.counts), float(np.mean(item.counts))
    rates = Rates(item.setup, 0, item.holding, item.backlog or 0)
    (cost,) = in_blocks(
        item, on, prior, planned, lambda period: float(period.cost(rates))
    )
    lengths, unit = [end - first for first, end in blocks_of(periods)], mean * float(
        item.holding
    )
    return CostTrial(
        mean, periods, float(np.dot(promised, lengths)) / unit, cost / unit
    )


class TrialKind(NamedTuple):
    """What is tried on the past: of items with a fact, by a function, whose answers are kept in a store, and what these
    say together."""

    fact: str
    trial: Callable[[Item, Settings, Prior], Any]
    answer: type[Any]
    store: str
    found: Callable[[Sequence[Any]], Any]


OF_FILLS = TrialKind("fill", trial_of, Trial, TRIALS, Aims.of)
OF_COSTS = TrialKind("backlog", cost_trial_of, CostTrial, COST_TRIALS, Overruns.of)


def tried_names(read: Catalogued, kind: TrialKind = OF_FILLS) -> list[str]:
    """Returns in order the names of the items with a past that goes on and a fact, of at most 1,000 with the least digests,
    which is as good as at random. One that has ended would count its end as what plans of all others have missed.
    """
    wanted = list[tuple[str, str]]()
    for name, fact, past in read.cells("name", kind.fact, "past"):
        if fact is not None and past == USUAL:
            wanted.append((name, ""))
    return drawn_of_groups(wanted, MOST_ITEMS)


def tried_on(
    folder: Folder,
    read: Catalogued,
    settings: Settings,
    prior: Prior,
    means: Means,
    kind: TrialKind = OF_FILLS,
    part: str = "",
) -> list[Any]:
    """Returns the trials of items, of which those that are kept in a store of the folder are not made again. `part` says
    of which periods they are, if not of all."""
    common, words = settings.common(part, prior), (kind.trial, settings, prior)
    questions = [(name, read.digest(name, common)) for name in tried_names(read, kind)]
    store, asked = folder.store(kind.store), questions.copy
    trials = each_answer(store, kind.answer, asked, read.item, words, "trials", means)
    return [trial for _, trial in trials]


def ways_of(settings: Settings) -> Settings:
    """Returns those of some settings by which items are tried."""
    return Settings(
        seed=settings.seed,
        fit=settings.fit,
        borrow=settings.borrow,
        every=settings.every,
        seasons=settings.seasons,
    )


def cost_ways_of(settings: Settings, aims: Aims | None) -> Settings:
    """Returns those of some settings by which the costs of items are tried: their policies are those of the plan, within
    its bounds."""
    return replace(
        ways_of(settings),
        order_min=settings.order_min,
        max_coverage=settings.max_coverage,
        s_min=settings.s_min,
        aims=aims,
    )


@dataclass(frozen=True)
class Corrections:
    """What the past of a catalogue corrects: where items aim, and what those with a backlog cost cost beside what theory
    promises; None of a kind of which too few items can be tried. So many were, `fills` and `costs`: None if there is none
    of the kind."""

    aims: Aims | None
    overruns: Overruns | None
    fills: int | None
    costs: int | None

    def settled(self, settings: Settings) -> tuple[Settings, list[Remark]]:
        """Returns settings with what is corrected, and remarks on a kind of items that is left as it is. Raises Refused
        if nothing is corrected, not even what items meet together."""
        remarks = list[Remark]()
        for code, tried, found in (
            ("few fills", self.fills, self.aims),
            ("few costs", self.costs, self.overruns),
        ):
            if tried is not None and found is None:
                remarks.append(Remark(code, {"items": tried, "least": LEAST_ITEMS}))
        if not (self.aims or self.overruns or settings.shares):
            said = f"{self.fills or 0} items with a wanted fill rate"
            if self.costs:
                said += f" and {self.costs} with a backlog cost"
            raise Refused(
                f"{said} can be tried on their past, and a correction needs {LEAST_ITEMS}",
                f"plan without {argument('correct')}",
            )
        on = replace(settings, aims=self.aims, overruns=self.overruns)
        return on, remarks


def corrections_of(
    folder: Folder,
    answers: Store[Any],
    read: Catalogued,
    settings: Settings,
    prior: Prior,
    means: Means,
    again: bool,
    has_aims: bool,
) -> Corrections:
    """Returns what the past of a catalogue corrects: fill rates if some item `has_aims`. What was learned before is used
    again as it is, also if items change, unless it is to be learned `again`, or items are planned in another way. Trials
    are kept in the folder."""

    def found(kind: TrialKind, on: Settings) -> tuple[Any, int | None]:
        """Returns what the past says by trials of a kind, None if they are too few, and how many they are."""
        if not tried_names(read, kind):
            return None, None
        tried = tried_on(folder, read, on, prior, means, kind)
        return kind.found(tried) if len(tried) >= LEAST_ITEMS else None, len(tried)

    def learned() -> Corrections:
        aims, fills = None, None
        if has_aims:
            aims, fills = found(OF_FILLS, ways_of(settings))
        overruns, costs = found(OF_COSTS, cost_ways_of(settings, aims))
        return Corrections(aims, overruns, fills, costs)

    basis = [has_aims, cost_ways_of(settings, None).common("", prior)]
    return learned_once(answers, AIMS, Corrections, basis, again, learned)
