"""Tests what costs are promised by the past of a catalogue: by hand, and against a simulation that is written here."""
from __future__ import annotations

import dataclasses
import json
import math
from fractions import Fraction

import numpy as np
import pytest

from crnplan.demand.learning import Prior
from crnplan.plan.aims import CostTrial, Overrun, Overruns
from crnplan.plan.correction import (
    Corrections,
    blocks_of,
    cost_trial_of,
)
from crnplan.plan.how import NONE, Settings
from crnplan.plan.one import or_fault
from crnplan.plan.question import question_of
from crnplan.read.item import Item
from crnplan.read.bounds import OrderBounds
from crnplan.remarks import Remark
from crnplan.store.trees import value_of
from planner.studies import costs
from planner.tests.plan.items import stocks_of

LEAD, SETUP, HOLDING, BACKLOG = 2, 8, 2, 18
OWN = Settings(fit="empirical", borrow=NONE)
QUARTERS = (
    (3, 5, 3, 5),
    (3, 3, 5, 5),
    (9, 5, 3, 30),
    (5, 3, 5, 3),
)  # whose third differs


def made(*quarters: tuple[int, ...]) -> Item:
    """Returns an item whose record has these quarters."""
    counts = tuple(count for quarter in quarters for count in quarter)
    costs = Fraction(SETUP), Fraction(HOLDING)
    return Item("I-0", counts, (LEAD,), None, *costs, backlog=Fraction(BACKLOG))


def costs_of(
    levels: tuple[int, int], demands: tuple[int, ...], stock: int
) -> list[int]:
    """Returns what a policy costs in each period."""
    return [
        SETUP * (order > 0) + HOLDING * max(end, 0) + BACKLOG * max(-end, 0)
        for order, end in stocks_of(levels, demands, LEAD, stock)
    ]


@pytest.mark.parametrize("bounds", [OrderBounds(), OrderBounds(s_min=20)])
def test_costs_in_quarters_by_a_loop(bounds: OrderBounds) -> None:
    """Each quarter costs what the best policy by the others costs in it, in the second pass through the record. What was
    promised is what theory says of these policies, which a bound of the item makes dearer.
    """
    item = dataclasses.replace(made(*QUARTERS), bounds=bounds)
    cost = promised = 0.0
    for first, end in blocks_of(16):
        question = question_of(item.without(range(first, end)), OWN)
        s, S = question.theory.best(0.0).levels
        assert s >= 20 or not bounds.s_min
        random = np.random.default_rng(question.seed("trial"))
        question.lead.draws(random, 32)
        stock = s + round(float(random.random()) * (S - s))
        cost += sum(costs_of((s, S), 2 * item.counts, stock)[16 + first : 16 + end])
        promised += (end - first) * question.figures((s, S)).cost
    unit = HOLDING * sum(item.counts) / 16
    trial = cost_trial_of(item, OWN, Prior(NONE))
    assert trial == CostTrial(
        sum(item.counts) / 16,
        16,
        pytest.approx(promised / unit),
        pytest.approx(cost / unit),
    )


def test_a_quarter_unlike_the_others_costs_more() -> None:
    """Where all quarters are alike, plans cost what they promise but for chance; with large demands in one, more."""
    like = cost_trial_of(made(*[QUARTERS[0]] * 4), OWN, Prior(NONE))
    unlike = cost_trial_of(made(*QUARTERS), OWN, Prior(NONE))
    assert like.cost < 1.2 * like.promised
    assert unlike.cost > 1.5 * unlike.promised


def test_what_has_no_trial() -> None:
    """An item without demand has none, and it is said why."""
    nothing = made((0, 0, 0, 0), (0, 0, 0, 0))
    assert isinstance(or_fault(nothing, cost_trial_of, OWN, Prior(NONE)), Remark)


def test_overrun_by_hand() -> None:
    """Three items promise 1, 2 and 3, and cost 2, 2 and 5. So they cost 9 for 6: 1.5 times as much. They are 0.5 above
    that, 1 below and 0.5 above, with a variance of 0.75: the error is the root of 3 times that, over 6.
    """
    trials = [
        CostTrial(1.0, 10, promised, cost)
        for promised, cost in ((1.0, 2.0), (2.0, 2.0), (3.0, 5.0))
    ]
    error = math.sqrt(3 * 0.75) / 6
    assert Overrun.of(trials) == Overrun(3, 30, 1.5, pytest.approx(error))


def test_classes_by_hand() -> None:
    """Slow and fast items have factors of their own if each are 15."""
    trials = [
        CostTrial(float(place), 10, 1.0, 1.0 if place < 15 else 2.0)
        for place in range(30)
    ]
    overruns = Overruns.of(trials)
    assert overruns.speed == 14.5
    for counts, times in (((14, 15), 1.0), ((14, 16), 2.0)):
        assert overruns.of_item(counts).times == times
    assert [own.times for own in Overruns.of(trials[1:-1]).classes] == [1.5, 1.5]
    assert (
        value_of(Overruns, json.loads(json.dumps(dataclasses.asdict(overruns))))
        == overruns
    )


def test_what_is_kept_is_read_again() -> None:
    """A kind of which nothing was tried is none."""
    known = Corrections(None, Overruns(1.0, (Overrun(30, 60, 1.5, 0.1),) * 2), None, 30)
    kept = json.loads(json.dumps(dataclasses.asdict(known)))
    assert value_of(Corrections, kept) == known
    on, remarks = known.settled(Settings(correct=True))
    assert on.overruns == known.overruns and on.aims is None and not remarks


def test_study_tries_what_plans_try() -> None:
    """The study of costs tries plans at the stated backlog cost as the package does, and others beside."""
    item = made(*QUARTERS)
    own = cost_trial_of(item, Settings(borrow=NONE), Prior(NONE))
    trial = costs.trial_of(item, Prior(NONE))
    assert trial.promised[0] == pytest.approx(own.promised)
    assert trial.cost[0] == pytest.approx(own.cost)
    assert (trial.promised[1:] > own.promised).all()
