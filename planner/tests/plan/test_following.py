"""Tests plans at the level of the last periods: laws by hand, with a season, and what is tried on the past without it."""
from __future__ import annotations

import dataclasses
from fractions import Fraction

import numpy as np
import pytest

from crnplan.demand.learning import Prior
from crnplan.demand.level import factor_of
from crnplan.formats import MOST_DEMAND
from crnplan.demand.rate import at_rate
from crnplan.law import Law
from crnplan.plan.choice import allowed_by
from crnplan.plan.correction import trial_of
from crnplan.plan.following import Following
from crnplan.plan.how import NONE, Settings
from crnplan.plan.question import question_of
from crnplan.read.item import NEW, Item
from planner.tests.plan.items import alone, item_of
from planner.tests.plan.test_seasons import FACTORS, SEASONS, seasonal

WEIGHT = 0.8
FOLLOWING = Following({"warm": WEIGHT})
RISEN = np.repeat([1.0, 2.0], 52)  # of the mean, by week


def risen(**changed: object) -> Item:
    """Returns an item whose level has doubled in the middle of its record."""
    counts = np.random.default_rng(2).poisson(6 * RISEN).tolist()
    return item_of(**{"group": "warm", "counts": tuple(counts)} | changed)


def settings(**changed: object) -> Settings:
    return alone(follow="auto", following=FOLLOWING, **changed)


def test_law_by_hand() -> None:
    """The law is that of the record so many times, and the figures are those of that law."""
    question, plain = question_of(risen(), settings()), question_of(risen(), alone())
    factor = factor_of(risen().counts, WEIGHT)
    assert factor > 1.2
    assert question.level and question.level.weight == WEIGHT
    assert question.demand.table == at_rate(plain.demand.table, factor)
    assert question.all_year is question.demand
    assert question.of_record.table == plain.demand.table == plain.of_record.table
    by_hand = dataclasses.replace(plain, demand=question.demand)
    assert question.figures((9, 30)) == by_hand.figures((9, 30))
    assert question.alone().demand.table == question.demand.table
    said = question.level.remark
    assert said.facts == {"factor": factor, "weight": WEIGHT}


def test_allowed_laws_are_at_the_level() -> None:
    """Laws that a history allows are as many times as large."""
    question, plain = question_of(risen(), settings()), question_of(risen(), alone())
    assert question.level
    laws, before = ([law for law, _ in allowed_by(it, 4)] for it in (question, plain))
    assert laws == [at_rate(law, question.level.factor) for law in before]


def test_level_and_season() -> None:
    """The level is that of counts without the season, and a month has both."""
    counts = np.random.default_rng(5).poisson(6 * FACTORS[:104] * RISEN).tolist()
    item = seasonal(counts=tuple(counts))
    words = {"every": "week", "seasons": SEASONS}
    question, plain = (
        question_of(item, settings(**words)),
        question_of(item, alone(**words)),
    )
    assert question.level and question.season and plain.season
    assert question.level.factor == factor_of(question.item.counts, WEIGHT)
    moved = at_rate(plain.all_year.table, question.level.factor)
    assert question.all_year.table == moved
    assert question.demand.table == at_rate(moved, question.season.factor)
    assert question.flat.demand.table == moved
    stretch = question.season.year[5]
    month = question.during(stretch)
    assert month.season
    assert month.demand.table == at_rate(moved, month.season.factor)


@pytest.mark.parametrize(
    "changed",
    [
        {"group": "cold"},
        {"law": Law((5, 6), (1, 1))},
        {"past": NEW, "counts": (1,) * 40},
        {"counts": (4,) * 25},
        {"counts": (4,) * 40},
        {"counts": (1,) * 20 + (MOST_DEMAND - 1,) * 20},
        {"counts": (1,) * 20 + (2 * MOST_DEMAND,) * 20},
    ],
)
def test_items_at_their_mean(changed: dict[str, object]) -> None:
    """Those of another class, with a stated law, new, with a short record, that do not move, and those that are near the range of a law or
    beyond it."""
    item = risen(**changed)
    law = question_of(risen(), alone()).demand
    assert FOLLOWING.at_level(item, law) is None


def test_unknown_periods_are_left_out() -> None:
    """A period whose demand is not known moves no level."""
    item = risen()
    known = dataclasses.replace(item, unknown=(103,))
    law = question_of(item, alone()).demand
    level = FOLLOWING.at_level(known, law)
    assert level and level.factor == factor_of(item.counts[:-1], WEIGHT)


def test_trial_is_at_the_record() -> None:
    """What is tried on the past is planned from the rest of the record, at its level."""
    item = risen(fill=Fraction(19, 20))
    plain = trial_of(item, alone(), Prior(NONE))
    assert trial_of(item, settings(), Prior(NONE)) == plain
