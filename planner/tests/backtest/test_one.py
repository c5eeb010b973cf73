"""Tests the test of an item on its past: plans as `plan_one` makes them, of the record alone, and what came."""
from __future__ import annotations

import dataclasses
from fractions import Fraction
from pathlib import Path
from typing import Any

import numpy as np
import pytest

import crnplan as crn
from crnplan.demand.learning import Prior
from crnplan.errors import Refused
from crnplan.plan.answer import Answer
from crnplan.plan.aims import Aims, Tried
from crnplan.plan.backtest import methods
from crnplan.plan.backtest.methods import (
    ALIKE,
    PLANNED,
    Walk,
    Walked,
    Way,
    aims_about,
    today_of,
)
from crnplan.plan.backtest.one import (
    SHORT_RECORD,
    Backtest,
    backtest_item,
    backtest_one,
)
from crnplan.plan.one import plan_one
from crnplan.plan.how import NONE, Settings
from crnplan.plan.question import Question, question_of
from crnplan.read.item import Item
from crnplan.remarks import Remark
from planner.tests.catalogue.test_damping import costed
from planner.tests.plan.items import alone, item_of, several

WALK = Walk(record=40, every=7, window=30)
OWN = Prior(NONE)


def ways_of(settings: Settings) -> dict[str, Way]:
    """Returns the way of items that are planned by themselves."""
    return {PLANNED: Way(settings, OWN)}


def past_of(item: Item, walk: Walk = WALK) -> Backtest:
    return backtest_one(item, walk, ways_of(alone()))


def planned(item: Item, program: Path) -> Answer:
    return plan_one(question_of(item, alone(), OWN), str(program))


def test_stretches_by_hand() -> None:
    """Of 60 periods, plans are for 40 to 46, 47 to 53 and 54 to 59; later ones are of the last 30, or of all before."""
    assert [*WALK.stretches(60)] == [(0, 40, 47), (17, 47, 54), (24, 54, 60)]
    assert [*Walk(40, 7).stretches(60)] == [(0, 40, 47), (0, 47, 54), (0, 54, 60)]


@pytest.mark.parametrize("field", ["record", "every", "window"])
def test_no_periods_are_refused(field: str, tmp_path: Path) -> None:
    with pytest.raises(Refused, match=f"{field}: 0 is not at least 1"):
        crn.backtest(tmp_path, **{field: 0})


@pytest.mark.parametrize("place", range(5))
def test_plan_is_that_of_its_record(place: int, program: Path) -> None:
    """Levels and promises are those of the plan of the item as it was, and today's those that it shows beside."""
    item = [*several(5)][place]
    answer, test = planned(item.part(0, WALK.record), program), past_of(item)
    assert (test.planned.point, test.planned.level) == answer.chosen.levels
    policy, outcome = answer.today, test.today
    assert policy and outcome
    assert (policy.point, policy.level) == (outcome.point, outcome.level)
    assert outcome.promised_cost == pytest.approx(policy.cost, rel=1e-12)
    assert outcome.promised_fill == pytest.approx(policy.fill, rel=1e-12)


def test_no_policy_today() -> None:
    """Without today's levels the test is the same but for today's policy, which it lacks."""
    item = item_of()
    assert past_of(dataclasses.replace(item, levels=None)) == dataclasses.replace(
        past_of(item), today=None
    )


@pytest.mark.parametrize("window", [30, None])
def test_plans_are_of_the_periods_before(window: int | None, program: Path) -> None:
    """The promise is the mean of those of the plans that would have been made, over the periods of each."""
    item, walk = item_of(3), Walk(40, 7, window)
    plans = [
        (planned(item.part(start, origin), program).chosen, end - origin)
        for start, origin, end in walk.stretches(len(item.counts))
    ]
    periods = sum(weight for _, weight in plans)
    assert len({policy.levels for policy, _ in plans}) > 1
    refitted = past_of(item, walk).planned
    assert refitted.promised_cost == pytest.approx(
        sum(plan.cost * weight for plan, weight in plans) / periods
    )
    assert refitted.promised_fill == pytest.approx(
        sum(plan.fill * weight for plan, weight in plans) / periods
    )


def test_no_later_period_is_seen() -> None:
    """Other later periods change nothing of what was planned, nor the first period after the record."""
    item = item_of(4)
    other = dataclasses.replace(
        item, counts=(*item.counts[:41], *(9 * it + 5 for it in item.counts[41:]))
    )
    for policy in ("today", "planned", "averaged", "smoothed", "cover"):
        first, second = (
            getattr(past_of(it, Walk(40, 20)), policy) for it in (item, other)
        )
        assert first.costs[0] == second.costs[0]
        assert (first.point, first.level, first.promised_cost) == (
            second.point,
            second.level,
            second.promised_cost,
        )
        assert first.costs[1:] != second.costs[1:]


def test_steady_item() -> None:
    """A steady demand of 6 with a lead time of 1 and no setup cost is met from 12 items: no stock is left, and nothing
    is owed. A period costs nothing."""
    item = item_of(counts=(6,) * 60, leads=(1,), setup=Fraction(0), levels=(12, 12))
    own = Settings(fit="empirical", borrow=NONE)
    test = backtest_one(item, WALK, ways_of(own))
    for outcome in (test.today, test.planned):
        assert outcome
        assert (
            outcome.cost,
            outcome.fill,
            outcome.stock,
            outcome.orders,
        ) == (0, 1, 0, 1)
    # The rule of thumb has S = 18: it orders 12 in every second period, and 6 of them are left in stock for one.
    rule = test.smoothed
    assert (rule.cost, rule.fill, rule.stock, rule.orders) == (
        pytest.approx(3 * 0.55),
        1,
        3,
        0.5,
    )
    assert test.mean == 6


def test_promise_holds_where_the_law_is_known() -> None:
    """With a long record of independent demand, cost, fill, stock and orders of a long time after it are as promised."""
    source = np.random.default_rng(7)
    item = item_of(
        counts=tuple(source.poisson(3, 50_000).tolist()),
        leads=(1, 2, 4),
        setup=Fraction(30),
    )
    walk = Walk(record=25_000, every=25_000)
    own = Settings(fit="empirical", borrow=NONE)
    walked = Walked(item, walk, ways_of(own))
    figures = walked.planned[0].figures
    kept = walked.happened.traced(walked.run(walked.planned))
    assert kept.cost == pytest.approx(figures.cost, rel=0.01)
    assert kept.fill == pytest.approx(figures.fill, abs=0.003)
    assert kept.stock == pytest.approx(figures.stock, rel=0.01)
    assert kept.orders == pytest.approx(figures.orders, rel=0.01)


def test_no_test() -> None:
    """A record that is too short, and one without demand, are named."""
    short = backtest_item(item_of(), Walk(record=52, every=13), ways_of(alone()))
    assert short == Remark(SHORT_RECORD, {"periods": 60, "needed": 65})
    silent = item_of(counts=(0,) * 50 + (1,) * 10)
    assert isinstance(backtest_item(silent, WALK, ways_of(alone())), Remark)


def test_aims_are_the_least_levels_of_their_fill_rates() -> None:
    """By a Markov chain the levels of an aim meet its fill rate at once, and a level less does not. At the aim of the plan
    itself they are those of the plan."""
    settings, item = alone(fit="empirical"), item_of(fill=Fraction(9, 10))
    (plan,) = Walked(item, Walk(59, 1), ways_of(settings)).planned
    item = item.part(0, 59)
    rates = aims_about(0.9)
    assert rates == pytest.approx([0.5, 0.8, 0.9, 0.9 + 0.2 / 3, 0.99])
    for rate, (s, S) in zip(rates, plan.aims, strict=True):
        assert costed(item, settings, (s, S))[1] >= rate
        assert s == 0 or costed(item, settings, (s - 1, S - 1))[1] < rate
    assert plan.aims[2] == plan.figures.levels


def test_rates_have_ends() -> None:
    """A wanted 99.9% is not aimed at by 99.99%, nor a wanted 40% by less than 10%."""
    assert aims_about(0.999)[-1] == 0.9995
    assert aims_about(0.4)[0] == 0.1


def test_today_moved_by_hand() -> None:
    """Demands of 2 and 6 in turn have a variance of 4, over three periods a deviation of the root of 12: 3.46."""
    item = item_of(counts=(2, 6) * 40, leads=(2,), levels=(5, 20))
    run = today_of(Walked(item, WALK, ways_of(alone(fit="empirical"))))
    assert run
    assert [levels[0] for levels in run.aims] == [
        (0, 15),
        (2, 17),
        (5, 20),
        (8, 23),
        (12, 27),
    ]
    assert {levels[0] for levels in run.aims} == {levels[-1] for levels in run.aims}


def test_corrected_plan_aims_as_the_catalogue(program: Path) -> None:
    """The plan of a catalogue with aims is that of `plan_one` with the same."""
    met = (0.2, 0.15, 0.1, 0.05, 0.04, 0.03, 0.02, 0.01, 0.0)
    aims = Aims(1.0, (Tried(40, 2_000, met),) * 2)
    wanting = item_of(3, backlog=None, fill=Fraction(19, 20))
    settings = dataclasses.replace(alone(), correct=True, aims=aims)
    test = backtest_one(wanting, WALK, ways_of(settings)).planned
    answer = plan_one(question_of(wanting.part(0, 40), settings, OWN), str(program))
    assert (test.point, test.level) == answer.chosen.levels
    assert answer.chosen.fill > 0.98 > (past_of(wanting).planned.promised_fill or 1)


def test_items_with_a_goal_of_their_own() -> None:
    """One that is planned by itself has the same plan alike, and no value by which its demand counts."""
    item = item_of(3)
    ways = ways_of(alone()) | {ALIKE: Way(alone(alike=True), OWN)}
    test = backtest_one(item, WALK, ways)
    assert test.alike == test.planned
    assert test.value is None and past_of(item).alike is None


def test_window_without_demand_keeps_the_plan() -> None:
    """If no plan can be made of a window, the last one is kept."""
    item = item_of(counts=(4, 0, 2, 6) * 10 + (0,) * 80)
    walk = Walk(record=40, every=40, window=40)
    assert past_of(item, walk).planned.changes == 0
    assert past_of(item, Walk(40, 40)).planned.changes == 1


def test_a_question_that_cannot_be_asked(monkeypatch: pytest.MonkeyPatch) -> None:
    """If none can be asked of later periods, the plan of the record stays; if none of the record, there is no test."""
    asked, item = question_of, item_of(counts=(4, 0, 2, 9) * 15)

    def refused_from(periods: int) -> None:
        def ask(known: Item, *way: Any) -> Question:
            if len(known.counts) >= periods:
                raise Refused("no law fits")
            return asked(known, *way)

        monkeypatch.setattr(methods, "question_of", ask)

    refused_from(41)
    assert past_of(item, Walk(40, 10)).planned.changes == 0
    refused_from(0)
    assert isinstance(backtest_item(item, Walk(40, 10), ways_of(alone())), Remark)
