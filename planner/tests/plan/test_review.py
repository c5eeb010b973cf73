"""Tests plans of items that are not reviewed in each period: by a simulation of its own, in what is read and refused, and
in all that says that they have no run."""
from __future__ import annotations

from collections.abc import Sequence
from fractions import Fraction
from pathlib import Path
from typing import Any

import numpy as np
import pandas as pd
import pytest

import crnplan as crn
from crnplan.crnsim.periods import Realization, periods_of
from crnplan.plan.answer import THEORY
from crnplan.plan.backtest.methods import PLANNED, Walk, Walked, Way
from crnplan.plan.backtest.rules import normal_levels, smoothed_last
from crnplan.plan.choice import choice_of
from crnplan.plan.correction import in_blocks
from crnplan.plan.one import plan_one
from crnplan.plan.question import Levels, Question, question_of
from crnplan.demand.learning import Prior
from crnplan.read.bounds import OrderBounds
from crnplan.sentences import sentence
from planner.tests.plan.items import QUICK as WORDS, alone, item_of, tables_of
from planner.tests.plan.test_seasons import answered as in_season
from planner.tests.planned_tables import whole_frame

PERIODS = 80_000
FILL: dict[str, Any] = {"backlog": None, "fill": Fraction(19, 20)}
NONE = Prior("none")


def asked(review: int, place: int = 0, **changed: Any) -> Question:
    return question_of(item_of(place, review=review, **changed), alone(fit="empirical"))


def by_hand(
    levels: Levels,
    demands: Sequence[int],
    leads: Sequence[int],
    review: int,
    first: int,
) -> tuple[list[int], list[int], list[int]]:
    """Returns the stock at the end of each period, what it met at once and what it ordered, of a buyer who looks at the
    position once in so many periods, beginning with S."""
    (s, S), stocks, met, ordered = levels, list[int](), list[int](), list[int]()
    longest = max(leads)
    stock, due = S, [0] * (len(demands) + longest + 1)
    for period, (demand, lead) in enumerate(zip(demands, leads)):
        stock += due[period]
        position = stock + sum(due[period + 1 : period + 1 + longest])
        order = S - position if period % review == first and position < s else 0
        due[period + lead] += order
        met.append(min(max(stock, 0), demand))
        stock -= demand
        stocks.append(stock)
        ordered.append(order)
    return stocks, met, ordered


@pytest.mark.parametrize(
    "review, leads", [(2, (2,)), (4, (2,)), (4, (1, 3, 2)), (3, (5,))]
)
def test_promises_are_those_of_a_buyer(
    program: Path, review: int, leads: tuple[int, ...]
) -> None:
    """Cost, fill, shortages, stock and orders of the chosen policy are those of a long simulation."""
    question = asked(review, 1, leads=leads, **FILL)
    answer, source = plan_one(question, str(program)), np.random.default_rng(review)
    demands, times = (
        source.choice([*law], PERIODS, p=[*map(float, law.values())]).tolist()
        for law in (question.demand.chances, question.lead.chances)
    )
    chosen = answer.chosen
    levels = chosen.point, chosen.level
    stocks, met, ordered = map(np.array, by_hand(levels, demands, times, review, 0))
    assert chosen.fill >= 0.95 and answer.source == THEORY and answer.run is None
    assert met.sum() / sum(demands) == pytest.approx(chosen.fill, abs=0.006)
    assert (stocks < 0).mean() == pytest.approx(chosen.short, abs=0.006)
    stock, orders = np.maximum(stocks, 0).mean(), (ordered > 0).mean()
    assert [stock, orders] == pytest.approx([chosen.stock, chosen.orders], rel=0.02)
    cost = float(question.item.setup) * orders + float(question.item.holding) * stock
    assert cost == pytest.approx(chosen.cost, rel=0.02)
    # The levels of a buyer who looks in each period are too low.
    often = choice_of(asked(1, 1, leads=leads, **FILL)).levels
    assert question.figures(often).fill < 0.95


def test_periods_of_a_buyer() -> None:
    """Orders are placed in every third period, of which the first one is said, as by hand."""
    source = np.random.default_rng(1)
    demands, leads = source.poisson(2, 40).tolist(), source.integers(1, 4, 40).tolist()
    for first in range(3):
        past = Realization(demands, [0] * 40, leads, 3, first)
        found = periods_of(past, [(6, 14)] * 40, 14)
        stocks, met, ordered = by_hand((6, 14), demands, leads, 3, first)
        assert [it.stock for it in found] == stocks
        assert [it.ordered for it in found] == ordered
        assert [asked - it.unmet for asked, it in zip(demands, found)] == met
        assert {place % 3 for place, order in enumerate(ordered) if order} == {first}


def test_what_is_said_of_an_answer(program: Path) -> None:
    """Today's policy is compared by theory, the verdict follows from that, and it is said that there is no run."""
    answer = plan_one(asked(4), str(program))
    assert answer.today and answer.saving == answer.today.cost - answer.chosen.cost
    (said,) = [sentence(it) for it in answer.remarks if it.code == "no run"]
    assert said.startswith("it is reviewed once in 4 periods")
    rough = asked(4, counts=(0, 3_000, 801, 0, 5_003, 7) * 9, levels=(4_000, 9_000))
    assert not rough.theory.exact
    assert plan_one(rough, str(program)).source == THEORY
    scenario = asked(4).scenario()
    with pytest.raises(crn.Refused, match="crnsim reviews in each period"):
        scenario.run(program=str(program))


def test_one_review_in_each_period_changes_nothing(program: Path) -> None:
    once, plain = item_of(review=1), item_of()
    assert once == plain
    answers = [plan_one(question_of(it, alone()), str(program)) for it in (once, plain)]
    assert answers[0] == answers[1] and answers[0].run


def test_the_past_has_the_same_reviews() -> None:
    """A test on the past, its rule of thumb and a correction look at stock on the same days: the first later period is
    one, or the first of the record's second time."""
    item = item_of(review=4, **FILL)
    ways = {PLANNED: Way(alone(fit="empirical"), NONE)}
    walked = Walked(item, Walk(record=30, every=13), ways)
    levels = [walked.planned[0].figures.levels] * len(item.counts)
    ordered = [it.ordered > 0 for it in walked.happened.periods(levels)]
    assert sum(ordered) and not any(
        is_order for place, is_order in enumerate(ordered) if place % 4
    )
    forecast = smoothed_last(item.counts)
    (first,), (sooner,) = (
        normal_levels(it, [0.95], forecast, 2.0, 0.0) for it in (item, item_of(**FILL))
    )
    assert first[0] - sooner[0] >= 3 * forecast.mean

    def planned(question: Question) -> list[Levels]:
        return [(1, 10)]

    unmet = in_blocks(item, alone(fit="empirical"), NONE, planned)
    often = in_blocks(item_of(**FILL), alone(fit="empirical"), NONE, planned)
    assert unmet[0] > often[0]


def made(**columns: Any) -> tuple[pd.DataFrame, pd.DataFrame]:
    """Returns demand and masters: two items are reviewed once in four weeks, the third one once a week."""
    facts: tuple[dict[str, Any], ...] = (FILL, {"bounds": OrderBounds(pack=6)}, FILL)
    sales, masters = tables_of(
        [item_of(place, **its) for place, its in enumerate(facts)]
    )
    masters["pack"] = [1, 6, 1]
    masters["review"] = ["4 weeks", "28 days", ""]
    return sales, masters.assign(price=2.0, **columns)


@pytest.fixture(scope="module")
def plan(program: Path) -> crn.Plan:
    return crn.plan(*made(), program=program, **WORDS)


def test_decisions_pages_and_sums(plan: crn.Plan, tmp_path: Path) -> None:
    """Items without a run are counted, none is shown for them, and they have no page of their own."""
    rows = whole_frame(plan).set_index("item")
    assert rows.by.tolist() == ["theory"] * 3
    runs = rows[["run_saving", "run_low", "run_high"]]
    assert runs[:2].isna().all(axis=None) and runs[2:].notna().all(axis=None)
    totals = plan.totals
    assert totals.without_run == 2 and totals.compared == 3
    alone_saved = rows.saving[:2].sum()
    assert totals["saving_without_run"] == pytest.approx(alone_saved, abs=0.02)
    assert totals["run_saving"] == pytest.approx(rows.run_saving.iloc[2], abs=0.01)
    assert (
        "not reviewed in each week: 2 items, by theory alone, without a run;"
        in plan.text
    )
    page = plan.report().read_text("utf-8")
    assert "2 items are not reviewed in each week." in page
    with pytest.raises(crn.Refused, match="'I-000' is reviewed once in 4 periods"):
        plan.item("I-000")
    assert plan.item("I-002").text
    assert plan.curve().frame.shape[0] > 0
    plan.to_excel(tmp_path / "plan.xlsx")


def test_other_ways_to_say_it(program: Path, plan: crn.Plan) -> None:
    """A default holds where the masters say nothing, and a column may have the unit in its heading."""
    names = ["s_chosen", "S_chosen", "cost_chosen", "fill_chosen"]
    sales, masters = made()
    heading = masters.drop(columns="review").assign(**{"review (weeks)": [4, 4, None]})
    by_word = masters.drop(columns="review").iloc[:2]
    for table, words in (
        (heading, {}),
        (by_word, {"review": 4}),
        (by_word, {"review": "28 days"}),
    ):
        done = crn.plan(sales, table, program=program, **WORDS, **words)
        found = whole_frame(done)[names]
        assert found[:2].equals(whole_frame(plan)[names][:2])
    assert "review: 2 items by the default" in done.text


@pytest.mark.parametrize(
    "cell, reason",
    [
        ("1 month", "is 4.34821 weeks, and a review is once in 1 to 52 whole weeks"),
        ("10 days", "is 1.42857 weeks"),
        ("60 weeks", "is 60 weeks, and a review is once in 1 to 52"),
        ("often", "is no time"),
    ],
)
def test_times_that_are_refused(cell: str, reason: str) -> None:
    """A row whose time is no whole number of periods is named with its line; a column without a unit is refused."""
    with pytest.raises(crn.Refused, match="the column 'review' names no unit"):
        crn.read_catalogue(*made(review=4))
    read = crn.read_catalogue(*made(review=[cell, "", ""]))
    assert read.rejects.line.tolist() == [2] and reason in read.rejects.reason[0]


@pytest.mark.parametrize(
    "word, reason",
    [("10 days", "is 1.42857 weeks"), (0, "is 0 weeks"), ("x", "no time")],
)
def test_words_that_are_refused(word: object, reason: str) -> None:
    with pytest.raises(crn.Refused, match=f"review.*{reason}"):
        crn.read_catalogue(*made(), review=word)


def test_a_season_without_a_run(program: Path) -> None:
    """The year of an item that is planned month by month has no run either, and its verdict is theory's."""
    answer, often = in_season(program, review=4), in_season(program)
    assert answer.run is None and often.run and answer.calendar
    assert answer.today and answer.saving == pytest.approx(
        answer.today.cost - answer.chosen.cost, rel=1e-9
    )
    pairs = zip(answer.parts, often.parts)
    assert all(month.s > other.s for month, other in pairs)
