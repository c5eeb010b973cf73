"""Tests plans of items for which a share of periods without a shortage is wanted: by brute force, by a simulation of its
own, and in what is read, refused, shown and counted."""
from __future__ import annotations

import itertools
from fractions import Fraction
from pathlib import Path
from typing import Any

import numpy as np
import pandas as pd
import pytest

import crnplan as crn
from crnplan.plan.answer import BOUNDED, SERVICE, Answer
from crnplan.plan.backtest.rules import wanted_share
from crnplan.plan.binding import remarks_of_today
from crnplan.plan.choice import Choice, choice_of, unless_worse
from crnplan.plan.one import plan_one
from crnplan.plan.question import Question, question_of
from crnplan.plan.what_ifs import what_if
from crnplan.read.bounds import OrderBounds
from crnplan.remarks import Remark
from crnplan.sentences import sentence
from planner.tests.plan.items import (
    QUICK as WORDS,
    stocks_of,
    alone,
    item_of,
    tables_of,
)
from planner.tests.planned_tables import whole_frame

WANTED = Fraction(19, 20)
GOAL: dict[str, Any] = {"backlog": None, "no_shortage": WANTED}
PERIODS = 200_000
COUNT = 6


def asked(place: int = 0, **changed: Any) -> Question:
    return question_of(item_of(place, **GOAL | changed), alone(fit="empirical"))


def answered(program: Path, place: int = 0, **changed: Any) -> Answer:
    return plan_one(asked(place, **changed), str(program))


def short_of(question: Question, s: int, S: int) -> float:
    """Returns the share of periods of a long walk that end with items owed."""
    source = np.random.default_rng(7)
    laws = question.demand.chances, question.lead.chances
    demands, leads = (
        source.choice([*law], PERIODS, p=[*map(float, law.values())]) for law in laws
    )
    ends = stocks_of((s, S), demands.tolist(), leads.tolist(), S)
    return sum(end < 0 for _, end in ends) / PERIODS


@pytest.mark.parametrize(
    "changed", [{}, {"leads": (1, 3, 2)}, {"backlog": Fraction(3)}]
)
@pytest.mark.parametrize("place", [0, 1])
def test_the_cheapest_policy_by_brute_force(
    place: int, changed: dict[str, Any]
) -> None:
    """No pair with as few shortages costs less, and a long simulation finds as few."""
    question = asked(place, **changed)
    s, S = choice_of(question).levels
    chosen = question.figures((s, S))
    assert chosen.short <= 0.05
    for point in range(1, s + 12):
        for level in range(point, S + 12):
            other = question.figures((point, level))
            if other.short <= 0.05:
                assert other.cost >= chosen.cost * (1 - 1e-9)
    assert short_of(question, s, S) == pytest.approx(chosen.short, abs=0.004)


LUMPY: dict[str, Any] = {
    "counts": (0, 0, 1, 1, 0, 0, 1, 1, 1, 20) * 6,
    "leads": (1,),
    "no_shortage": Fraction(4, 5),
}


def test_more_service_by_periods(program: Path) -> None:
    """A policy that costs less and meets more at once, but has more shortages than are wanted, does not stay."""
    question = asked(**LUMPY, levels=(1, 8))
    today, chosen = question.figures((1, 8)), question.figures((2, 7))
    assert today.cost < chosen.cost and today.fill > chosen.fill
    assert today.short > 0.2 >= chosen.short
    assert choice_of(question, True).levels == (2, 7)
    assert plan_one(question, str(program)).verdict == SERVICE


def test_today_stays_if_it_has_fewer_shortages() -> None:
    """It is no dearer than the best of wide policies, and has fewer shortages, though it meets less at once."""
    question = asked(**LUMPY, levels=(2, 7))
    wide = {}
    for s, gap in itertools.product(range(9), range(14, 20)):
        figures = question.figures((s, s + gap))
        if figures.short <= 0.2:
            wide[s, s + gap] = figures
    best = min(wide, key=lambda levels: wide[levels].cost)
    choice = unless_worse(Choice(best, best), question, None)
    assert choice.levels == (2, 7) and choice.worse == best
    today, worse = question.figures((2, 7)), wide[best]
    assert today.short < worse.short < 0.2 and today.fill < worse.fill
    (said,) = map(sentence, remarks_of_today(question, choice))
    assert said.endswith(
        "has no shortage in 80.65% of periods where today's has no shortage in 81.00%"
    )


def test_bounds_that_leave_no_policy(program: Path) -> None:
    """The nearest policy is that with the fewest shortages, and it is said in these words."""
    words = {"no_shortage": Fraction(999, 1000), "setup": Fraction(1), "levels": (1, 3)}
    answer = answered(program, bounds=OrderBounds(coverage=Fraction(5)), **words)
    assert answer.verdict == BOUNDED
    (said,) = [sentence(it) for it in answer.remarks if it.code == BOUNDED]
    kept = f"{answer.chosen.no_shortage:.2%}"
    assert (
        f"has no shortage in 99.90% of periods: the nearest has no shortage in {kept};"
        in said
    )
    nothing = Remark("no policy", {"fill": 0.9, "of_periods": True})
    assert "has no shortage in 0.9 of periods within" in sentence(nothing)
    unkept = Remark("no promise", {"confidence": 0.8, "of_periods": True})
    assert sentence(unkept).startswith("its share of periods without a shortage holds")


def test_a_confidence_in_the_goal(program: Path) -> None:
    """Under four of five laws that the history allows the promised policy has the goal, and no lower S of its gap."""
    question = question_of(item_of(1, **GOAL), alone(fit="empirical", confidence=0.8))
    answer = plan_one(question, str(program))
    plain = answered(program, 1).chosen
    assert (answer.confidence_cost or 0) > 0
    assert answer.chosen.short < plain.short and answer.chosen.cost > plain.cost


def test_what_if_another_share_is_wanted() -> None:
    """The share is of periods without a shortage, as that which the item wants."""
    question = asked()
    shares = [question.met(what_if(question, [], share=it)[0]) for it in (0.9, 0.975)]
    assert 0.9 <= shares[0] < 0.975 <= shares[1]
    assert wanted_share(item_of(**GOAL)) == 0.95


def made(**columns: Any) -> tuple[pd.DataFrame, pd.DataFrame]:
    """Returns demand and masters: of the first three items a share of periods is wanted, of the next two a fill rate, and
    the last one has a backlog cost."""
    goals = [GOAL] * 3 + [{"backlog": None, "fill": WANTED}] * 2 + [{}]
    items = [item_of(place, **goal) for place, goal in enumerate(goals)]
    sales, masters = tables_of(items)
    masters["no_shortage"] = [0.95, 0.9, 0.99, None, None, None]
    return sales, masters.assign(price=2.0, **columns)


@pytest.fixture(scope="module")
def plan(program: Path) -> crn.Plan:
    return crn.plan(*made(), program=program, **WORDS)


def test_decisions_and_pages(plan: crn.Plan, tmp_path: Path) -> None:
    """Wanted and met stand beside each other where such a share is wanted; counts, pages and the workbook say it."""
    rows = whole_frame(plan).set_index("item")
    goals = rows.iloc[:3]
    assert goals.no_shortage_wanted.tolist() == [0.95, 0.9, 0.99]
    assert (goals.no_shortage_chosen >= goals.no_shortage_wanted).all()
    assert goals.fill_wanted.isna().all()
    others = rows.iloc[3:].filter(like="no_shortage")
    assert others.isna().all(axis=None) and len(others.columns) == 2
    totals = plan.totals
    assert totals.by_periods == 3
    mean = goals.no_shortage_chosen.mean()
    assert totals["no_shortage_chosen"] / 3 == pytest.approx(mean, abs=1e-4)
    said = f"3 items, in the mean in 94.67%; by theory their chosen policies have none in {mean:.2%}\n"
    assert f"no shortage wanted in a share of weeks: {said}" in plan.text
    page = plan.report(["I-000"]).read_text("utf-8")
    assert "For 3 items a share of weeks is wanted that end with nothing owed" in page
    item = plan.item("I-000")
    assert "In 95% of weeks nothing is to be owed at the end." in item.text
    met = rows.no_shortage_chosen["I-000"]
    said = " ".join(item.text.split())
    assert f"the chosen policy has no shortage in {met:.1%} of weeks" in said
    plan.to_excel(tmp_path / "plan.xlsx")
    sheet = pd.read_excel(tmp_path / "plan.xlsx", "Details")
    assert sheet.no_shortage_wanted.dropna().tolist() == [0.95, 0.9, 0.99]


def test_planned_by_itself(program: Path, plan: crn.Plan) -> None:
    """Items with such a goal have the same policy beside others that are planned together, and that is counted."""
    both = crn.plan(*made(), program=program, together=0.9, **WORDS)
    names = ["item", "s_chosen", "S_chosen", "cost_chosen", "no_shortage_chosen"]
    assert whole_frame(both)[names][:3].equals(whole_frame(plan)[names][:3])
    assert both.totals.shared.total() == 2 and both.totals.by_periods == 3
    assert "; each is planned by itself, without a correction\n" in both.text
    assert plan.curve().frame.shape[0] > 0


def test_a_default_for_items_without_a_goal(program: Path) -> None:
    """It is that of items of which neither the masters nor a class say a goal, and how many that are is said."""
    sales, masters = made(no_shortage=None)
    masters.loc[3, "fill"] = None
    words = {**WORDS, "service": {"a": "90%"}}
    done = crn.plan(sales, masters, no_shortage="97%", program=program, **words)
    rows = done.details
    # Those of class a, every second one, want its fill rate.
    assert rows.no_shortage_wanted[1::2][:2].tolist() == [0.97, 0.97]
    assert rows.no_shortage_wanted[[0, 2, 4, 5]].isna().all()
    assert "no_shortage: 2 items by the default" in done.text


@pytest.mark.parametrize("other", [{"fill": "95%"}, {"together": 0.95}])
def test_two_defaults_are_refused(other: dict[str, Any]) -> None:
    (name,) = other
    with pytest.raises(crn.Refused, match=f"{name} and no_shortage are both of all"):
        crn.plan(*made(), no_shortage=0.95, **other)


def test_rows_that_are_refused() -> None:
    """A row with two goals, or with none, is named with its line; percent and shares are told apart as for fill rates."""
    sales, masters = made()
    masters.loc[3, "no_shortage"] = 0.95
    masters.loc[5, "backlog"] = None
    read = crn.read_catalogue(sales, masters.astype({"no_shortage": object}))
    rejects = read.rejects.set_index("item")
    assert rejects.line.tolist() == [5, 7] and [*rejects.index] == ["I-003", "I-005"]
    assert "a fill rate is wanted, and a share of periods" in rejects.reason["I-003"]
    assert rejects.column["I-005"] == "backlog"
    masters = made()[1].rename(columns={"no_shortage": "chance of no shortage (%)"})
    read = crn.read_catalogue(sales, masters)
    assert "may be 0.95% or 95%" in read.rejects.reason[0]
    masters = made()[1].rename(columns={"no_shortage": "cycle service level"})
    assert len(crn.read_catalogue(sales, masters).rejects) == 3


def test_the_goal_of_an_item_without_a_plan(program: Path) -> None:
    """What is wanted of an item without demand is shown beside no share that it has."""
    sales, masters = tables_of([item_of(0, **GOAL)])
    both = pd.concat([masters, masters.assign(item="quiet")]).assign(no_shortage=0.95)
    plan = crn.plan(sales, both, program=program, **WORDS)
    quiet = whole_frame(plan).set_index("item").loc["quiet"]
    assert quiet.no_shortage_wanted == 0.95 and pd.isna(quiet.no_shortage_chosen)
