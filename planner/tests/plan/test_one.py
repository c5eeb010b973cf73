"""Tests the answer to one item: whose figures it has, the run beside them, and that a catalogue gives the same."""
from __future__ import annotations

import math
from collections import Counter
from dataclasses import replace
from fractions import Fraction
from pathlib import Path
from typing import Any

import numpy as np
import pytest

import crnplan as crn
from crnplan.demand.learning import Prior
from crnplan.law import Law
from crnplan.plan import checked_run, one, question as questions
from crnplan.money import Currency
from crnplan.show.item_page import ItemWords, item_summary
from crnplan.plan.answer import (
    CHEAPER,
    RUN,
    SAME,
    SERVICE,
    THEORY,
    UNCOMPARED,
    UNDECIDED,
    Answer,
)
from crnplan.plan.item import Depth
from crnplan.plan.checked_run import Disagreement
from crnplan.plan.one import plan_asked, plan_one
from crnplan.plan.how import Settings
from crnplan.plan.question import Question, question_of
from crnplan.read.item import Item
from crnplan.remarks import Remark
from crnplan.theory.long_run import Candidate, LongRun
from planner.tests.plan.items import WEEKS, alone, item_of
from planner.tests.theory.long_run_costs import cost_of, shortfall_of

NONE = Prior("none")


def answer_of(item: Item, settings: Settings, program: Path) -> Answer:
    return plan_one(question_of(item, settings), str(program))


@pytest.mark.parametrize("changed", [{}, {"leads": (1, 3, 2)}], ids=str)
def test_costs_are_those_of_theory(program: Path, changed: dict[str, Any]) -> None:
    """Costs and the saving are the exact ones of the long run, whatever the random numbers, and the run is beside."""
    item = item_of(**changed)
    answers = [answer_of(item, alone(seed=seed), program) for seed in "ab"]
    assert len({it.saving for it in answers}) == 1
    assert len({it.run.saving for it in answers}) == 2
    scenario, scale = (
        question_of(item, alone()).scenario(),
        question_of(item, alone()).scale,
    )
    for it in answers:
        wanted = [
            cost_of(scenario, shortfall_of(scenario, its.level - its.point), its.level)
            / float(scale)
            for its in (it.today, it.chosen)
        ]
        assert [it.cost_today, it.cost_chosen] == pytest.approx(wanted, rel=1e-7)
        assert (it.source, it.verdict) == (
            THEORY,
            CHEAPER,
        )
        assert it.saving == it.cost_today - it.cost_chosen > 0


def test_laws_are_kept(program: Path) -> None:
    """An answer has the laws by which it was planned: as they were seen, if they are fitted so."""
    item = item_of(
        4,
        leads=(1, 3, 3) * 7,  # so many that they are taken as they are
        returns=tuple(count // 2 for count in item_of(4).counts),
    )
    laws = answer_of(item, alone(fit="empirical"), program).laws
    assert laws.box == 1
    assert laws.lead.chances == {1: 1 / 3, 3: 2 / 3}
    assert laws.returns
    for law, seen in ((laws.demand, item.counts), (laws.returns, item.returns)):
        assert law.chances == {
            value: count / WEEKS for value, count in Counter(seen).items()
        }


def test_costs_are_those_of_the_run_where_theory_is_rounded(
    program: Path, monkeypatch: pytest.MonkeyPatch
) -> None:
    """On a lattice of several items the run's figures stand, and its interval decides."""
    monkeypatch.setattr(questions, "MOST_GAPS", 60)
    answer = answer_of(
        item_of(
            3,
            counts=tuple(37 * it + it % 2 for it in item_of(3).counts),
            levels=(300, 700),
        ),
        alone(),
        program,
    )
    estimate = answer.run
    assert answer.step > 1
    assert answer.source == RUN
    assert "steps" in {it.code for it in answer.remarks}
    assert (
        (answer.cost_today, answer.cost_chosen, answer.saving)
        == (estimate.cost_today, estimate.cost_chosen, estimate.saving)
        != (
            answer.today.cost,
            answer.chosen.cost,
            answer.today.cost - answer.chosen.cost,
        )
    )
    assert (answer.verdict == UNDECIDED) == (
        estimate.low is None or estimate.low <= 0 <= (estimate.high or 0)
    )


@pytest.mark.parametrize(
    "changed, text",
    [
        (
            {"demand": Law((1, 10_001), (1, 1))},
            r"\[demand\] values, entry 2: 10001 is not from 0 to 10,000",
        ),
        (
            {"item": item_of(levels=(4, 1_000_001))},
            r"\[policy\] entry 1, S: 1000001 is not from 0 to 1,000,000",
        ),
    ],
    ids=["demand", "levels"],
)
def test_numbers_above_those_of_a_scenario(changed: dict[str, Any], text: str) -> None:
    """What is read and fitted makes the scenario that is made with all checks. With more of it there is none."""
    asked = question_of(item_of(), alone())
    scenario = asked.scenario()
    assert scenario == scenario.changed(initial=scenario.initial)
    with pytest.raises(crn.ScenarioError, match=text):
        replace(asked, **changed).theory


def test_the_run_is_that_of_the_key_of_the_name(program: Path) -> None:
    """Another name has another run of the same figures. The best policy saves nothing."""
    first, same, other = (
        answer_of(item_of(name=name), alone(), program) for name in ("A", "A", "B")
    )
    assert first == same
    assert first.run.key != other.run.key
    assert first.run.total_today != other.run.total_today
    assert (first.today, first.chosen, first.saving) == (
        other.today,
        other.chosen,
        other.saving,
    )
    best = answer_of(item_of(), alone(), program).chosen
    answer = answer_of(item_of(levels=(best.point, best.level)), alone(), program)
    estimate = answer.run
    assert (
        answer.verdict,
        answer.saving,
        estimate.saving,
        estimate.low,
        estimate.high,
        estimate.error,
    ) == (SAME, 0, 0, 0, 0, 0)
    assert [str(end) for end in (estimate.saving, estimate.low, estimate.high)] == [
        "0.0"
    ] * 3  # none is -0.0
    assert answer.run.total_today == answer.run.total_chosen
    assert answer.run.variance == 0
    answer = answer_of(
        item_of(backlog=None, fill=Fraction(99, 100), levels=(1, 8)), alone(), program
    )
    assert answer.today.fill < 0.99 <= answer.chosen.fill
    assert (
        answer.verdict,
        answer.saving < 0,
    ) == (SERVICE, True)


def raised(times: float) -> Any:
    """Returns a theory that counts orders as so many times as dear."""
    honest = Question.theory.func

    def theory(question: Question) -> LongRun:
        found = honest(question)
        found.setup = found.setup * times
        return found

    return property(theory)


def test_a_run_that_disagrees_is_a_fault(
    program: Path, monkeypatch: pytest.MonkeyPatch
) -> None:
    """Theory that counts orders by a quarter too dear is found out by the run, and the item has no plan."""
    settings = alone(periods=1_024, replications=24)
    assert isinstance(
        plan_asked((item_of(), None), settings, NONE, str(program)), Answer
    )
    monkeypatch.setattr(Question, "theory", raised(1.25))
    with pytest.raises(
        Disagreement,
        match="differ by more than chance allows: cost of today is .* by the run",
    ) as ours:
        answer_of(item_of(), settings, program)
    assert ours.value.status == 3
    fault = plan_asked((item_of(), None), settings, NONE, str(program))
    assert isinstance(fault, Remark)
    assert fault.code == "disagrees"
    assert fault.facts["theory"] > 1.02 * float(fault.facts["run"])  # type: ignore[operator]
    with pytest.raises(Disagreement, match="cost of chosen is"):
        answer_of(item_of(levels=None), settings, program)


@pytest.mark.parametrize(
    "changed", [{}, {"backlog": None, "fill": Fraction(19, 20)}], ids=str
)
def test_an_item_without_a_policy_today(program: Path, changed: dict[str, Any]) -> None:
    """It has the plan that it has beside a policy: the chosen one, its figures and its run. What is beside today's is
    empty, and its page compares with the chosen policy."""
    item, settings = item_of(levels=None, **changed), alone(
        periods=1_024, replications=24
    )
    answer, beside = answer_of(item, settings, program), answer_of(
        item_of(**changed), settings, program
    )
    assert (answer.verdict, answer.today, answer.cost_today, answer.saving) == (
        UNCOMPARED,
        None,
        None,
        None,
    )
    assert (answer.chosen, answer.cost_chosen, answer.remarks) == (
        beside.chosen,
        beside.cost_chosen,
        beside.remarks,
    )
    run, other = answer.run, beside.run
    assert (run.key, run.total_chosen) == (other.key, other.total_chosen)
    # The bias of a start is summed up on a lattice that depends on all policies of a run.
    assert run.cost_chosen == pytest.approx(other.cost_chosen, rel=1e-9)
    assert run.total_today is run.difference is run.cost_today is run.low is None
    depth = Depth(question_of(item, settings), answer, str(program))
    policies = {row.name: row for row in depth.compared}
    assert "today" not in policies
    assert policies["chosen"].verdict == "base"
    assert not policies["chosen"].difference
    for row in policies.values():
        assert row.difference == row.figures.cost - answer.chosen.cost
    words = item_summary(ItemWords(depth, "week", Currency())).splitlines()
    assert words[0].endswith(": no policy today")
    assert not any("today's" in line for line in words)


def test_a_run_without_rare_events_is_no_fault(
    program: Path, monkeypatch: pytest.MonkeyPatch
) -> None:
    """A run that meets none of a few dear shortages is far from theory by its own spread, and no fault."""
    seen, honest = list[Any](), checked_run.RunSample
    monkeypatch.setattr(
        checked_run, "RunSample", lambda *words: seen.append(words) or honest(*words)
    )
    rare = {
        "counts": (*[1, 0, 1, 2] * 150, 60),
        "backlog": Fraction(10_000),
        "levels": (9, 14),
        "holding": Fraction(1),
        "setup": Fraction(10),
    }
    for name in "abcdefgh":
        answer = answer_of(item_of(name=name, **rare), alone(fit="empirical"), program)
        assert answer.source == THEORY
    assert seen


def test_remarks(program: Path) -> None:
    """A policy that hardly orders, costs that no scale makes whole, and a law below its history are named."""
    slow = item_of(
        counts=(1, *[0] * 400, 1),
        setup=Fraction(1_000),
        holding=Fraction(1, 100),
        levels=(0, 90),
    )
    answer = answer_of(slow, alone(fit="empirical"), program)
    (remark,) = (it for it in answer.remarks if it.code == "no interval")
    assert answer.run.error is answer.run.low is None
    assert answer.source == THEORY
    assert 0 < float(remark.facts["orders"] or 0) < 2
    assert answer.verdict == CHEAPER
    answer = answer_of(
        item_of(
            setup=Fraction(90_000_000), holding=Fraction(1), backlog=Fraction("2.55")
        ),
        alone(),
        program,
    )
    (remark,) = (it for it in answer.remarks if it.code == "rounded costs")
    assert remark.facts["error"] == pytest.approx(3 / 2.55 - 1)
    item = item_of(counts=(*[1, 2, 3] * 15, 40, 60), levels=(9, 30))
    mean = np.mean(item.counts)
    codes = {
        fit: {
            it.code: it.facts for it in answer_of(item, alone(fit=fit), program).remarks
        }
        for fit in ("poisson", "empirical")
    }
    facts = codes["poisson"]["law below history"]
    assert [facts["seen_mean"], facts["seen_variance"]] == pytest.approx(
        [mean, np.var(item.counts, ddof=1)]
    )
    assert [facts["mean"], facts["variance"]] == pytest.approx([mean, mean], rel=0.05)
    assert "law below history" not in codes["empirical"]


@pytest.mark.parametrize("place", [1, 3])
def test_the_decision_without_the_largest_periods(place: int, program: Path) -> None:
    """Without its largest periods an item has the plan of a history that never had them; what that costs if they come
    again is the exact cost under the law of all periods."""
    item = item_of(
        place,
        returns=tuple(it // 4 for it in item_of(place).counts) if place == 3 else (),
    )
    places = [*range(WEEKS)]
    for _ in range(3):
        places.remove(max(places, key=lambda it: (item.counts[it], -it)))
    left = item_of(
        place,
        counts=tuple(item.counts[it] for it in places),
        returns=tuple(item.returns[it] for it in places) if item.returns else (),
    )
    question = question_of(item, alone())
    without = Depth(question, plan_one(question, str(program)), str(program)).without
    assert without
    assert without.rare == answer_of(left, alone(), program).chosen
    scenario = question.scenario()
    wanted = cost_of(
        scenario,
        shortfall_of(scenario, without.rare.level - without.rare.point),
        without.rare.level,
    )
    assert without.again.levels == without.rare.levels
    assert without.again.cost == pytest.approx(wanted / float(question.scale), rel=1e-7)


def test_no_decision_without_the_largest_of_few_periods(program: Path) -> None:
    """If fewer than ten periods have demand, the largest are not taken out."""
    question = question_of(
        item_of(counts=(*[0] * 50, *[3] * 9), levels=(2, 9)), alone()
    )
    assert (
        Depth(question, plan_one(question, str(program)), str(program)).without is None
    )


def test_no_decision_without_the_largest_if_no_policy_is_left(
    program: Path, monkeypatch: pytest.MonkeyPatch
) -> None:
    question = question_of(item_of(), alone())
    answer = plan_one(question, str(program))
    assert Depth(question, answer, str(program)).without is not None
    monkeypatch.setattr(
        type(question.theory), "best", lambda *_: Candidate(math.inf, 0, 0)
    )
    assert Depth(question, answer, str(program)).without is None


def test_an_item_without_a_policy(
    program: Path, monkeypatch: pytest.MonkeyPatch
) -> None:
    monkeypatch.setattr(
        type(question_of(item_of(), alone()).theory),
        "best",
        lambda *_: Candidate(math.inf, 0, 0),
    )
    fault = plan_asked((item_of(), None), alone(), NONE, str(program))
    assert fault == Remark("no policy", {"fill": None, "of_periods": False})
    monkeypatch.setattr(one, "choice_of", lambda *_: 1 // 0)
    fault = plan_asked((item_of(), None), alone(), NONE, str(program))
    assert isinstance(fault, Remark)
    assert fault.code == "failed"


def test_counting_in_boxes_changes_no_figure(
    program: Path, monkeypatch: pytest.MonkeyPatch
) -> None:
    """Amounts that are counted in boxes of ten have ten times the levels and the stock, and the same money."""
    item = item_of(5)
    boxed = item_of(
        5,
        counts=tuple(10 * it for it in item.counts),
        holding=item.holding / 10,
        backlog=(item.backlog or 0) / 10,
        levels=tuple(10 * it for it in item.levels),
    )
    plain = answer_of(item, alone(), program)
    monkeypatch.setattr("crnplan.read.item.MOST_DEMAND", max(item.counts))
    answer = answer_of(boxed, alone(), program)
    assert (item.box, boxed.box) == (1, 10)
    for before, after in ((plain.today, answer.today), (plain.chosen, answer.chosen)):
        assert (after.point, after.level) == (10 * before.point, 10 * before.level)
        assert (after.cost, after.fill, after.orders) == (
            before.cost,
            before.fill,
            before.orders,
        )
        assert math.isclose(after.stock, 10 * before.stock)
    assert (answer.run, answer.saving) == (plain.run, plain.saving)
