"""Tests plans within the bounds of orders and levels: what they are, what each costs, and what is said of them."""
from __future__ import annotations

import datetime
from collections.abc import Mapping
from dataclasses import replace
from fractions import Fraction
from pathlib import Path
from typing import Any

import numpy as np
import pytest

from crnplan.curve.candidates import PRICES, candidates_of
from crnplan.law import Law
from crnplan.plan.aims import FILLS, Aims, Tried
from crnplan.plan import checked_run, choice
from crnplan.plan.answer import BOUNDED, CHEAPER, RUN, SAME, Answer, CheckRun
from crnplan.plan.bounds import MOST_COVERAGE, feasible_of
from crnplan.plan.catalogue import planned_folder
from crnplan.plan.changes import masters_of
from crnplan.plan.item import Depth
from crnplan.plan.one import plan_one
from crnplan.plan.how import Settings
from crnplan.plan.question import Question, question_of
from crnplan.read.bounds import OrderBounds
from crnplan.read.item import Item
from crnplan.remarks import Value
from crnplan.theory.feasible import Feasible
from crnplan.theory.many_laws import Promises
from crnplan.sentences import sentence
from planner.tests.conftest import Command, cases_beside
from planner.tests.plan.items import alone
from planner.tests.planned_tables import whole_rows
from planner.tests.theory.long_run_costs import costs_of, fills_of, shortfall_of

CASES = cases_beside(__file__)
# A demand of 0, 1 or 4 a week, 1 on average.
SEEN = (0, 0, 0, 1, 4, 0, 1, 2) * 8
FILL: dict[str, Any] = {"backlog": None, "fill": Fraction(19, 20)}
# A policy of today that costs more than others.
DEAR = {"levels": (0, 90)}


def asked(
    bounds: OrderBounds = OrderBounds(),
    settings: Mapping[str, Any] = {},
    **changed: Any,
) -> Question:
    facts: dict[str, Any] = {
        "name": "A",
        "counts": SEEN,
        "leads": (2,),
        "levels": (3, 9),
        "setup": Fraction(30),
        "holding": Fraction(1),
        "backlog": Fraction(19),
        "bounds": bounds,
    }
    return question_of(Item(**facts | changed), alone(fit="empirical", **settings))


def answer_of(
    question: Question, program: Path
) -> tuple[Answer, dict[str, Mapping[str, Value]]]:
    """Returns the answer to a question, and the facts of its remarks by their codes."""
    answer = plan_one(question, str(program))
    return answer, {remark.code: remark.facts for remark in answer.remarks}


def figures_of(question: Question, levels: tuple[int, int]) -> tuple[float, float]:
    """Returns the cost in money and the fill of a policy, by the second computation of the tests. Without a backlog
    cost only orders and stock cost something."""
    scenario = question.scenario()
    costs = replace(
        scenario.costs, backlog=scenario.costs.backlog if question.has_backlog else 0
    )
    short, level = shortfall_of(scenario, levels[1] - levels[0]), np.array(levels[1:])
    cost, fill = (
        costs_of(replace(scenario, costs=costs), short, level)[0],
        fills_of(scenario, short, level)[0],
    )
    return float(cost) / float(question.scale), float(fill)


def bounds_of(**amounts: Any) -> OrderBounds:
    """Returns bounds whose coverages are given as numbers."""
    whole = "pack", "order_min", "s_min"
    return OrderBounds(
        **{name: it if name in whole else Fraction(it) for name, it in amounts.items()}
    )


@pytest.mark.parametrize("bounds, box, feasible", CASES["feasible"], ids=str)
def test_feasible_policies(
    bounds: dict[str, int], box: int, feasible: dict[str, int]
) -> None:
    found = feasible_of(bounds_of(**bounds), box, Law((2, 3), (1, 1)))
    assert found == Feasible(**feasible)


@pytest.mark.parametrize(
    "every, coverage", [("day", 728), ("week", 104), ("month", 24), (None, None)]
)
def test_bounds_where_masters_state_none(
    every: str | None, coverage: int | None
) -> None:
    """Masters come first, then settings. Else S - s covers two years, and s is at least 1 for a wanted fill rate."""
    plain, wanted = asked().item, asked(**FILL).item
    own = replace(plain, bounds=OrderBounds(4, 9, 0, Fraction(3), Fraction(2)))
    usual, stated = Settings(every=every), Settings(
        every=every, order_min=7, max_coverage=30, s_min=2
    )
    years = None if coverage is None else Fraction(coverage)
    assert usual.bounds_of(plain) == OrderBounds(s_min=0, order_coverage=years)
    assert usual.bounds_of(wanted) == OrderBounds(s_min=1, order_coverage=years)
    assert (
        usual.bounds_of(
            replace(plain, bounds=OrderBounds(shelf_life=Fraction(9)))
        ).order_coverage
        == years
    )
    assert stated.bounds_of(wanted) == OrderBounds(1, 7, 2, Fraction(30))
    assert stated.bounds_of(own) == usual.bounds_of(own) == own.bounds


@pytest.mark.parametrize("name, bounds, settings", CASES["costs"], ids=str)
def test_what_a_bound_costs(
    name: str,
    bounds: dict[str, int],
    settings: Mapping[str, Any],
    program: Path,
    monkeypatch: pytest.MonkeyPatch,
) -> None:
    """A bound that the best policy would leave is said with what it costs, by a second computation: also the default,
    here of 4 weeks."""
    monkeypatch.setitem(MOST_COVERAGE, "week", 4)
    question, free = asked(bounds_of(**bounds), settings, **DEAR), asked(**DEAR)
    answer, remarks = answer_of(question, program)
    best = plan_one(free, str(program)).chosen.levels
    facts = remarks[f"bound of {name}"]
    assert (facts["s"], facts["S"]) == best
    cost = figures_of(free, answer.chosen.levels)[0] - figures_of(free, best)[0]
    assert cost > 0
    assert facts["cost"] == pytest.approx(cost, rel=1e-6)
    assert answer.coverage_cost == (
        facts["cost"] if name in ("coverage", "order_coverage") else None
    )
    assert [code for code in remarks if code.startswith("bound of")] == [
        f"bound of {name}"
    ]


def test_a_smallest_order_beyond_what_s_may_cover(program: Path) -> None:
    """No bound is said to save something, whatever the smallest order is."""
    for smallest in (12, 20, 30):
        _, facts = answer_of(
            asked(
                OrderBounds(order_min=smallest, coverage=Fraction(3)),
                setup=Fraction(900),
            ),
            program,
        )
        costs: Any = [
            its["cost"] for code, its in facts.items() if code.startswith("bound of")
        ]
        assert costs and min(costs) >= 0


def test_bounds_that_leave_no_policy_for_a_fill(program: Path) -> None:
    """No policy within the bounds has the wanted fill: of all these the chosen one meets most. That is a verdict."""
    aims = Aims(
        1.0, (Tried(20, 20, tuple(1 - fill for fill in FILLS)),) * 2
    )  # which correct nothing
    question, free = asked(
        OrderBounds(coverage=Fraction(3)), {"aims": aims}, **FILL | DEAR
    ), asked(**FILL | DEAR)
    answer, remarks = answer_of(question, program)
    assert answer.correction
    assert answer.correction.plain_stock == answer.chosen.stock
    fills = {
        (s, S): figures_of(question, (s, S))[1]
        for S in range(4)
        for s in range(1, S + 1)
    }
    best = plan_one(free, str(program)).chosen.levels
    facts = remarks["bounded"]
    assert answer.verdict == BOUNDED
    assert answer.chosen.levels == max(fills, key=fills.__getitem__)
    assert (facts["bound"], facts["periods"]) == ("coverage", 3)
    assert facts["fill"] == pytest.approx(max(fills.values()), rel=1e-9)
    assert max(fills.values()) < facts["wanted"]
    assert (facts["s"], facts["S"]) == best
    assert facts["cost"] == pytest.approx(figures_of(free, best)[0], rel=1e-6)
    assert remarks["today out of bounds"] == {"s": 0, "S": 90}


# Asked for twice in three years, for 1 and for 4: two years of its mean demand are 3 items.
RARE = tuple({40: 1, 110: 4}.get(week, 0) for week in range(156))
# Demands of a spare part: whole years without one, and then some at once.
LUMPY = tuple({30: 12, 31: 2, 90: 12}.get(week, 0) for week in range(156))


@pytest.mark.parametrize(
    "counts, levels", [(RARE, (1, 6)), (LUMPY, (12, 24)), (SEEN, (4, 9))], ids=str
)
@pytest.mark.parametrize("leads", [(2,), (1, 3, 2)], ids=["one lead time", "several"])
def test_a_default_costs_no_wanted_service(
    counts: tuple[int, ...],
    levels: tuple[int, int],
    leads: tuple[int, ...],
    program: Path,
) -> None:
    """No coverage is stated, so S - s alone covers two years at most, and the wanted share is met: by the cheapest of
    all such pairs, by a second computation."""
    asked_for = {
        "counts": counts,
        "levels": levels,
        "leads": leads,
        "setup": Fraction(60),
    }
    question = asked(settings={"every": "week"}, **FILL | asked_for)
    answer, remarks = answer_of(question, program)
    point, level = answer.chosen.levels
    most = sum(counts) * 104 // len(counts)
    assert question.theory.feasible == Feasible(1, most_gap=most)
    assert level - point <= most
    assert answer.chosen.fill >= 0.95
    assert answer.verdict != BOUNDED
    assert BOUNDED not in remarks
    pairs = {
        (s, s + gap): figures_of(question, (s, s + gap))
        for gap in range(min(most, 30) + 1)
        for s in range(1, 40)
    }
    costs = [cost for cost, fill in pairs.values() if fill >= 0.95]
    assert figures_of(question, (point, level))[0] <= min(costs) * (1 + 1e-9)


@pytest.mark.parametrize("bounds, has_fill", CASES["worse"], ids=str)
def test_nothing_worse_than_today_is_chosen(
    bounds: dict[str, int], has_fill: bool, program: Path
) -> None:
    """The best policy within bounds costs more than today's and meets less, so today's stays. Both are said."""
    wanted = FILL if has_fill else {}
    free = plan_one(asked(**wanted), str(program)).chosen
    question = asked(bounds_of(**bounds), **{**wanted, "levels": free.levels})
    answer, remarks = answer_of(question, program)
    feasible, worse = question.theory.feasible, remarks["today stays"]
    levels = worse["s"], worse["S"]
    assert not feasible.allows(*free.levels)
    assert feasible.allows(*levels)
    cost, fill = figures_of(question, levels)
    own_cost, own_fill = figures_of(question, free.levels)
    assert cost > own_cost
    assert fill < own_fill
    assert worse["cost"] == pytest.approx(cost - own_cost, rel=1e-6)
    assert (worse["fill"], worse["today"]) == pytest.approx((fill, own_fill), rel=1e-9)
    assert answer.chosen.levels == free.levels
    assert answer.verdict == SAME
    assert answer.saving == 0


@pytest.mark.parametrize("keeps", [True, False])
def test_today_stays_if_it_keeps_what_is_promised(
    keeps: bool, program: Path, monkeypatch: pytest.MonkeyPatch
) -> None:
    """Today's policy costs less and meets more by the law of the item, but stays only if it keeps the promise too."""
    free = plan_one(asked(**FILL), str(program)).chosen
    question = asked(
        OrderBounds(order_min=30),
        {"confidence": 0.5},
        **FILL | {"levels": free.levels, "setup": Fraction(1)},
    )
    known = Question.figures
    monkeypatch.setattr(Promises, "keeps", lambda *_: keeps)
    monkeypatch.setattr(
        Question,
        "figures",
        lambda *its: replace(known(*its), cost=1, fill=1)
        if its[-1] == free.levels
        else known(*its),
    )
    assert (choice.choice_of(question, True).worse is not None) == keeps


def test_today_stays_beside_what_a_run_shows_as_worse(
    program: Path, monkeypatch: pytest.MonkeyPatch
) -> None:
    """If theory is rounded, the run judges. A policy that it shows as dearer, and that serves less, is not chosen."""
    source = np.random.default_rng(71)
    item = {
        "counts": tuple(source.integers(0, 9_973, 64).tolist()),
        "levels": (40_000, 90_000),
        "leads": (1, 3, 2),
    }
    question = asked(holding=Fraction(1, 100), backlog=Fraction(1, 10), **item)
    plain, _ = answer_of(question, program)
    assert plain.source == RUN
    assert plain.verdict == CHEAPER
    assert plain.today
    assert plain.chosen.fill < plain.today.fill
    known = checked_run.run_of

    def dearer(*asked: Any) -> CheckRun:
        run = known(*asked)
        return replace(run, saving=-min(run.saving or 0, 7))

    monkeypatch.setattr(checked_run, "run_of", dearer)
    answer, remarks = answer_of(question, program)
    assert answer.chosen.levels == (40_000, 90_000)
    assert answer.verdict == SAME
    assert not answer.saving
    stays = remarks["today stays"]
    assert (stays["s"], stays["S"], stays["cost"]) == (*plain.chosen.levels, 7)


def test_what_costs_more_and_serves_more_is_chosen(program: Path) -> None:
    """A smallest order that costs more and meets more than today's policy is a choice, and so is one that costs less."""
    for levels in ((1, 3), (9, 30)):
        answer, remarks = answer_of(
            asked(OrderBounds(order_min=12), levels=levels), program
        )
        assert answer.chosen.levels != levels
        assert "today stays" not in remarks


def test_no_order_waits_for_a_customer(program: Path) -> None:
    """With a wanted fill rate s is at least 1. With a backlog cost alone it is said what that would cost, if it can be."""
    few = {
        "counts": (0, 0, 0, 0, 0, 0, 1, 0) * 8,
        "setup": Fraction(1, 10),
        "levels": (1, 2),
        "backlog": Fraction(3, 2),
    }
    question = asked(**few)
    answer, remarks = answer_of(question, program)
    costs = [min(figures_of(question, (s, S))[0] for S in range(s, 9)) for s in (0, 1)]
    assert answer.chosen.point == 0
    assert remarks["s of 0"]["cost"] == pytest.approx(costs[1] - costs[0], rel=1e-6)
    _, remarks = answer_of(asked(OrderBounds(coverage=Fraction(7)), **few), program)
    assert "s of 0" not in remarks
    wanted = few | {"backlog": None, "fill": Fraction(1, 10), "leads": (1,)}
    answer, remarks = answer_of(asked(**wanted), program)
    assert answer.chosen.point == 1
    assert not {"s of 0", "bound of s_min"} & remarks.keys()
    answer, remarks = answer_of(asked(OrderBounds(s_min=0), **wanted), program)
    assert answer.chosen.point == 0
    assert "s of 0" in remarks


def test_an_earlier_policy_out_of_bounds_does_not_stay(program: Path) -> None:
    """A policy of an earlier plan stays if a change gains little, but not if it is out of bounds."""
    settings = alone(fit="empirical", least_gain=0.9)
    for bounds, stays in ((OrderBounds(), True), (OrderBounds(s_min=4), False)):
        question = question_of(asked(bounds).item, settings, None, (3, 9))
        assert (plan_one(question, str(program)).undamped is not None) == stays


def test_deeper_looks_respect_the_bounds(program: Path) -> None:
    """All suggested policies but today's are within the bounds, and so is the decision without the largest periods."""
    question = asked(OrderBounds(3, 20, 3, Fraction(30)), counts=(*SEEN, 40), **DEAR)
    depth = Depth(question, plan_one(question, str(program)), str(program), laws=4)
    feasible = question.theory.feasible
    own = {(policy.s, policy.S) for policy in depth.policies} - {(0, 90)}
    assert len(own) > 5
    for levels in own:
        assert feasible.allows(*levels)
    assert depth.without
    assert depth.without.rare.point >= 3


def test_bounds_of_a_catalogue(crnplan: Command, tmp_path: Path, program: Path) -> None:
    """Options and crnplan.toml bound items whose masters state nothing. The summary adds up what coverage costs."""
    monday = datetime.date(2026, 1, 5)
    for name, text in CASES["catalogue"].items():
        (tmp_path / name).write_text(text, "utf-8")
    with (tmp_path / "demand.csv").open("a") as file:
        for week, count in enumerate(SEEN[:40]):
            day = monday + datetime.timedelta(weeks=week)
            file.write(f"A,{day},{count}\nB,{day},{count}\n")
    words = f"""plan {tmp_path}/demand.csv {tmp_path}/items.csv --out {tmp_path}/plan --config {tmp_path}/mine.toml
        --set order_min=3 --set s_min=2 --jobs 1 --program {program}"""
    answer = crnplan(*words.split())
    decisions = whole_rows(tmp_path / "plan")
    with planned_folder(tmp_path / "plan") as plan:
        settings, totals = plan.settings, plan.totals
    assert (settings.order_min, settings.max_coverage, settings.s_min) == (3, 8, 2)
    # The mean demand is 1 a week.
    assert decisions["A"]["S_chosen"] == "8"
    assert int(decisions["B"]["S_chosen"]) > 8
    cost = totals["coverage_cost"]
    assert cost > 0 and totals.covered == 1
    said = f"S, or S less s, may cover no more periods of demand: 1 items, which costs {cost:.2f} a week"
    assert said in answer.output
    page = (tmp_path / "plan/report.html").read_text("utf-8")
    assert "no more periods of demand for 1 items" in page


def test_other_bounds_are_a_reason() -> None:
    """Planned again after an earlier plan, an item with other bounds has another master."""
    old = asked().item
    new = asked(OrderBounds(4, coverage=Fraction(9, 2))).item
    (remark,) = masters_of(old, new, (3, 9))
    assert sentence(remark) == "pack 1 to 4, coverage none to 4.5"


@pytest.mark.parametrize("bounds, size", CASES["candidates"], ids=str)
def test_candidates_of_the_curve(
    bounds: dict[str, int], size: int, monkeypatch: pytest.MonkeyPatch
) -> None:
    """For each price the candidate of the curve is as good as the best of all feasible pairs, by a second computation,
    but for what a search on a grid may miss."""
    monkeypatch.setitem(
        MOST_COVERAGE, "week", 3
    )  # as far as S - s goes without a coverage
    question = asked(
        bounds_of(**bounds),
        {"every": "week"},
        price=Fraction(5),
        counts=tuple(size * count for count in SEEN),
    )
    feasible, scenario = question.theory.feasible, question.scenario()
    most = min(feasible.most_level, 40 * size)
    pairs, figures = list[tuple[int, int]](), list[list[float]]()
    mean = float(scenario.demand.mean)
    for gap in range(most + 1):
        short = shortfall_of(scenario, gap)
        for level in range(gap, most + 1):
            if feasible.allows(level - gap, level):
                left = level - short.least - np.arange(len(short.chances))
                stock = np.maximum(left, 0) @ short.chances
                met = fills_of(scenario, short, np.array([level]))[0]
                pairs.append((level - gap, level))
                figures.append([stock, (1 - met) * mean, short.orders])
    rows = candidates_of(question).rows.tolist()
    for place, price in enumerate(PRICES):
        found = [row for row in rows if row[0] == 0 and row[1] <= place][-1]
        costs = np.array(figures) @ [1, 5 * price, 30]
        chosen = costs[pairs.index((found[2], found[3]))]
        assert chosen <= 1.007 * costs.min() + 1e-9
