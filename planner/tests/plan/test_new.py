"""Tests the plans of items without a past of their own: new ones, and those that nobody has asked for."""
from __future__ import annotations

from dataclasses import replace
from fractions import Fraction
from pathlib import Path
from typing import Any

import numpy as np
import pytest

from crnplan.demand.learning import CLASS, GridPrior, Prior, learn
from crnplan.money import Currency
from crnplan.show.item_page import ItemWords, item_page, item_summary
from crnplan.plan import one
from crnplan.plan.answer import Answer
from crnplan.plan.correction import tried_names
from crnplan.plan.item import Depth
from crnplan.plan.choice import allowed_by
from crnplan.plan.one import plan_asked, plan_one
from crnplan.plan.how import Settings
from crnplan.plan.question import question_of
from crnplan.read.item import ENDED, NEW, NO_DEMAND, Item
from crnplan.remarks import Remark
from crnplan.theory.lattice import NoTheory
from crnplan.sentences import sentence
from planner.tests.plan.items import SHORT, item_of
from planner.tests.theory.long_run_costs import fills_of, shortfall_of

ALL, BY_CLASS = Settings(borrow="all", **SHORT), Settings(borrow="class", **SHORT)


@pytest.fixture(scope="module")
def prior() -> Prior:
    """Returns what 30 items teach."""
    return learn([item_of(place).counts for place in range(30)], least=30)


def new(*counts: int, **changed: Any) -> Item:
    return item_of(past=NEW, counts=counts, **changed)


@pytest.mark.parametrize(
    "counts, levels", [((), None), ((0, 3, 0, 1, 2), (4, 12))], ids=str
)
def test_a_new_item(
    prior: Prior, program: Path, counts: tuple[int, ...], levels: tuple[int, int] | None
) -> None:
    """It has the policy of its learned law, and the range of what that meets under the laws that it allows. Its page stands
    with no period too."""
    question = question_of(new(*counts, levels=levels), ALL, prior)
    answer = plan_one(question, str(program))
    best = question.theory.best()
    assert answer.verdict == NEW
    assert answer.chosen.levels == (best.point, best.level)
    assert answer.alone is None
    assert (answer.saving is None) == (levels is None)
    assert answer.law.family == "borrowed"
    remark, *others = answer.remarks
    assert (remark.code, remark.facts["periods"], others) == ("new", len(counts), [])
    assert 0 < remark.facts["low"] < answer.chosen.fill < 1
    assert remark.facts["low"] < remark.facts["high"] <= 1
    words = ItemWords(Depth(question, answer, str(program)), "week", Currency())
    assert ": a new item" in item_summary(words).splitlines()[0]
    assert (": 0 weeks, 0 items" in item_page(words)) == (not counts)


def test_a_new_item_without_a_backlog_cost(prior: Prior, program: Path) -> None:
    """It has the range of its fill rates alone."""
    item = new(0, 3, 0, 1, 2, fill=Fraction(9, 10), backlog=None)
    question = question_of(item, ALL, prior)
    answer = plan_one(question, str(program))
    point, level = answer.chosen.levels
    fills = list[float]()
    for law, _ in allowed_by(question):
        scenario = replace(question.for_theory(), demand=law)
        shortfall = shortfall_of(scenario, level - point)
        fills += fills_of(scenario, shortfall, np.array([level])).tolist()
    facts = answer.remarks[0].facts
    ends = np.quantile(fills, [0.1, 0.9])
    assert [facts["low"], facts["high"]] == pytest.approx(ends, rel=1e-5)


@pytest.mark.parametrize(
    "item, settings, code",
    [
        (new(2), Settings(borrow="none", **SHORT), "new without learning"),
        (new(2), Settings(**SHORT), "new without learning"),
        (new(2, borrow="none"), ALL, "new without learning"),
        (new(2), Settings(fit="empirical", **SHORT), "new without learning"),
        (new(2), BY_CLASS, "new without class"),
        (new(2, borrow="class"), ALL, "new without class"),
        (new(5_000, 900), ALL, "new and unlike"),
        (
            item_of(past=NO_DEMAND, counts=(0,) * 60, group="A"),
            ALL,
            "no demand in record",
        ),
    ],
    ids=str,
)
def test_an_item_without_a_law(
    prior: Prior, program: Path, item: Item, settings: Settings, code: str
) -> None:
    """It is left out with what it lacks, how many periods it has, and what to do."""
    fault = plan_asked((item, None), settings, prior, str(program))
    assert fault == Remark(code, {"periods": len(item.counts)})


def test_a_new_item_of_a_class(program: Path) -> None:
    """It has the law of its class, or that of all if its class has taught none."""
    chances = [
        np.full((24, 192), 1.0),
        np.repeat(np.linspace(0, 1, 24)[:, None], 192, axis=1),
    ]
    whole, own = (GridPrior.of(its / its.sum(), 30, 30, 0.0) for its in chances)
    prior = Prior(CLASS, items=30, whole=whole, classes={"A": own})
    for group, name in (("A", "A"), ("B", "all")):
        answer = plan_asked(
            (new(3, group=group, fill=Fraction(9, 10)), None),
            BY_CLASS,
            prior,
            str(program),
        )
        assert isinstance(answer, Answer)
        assert answer.remarks[0].facts["prior"] == name


def test_only_items_with_a_past_are_tried() -> None:
    """New items, those without demand and those that have ended say nothing of the past of others."""
    items = [
        item_of(place, name=str(place), fill=Fraction(9, 10), past=past)
        for place, past in enumerate(("", NEW, NO_DEMAND, *ENDED))
    ]

    class Read:
        """Stands for a catalogue that was read."""

        def cells(self, *columns: str) -> list[list[object]]:
            return [[getattr(item, name) for name in columns] for item in items]

    assert tried_names(Read()) == ["0"]  # type: ignore[arg-type]


def test_a_new_item_whose_laws_have_no_long_run(
    prior: Prior, program: Path, monkeypatch: pytest.MonkeyPatch
) -> None:
    """It has a plan by its own law, and no range."""

    def none(*_: object) -> None:
        raise NoTheory("no law of demand has a long run")

    monkeypatch.setattr(one, "figures_of_laws", none)
    answer = plan_one(question_of(new(0, 2), ALL, prior), str(program))
    assert (
        sentence(answer.remarks[0])
        == "new, with 2 periods: its law is that of all items"
    )
