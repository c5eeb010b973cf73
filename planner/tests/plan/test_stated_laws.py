"""Tests the plans of items whose law of demand is stated, with a history or without one."""
from __future__ import annotations

from dataclasses import replace
from fractions import Fraction
from pathlib import Path
from typing import Any

import pandas as pd
import pytest

import crnplan as crn
from crnplan.demand.fitted import fit_words
from crnplan.demand.index import Index
from crnplan.demand.learning import Prior
from crnplan.money import Currency
from crnplan.plan.aims import FILLS, Aims, Tried
from crnplan.plan.answer import Answer
from crnplan.plan.backtest.methods import PLANNED, Walk, Way
from crnplan.plan.backtest.one import Backtest, backtest_item
from crnplan.plan.item import Depth
from crnplan.plan.offers import Offer, offer_of, past_of
from crnplan.plan.one import or_fault, plan_one
from crnplan.plan.question import NoPolicy, question_of
from crnplan.plan.seasons import Seasons
from crnplan.read.item import STATED, Item
from crnplan.remarks import Remark
from crnplan.show.item_page import ItemWords, item_page, item_summary
from planner.tests.conftest import Command
from planner.tests.plan.items import SHORT, alone, item_of, several, tables_of

NOTHING = Prior("none")
LAW = crn.Law.of_numbers([0, 0, 3, 1, 7, 0, 2, 2])


def stated(law: crn.Law = LAW, place: int = 0, **changed: Any) -> Item:
    """Returns an item with a law, and without a history unless that is given."""
    return item_of(place, **{"counts": (), "past": STATED, "law": law, **changed})


@pytest.mark.parametrize("place", range(4))
def test_a_stated_law_is_that_of_a_history_with_its_frequencies(
    program: Path, place: int
) -> None:
    """The plan is the one of an item whose law is what was seen of it, to the last digit of the run too."""
    seen = [*several(4)][place]
    law = crn.Law.of_numbers(seen.counts)
    one = plan_one(question_of(seen, alone(fit="empirical")), str(program))
    item = replace(seen, counts=(), past=STATED, law=law)
    two = plan_one(question_of(item, alone()), str(program))
    left = {"remarks": (), "law": one.law, "alone": None}
    assert replace(one, **left) == replace(two, **left)
    assert two.alone is None and two.law.family == STATED
    assert [remark.code for remark in two.remarks if remark.code != "no interval"] == [
        "stated law"
    ]


def test_what_was_seen_does_not_count(program: Path) -> None:
    """A law beside a history is the only one that counts, and that is shown beside it."""
    bare, beside = stated(), stated(counts=(50, 60, 70, 0) * 5)
    answers = [
        plan_one(question_of(item, alone()), str(program)) for item in (bare, beside)
    ]
    assert answers[0] == answers[1]
    law = question_of(beside, alone()).demand
    assert (law.table, law.box) == (LAW, 1)
    assert law.diagnostics.seen == crn.Law((0, 50, 60, 70), (5, 5, 5, 5))
    assert not [*fit_words(law)]


def test_a_law_without_demand_has_no_plan(program: Path) -> None:
    question = question_of(stated(crn.Law.of({0: 1})), alone())
    with pytest.raises(NoPolicy) as raised:
        plan_one(question, str(program))
    assert raised.value.fault == Remark("no demand by law")


def test_large_demands_are_counted_in_boxes(program: Path) -> None:
    """A law of 40,000 items is one of boxes of 4 items, rounded up; and so are its levels."""
    law = crn.Law((0, 1, 40_000), (2, 1, 1))
    question = question_of(stated(law, levels=None), alone())
    assert question.item.box == 4
    assert question.demand.table == crn.Law((0, 1, 10_000), (2, 1, 1))
    answer = plan_one(question, str(program))
    assert answer.chosen.level % 4 == 0 and answer.chosen.level >= 40_000


def test_pages_and_depth_of_an_item_without_a_history(program: Path) -> None:
    """Its page says by which law it is planned, and that no week has been seen. Its doubt is not known."""
    question = question_of(stated(fill=Fraction(19, 20)), alone(every="week"))
    depth = Depth(question, plan_one(question, str(program)), str(program))
    assert depth.doubt is None and depth.without is None and depth.single is None
    words = ItemWords(depth, "week", Currency())
    page = item_page(words)
    assert "the law that is stated for it" in page
    assert "Demand is planned by the law that is stated for it." in page
    assert "nothing says how sure that is" in page
    assert "0 weeks, 0 items" in page
    assert "0 weeks, 0 items" in item_summary(words)
    assert {"fill_98", "fill_99"} <= {shown.name for shown in depth.compared}
    assert not any("sure" in shown.name for shown in depth.compared)


def test_a_confidence_leaves_stated_laws_out(program: Path) -> None:
    """Its policy is that without a confidence, and it is said."""
    item = stated(backlog=None, fill=Fraction(19, 20))
    plain, sure = (
        plan_one(question_of(item, alone(confidence=share)), str(program))
        for share in (None, 0.9)
    )
    assert plain.chosen == sure.chosen and sure.confidence_cost is None
    codes = [remark.code for remark in sure.remarks]
    assert codes[:2] == ["stated law", "stated without confidence"]


def test_a_season_of_the_class_leaves_stated_laws_as_they_are(program: Path) -> None:
    """The law stays as it is, all year, and it is said."""
    index = Index((0.5,) * 13 + (1.5,) * 13, 0.001, 1.0, 3)
    settings = alone(every="week", seasons=Seasons("week", {"a": index}))
    in_class, other = stated(group="a"), stated(group="b")
    assert question_of(item_of(group="a"), settings).season
    question = question_of(in_class, settings)
    assert question.season is None and question.demand.table == LAW
    codes = [remark.code for remark in plan_one(question, str(program)).remarks]
    assert codes[:2] == ["stated law", "stated without season"]
    answer = plan_one(question_of(other, settings), str(program))
    assert "stated without season" not in {remark.code for remark in answer.remarks}


def test_it_aims_by_its_mean(program: Path) -> None:
    """Items up to a mean demand aim at 97%, others at 99%: one without a history by the mean of its law, in items."""
    unmet = [
        tuple(0.6 * (1 - fill) + part for fill in FILLS) for part in (0.035, 0.005)
    ]
    aims = Aims(3.0, tuple(Tried(20, 400, row) for row in unmet))
    settings = alone(aims=aims, correct=True)
    slow, fast = crn.Law((0, 5), (1, 1)), crn.Law((0, 30_000), (1, 1))
    for law, tried in ((slow, aims.classes[0]), (fast, aims.classes[1])):
        item = stated(law, backlog=None, fill=Fraction(19, 20))
        assert question_of(item, settings).aim == tried.aim(0.95)


def test_together_by_theory_and_on_the_past() -> None:
    """An item without a history has an offer by theory, and none on the past; one with a history has both."""
    words: dict[str, Any] = {
        "backlog": None,
        "fill": Fraction(9, 10),
        "price": Fraction(2),
    }
    asked = {"": (1.0, 4.0)}
    settings = alone(together={"": 0.95})
    for counts in ((), (3, 0, 2, 7, 0, 0, 1, 4) * 4):
        item = stated(counts=counts, **words)
        offer = or_fault(item, offer_of, settings, NOTHING, asked)
        assert isinstance(offer, Offer)
        assert offer.asked == pytest.approx(2 * float(LAW.mean))
        past = or_fault(item, past_of, settings, NOTHING, asked)
        assert isinstance(past, Offer) == bool(counts)


def test_backtests_plan_by_the_history() -> None:
    """Nobody has stated a law for the past: an item is tested as if it had none, or not at all without a history."""
    walk, ways = Walk(40, 10), {PLANNED: Way(alone(every="week"), NOTHING)}
    known = item_of(3)
    test = backtest_item(replace(known, law=LAW, past=STATED), walk, ways)
    assert isinstance(test, Backtest)
    assert test == backtest_item(known, walk, ways)
    without = backtest_item(stated(), walk, ways)
    assert isinstance(without, Remark) and without.code == "stated without history"


def catalogue() -> tuple[pd.DataFrame, pd.DataFrame, pd.DataFrame]:
    """Returns demand, masters and laws of six items, of which the last one has no history, and the third has one beside a
    law."""
    items = [*several(6)]
    items[5] = replace(items[5], counts=(), returns=())
    demand, masters = tables_of(items)
    masters = masters.assign(price=3, stock=4)
    rows = [
        (items[place].name, *pair)
        for place in (2, 5)
        for pair in zip(LAW.values, LAW.weights)
    ]
    return demand, masters, pd.DataFrame(rows, columns=["item", "value", "weight"])


def test_catalogues_with_stated_laws(
    program: Path, crnplan: Command, tmp_path: Path
) -> None:
    """Commands give the same bytes as calls. Planned again, and after an earlier plan, no item is planned twice unless its
    law has changed. Orders, the curve, pages and tests on the past know such items."""
    demand, masters, laws = catalogue()
    names = {"demand": demand, "masters": masters, "laws": laws}
    for name, frame in names.items():
        frame.to_csv(tmp_path / f"{name}.csv", index=False)
    plan = crn.plan(
        tmp_path / "demand.csv",
        tmp_path / "masters.csv",
        laws=tmp_path / "laws.csv",
        out=tmp_path / "one",
        borrow="none",
        jobs=1,
        program=program,
    )
    files = *(tmp_path / f"{name}.csv" for name in ("demand", "masters")), "--jobs", 1
    asked = "plan", *files, "--set", "borrow=none", tmp_path / "laws.csv"
    status, _, errors = crnplan(*asked, "--out", tmp_path / "two")
    assert status == 0 and "6 items planned, 0 kept" in errors
    for name in ("decisions.csv", "details.csv", "rejects.csv"):
        assert (tmp_path / "one" / name).read_bytes() == (
            tmp_path / "two" / name
        ).read_bytes()
    _, _, errors = crnplan(*asked, "--out", tmp_path / "two")
    assert "0 items planned, 6 kept" in errors
    laws.loc[laws.item == "I-005", "weight"] += 1
    laws.to_csv(tmp_path / "laws.csv", index=False)
    after = "--after", tmp_path / "two", "--out", tmp_path / "three"
    status, _, errors = crnplan(*asked, *after)
    assert status == 0 and "1 items planned, 5 kept" in errors
    later = crn.open_plan(tmp_path / "three", program=program)
    moved = later.changes.set_index("item")
    assert "mean" in moved.loc["I-005", "why"]
    orders = plan.orders_today(date="2025-03-01").frame
    assert {"I-002", "I-005"} <= {*orders.item}
    curve = plan.curve(jobs=1).policies
    assert "I-005" in {*curve.item}
    page = plan.report(["I-005"]).read_text("utf-8")
    assert "The laws of demand of 2 items are stated" in page
    status, output, errors = crnplan(
        *("backtest", tmp_path / "one", "--record", 40, "--every", 10, "--jobs", 1)
    )
    assert status == 0, errors
    assert "1 items have a stated law" in output
    assert "no history to be tested on" in (tmp_path / "one/backtest.csv").read_text()


def test_a_catalogue_of_laws_alone(program: Path) -> None:
    """It needs no row of demand, if the ends of its record are stated: the last one is the day before the plan."""
    demand, masters, _ = catalogue()
    laws = {str(name): LAW for name in masters.item}
    words: dict[str, Any] = {"laws": laws, "jobs": 1, "program": program, **SHORT}
    with pytest.raises(crn.Refused, match="no row of demand has a date"):
        crn.plan(demand.head(0), masters, **words)
    words |= {"start": "2026-01-05", "end": "2026-11-22"}
    plan = crn.plan(demand.head(0), masters, **words)
    assert [*plan.details.law] == [STATED] * 6
    assert plan.orders_today(date="2026-11-23").frame.item.is_unique
