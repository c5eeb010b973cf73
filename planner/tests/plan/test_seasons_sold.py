"""Tests that what is said and drawn of an item with a season are its sales, not its sales over the index."""
from __future__ import annotations

import dataclasses
import datetime
import random
from types import SimpleNamespace
from typing import Any

import numpy as np
import pytest

from crnplan.demand.index import Index
from crnplan.law import Law
from crnplan.plan.answer import CHOSEN, TODAY, Answer, YearPart
from crnplan.plan.choice import choice_of
from crnplan.plan.one import remarks_of_cut, remarks_of_past
from crnplan.plan.question import Question, question_of
from crnplan.plan.seasons import Seasons
from crnplan.plan.what_ifs import ALL_YEAR, BEST, TYPED, asked_figures
from crnplan.read.dates import period_of
from crnplan.read.item import Item
from crnplan.show.item_page import laws_of
from crnplan.show.item_plots import history_plot, laws_drawn
from crnplan.sentences import sentence
from planner.tests.plan.items import alone, item_of
from planner.tests.plan.test_seasons import year_by_hand
from planner.tests.show.made_catalogue import made_pair

# A fifth of the mean is sold in June. In the others years it was 19 to 21, and in the last one 48.
JUNE = 5
VALUES = tuple(0.2 if month == JUNE else 11.8 / 11 for month in range(12))
FIRST = period_of(datetime.date(2021, 1, 1), "month")
SETTINGS = alone(
    fit="empirical",
    every="month",
    seasons=Seasons("month", {"": Index(VALUES, 0, 1, 4)}),
)


def summer(**changed: Any) -> Item:
    """Returns an item of more than four years. Its next month is June."""
    shares = 0.95 + 0.1 * np.random.default_rng(3).random(53)
    counts = np.rint(100 * np.resize(VALUES, 53) * shares).astype(int)
    counts[JUNE + 36] = 48
    return item_of(counts=tuple(counts.tolist()), first=FIRST, **changed)


def asked() -> Question:
    return question_of(summer(), SETTINGS)


def test_a_warning_names_what_was_sold() -> None:
    """48 in June, of which 20 are expected, are as far above that as 163 of 100 in a month with a rate of 1."""
    said = [sentence(remark) for remark in remarks_of_past(asked(), None)]
    (far,) = [one for one in said if one.startswith("far above")]
    assert far == (
        "far above what the season says: 48 in 2024-06; if that is a mistake or will not come again, correct it or leave it "
        "out, else keep it"
    )


@pytest.mark.parametrize("sold", [60, 0])
def test_a_cut_month_has_what_was_sold(sold: int) -> None:
    """60 are sold in a May that lacked stock. What was asked for is as much more than that as it is without the season."""
    may = JUNE + 35
    counts = [*summer().counts]
    counts[may] = sold
    item = dataclasses.replace(
        summer(), counts=tuple(counts), cut=(may,), unknown=(may,)
    )
    question = question_of(item, dataclasses.replace(SETTINGS, fit="auto"))
    (remark,) = remarks_of_cut(question)
    assert remark.facts["sales"] == sold
    expected = sum(question.expected) * VALUES[4]
    assert remark.facts["expected"] == pytest.approx(expected, abs=2)
    assert bool(expected) is bool(sold)


def test_pictures_have_what_was_sold() -> None:
    """The law stands in the history as it is in each month. Of June are what was seen and its law."""
    question = asked()
    depth: Any = SimpleNamespace(question=question, single=None)
    counts = question.as_read.counts
    names = [f"{place}" for place in range(len(counts))]
    plot = history_plot(depth, names, "month")
    mean = sum(counts) / np.resize(VALUES, 53).sum()
    low, _, high, *_ = plot.lines[0].name.removeprefix("mean of the law: ").split()
    assert float(low) == pytest.approx(mean * VALUES[JUNE], abs=0.2)
    assert float(high) == pytest.approx(mean * VALUES[0], abs=0.5)
    seen, law = laws_drawn(depth)
    june = sorted(counts[JUNE::12])
    assert june[-1] == 48
    assert [value for value, weight in seen.counts for _ in range(weight)] == june
    values, weights = zip(*law.counts)
    at_june = np.average(values, weights=weights)
    assert at_june == pytest.approx(mean * VALUES[JUNE], rel=1e-3)
    (own, fitted, *_) = laws_of(question, None).rows
    assert own[:4] == ["demand", "what was seen", np.mean(june), np.var(june, ddof=1)]
    assert fitted[-1] == law.counts[-1][0]
    assert question.season
    new = dataclasses.replace(question.season.item, counts=())
    season = dataclasses.replace(question.season, item=new)
    question = dataclasses.replace(question, season=season)
    assert not question.seen.values
    depth.question = question
    plot = history_plot(depth, [], "month")
    assert plot.lines[0].name.startswith("mean of the law: ")


def planned_by_month(question: Question) -> tuple[Answer, list[tuple[int, int]]]:
    """Returns an answer with the levels of each month, and these."""
    assert question.season
    _, answer = made_pair(random.Random(1), "A")
    months, levels = list[YearPart](), list[tuple[int, int]]()
    for stretch in question.season.year:
        own = question.during(stretch)
        levels.append(choice_of(own).levels)
        assert own.season
        months.append(YearPart(*stretch, *levels[-1], own.season.factor))
    laws = dataclasses.replace(question.laws, demand=question.season.law.table)
    chosen = dataclasses.replace(answer.chosen, point=levels[0][0], level=levels[0][1])
    answer = dataclasses.replace(
        answer, laws=laws, chosen=chosen, calendar=tuple(months)
    )
    return answer, levels


@pytest.mark.parametrize("lead", [None, 5])
def test_what_if_is_of_the_year(lead: int | None) -> None:
    """Of an item as it is, the base has the levels and the figures of the plan, and so has the best. Else figures are those
    of each month. What is typed is of the first one, or kept all year."""
    question = asked()
    assert question.season
    answer, levels = planned_by_month(question)
    found = asked_figures(summer(), answer, SETTINGS, (50, 200), lead, None)
    other, best = question, levels
    if lead:
        other = dataclasses.replace(question, lead=Law((lead,), (1,)))
        best = [choice_of(other.during(it)).levels for it in question.season.year]
    for name, own in (
        (CHOSEN, levels),
        (TODAY, [question.levels] * 12),
        (TYPED, [(50, 200), *levels[1:]]),
        (ALL_YEAR, [(50, 200)] * 12),
        (BEST, best),
    ):
        its = found[name]
        figures = its.cost, its.fill, its.stock, its.orders
        assert figures == pytest.approx(year_by_hand(other, own), rel=1e-9)
        assert its.levels == own[0]


def test_the_levels_that_the_plan_shows_have_its_figures() -> None:
    """Whoever types s and S of one of twelve seasonal items, as the plan shows them, finds what the plan promises."""
    for place in range(12):
        shares = 0.8 + 0.4 * np.random.default_rng(place).random(53)
        counts = np.rint((5 + 9 * place) * np.resize(VALUES, 53) * shares)
        item = item_of(place, counts=tuple(counts.astype(int).tolist()), first=FIRST)
        answer, levels = planned_by_month(question := question_of(item, SETTINGS))
        figures = asked_figures(item, answer, SETTINGS, levels[0], None, None)
        its = figures[TYPED]
        promised = year_by_hand(question, levels)
        assert (its.cost, its.fill, its.stock, its.orders) == pytest.approx(promised)
        assert its.levels == answer.chosen.levels
        assert figures[ALL_YEAR].fill < its.fill  # June sells least


def test_picture_of_an_item_in_boxes() -> None:
    """9,900 are within a law, and more that may come in the best month is not: counted in boxes, the item is drawn in
    items. 99 of 100 months are at the rate of their own law: of three times the mean, not three times as far above it.
    """
    values = (3.0, *[9 / 11] * 11)
    counts = tuple((3_300 * np.resize(values, 48)).astype(int).tolist())
    seasons = Seasons("month", {"": Index(values, 0, 1, 4)})
    settings = dataclasses.replace(SETTINGS, seasons=seasons)
    question = question_of(item_of(counts=counts, first=FIRST), settings)
    box = question.item.box
    assert box > question.as_read.box == 1
    depth: Any = SimpleNamespace(question=question, single=None)
    plot = history_plot(depth, [f"{place}" for place in range(48)], "month")
    mean, high = (
        [float(it.replace(",", "")) for it in line.name.split() if it[0].isdecimal()]
        for line in plot.lines
    )
    assert mean == pytest.approx([2_700, 9_900], rel=0.01)
    above = question.all_year.figures.quantiles[0.99] * box - 3_300
    assert 0 < high[-1] - 9_900 < 2.5 * above
