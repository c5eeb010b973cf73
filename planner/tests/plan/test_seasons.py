"""Tests plans by a season: parts of a year, their laws, and the mean of a year, by hand and by exact sums."""
from __future__ import annotations

import dataclasses
import datetime
import json
import math
from collections.abc import Sequence
from fractions import Fraction
from pathlib import Path
from typing import Any

import numpy as np
import pandas as pd
import pytest

from crnplan.demand.index import Index
from crnplan.demand.seasons import Calendar
from crnplan.plan.after import levels_in
from crnplan.plan.aims import FILLS, Aims, Trial
from crnplan.plan.answer import BOUNDED, CHEAPER, RUN, SAME, UNDECIDED, Answer, YearPart
from crnplan.plan.choice import allowed_by, choice_of
from crnplan.plan.correction import trial_of
from crnplan.demand.learning import Prior
from crnplan.plan.item import depth_of
from crnplan.plan.one import plan_asked, plan_one
from crnplan.plan.yearly import Year
from crnplan.plan.how import NONE, without_season
from crnplan.plan.question import Question, question_of
from crnplan.plan.seasons import (
    Seasons,
    Stretch,
    coming_year,
    whole_years,
    years_without,
)
from crnplan.read.dates import period_of
from crnplan.read.item import NEW, Item
from crnplan.sentences import sentence
from crnplan.store.trees import value_of
from planner.tests.plan.items import alone, item_of

PARTS = 26
WAVE = tuple((1 + 0.5 * np.sin(2 * math.pi * np.arange(PARTS) / PARTS)).tolist())
SEASONS = Seasons("week", {"warm": Index(WAVE, 0.001, 1.0, 2)})
FIRST = period_of(datetime.date(2022, 1, 3), "week")  # the week of 3 to 9 January
MIDDLES = pd.date_range("2022-01-06", periods=208, freq="7D")  # its Thursdays
FACTORS = np.array(WAVE)[np.minimum((MIDDLES.dayofyear - 1) // 14, PARTS - 1)]


def seasonal(weeks: int = 104, **changed: Any) -> Item:
    """Returns an item of the class with a season."""
    counts = np.random.default_rng(5).poisson(8 * FACTORS[:weeks]).tolist()
    facts = {"group": "warm", "first": FIRST, "counts": tuple(counts)}
    return item_of(**facts | changed)


def asked(**changed: Any) -> Question:
    return question_of(seasonal(**changed), alone(every="week", seasons=SEASONS))


def answered(program: Path, words: dict[str, Any] = {}, **changed: Any) -> Answer:
    """Returns the answer to an item with a season."""
    settings, item = alone(every="week", seasons=SEASONS, **words), seasonal(**changed)
    answer = plan_asked((item, None), settings, Prior(NONE), str(program))
    assert isinstance(answer, Answer)
    return answer


def test_coming_year() -> None:
    """A year has each part once, and the rest of one that has begun at its end; weeks belong to that of their Thursday:
    23 January is in the 14 days from the 15th on."""
    year = coming_year("week", period_of(datetime.date(2025, 1, 20), "week"))
    days = [stretch.days("week") for stretch in year[:2]]
    assert [str(day) for pair in days for day in pair] == [
        *("2025-01-20", "2025-01-26", "2025-01-27", "2025-02-09")
    ]
    assert len(year) == 27 and year[-1].end - year[0].first == 52
    assert all(one.end == two.first for one, two in zip(year, year[1:]))
    months = coming_year("month", 2026 * 12 + 4)
    assert [*months] == [Stretch(it, it + 1) for it in range(24316, 24328)]
    days = coming_year("day", period_of(datetime.date(2026, 1, 1), "day"))
    assert [one.end - one.first for one in days] == [14] * 25 + [15]
    assert whole_years("month", 24) == 2 and whole_years("week", 103) == 1


def test_counts_without_season() -> None:
    """An item is planned by its counts at one rate, of which as much came in the half of the year in which more is sold as
    in the other: their sum stays. Others stay as they are."""
    settings = alone(every="week", seasons=SEASONS)
    item = seasonal()
    flat, index = without_season(item, settings)
    assert index is SEASONS.classes["warm"]
    counts = np.array(flat.counts)
    assert counts.sum() == sum(item.counts) and len(counts) == 104
    many, _ = without_season(
        seasonal(counts=tuple(np.rint(900 * FACTORS[:104]).astype(int))), settings
    )
    assert np.array(many.counts) == pytest.approx(np.mean(many.counts), rel=0.2)
    assert without_season(item, settings)[0].counts == flat.counts
    other = dataclasses.replace(item, name="B")
    assert without_season(other, settings)[0].counts != flat.counts
    same = seasonal(group="")
    assert without_season(same, settings) == (same, None)
    assert without_season(item, alone(every="week")) == (item, None)


def test_unknown_and_cut_weeks_without_season() -> None:
    """By hand: 40 were sold in a cut week of 1.25 times the mean rate of the known ones, at which 32 would have been; a week
    of which nothing is known moves nothing."""
    values = (1.5, *[1.0] * 24, 0.5)
    seasons = Seasons("week", {"warm": Index(values, 0.001, 1.0, 2)})
    settings = alone(every="week", seasons=seasons)
    counts = (40, 0, *[9] * 50)
    item = seasonal(counts=counts, cut=(0,), unknown=(0, 1))
    flat, _ = without_season(item, settings)
    known = np.array(values)[np.arange(52) // 2][2:].mean()
    assert flat.least == (round(40 * known / 1.5),)
    assert sum(flat.known.counts) == 50 * 9


@pytest.mark.parametrize("mean, box", [(4_000, 1), (8_000, 2), (60_000, 10)])
def test_amounts_beyond_a_law(program: Path, mean: int, box: int) -> None:
    """An item whose season goes beyond 10,000 is counted in boxes, in which its best part of the year is within that."""
    counts = tuple((mean * FACTORS[:104]).astype(int).tolist())
    item = seasonal(counts=counts, levels=None)
    settings = alone(every="week", seasons=SEASONS)
    answer = plan_asked((item, None), settings, Prior(NONE), str(program))
    assert isinstance(answer, Answer) and answer.calendar
    assert box <= answer.laws.box <= 1.3 * box
    for part in (answer.parts[0], max(answer.parts, key=lambda it: it.factor)):
        mean_then = float(answer.laws_in(part.first).demand.mean) * answer.laws.box
        assert mean_then == pytest.approx(mean * part.factor, rel=0.01)


def test_law_of_a_part_of_the_year() -> None:
    """The law of a part is that without the season at the mean rate over the periods that its orders cover: each week and a
    lead time of three more."""
    question = asked(leads=(2, 4))
    assert question.season and question.as_read.counts != question.item.counts
    flat = float(question.all_year.mean)
    for stretch in question.season.year:
        part = question.during(stretch)
        first, end = stretch.first - FIRST, stretch.end - FIRST
        weeks = [FACTORS[week : week + 4].mean() for week in range(first, end)]
        mean = np.mean(weeks) / FACTORS[:104].mean()
        assert float(part.demand.mean) == pytest.approx(flat * mean, rel=1e-3)
    alone_ = question.alone()
    assert alone_.season and float(alone_.demand.mean) == pytest.approx(
        float(alone_.season.law.mean) * question.season.factor, rel=1e-3
    )
    season = dataclasses.replace(question.season, mean=2 * question.season.mean)
    assert 2 * season.factor == pytest.approx(question.season.factor)


def test_item_without_past() -> None:
    """A new item has the season of its class, also without a period."""
    settings = alone(every="week", seasons=SEASONS)
    for counts in ((), (4, 0, 9)):
        item = seasonal(counts=counts, past=NEW)
        flat, index = without_season(item, settings)
        assert index is SEASONS.classes["warm"] and len(flat.counts) == len(counts)


def test_own_season() -> None:
    """An item with a clear season of its own has that in place of that of its class."""
    counts = np.random.default_rng(5).poisson(200 * FACTORS[26:182]).tolist()
    item = seasonal(counts=tuple(counts))
    index = SEASONS.of_item(item)
    assert index and SEASONS.is_own(item, index)
    assert index.values.index(max(index.values)) in (18, 19, 20)
    question = question_of(item, alone(every="week", seasons=SEASONS))
    assert question.season
    (remark,) = question.season.remarks
    facts = remark.facts
    assert (facts["is_own"], facts["years"], facts["days"]) == (True, 3, 14)
    assert facts["part_most"] == index.values.index(max(index.values))
    assert facts["most"] == max(index.values) and facts["least"] == min(index.values)


def test_classes_whose_items_differ() -> None:
    """Of two years, an item whose class is seen to differ has its own season, and one of another class that of its class.
    What was learned is the same if it is read again."""
    items, source = list[Item](), np.random.default_rng(5)
    for place in range(24):
        group, turn = ("mixed", "warm")[place % 2], 26 * (place % 4 == 2)
        counts = source.poisson(2_000 * FACTORS[turn : turn + 104]).tolist()
        items.append(seasonal(counts=tuple(counts), group=group))
    seasons = Seasons.of("week", items)
    assert [*seasons.classes] == ["warm"] and [*seasons.own] == ["mixed"]
    peaks = list[int]()
    for item in items:
        index = seasons.of_item(item)
        assert index and seasons.is_own(item, index) is (item.group == "mixed")
        peaks.append(index.values.index(max(index.values)))
    # The sine is greatest in part 6 or 7 of 26, and half a year later in part 19 or 20.
    expected = [6.5, 6.5, 19.5, 6.5] * 6
    assert (np.abs(np.array(peaks) - expected) <= 1).all()
    assert (
        value_of(Seasons, json.loads(json.dumps(dataclasses.asdict(seasons))))
        == seasons
    )


def stepped(marked: Sequence[int], lift: int = 1, **changed: Any) -> list[Item]:
    """Returns a class of items with the same demand in all weeks of a part of the year, but for a lift in some weeks."""
    items = list[Item]()
    for place in range(12):
        counts = np.rint((20 + place) * FACTORS[:104]).astype(int)
        counts[[*marked]] *= lift
        facts = {"counts": tuple(counts.tolist()), "name": f"I-{place}"}
        items.append(seasonal(**facts | changed))
    return items


def test_no_season_is_learned_from_promotions() -> None:
    """Marked weeks count as the others of their part of the year: the season is that of the same years without a promotion. So do
    those that are not known, and those that are found. What is not marked changes it, where rows mark others.
    """
    weeks = [11, 31, 32, 88]
    clean = Seasons.of("week", stepped([]))
    assert [*clean.classes] == ["warm"] and clean.promoted == {}
    marked = stepped(weeks, 3, promoted=tuple(weeks[1:]), unknown=(11,))
    assert Seasons.of("week", marked, True) == clean
    assert Seasons.of("week", stepped(weeks, 3), True).classes != clean.classes
    found = Seasons.of("week", stepped(weeks, 3))
    assert found.classes == clean.classes
    assert found.promoted == {"warm": tuple(FIRST + week for week in weeks)}
    assert value_of(Seasons, json.loads(json.dumps(dataclasses.asdict(found)))) == found


def test_promotions_in_the_same_week_are_no_season() -> None:
    """Of a class without a season, with promotions that happen to be in one week of both years beside others, none is
    seen; one whose only high weeks are in both years has that as its season, and one with a season has it.
    """
    flat = {"counts": (20,) * 104}
    chance, feast = [11, 63, 30, 95], [50, 102]

    def seasons(weeks: Sequence[int], **facts: Any) -> Seasons:
        items = []
        for item in stepped([], **facts):
            counts = np.array(item.counts)
            counts[[*weeks]] *= 3
            items.append(dataclasses.replace(item, counts=tuple(counts.tolist())))
        return Seasons.of("week", items)

    assert seasons(chance, **flat).classes == {}
    assert len(seasons(chance, **flat).promoted["warm"]) == 2
    only = seasons(feast, **flat)
    assert only.classes["warm"].values[25] > 1.3 and not only.promoted
    assert seasons(chance).classes["warm"].values[6] > 1.2


def test_where_weeks_are_looked_for() -> None:
    """Weeks are found by class. Months and days may be marked, but none are found: a month is as long as a season."""
    weeks = [11, 31]
    plain = [dataclasses.replace(item, group="") for item in stepped([], 1)]
    seasons = Seasons.of("week", [*plain, *stepped(weeks, 3)])
    assert [*seasons.promoted] == ["warm"] and seasons.classes[""]
    month = {"first": 2022 * 12, "counts": (9, 30) + (9,) * 22}
    for every in ("month", "day"):
        assert Seasons.of(every, stepped([], **month)).promoted == {}


def test_promotions_of_an_item() -> None:
    """They are those that are marked, and those of its class within its record. It keeps its demand, which its law is
    fitted to, and its plan says how many they are."""
    seasons = dataclasses.replace(SEASONS, promoted={"warm": (FIRST - 1, FIRST + 7)})
    item = seasonal(promoted=(2, 7))
    assert seasons.promotions(item) == {2, 7}
    assert seasons.promotions(seasonal(first=FIRST - 1)) == {0, 8}
    assert seasons.promotions(seasonal(group="")) == set()
    question = question_of(item, alone(every="week", seasons=seasons))
    assert question.counts == asked().counts and question.season
    (remark,) = question.season.remarks
    assert remark.facts["promoted"] == 2
    assert "its class, but for 2 promoted periods: 1.5 times the mean" in sentence(
        remark
    )
    (plain,) = [it for it in (asked().season,) if it]
    assert "its class: 1.5 times" in sentence(*plain.remarks)


def test_own_season_without_promotions() -> None:
    """By hand: three years of ratios, in one of which a marked month counts as the mean of the others of its year."""
    wave = 1 + 0.5 * np.sin(2 * math.pi * np.arange(12) / 12)
    ratios = np.tile(wave, (3, 1))
    counts = np.rint(1000 * ratios).astype(int)
    counts[1, 4] *= 5
    item = seasonal(counts=tuple(counts.ravel().tolist()), first=2022 * 12)
    item = dataclasses.replace(item, promoted=(16,))
    years = years_without("month", item, ())
    rest = np.delete(counts[1], 4)
    wanted = np.insert(rest / rest.mean(), 4, 1.0)
    assert years.ratios[1] == pytest.approx(wanted)
    assert years.ratios[0] == pytest.approx(counts[2] / counts[2].mean())


# A week in which twice the usual is asked for, and that of Easter with four times.
LIFTED = 1.0, 2.0, 4.0, 1.0
EASTER = Index((1.0,) * PARTS, 1.0, 0.0, 2, Calendar(easter=LIFTED))


def by_week(question: Question) -> list[float]:
    """Returns the factor of each week of the coming year."""
    assert question.season
    factors = list[float]()
    for stretch in question.season.year:
        season = dataclasses.replace(question.season, stretch=stretch)
        factors += [season.factor] * (stretch.end - stretch.first)
    return factors


def test_easter_at_its_next_date() -> None:
    """By hand: Easter is on 31 March 2024, in the thirteenth week of the year. An order covers its week and two more, so those of
    four weeks cover some that are lifted. In the record Easter was on 17 April 2022 and 9 April 2023.
    """
    settings = alone(every="week", seasons=Seasons("week", {"warm": EASTER}))
    item = seasonal(counts=(9,) * 104, leads=(2,))
    question = question_of(item, settings)
    season, mean = question.season, (104 + 2 * 4) / 104
    assert season and season.year[0].days("week")[0] == datetime.date(2024, 1, 1)
    wanted = [1.0] * 9 + [4 / 3, 7 / 3, 7 / 3, 2.0] + [1.0] * 39
    assert np.array(by_week(question)) * mean == pytest.approx(wanted)
    (peak,) = (
        it for it in season.year if it.days("week")[1] == datetime.date(2024, 3, 31)
    )
    flat = float(question.all_year.mean)
    sold = question.during(peak).as_sold
    assert float(sold.mean) == pytest.approx(flat * 4 / mean, rel=1e-3)
    told = [sentence(remark) for remark in season.remarks]
    assert len(told) == 1 and "4 times the usual around Easter" in told[0]
    lifted = np.flatnonzero(season.by_period * mean > 1.5)
    assert lifted.tolist() == [13, 14, 64, 65]


def test_class_with_easter() -> None:
    """A class that is lifted at each Easter has no other season, and its items plan it; marked promotions of these weeks are
    no Easter."""
    rates = np.ones(104)
    rates[[14, 65]], rates[[13, 64]] = 4, 2
    random = np.random.default_rng(8)
    items = list[Item]()
    for name in "ABCDEFGHIJKL":
        counts = tuple(random.poisson(20 * rates).tolist())
        items.append(dataclasses.replace(seasonal(counts=counts), name=name))
    seasons = Seasons.of("week", items)
    index = seasons.classes["warm"]
    assert index.calendar.easter == pytest.approx(LIFTED, rel=0.1)
    assert not index.calendar.quarter and set(index.values) == {1.0}
    assert seasons.promoted == {} and seasons.of_item(items[0]) == index
    years = years_without("week", items[0], (), index.calendar)
    assert years.ratios[:, 5:9] == pytest.approx(1, abs=0.3)
    tree = json.loads(json.dumps(dataclasses.asdict(seasons)))
    assert value_of(Seasons, tree) == seasons
    marked = [dataclasses.replace(it, promoted=(13, 14, 64, 65)) for it in items]
    assert Seasons.of("week", marked, True).classes == {}


def test_each_week_of_a_quarter() -> None:
    """By hand: where the first week of a quarter has twice the rate, an order of that and of the next one has half again."""
    calendar = Calendar((2.0, *[1.0] * 12))
    index = Index((1.0,) * PARTS, 1.0, 0.0, 2, calendar)
    settings = alone(every="week", seasons=Seasons("week", {"warm": index}))
    question = question_of(seasonal(counts=(9,) * 104, leads=(1,)), settings)
    weeks = FIRST + 104 + np.arange(53)
    rates = np.where(weeks % 13 == 0, 2.0, 1.0)
    wanted = (rates[:-1] + rates[1:]) / 2 * 13 / 14
    assert by_week(question) == pytest.approx(wanted)
    (remark,) = question.season.remarks if question.season else ()
    assert "2 times the mean" in sentence(remark)


def test_levels_after_a_plan(program: Path) -> None:
    """Each week has the levels of the earlier plan, however the coming year is divided."""
    answer, item = answered(program), seasonal()
    levels = levels_in(answer, "week", item)
    assert len(levels) == 52 and len(answer.parts) < 30
    for part in answer.parts:
        places = slice(part.first - FIRST - 104, part.end - FIRST - 104)
        assert set(levels[places]) == {(part.s, part.S)}
    seasons = Seasons("week", {"warm": EASTER})
    settings = alone(every="week", seasons=seasons, least_gain="99%")
    kept = plan_asked((item, levels), settings, Prior(NONE), str(program))
    assert isinstance(kept, Answer) and len(kept.parts) > len(answer.parts)
    assert [(it.s, it.S) for it in kept.parts] == [
        levels[it.first - FIRST - 104] for it in kept.parts
    ]


def year_by_hand(question: Question, levels: Sequence[tuple[int, int]]) -> np.ndarray:
    """Returns cost, fill, stock and orders of a year, by the figures of each month."""
    assert question.season
    rows, weights = [], []
    for stretch, own in zip(question.season.year, levels):
        month = question.during(stretch)
        figures = month.figures(own)
        rows.append((figures.cost, figures.fill, figures.stock, figures.orders))
        weeks = stretch.end - stretch.first
        weights.append((weeks, weeks * float(month.demand.mean), weeks, weeks))
    table, shares = np.array(rows), np.array(weights)
    return (table * shares).sum(axis=0) / shares.sum(axis=0)


def test_year(program: Path) -> None:
    """Figures are means of the parts of the year, by weeks, of the fill rate by demand; the calendar has the best levels of each."""
    answer, question = answered(program), asked()
    assert question.season and question.levels and answer.today
    best = [choice_of(question.during(it), True).levels for it in question.season.year]
    assert [(month.s, month.S) for month in answer.parts] == best
    assert [month[:2] for month in answer.parts] == [*question.season.year]
    for figures, levels in (
        (answer.chosen, best),
        (answer.today, [question.levels] * len(best)),
    ):
        means = figures.cost, figures.fill, figures.stock, figures.orders
        assert means == pytest.approx(year_by_hand(question, levels))
    assert answer.chosen.levels == best[0] and answer.cost_chosen == answer.chosen.cost
    assert answer.saving == pytest.approx(answer.today.cost - answer.chosen.cost)
    assert (answer.verdict, answer.source) == (CHEAPER, "theory")
    assert answer.law.mean == pytest.approx(float(question.all_year.mean))
    assert answer.remarks[0].code == "season planned"
    depth = depth_of(question, answer, str(program))
    assert depth.whole is answer and depth.answer.chosen == question.figures(best[0])
    assert depth.answer == plan_one(question, str(program))
    without = question_of(seasonal(group=""), alone(every="week", seasons=SEASONS))
    plain = plan_one(without, str(program))
    assert plain.calendar == () and depth_of(without, plain, "").answer is plain
    assert plain.part(FIRST) is None


def test_runs_of_a_year(program: Path) -> None:
    """The run's costs, savings and ends are the means of those of the months, by weeks; its totals are of the first."""
    answer, question = answered(program), asked()
    assert question.season
    year = question.season.year
    runs = [plan_one(question.during(it), str(program)).run for it in year]
    weeks = [it.end - it.first for it in year]
    for name in ("cost_today", "cost_chosen", "saving", "error", "low", "high"):
        mean = np.average([getattr(run, name) for run in runs], weights=weeks)
        assert getattr(answer.run, name) == pytest.approx(mean)
    assert answer.run.total_chosen == runs[0].total_chosen
    assert answer.run.low and answer.saving and answer.run.high
    assert answer.run.low < answer.saving < answer.run.high


def test_corrected_year(program: Path) -> None:
    """A year has the mean stock of policies that aim at the wanted fill rate, and what a confidence and a coverage cost."""
    trial = Trial(8.0, 104, tuple(208 * (1 - fill) for fill in FILLS))
    words = {"aims": Aims.of([trial] * 40), "confidence": 0.8, "max_coverage": 4}
    wanted = {"fill": Fraction(19, 20), "backlog": None}
    answer = answered(program, words, **wanted)
    question = question_of(
        seasonal(**wanted), alone(every="week", seasons=SEASONS, **words)
    )
    assert question.season and answer.correction and answer.correction.aim > 0.95
    year = question.season.year
    months = [plan_one(question.during(stretch), str(program)) for stretch in year]
    weeks = [it.end - it.first for it in year]
    plain = [it.correction.plain_stock for it in months if it.correction]
    assert answer.correction.plain_stock == pytest.approx(
        np.average(plain, weights=weeks)
    )
    for name in ("confidence_cost", "coverage_cost"):
        mean = np.average([getattr(it, name) or 0 for it in months], weights=weeks)
        assert mean > 0 and getattr(answer, name) == pytest.approx(mean)


def test_verdicts_of_a_year(program: Path) -> None:
    """A policy is the same if it is that of each month; one beyond the bounds stays bounded, and one without a policy
    today is compared with none."""
    flat = Seasons("week", {"warm": Index((1.0,) * PARTS, 0.001, 1.0, 2)})
    item = seasonal()
    words = alone(every="week", seasons=flat), Prior(NONE), str(program)
    first = plan_asked((item, None), *words)
    assert isinstance(first, Answer)
    kept = dataclasses.replace(item, levels=first.chosen.levels)
    answer = plan_asked((kept, None), *words)
    assert isinstance(answer, Answer) and answer.verdict == SAME
    first = answered(program)
    answer = answered(program, levels=first.chosen.levels)
    assert answer.verdict == CHEAPER and answer.chosen == first.chosen
    bounds = {"max_coverage": 1}
    bounded = answered(program, bounds, fill=Fraction(99, 100), levels=(1, 3))
    assert bounded.verdict == BOUNDED
    assert answered(program, levels=None).saving is None


def test_verdict_of_a_year_by_runs(program: Path) -> None:
    """If theory is rounded, the ends of the run's interval decide."""
    answer, question = answered(program), asked()
    by_run = dataclasses.replace(answer, source=RUN)
    for low, verdict in ((0.1, CHEAPER), (-0.1, UNDECIDED)):
        run = dataclasses.replace(answer.run, low=low, high=9.0)
        year = Year([(question, dataclasses.replace(by_run, run=run))])
        assert year.verdict(year.answers[0]) == verdict


def test_month_of_a_day(program: Path) -> None:
    """A later year has the same months, and a day of the record the first."""
    answer = answered(program)
    first, *_, last = answer.parts
    assert answer.part(first.first - 9) == answer.part(first.first) == first
    assert answer.part(last.end - 1) == last
    assert answer.part(last.end) == first == YearPart(*answer.calendar[0])
    assert answer.chosen_in(first.first) == answer.chosen
    late = answer.chosen_in(last.first)
    assert late.levels == (last.s, last.S) and late.fill == answer.chosen.fill
    assert answer.laws.demand == asked().all_year.table
    mean = float(answer.laws_in(last.first).demand.mean)
    assert mean == pytest.approx(answer.law.mean * last.factor, rel=1e-3)


def test_confidence_and_doubt() -> None:
    """Laws that a history allows are those of the month too."""
    question = asked()
    assert question.season
    laws = [law for law, _ in allowed_by(question, 40)]
    means = np.mean([float(law.mean) for law in laws])
    assert means == pytest.approx(float(question.demand.mean), rel=0.1)
    turned = question.during(question.season.year[3])
    laws = [law for law, _ in allowed_by(turned, 40)]
    means = np.mean([float(law.mean) for law in laws])
    assert means == pytest.approx(float(turned.demand.mean), rel=0.1)


def test_trial_without_season() -> None:
    """What a correction tries on the past is without the season."""
    settings = alone(every="week", seasons=SEASONS)
    item = seasonal(fill=Fraction(19, 20))
    flat, _ = without_season(item, settings)
    expected = trial_of(flat, alone(every="week"), Prior(NONE))
    assert trial_of(item, settings, Prior(NONE)) == expected
