"""Tests ways on made catalogues in which one of them must need more than the plan, or none."""
from __future__ import annotations

import contextlib
import dataclasses
import itertools
from collections.abc import Iterator
from fractions import Fraction
from pathlib import Path
from typing import Any

import numpy as np
import pandas as pd
import pytest

import crnplan as crn
from crnplan.api import take_tables
from crnplan.demand.index import Index
from crnplan.demand.learning import Prior
from crnplan.demand.seasons import parts_of
from crnplan.spelling import worded
from crnplan.plan import together
from crnplan.plan.backtest.catalogue import TESTS
from crnplan.plan.backtest.lessons import Learning, Records
from crnplan.plan.backtest.methods import PLANNED, SEASONLESS, Walk, Walked, Way
from crnplan.plan.backtest.one import Backtest, backtest_one
from crnplan.plan.choice import choice_of
from crnplan.plan.how import NONE, Settings
from crnplan.plan.prices import REST
from crnplan.plan.question import question_of
from crnplan.plan.seasons import Seasons
from crnplan.read.catalogue_reading import CATALOGUE, READ, Catalogued
from crnplan.read.item import Item
from crnplan.read.items import Reading
from crnplan.remarks import Remark
from crnplan.store.files import Folder, own_folder
from crnplan.store.means import Means
from crnplan.store.stored import Store
from crnplan.sentences import sentence
from planner.tests.backtest.test_tested_again import WAYS
from planner.tests.plan.items import item_of, tables_of

OWN = Prior(NONE)
ITEMS_MADE = 24


def unequal(random: np.random.Generator, place: int) -> list[int]:
    """Draws demand of 104 weeks: steady for one item in two, wild for the other."""
    if place % 2:
        return random.poisson(20, 104).tolist()
    return random.negative_binomial(0.5, 0.5 / 20.5, 104).tolist()


def seasonal(random: np.random.Generator, place: int) -> list[int]:
    """Draws demand of 5 years by month, which in the best month is four times that of the worst one."""
    wave = 1 + 0.6 * np.sin(2 * np.pi * np.arange(60) / 12)
    return random.poisson((20 + place) * wave).tolist()


def flat(random: np.random.Generator, place: int) -> list[int]:
    return random.poisson(np.full(104, 8.0 + place % 5)).tolist()


def write(folder: Path, draw: Any, every: str) -> list[Path]:
    """Writes the two tables of items of a class, whose demand of a year has one value; of unequal ones
    each second costs a tenth as much to hold."""
    folder.mkdir(parents=True)
    random, rows, masters = np.random.default_rng(4), list[Any](), list[Any]()
    for place in range(ITEMS_MADE):
        counts = draw(random, place)
        days = pd.date_range("2020-01-06", periods=104, freq="7D").date
        if every == "month":
            days = pd.date_range("2020-01-01", periods=60, freq="MS").date
        name, holding = f"I-{place:02}", 0.1 if draw is unequal and place % 2 else 1.0
        rows += [(name, *row) for row in zip(days, counts)]
        price = round(10_000 / sum(counts[:52]), 2)
        masters.append((name, 20 * holding, holding, f"1 {every}", price, "x"))
    paths = [folder / "demand.csv", folder / "items.csv"]
    headings = (
        "item,date,quantity",
        f"item,setup,holding ({every}),lead,price,class",
    )
    for path, heading, table in zip(paths, headings, (rows, masters)):
        pd.DataFrame(table, columns=heading.split(",")).to_csv(path, index=False)
    return paths


WEEKLY: dict[str, Any] = {"record": 52, "every": 13}
MONTHLY: dict[str, Any] = {"record": 12, "every": 24, "period": "month"}
KINDS: dict[str, tuple[Any, dict[str, Any], str | None]] = {
    "unequal": (unequal, WEEKLY, "alike"),
    "seasonal": (seasonal, MONTHLY, "seasonless"),
    "flat": (flat, WEEKLY, None),
}


@pytest.mark.parametrize("kind", KINDS)
def test_what_needs_more(kind: str, tmp_path: Path) -> None:
    """Of items that cost unlike to hold each alike needs more than by one price, and with a season, seen for a year alone, plans
    without need more; of flat demand neither does, and no way needs less.
    """
    draw, walk, other = KINDS[kind]
    paths = write(tmp_path / kind, draw, walk.get("period", "week"))
    sums = crn.backtest(*paths, jobs=1, fill="95%", **walk, **WAYS).tested.whole
    assert sums and sums.gains == []
    losses = {loss.code for loss in sums.losses} & {"alike", "seasonless"}
    assert losses == ({other} if other else set())


# An index of the first half of the year and of the second one, whose mean is 1.
HALVES = (1.6,) * 13 + (0.4,) * 13
SEASONS = Seasons("week", {"": Index(HALVES, 0.001, 1.0, 2)})


def test_levels_are_those_of_the_calendar() -> None:
    """Each later week has the levels of the part of the year of its Thursday, by the calendar: also after weeks that are not known,
    and in a second year as 52 weeks before."""
    counts = np.random.default_rng(5).poisson(6, 230).tolist()
    first, unknown = 2817, (7, 108, 109, 110, 111, 112, 160)
    item = item_of(counts=tuple(counts), unknown=unknown, first=first, leads=(1,))
    own = Settings(fit="empirical", borrow=NONE, every="week")
    settings = dataclasses.replace(own, seasons=SEASONS)
    ways, walk = {PLANNED: Way(settings, OWN)}, Walk(104, 230)
    walked = Walked(item, walk, ways)
    run = walked.run(walked.planned)
    known = [place for place in range(230) if place not in unknown]
    question = question_of(item.part(0, known[104]), settings, OWN)
    assert question.season and len(run.levels) == len(known)
    days = {
        month: choice_of(question.during(month)).levels
        for month in question.season.year
    }
    for place, levels in zip(known[104:], run.levels[104:], strict=True):
        week = first + place
        while week >= first + known[104] + 52:
            week -= 52
        (month,) = [one for one in days if one.first <= week < one.end]
        assert parts_of("week", week, 1) == parts_of("week", month.first, 1)
        assert levels == days[month]
    assert len({*run.levels[104:]}) > 2 and len(run.aims) == 5
    gaps = dataclasses.replace(item, unknown=(), counts=item.known.counts)
    without = Walked(gaps, walk, ways)
    assert without.run(without.planned) != run


@pytest.mark.parametrize("group", ["", "other"])
def test_plans_without_a_season(group: str) -> None:
    """They are those of the flat law. An item of a class without a season has the same, and none has any if no season was
    learned."""
    item = item_of(3, counts=tuple(range(1, 131)), group=group)
    own, walk = Settings(fit="empirical", borrow=NONE, every="week"), Walk(104, 13, 52)
    settings = dataclasses.replace(own, seasons=SEASONS)
    flat = {PLANNED: Way(own, OWN)}
    ways = {PLANNED: Way(settings, OWN), SEASONLESS: Way(own, OWN)}
    test, plain = backtest_one(item, walk, ways), backtest_one(item, walk, flat)
    assert test.seasonless == plain.planned
    assert (test.planned == plain.planned) is (group == "other")
    assert plain.seasonless is None


def small(place: int, demands: tuple[int, ...], holding: int) -> Item:
    """Returns an item with few policies that may be best, by 26 weeks and as many others. Its price is what it costs to
    hold."""
    return item_of(
        place,
        name=f"I-{place:02}",
        counts=demands * 7,
        setup=Fraction(4),
        holding=Fraction(holding),
        price=Fraction(holding),
        backlog=None,
        fill=Fraction(9, 10),
    )


SMALL = ((0, 1, 0, 2), (1, 2, 3, 2), (0, 0, 0, 5))


def value_of(item: Item) -> float:
    """Returns the value of the mean demand of the first 26 weeks of an item."""
    return float(item.price or 0) * sum(item.counts[:26]) / 26


def best_unmet(item: Item, price: float) -> float:
    """Returns the share of demand that the best of all policies of an item leaves unmet, with a price of a unit of value."""
    own = Settings(fit="empirical", borrow=NONE, every="week")
    question = question_of(item.part(0, 26), own)
    value, best = value_of(item), (np.inf, 0.0)
    for s, S in itertools.product(range(1, 16), range(1, 28)):
        if S > s:
            figures = question.figures((s, S))
            unmet = 1 - figures.fill
            best = min(best, (figures.cost + price * value * unmet, unmet))
    return best[1]


@contextlib.contextmanager
def learning(folder: Folder, record: int, settings: Settings) -> Iterator[Learning]:
    """Yields what the items in a folder learn by."""
    path = folder.path / READ
    with Catalogued(path) as whole, Records(path, record) as read, Store(
        folder.store(TESTS), Backtest
    ) as tests:
        yield Learning(folder, tests, whole, read, settings, OWN, Means(1))


ALONE = Settings(fit="empirical", borrow=NONE, every="week")


def test_price_by_brute_force(tmp_path: Path) -> None:
    """Items meet by value the share that they want together by their records, and less with a price that is 2% lower: of
    all policies of each, tried one by one. Later weeks count for nothing.
    """
    items = [small(place, SMALL[place % 3], 1 + place % 3) for place in range(12)]
    later = [
        dataclasses.replace(item, counts=item.counts[:26] + (9,) * 14) for item in items
    ]
    settings = dataclasses.replace(ALONE, together={REST: 0.9})
    prices = list[float]()
    for name, own in (("one", items), ("two", later)):
        sales, masters = tables_of(own)
        masters["class"], masters["price"] = "", masters["holding"]
        with own_folder(tmp_path / name, CATALOGUE) as folder:
            take_tables(folder, sales, masters, None, None, Reading(every="week"), 1)
            with learning(folder, 26, settings) as on:
                way = on.priced(Way(settings, OWN))
        assert way.settings.prices
        prices.append(way.settings.prices.groups[REST].price)
    assert prices[0] == prices[1]
    for times, is_met in ((1.0, True), (0.98, False)):
        unmet = [best_unmet(item, times * prices[0]) for item in items[:3]]
        share = np.average(unmet, weights=[*map(value_of, items[:3])])
        assert bool(share <= 0.1 + 1e-9) is is_met
    walked = Walked(items[1], Walk(26, 26), {PLANNED: way})
    run = walked.run(walked.planned)
    unmet = [1 - fill for _, fill in run.promises[:1]]
    assert unmet == pytest.approx([best_unmet(items[1], prices[0])])
    met = list[float]()
    for (s, S), *_ in run.aims:
        figures = question_of(items[1].part(0, 26), ALONE).figures((s, S))
        met.append(figures.fill)
    assert len(met) == 5 and met == sorted(met) and met[0] < met[-1]


def refused(*_: Any) -> None:
    raise crn.Refused("it has no policy")


def test_what_can_not_be_tested(
    tmp_path: Path, monkeypatch: pytest.MonkeyPatch
) -> None:
    """It is said why items have no price together, and how long a record has to be for the seasons that there are. With none
    wanted nothing is."""
    sales, masters = tables_of(small(place, SMALL[1], 1) for place in range(21))
    masters["class"], masters["price"] = "x", 1
    settings = dataclasses.replace(ALONE, together={REST: 0.9})
    monkeypatch.setattr(together, "offer_of", refused)
    with own_folder(tmp_path / "own", CATALOGUE) as folder:
        take_tables(folder, sales, masters, None, None, Reading(every="week"), 1)
        with learning(folder, 26, settings) as on:
            way = on.priced(Way(settings, OWN))
            on.__dict__["seen"] = Seasons("week", {"x": SEASONS.classes[""]})
            assert on.seasons() is None
            none, short = on.remarks
        with learning(folder, 26, dataclasses.replace(ALONE, season="none")) as on:
            assert on.seasons() is None and on.remarks == []
    assert way.settings.prices is None and not way.settings.shares
    assert "none of its items can be planned" in sentence(none)
    assert short == Remark("seasons untested", {"record": 26, "least": 104})
    assert "record=104" in worded(sentence(short))


def test_seasons_of_records(tmp_path: Path) -> None:
    """Two years of records have the seasons of these; one year has those of the classes that all years show, with its own
    values; and that is said."""
    paths = write(tmp_path / "tables", seasonal, "month")
    seen = dict[int, Seasons]()
    settings = dataclasses.replace(ALONE, every="month")
    with own_folder(tmp_path / "own", CATALOGUE) as folder:
        rules = Reading(every="month", fill="95%")
        take_tables(folder, *paths, None, None, rules, 1)
        for record in (12, 36, 60):
            with learning(folder, record, settings) as on:
                seasons = on.seasons()
                assert seasons
                seen[record] = seasons
                said = [remark.code for remark in on.remarks]
                assert said == (["seasons of records"] if record == 12 else [])
    years = {record: one.classes["x"].years for record, one in seen.items()}
    assert years == {12: 1, 36: 3, 60: 5}
    wave = 1 + 0.6 * np.sin(2 * np.pi * np.arange(12) / 12)
    for one in seen.values():
        assert np.array(one.classes["x"].values) == pytest.approx(wave, abs=0.15)
