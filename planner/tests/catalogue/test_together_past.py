"""Tests prices that are found on the past of a catalogue, by loops that are written here and by hand."""
from __future__ import annotations

import math
from collections.abc import Sequence
from pathlib import Path
from typing import Any

import numpy as np
import pandas as pd
import pytest

import crnplan as crn
from crnplan.backtesting import write_backtest
from crnplan.demand.learning import Prior
from crnplan.plan import offers, together
from crnplan.plan.backtest.catalogue import past_of as past_of_folder
from crnplan.plan.backtest.one import Walk
from crnplan.plan.catalogue import planned_folder
from crnplan.plan.correction import blocks_of
from crnplan.plan.drawn import DrawnItems
from crnplan.plan.offers import ByPrice, Offer, met_on_past, past_of
from crnplan.plan.prices import REST, Price
from crnplan.plan.how import NONE, Settings
from crnplan.plan.question import question_of
from crnplan.plan.together import OnPast
from crnplan.read.catalogue_reading import CATALOGUE
from crnplan.read.item import Item
from crnplan.show.backtest_tables import past_line
from crnplan.store.files import own_folder
from crnplan.store.means import Means
from planner.tests.catalogue.test_together import BACKLOG, SETTINGS, groups_of, made
from planner.tests.plan.items import ALONE, unmet_of
from planner.tests.show.page_reader import Page

COUNT, WANTED = 36, 0.9
OWN = Settings(fit="empirical", borrow=NONE, together={REST: WANTED})


def planned(program: Path, **words: Any) -> crn.Plan:
    common = {"correct": True, "together": WANTED, "program": program}
    return crn.plan(*made(count=COUNT), **SETTINGS | common | words)


@pytest.fixture(scope="module")
def corrected(program: Path) -> crn.Plan:
    return planned(program)


def price_in(plan: crn.Plan) -> Price:
    with planned_folder(plan.path) as folder:
        assert folder.settings.prices
        return folder.settings.prices.groups[REST]


def members(plan: crn.Plan) -> list[Item]:
    with planned_folder(plan.path) as folder:
        return [item for item in folder.read.items() if item.backlog is None]


def unmet_on_past(item: Item, price: float) -> float:
    """Returns what an item leaves unmet of its record, of which each quarter is planned from the others."""
    total, periods = 0, len(item.counts)
    for first, end in blocks_of(periods):
        question = question_of(item.without(range(first, end)), OWN, Prior(NONE))
        ((s, S),) = ByPrice(question, [price]).pairs
        random = np.random.default_rng(question.seed("trial"))
        question.lead.draws(random, 2 * periods)
        stock = s + round(float(random.random()) * (S - s))
        (lead,) = {*item.leads}
        unmet = unmet_of((s, S), 2 * item.counts, lead, stock)
        total += sum(unmet[periods + first : periods + end])
    return total


def met_by(items: Sequence[Item], price: float) -> float:
    """Returns the share of demand by value that items met at once on the past."""
    asked, unmet = list[float](), list[float]()
    for item in items:
        weight = float(item.price or 0) / len(item.counts)
        asked.append(weight * sum(item.counts))
        unmet.append(weight * unmet_on_past(item, price))
    return 1 - math.fsum(unmet) / math.fsum(asked)


def test_offers_on_the_past(corrected: crn.Plan) -> None:
    """They are what a loop finds that is written here."""
    prices = 0.2, 2.0, 20.0
    for item in members(corrected)[:6]:
        offer = past_of(item, OWN, Prior(NONE), {REST: prices})
        weight = float(item.price or 0) / len(item.counts)
        unmet = [weight * unmet_on_past(item, price) for price in prices]
        assert offer.unmet == pytest.approx(unmet)
        assert offer.asked == pytest.approx(weight * sum(item.counts))


def test_price_meets_the_share_on_the_past(corrected: crn.Plan, program: Path) -> None:
    """Quarters of the record met the wanted share with it, but for steps between two prices. By theory that promises
    more than is wanted, and it is dearer than the price by theory alone. All of it is said.
    """
    price, items = price_in(corrected), members(corrected)
    assert price.tried == price.items == len(items)
    assert met_by(items, price.price) == pytest.approx(WANTED, abs=0.004)
    assert price.past == pytest.approx(WANTED, abs=1e-4)
    plain = price_in(planned(program, correct=False))
    assert price.price > plain.price and price.promised > plain.promised >= WANTED
    assert plain.past is None and plain.tried == 0
    said = corrected.text.split("planned together")[1].splitlines()[3].split()
    assert said[2:5] == ["90.00%", f"{price.promised:.2%}", f"{price.past:.2%}"]
    rows = corrected.details
    assert rows.fill_aimed[rows.fill_together.notna()].isna().all()
    words = Page(corrected.report()).words
    said = f"{price.past:.2%} of demand at once, and {price.promised:.2%} by"
    assert f"such plans met {said}" in words
    assert "Met on the past: with the price on quarters of records" in words


def test_few_items_of_a_class_are_refused(
    program: Path, monkeypatch: pytest.MonkeyPatch
) -> None:
    """With enough items, the page says of each class what it met on its past."""
    both = {"a": WANTED, "b": WANTED}
    with pytest.raises(crn.Refused, match="17 items can be tried on their past"):
        planned(program, together=both)
    monkeypatch.setattr(together, "LEAST_ITEMS", 17)
    plan = planned(program, together=both)
    words = Page(plan.report()).words
    for name in both:
        assert f"17 items are planned together (class {name}): on the" in words


def test_few_items_of_no_word_have_the_price_of_theory(program: Path) -> None:
    """If those that are planned together by the default are too few to be tried on their past, nothing is corrected."""
    sales, masters = made()
    masters = masters[:-BACKLOG].drop(columns="fill")
    read = crn.read_catalogue(sales, masters, fill=WANTED)
    corrected, plain = (
        groups_of(crn.plan(read, correct=is_on, program=program, **SETTINGS))
        for is_on in (True, False)
    )
    assert plain and corrected == plain


def test_items_of_their_own_are_corrected_too(program: Path) -> None:
    """Those that no word covers aim at fill rates that the past says, and floors are such fill rates too."""
    floored = planned(program, at_least=0.8)
    with planned_folder(floored.path) as folder:
        aims, totals = folder.settings.aims, folder.totals
    assert aims and totals.least[REST] > 0
    for item, row in zip(members(floored), floored.decisions.itertuples()):
        assert row.fill_chosen >= aims.aim(item.counts, 0.8) - 1e-9


def test_price_on_the_past_by_hand() -> None:
    """Half way between two prices by what is left unmet, it is half way by their logarithms; it is no lower than the
    first one, and no higher than the last. A price that meets less than a lower one meets as much.
    """
    prices = (1.0, 10.0, 100.0, 1000.0)
    met = np.array([0.8, 0.9, 0.89, 0.94])
    found = OnPast(prices, met, 40)
    for wanted, price, share in (
        (0.85, 10**0.5, 0.85),
        (0.92, 10**2.5, 0.92),
        (0.7, 1.0, 0.8),
        (0.99, 1000.0, 0.94),
    ):
        assert found.price(wanted) == pytest.approx(price, rel=1e-3)
        assert found.share(price) == pytest.approx(share)


def test_drawn_items_by_hand() -> None:
    """Those that were taken count as they are. The others follow their sizes: these are 60 in all, of which 10 and 20 were
    drawn with chances of 1/4 and 1/2. So their demand is (8 / 0.25 + 24 / 0.5) / (10 / 0.25 + 20 / 0.5) = 1 of it, 60, and
    what they leave unmet is (2 / 0.25 + 4 / 0.5) / 80 = 0.2 of it, 12."""
    drawn = DrawnItems(frozenset(["A"]), {"B": 0.25, "C": 0.5})
    sizes = {"A": 40.0, "B": 10.0, "C": 20.0}
    known = {
        "A": Offer(36.0, (6.0,)),
        "B": Offer(8.0, (2.0,)),
        "C": Offer(24.0, (4.0,)),
    }
    assert met_on_past(known, drawn, sizes, 100.0) == pytest.approx([1 - 18 / 96])
    every = DrawnItems(frozenset("ABC"), {})
    assert met_on_past(known, every, sizes, 70.0) == pytest.approx([1 - 12 / 68])


def test_many_items_are_drawn(
    corrected: crn.Plan, program: Path, monkeypatch: pytest.MonkeyPatch
) -> None:
    """If only some are tried, those that carry most of the demand and others by chance, the price is nearly that."""
    monkeypatch.setattr(offers, "MOST_TRIED", 32)
    monkeypatch.setattr(offers, "MOST_TAKEN", 20)
    drawn, every = price_in(planned(program)), price_in(corrected)
    assert drawn.tried == 32 < every.tried and drawn.price != every.price
    assert met_by(members(corrected), drawn.price) == pytest.approx(WANTED, abs=0.01)


def test_backtests_find_prices_on_records(program: Path) -> None:
    """What was found is from all periods, so a folder is tested with prices that were found on records, and with each item
    alike. Items with a price and without a backlog cost count by their value."""
    plan = crn.plan(*made(), together=WANTED, program=program, **SETTINGS)
    with planned_folder(plan.path) as folder:
        settings = folder.settings
    with own_folder(plan.path, CATALOGUE) as own:
        tests = write_backtest(own, settings, Walk(26, 13, 26), Means(1))
    plain = crn.backtest(
        *made(), record=26, every=13, window=26, **ALONE, together=WANTED
    )
    pd.testing.assert_frame_equal(tests.frame, plain.frame)
    assert tests.frame["fill_alike"].notna().all()
    with planned_folder(plan.path) as folder:
        assert past_line(past_of_folder(folder)) == tests.text.splitlines()[0]
    for item, test in tests.tested.items:
        is_together = item.price and item.backlog is None
        assert test.value == (float(item.price) if is_together else None)


def test_price_is_never_below_that_of_theory(
    corrected: crn.Plan, program: Path, monkeypatch: pytest.MonkeyPatch
) -> None:
    """If the past met more than theory promises, the price is that of theory, and what the past met with it is told."""
    monkeypatch.setattr(
        together, "met_on_past", lambda *known: np.linspace(0.95, 1, 26)
    )
    price = price_in(planned(program))
    plain = price_in(planned(program, correct=False))
    assert price.price == plain.price and price.promised == plain.promised
    assert price.past and 0.95 <= price.past < 0.953
