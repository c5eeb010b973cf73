"""Tests the first screen of a catalogue's page: its figures by pandas from decisions.csv, and how it reads with few."""
from __future__ import annotations

import random
import re
from dataclasses import replace
from fractions import Fraction
from pathlib import Path
from typing import Any

import pandas as pd
import pytest

import crnplan as crn
from crnplan.show.catalogue_tables import reasons_of
from crnplan.drawing.rendering import Money, Unit
from crnplan.plan.answer import CHEAPER, DEARER, RUN, SAME, THEORY
from crnplan.read.columns import periods_a_year
from crnplan.read.item import NEW
from crnplan.read.items import Reject
from crnplan.remarks import Remark
from planner.tests.conftest import cases_beside, shared
from planner.tests.planned_tables import whole_table
from planner.tests.show import made_catalogue
from planner.tests.show.made_catalogue import (
    Pair,
    made_folder,
    made_pair,
    page_of,
    without_today,
)
from planner.tests.show.page_reader import Page

CASES = cases_beside(__file__)
YEAR = 365.25 / 7  # weeks
# What a reader who decides need not know.
TECHNICAL = re.compile(
    r"\b(seeds?|keys?|digests?|bayes|streams?|runs?|log10|proved|theory|crnsim|interval)\b",
    re.I,
)


def board_of(page: Page) -> str:
    """Returns the source of the first screen."""
    _, _, after = page.source.partition('<div id="board">')
    return after.partition('<section aria-labelledby="curve">')[0]


@pytest.fixture(scope="module")
def large(tmp_path_factory: pytest.TempPathFactory) -> Path:
    return shared(
        tmp_path_factory, "large", lambda folder: crn.report(made_folder(folder, 600))
    )


def numbers(cell: str) -> list[float]:
    """Returns the numbers of a cell, as 80.5 and 95.1 of `80.5% → 95.1%`."""
    return [
        float(it)
        for it in re.findall(r"-?[\d.]+", cell.replace("\u2212", "-").replace(",", ""))
    ]


def sums_by_class(folder: Path) -> pd.DataFrame:
    """Returns by pandas the sums of each class, the fifth and later ones as others, and those of all."""
    rows = whole_table(folder).fillna({"class": ""})
    rows["asked"] = rows.value_today / rows.stock_today * rows.demand
    for policy in ("today", "chosen"):
        rows[f"met_{policy}"] = rows.asked * rows[f"fill_{policy}"]
    rows = rows.assign(items=1, group=rows["class"].replace("", "no class"))
    columns = "items saving asked met_today met_chosen value_today value_chosen"
    sums = rows.groupby("group")[columns.split()].sum()
    names = sums.saving.abs().sort_values(ascending=False).index
    sums.loc["3 others"] = sums.loc[names[5:]].sum()
    sums.loc["all"] = sums.loc[names].sum()
    return sums.loc[["all", *sorted(names[:5]), "3 others"]]


def test_classes_are_those_of_pandas(large: Path) -> None:
    """Each class has the items, savings a year, service by value and stock value of its rows in decisions.csv."""
    wanted = sums_by_class(large)
    heading, *shown = Page(large / "report.html").tables["By class"]
    assert heading[2:] == CASES["headings"]
    assert [row[0] for row in shown] == [*wanted.index]
    for name, items, saved, met, value in shown:
        own = wanted.loc[name]
        assert int(items) == own["items"]
        assert numbers(saved) == pytest.approx([YEAR * own.saving / 1e3], abs=0.51)
        shares = 100 * own[["met_today", "met_chosen"]] / own.asked
        assert numbers(met) == pytest.approx([*shares], abs=0.06)
        values = own[["value_today", "value_chosen"]] / 1e6
        assert numbers(value) == pytest.approx([*values], abs=0.006)


def hand_pair(name: str = "it", **facts: Any) -> Pair:
    """Returns an item whose figures are worked by hand. An order costs 9, an item in stock 0.60 a week, and a price of 30.

    Today's: half an order a week costs 4.50, 10 in stock cost 6.00, late deliveries 3.00. The chosen one's: a quarter of
    an order costs 2.25, 15 in stock cost 9.00, late deliveries 0.45.
    """
    item, answer = made_pair(random.Random(1), name)
    today = replace(answer.today, cost=13.5, fill=0.9, stock=10.0, orders=0.5)
    chosen = replace(answer.chosen, cost=11.7, fill=0.98, stock=15.0, orders=0.25)
    law = replace(answer.law, mean=4.0)
    return (
        replace(item, price=Fraction(30), category="P", **facts),
        replace(
            answer,
            verdict=CHEAPER,
            source=THEORY,
            today=today,
            chosen=chosen,
            cost_today=13.5,
            cost_chosen=11.7,
            saving=1.8,
            law=law,
        ),
    )


def test_where_the_saving_comes_from(tmp_path: Path) -> None:
    """Orders, stock and late deliveries cost before and after what the item's costs say, and add up to the saving."""
    folder = made_folder(tmp_path / "plan", 0, has_curve=False, change=hand_pair())
    page = Page(crn.report(folder))
    heading, *rows = page.tables["Where the saving comes from"]
    assert heading == ["a year", "today", "new levels", "saved"]
    by_hand = {
        "orders": (4.5, 2.25),
        "stock": (6.0, 9.0),
        "late deliveries": (3.0, 0.45),
        "together": (13.5, 11.7),
    }
    assert [row[0] for row in rows] == [*by_hand]
    for name, *cells in rows:
        today, chosen = by_hand[name]
        wanted = [YEAR * today, YEAR * chosen, YEAR * (today - chosen)]
        assert numbers(" ".join(cells)) == pytest.approx(wanted, abs=0.51)
    assert (
        "The mean stock is worth 150 more, and to hold it costs 157 more a year."
        in page.words
    )
    summary = (folder / "summary.txt").read_text("utf-8")
    assert (
        "of it: orders 4.50 today, 2.25 chosen; stock 6.00 and 9.00; late deliveries 3.00 and 0.45\n"
        in summary
    )


def test_parts_of_a_run(tmp_path: Path) -> None:
    """If the costs of an item are those of a run, its parts are those of theory in proportion, so they still add up."""
    item, answer = hand_pair()
    by_run = replace(answer, source=RUN, cost_today=27.0, cost_chosen=11.7, saving=15.3)
    page = page_of(tmp_path / "plan", change=(item, by_run))
    _, orders, stock, late, together = page.tables["Where the saving comes from"]
    for row, amount in ((orders, 9.0), (stock, 12.0), (late, 6.0), (together, 27.0)):
        assert numbers(row[1]) == pytest.approx([YEAR * amount], abs=0.51)


def test_without_levels_today(tmp_path: Path) -> None:
    """Without today's levels the first screen has what the new ones cost, serve and hold."""
    item, answer = hand_pair(levels=None)
    folder = made_folder(
        tmp_path / "plan", 0, has_curve=False, change=(item, without_today(answer))
    )
    page = Page(crn.report(folder))
    assert "No planned item has levels today to compare with" in page.words
    assert page.parts["h1"] == [
        "New reorder levels of 1 items meet 98.0% of demand at once"
    ]
    assert "Where the saving comes from" not in page.tables
    assert (
        "the 1 planned items cost 11.70 a week with the chosen policies, if the coming year"
        in page.words
    )
    for card in CASES["cards"]:
        assert card in page.words
    said = "chosen: 11.70 a week, 98.0% of demand met at once, stock value 450.00\n"
    assert said in (folder / "summary.txt").read_text("utf-8")


def test_a_new_item_counts_as_others_do(tmp_path: Path) -> None:
    """A new item with levels today is in all sums, and one without in those of such items, as other items are. So the
    sum of the column saving is that of the page."""
    item, answer = hand_pair(past=NEW)
    folder = made_folder(
        tmp_path / "plan",
        12,
        has_curve=False,
        change=(item, replace(answer, verdict=NEW)),
    )
    page, rows = Page(crn.report(folder)), pd.read_csv(folder / "decisions.csv")
    assert (rows.verdict == "new").sum() == 1
    assert numbers(page.tables["By class"][1][2]) == pytest.approx(
        [YEAR * rows.saving.sum()], abs=0.51
    )
    assert ["new", "1", "1.80"] == page.tables["Verdicts"][-1][:3]
    values = re.search(
        "stock value: (.*) today, (.*) chosen",
        (folder / "summary.txt").read_text("utf-8"),
    )
    assert values
    assert [
        float(value.replace(",", "")) for value in values.groups()
    ] == pytest.approx([rows.value_today.sum(), rows.value_chosen.sum()], abs=0.1)


def test_no_technical_word_is_on_the_first_screen(large: Path) -> None:
    """A word such as `proved` is explained where it first stands, below."""
    page = Page(large / "report.html")
    words = re.sub(r"<[^>]*>", " ", board_of(page))
    assert "saved a year" in words
    assert "Every item" not in words
    assert TECHNICAL.findall(words.replace("crnplan backtest", "")) == []
    assert (
        "proved for their random numbers: a machine has checked a proof" in page.words
    )


def pair(**facts: Any) -> Pair:
    """Returns an item with some facts, and its answer."""
    item, answer = made_pair(random.Random(1), "it")
    return replace(item, **facts), answer


def test_without_prices(tmp_path: Path) -> None:
    """Service is then the mean over items, there is no stock value, and the page says which column is missing."""
    item, answer = pair(price=None)
    page = page_of(tmp_path / "plan", change=(item, answer))
    assert [row[:2] for row in page.tables["By class"][1:]] == [["all", "1"]]
    assert numbers(page.tables["By class"][1][3]) == pytest.approx(
        [100 * answer.today.fill, 100 * answer.chosen.fill], abs=0.06
    )
    assert "A column with prices in the masters adds" in page.words
    assert "Before and after" not in page.words
    assert "mean of items" in page.words
    assert "value of the mean stock" not in page.words


def test_loss_and_nothing(tmp_path: Path) -> None:
    """A saving below 0 is said as more cost. Without a plan there is nothing to compare."""
    item, answer = pair()
    dearer = replace(
        answer, verdict=DEARER, saving=-2.0, cost_today=10.0, cost_chosen=12.0
    )
    page = page_of(tmp_path / "plan", change=(item, dearer))
    assert (
        "The new reorder levels cost 104 a year more, 20.0% of today's cost"
        in page.words
    )
    same = replace(answer, verdict=SAME)
    page = page_of(tmp_path / "same", change=(item, same))
    assert "Today's reorder levels stay: no better ones were found" in page.words
    page = page_of(tmp_path / "none")
    assert "No item is planned" in page.words
    assert not {"By class", "Verdicts"} & page.tables.keys()


@pytest.mark.parametrize(
    "counts, unknown", [((0, 3, 1), ()), ((0, 3, 8, 1), (2,)), ((8, 0, 3, 1), (0,))]
)
def test_value_of_what_is_left_out(
    tmp_path: Path, counts: tuple[int, ...], unknown: tuple[int, ...]
) -> None:
    """5 items of 30 lie in stock, and 4 were asked for in the 3 weeks whose demand is known: that are 4 / 3 * 30 a week.
    The most frequent reasons stand with their number."""
    facts = {"counts": counts, "unknown": unknown}
    item, _ = pair(stock=Fraction(5), price=Fraction(30), **facts)
    fault = Remark("no policy", {"fill": 0.99})
    words = page_of(tmp_path / "plan", 12, change=(item, fault)).words
    assert "2 of 14 items have no plan" in words
    assert "The stock of 1 of them is worth 150." in words
    assert "A year's demand for them, as far as it is known, is worth 2,090." in words
    assert "1: no policy meets" in words


def reject_of(
    code: str, facts: dict[str, Any], rows: int = 1, kind: str = "row"
) -> Reject:
    return Reject(
        kind, "demand.csv", 7, "it", "date", "2062-03-04", Remark(code, facts), rows
    )


def test_rows_that_were_read_are_counted_apart(
    tmp_path: Path, monkeypatch: pytest.MonkeyPatch
) -> None:
    """A cell that is no number could not be read. A date outside the record was, and so was a row that stands twice; one
    with both faults could not. Rows of orders are not counted here."""
    number, late = {"text": "n/a"}, CASES["late"]
    both = {f"0 {name}": it for name, it in late.items()} | {"0": "late date"}
    outside = both | {"1": "total"}
    both |= {"1": "no number", "1 text": "n/a"}
    rejects = [reject_of("no number", number) for _ in range(2)]
    rejects += [
        reject_of("late date", late),
        reject_of("twins", {"count": 4, "lines": "3 to 6", "first": "2"}, 4),
        reject_of("several", both),
        reject_of("no number", number, 0),
        reject_of("nothing of leads", {}, 12, "item"),
    ]
    assert [reason.group for reason in reasons_of([reject_of("several", outside)])] == [
        "read"
    ]
    monkeypatch.setattr(made_catalogue, "made_rejects", lambda source, items: rejects)
    page = page_of(tmp_path / "plan", 5)
    assert "with 12 rows of demand. " in page.words
    assert (
        "Of 518 rows of demand 3 could not be read. 5 more were read, and are left out: outside the record, twice, or "
        "totals."
    ) in page.words
    assert [row[3] for row in page.tables["Rows that could not be read"][1:]] == [
        "3",
        "1",
    ]
    assert [
        row[3] for row in page.tables["Rows that were read, and are left out"][1:]
    ] == ["1", "4"]


@pytest.mark.parametrize("amount, currency, text", CASES["money"])
def test_money_as_people_say_it(amount: float, currency: str, text: str) -> None:
    assert Money(currency, 2).rounded(amount) == text


def test_units_and_years() -> None:
    """The largest amount of a column has three figures. A year has so many days, weeks and months."""
    assert [
        Unit.of(most, 2).cell(most)
        for most in (1.5e6, 15.4e6, 154e6, 154_000.0, 1_540.0, 15.4)
    ] == ["1.50", "15.4", "154", "154", "1,540", "15.40"]
    assert Money("EUR", 2).heading("saved", Unit.of(2e6, 2)) == "saved, EUR million"
    assert Money("", 2).heading("saved", Unit.of(2.0, 2)) == "saved"
    assert [
        float(periods_a_year(every)) for every in ("day", "week", "month")
    ] == pytest.approx([365.25, YEAR, 12])
