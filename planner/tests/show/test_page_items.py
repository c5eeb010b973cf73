"""Tests what the page of a catalogue says of items that are not as most are, and of few."""
from __future__ import annotations

import math
import random
import re
from dataclasses import replace
from fractions import Fraction
from pathlib import Path

import pytest

import crnplan as crn
from crnplan.plan.answer import RUN, UNDECIDED
from crnplan.plan.totals import Totals
from crnplan.read.item import NO_DEMAND, STOPPED, Item
from crnplan.read.overrides import SET_LEVELS, Override
from crnplan.remarks import Remark
from crnplan.drawing.rendering import templates
from planner.tests.planned_tables import whole_rows
from planner.tests.show.made_catalogue import (
    made_folder,
    made_pair,
    page_of,
    without_today,
)
from planner.tests.show.page_reader import Page, rows_of
from planner.tests.show.test_catalogue_page import summary_of


def test_columns_and_texts(tmp_path: Path) -> None:
    """What planners have set is shown if there is any. Each text keeps its blanks and signs."""
    item, answer = made_pair(random.Random(1), "set")
    item = replace(item, override=Override(SET_LEVELS, 7, 19, ""))
    page = page_of(tmp_path / "plan", 5, change=(item, answer))
    assert "override" in page.columns
    assert {
        name: its["override"] for name, its in page.items.items() if its["override"]
    } == {"set": SET_LEVELS}
    item, answer = made_pair(random.Random(1), "texts")
    item = replace(
        item,
        description="  <b>two</b>  blanks ",
        category="&amp;",
        remarks=(Remark("refused", {"what": "'a' \"b\" < c", "advice": ""}),),
    )
    change = item, replace(answer, remarks=())
    its = page_of(tmp_path / "plan", 5, change=change).items["texts"]
    assert [its[name] for name in ("description", "class", "warnings")] == [
        item.description,
        item.category,
        "'a' \"b\" < c",
    ]


def test_an_item_without_a_policy_today(tmp_path: Path) -> None:
    """It comes last, with empty cells, and in no sum but those of such items, which page and summary name."""
    item, answer = made_pair(random.Random(1), "it")
    item, answer = replace(item, levels=None, price=Fraction(3)), without_today(answer)
    plain = page_of(tmp_path / "plain", 12)
    page = page_of(tmp_path / "more", 12, change=(item, answer))
    row, summary = [*page.items.values()][-1], summary_of(tmp_path / "more")
    assert (row["item"], row["verdict"], row["s_chosen"]) == (
        "it",
        "no policy today",
        str(answer.chosen.point),
    )
    empty = "s_today S_today cost_today saving fill_today".split()
    assert {row[name] for name in empty} == {""}
    details = whole_rows(tmp_path / "more")["it"]
    assert {details[name] for name in ("run_saving", "run_low")} == {""}
    parts = plain.tables["Where the saving comes from"]
    assert page.tables["Where the saving comes from"] == parts
    assert len(parts) == 5
    cost, value = f"{answer.cost_chosen:,.2f}", f"{3 * answer.chosen.stock:,.2f}"
    said = (
        "1 planned items have no levels today to compare with, and are in no other sum."
    )
    assert said in page.words
    met = f"{answer.chosen.fill:.1%} of demand met at once"
    assert f"{met}, and their mean stock is worth" in page.words
    said = (
        f"1 items, in no sum above; chosen: {cost} a week, {met}, stock value {value}\n"
    )
    assert said in summary
    assert ["no policy today", "1", ""] == page.tables["Verdicts"][-1][:3]
    alone = page_of(tmp_path / "alone", change=(item, answer))
    assert "No planned item has levels today to compare with" in alone.words


def test_money_in_its_currency(tmp_path: Path) -> None:
    """Page, summary and the axis of the curve name the currency; amounts have its decimals, which are 3 here."""
    folder = made_folder(tmp_path / "plan", 12, currency="KWD")
    page, summary = Page(folder / "report.html"), summary_of(folder)
    saving = math.fsum(
        float(row["saving"]) for row in rows_of(folder / "decisions.csv")
    )
    shown = re.search(r"saved: KWD ([0-9,]+\.[0-9]{3}) a week", summary)
    assert shown
    assert float(shown[1].replace(",", "")) == pytest.approx(saving, abs=0.1)
    assert "The difference is KWD " in page.words
    assert "value of the mean stock, KWD" in page.words
    for row in page.items.values():
        assert re.fullmatch(r"[+\u2212-]?[0-9]+\.[0-9]{3}", row["saving"])
    plan = crn.Plan(folder)
    assert plan.frame.attrs["units"]["saving"] == "KWD a week"
    assert (
        crn.Plan(made_folder(tmp_path / "none", 12)).frame.attrs["units"]["saving"]
        == "money a week"
    )


def test_an_item_without_demand(tmp_path: Path) -> None:
    """It stands in the tables with nothing to order and the value of its stock, and in no sum but that."""
    item, _ = made_pair(random.Random(1), "it")
    item = replace(
        item, past=NO_DEMAND, counts=(0, 0, 0), price=Fraction(3), stock=Fraction(4)
    )
    remark = Remark("no demand in record", {"periods": 3})
    page = page_of(tmp_path / "more", 12, change=(item, remark))
    row, summary = [*page.items.values()][-1], summary_of(tmp_path / "more")
    decision = whole_rows(tmp_path / "more")["it"]
    cells = {
        "verdict": "no demand",
        "s_chosen": "0",
        "S_chosen": "0",
        "value_today": "12.00",
        "cost_chosen": "",
    }
    assert (
        {name: row[name] for name in cells}
        == {name: decision[name] for name in cells}
        == cells
    )
    assert decision["codes"] == "no demand in record"
    assert decision["stock_today"] == "4"
    assert "it" not in {its["item"] for its in rows_of(tmp_path / "more/rejects.csv")}
    for said in (
        " = 12 planned + 1 no demand + 1 left out (rejects.csv says why)\n",
        "\nwithout demand in the record: 1 items, and their stock is worth 12.00\n",
    ):
        assert said in summary
    said = (
        "Nobody has asked for 1 items: nothing is ordered, and their stock is worth 12"
    )
    assert said in page.words
    assert ["no demand", "1", ""] == page.tables["Verdicts"][-1][:3]
    for text in (summary, page.words):
        assert "LOST" not in text
        assert "ADD UP" not in text


@pytest.mark.parametrize("past", [NO_DEMAND, STOPPED])
def test_a_stock_of_unknown_worth(tmp_path: Path, past: str) -> None:
    """Where no stock or price is known of items without an order, no sum stands for it, not even 0."""
    item, _ = made_pair(random.Random(1), "it")
    item = replace(item, past=past, counts=(0, 0, 0), price=Fraction(3), stock=None)
    remark = Remark("no demand in record", {"periods": 3})
    page = page_of(tmp_path / "plan", 12, change=(item, remark))
    for text in (page.words, summary_of(tmp_path / "plan")):
        assert ", and what their stock is worth is not known from the masters" in text
        assert ", and their stock is worth" not in text


def test_what_is_known_of_a_stock_is_added_up() -> None:
    """The worth of several items is a sum of what is known, and says if that is not all."""
    item, _ = made_pair(random.Random(1), "it")
    known = replace(item, past=NO_DEMAND, price=Fraction(3), stock=Fraction(4))
    items = known, replace(known, stock=Fraction(5)), replace(known, price=None)
    module = templates(False).get_template("stock_text.txt").module
    worth = getattr(module, "worth")

    def said(*some: Item) -> str:
        """Returns what is said of some items, after their totals were kept and read."""
        remark = Remark("no demand in record", {"periods": 3})
        totals = Totals.parse(Totals.of((it, remark) for it in some).json)
        return str(worth(totals, "idle", len(some), str))

    assert said(*items[:2]) == ", and their stock is worth 27.0"
    assert said(*items) == ", and their stock is worth 27.0, as far as it is known"


@pytest.mark.parametrize(
    "error, said",
    [
        (0.6, "The new reorder levels cost as much as today's, as far as can be told"),
        (0.5, "The new reorder levels save 52.18 a year, 10.0% of today's cost"),
    ],
)
def test_headline_of_runs(tmp_path: Path, error: float, said: str) -> None:
    """By runs, the chosen policies are better only if the interval, 1.96 errors around 1, is above 0."""
    item, answer = made_pair(random.Random(1), "it")
    run = replace(answer.run, saving=1.0, error=error)
    answer = replace(
        answer,
        verdict=UNDECIDED,
        source=RUN,
        cost_today=10.0,
        cost_chosen=9.0,
        saving=1.0,
        run=run,
    )
    assert said in page_of(tmp_path / "plan", change=(item, answer)).words


@pytest.mark.parametrize("items", [0, 1])
def test_few_items(tmp_path: Path, items: int) -> None:
    page = page_of(tmp_path / "plan", items)
    assert len(page.items) == items
    assert f"{items} of" not in page.words
    assert ("No item is planned" in page.words) == (items == 0)
