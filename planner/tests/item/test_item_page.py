"""Tests the page of an item alone: it stands alone, and has the item's figures and laws."""
from __future__ import annotations

import csv
import re
from collections import Counter
from collections.abc import Callable, Mapping
from decimal import Decimal
from pathlib import Path
from typing import Any

import numpy as np
import pytest

import crnplan as crn
from crnplan.demand.fitted import Diagnostics, FittedLaw
from crnplan.show.item_page import LAW_COLUMNS, laws_of
from crnplan.show.law_names import law_name
from crnplan.plan.how import Settings
from crnplan.plan.question import question_of
from crnplan.table import DataTable
from planner.tests.conftest import cases_beside
from planner.tests.item.conftest import Alone, page_of
from planner.tests.show.page_reader import Page
from planner.tests.plan.items import item_of

CASES = cases_beside(__file__)
Row = Mapping[str, str]


def rows_of(table: DataTable) -> dict[str, Row]:
    """Returns the rows of a table, as a file has them, by their first cell."""
    rows = csv.DictReader(table.csv.splitlines())
    return {next(iter(row.values())): row for row in rows}


def money(text: str, digits: int = 2) -> str:
    return (
        "-"
        if text == "-"
        else f"{round(Decimal(text), digits) + 0:,.{digits}f}".replace("-", "\u2212")
    )


def share(text: str) -> str:
    return f"{float(text):.1%}"


def policy(row: Row) -> list[str]:
    ends = [money(row[f"run_cost_{end}"]) for end in ("low", "high")]
    return [
        row["policy"],
        row["s"],
        row["S"],
        money(row["theory_cost"]),
        share(row["fill"]),
        share(row["short"]),
        f"{float(row['stock']):.1f}",
        f"{float(row['orders']):.3f}",
        money(row["run_cost"]),
        "-" if "-" in ends else " to ".join(ends),
    ]


def doubted(row: Row) -> list[str]:
    return [
        row["policy"],
        money(row["cost"]),
        f"{float(row['within']):.0%}",
        share(row["fill"]),
        share(row["fill_10"]),
    ]


def policies_of(item: crn.PlannedItem) -> DataTable:
    return item.table


def doubt_of(item: crn.PlannedItem) -> DataTable:
    return item.doubt().table


Tabled = tuple[Callable[[crn.PlannedItem], DataTable], Callable[[Row], list[str]]]
TABLES: dict[str, Tabled] = {
    "All policies in the long run": (policies_of, policy),
    "Each policy under the laws that the history allows": (doubt_of, doubted),
}


@pytest.fixture(scope="module")
def page(whole: crn.PlannedItem, tmp_path_factory: pytest.TempPathFactory) -> Page:
    return page_of(whole, tmp_path_factory.mktemp("page"))


@pytest.mark.parametrize("caption", TABLES)
def test_tables_are_those_of_the_item(
    caption: str, whole: crn.PlannedItem, page: Page
) -> None:
    """Each table has the rows of the item's, in that order, with its figures as a reader has them."""
    table_of, cells = TABLES[caption]
    rows = [cells(row) for row in rows_of(table_of(whole)).values()]
    most = 10 if table_of is doubt_of else None
    assert page.tables[caption][1:] == rows[:most]
    assert len(rows) > 8


def test_doubt_says_how_many_laws_were_drawn(page: Page) -> None:
    """By default a hundred, of which nine in ten decide."""
    (said,) = [it for it in page.texts if "laws were drawn" in it]
    assert said.startswith("100 laws were drawn. ")


def test_intervals_are_those_of_the_item(whole: crn.PlannedItem, page: Page) -> None:
    """Each difference stands in a table, and is the label of its picture with both ends."""
    title = "Cost compared with today's policy, in the long run"
    rows = rows_of(whole.table)
    assert "difference from today" in page.tables[title][0]
    shown = {cells[0].split("(")[0]: cells[-1] for cells in page.tables[title][1:-1]}
    wanted = {}
    for name, row in rows.items():
        difference, verdict = money(row["difference"]), row["verdict"]
        wanted[name] = f"{difference}{verdict}"
        low, high = money(row["run_low"]), money(row["run_high"])
        between = "" if low == "-" else f", from {low} to {high}"
        assert f"{name}: {difference}{between}, {verdict}" in page.pictures
    assert shown == wanted


def test_pictures_say_their_figures(
    whole: crn.PlannedItem, page: Page, counts: list[int]
) -> None:
    """The picture of the history and its legend say what the law of the demand is, and the page what the demand was."""
    text = page.pictures["Demand by week, and the law that it is planned by"]
    mean = f"{float(whole.scenario.demand.mean):.2f} a week"
    assert f"mean of the law: {mean}; 99 of 100 weeks by the law: at most " in text
    assert f"mean of the law: {mean}</span>" in page.source
    assert f"{len(counts)} weeks, {sum(counts):,} items" in page.words
    (bars,) = re.findall('class="bar" d="([^"]+)"', page.source)
    assert bars.count("M") == len(counts) - counts.count(0)


def test_picture_of_the_law(
    whole: crn.PlannedItem, page: Page, counts: list[int]
) -> None:
    """It says which share of the weeks, and of the law, have at least so much demand."""
    title = "In how many weeks demand is so large, as it was seen and by the law"
    seen, by_law = page.pictures[title].rstrip(".").split("; ")
    law = whole.scenario.demand
    for numbers, said in (
        (Counter(counts), seen),
        (Counter(dict(zip(law.values, law.weights))), by_law),
    ):
        shares = re.findall(r"at least (\d+) in ([0-9.]+)%", said)
        assert len(shares) > 1
        for least, share in shares:
            above = sum(its for value, its in numbers.items() if value >= int(least))
            wanted = 100 * above / numbers.total()
            assert float(share) == pytest.approx(wanted, abs=0.006)


def test_picture_of_the_law_whatever_the_order(
    alone: Alone, whole: crn.PlannedItem, counts: list[int]
) -> None:
    """The picture of the law is that of a history in another order, though its weeks are others."""
    pictures = [
        re.findall(r"<figure.*?</figure>", its.page, re.DOTALL)[:2]
        for its in (whole, alone(counts[::-1]))
    ]
    assert pictures[0][1] == pictures[1][1]
    assert "as it was seen" in pictures[0][1]
    assert pictures[0][0] != pictures[1][0]


def test_page_stands_alone(whole: crn.PlannedItem, page: Page) -> None:
    """The page links to nothing, allows its own style alone, and has the summary's words and all policies."""
    page.check_alone()
    assert set(page.addresses) == {"data:,"}
    assert not page.parts["script"]
    assert all(page.pictures.values())
    assert [caption.strip() for caption in page.parts["caption"]] == [*page.tables]
    told = re.search(
        r"^(Below .*?) (part: .*? weeks[.]) policy s S .* (In the long run .*?[.]) The chosen policy is ",
        " ".join(whole.text.split()),
    )
    assert told
    for part in told.groups():
        assert part in page.words
    scenario = whole.scenario
    assert {*rows_of(whole.table)} == {it.name for it in scenario.policies}
    for it in scenario.policies:
        assert page.words.count(f" {it.name} ") >= 2
    key = " ".join(scenario.key)
    assert f"Key {key}; scenario of version {scenario.version}. " in page.words


def test_page_escapes_texts(alone: Alone, tmp_path: Path) -> None:
    """The name of an item is no markup."""
    page = page_of(alone(name="a<b>&"), tmp_path)
    assert "a<b>&" in page.words
    assert not page.open
    assert "b" not in page.parts["h1"]


RANDOM = np.random.default_rng(2)
ERRATIC = RANDOM.negative_binomial(1.5, 1 / 3, 104).tolist()
TWO_SIZES = [7, 13, 7, 7, 13, 13, 7, 13] * 13  # no family has such a law


@pytest.mark.parametrize("family, method, facts, words", CASES["laws"], ids=str)
def test_words(family: str, method: str, facts: dict[str, Any], words: str) -> None:
    """A law is named by how it was fitted, or by the history."""
    law = crn.Law((0, 1), (1, 1))
    fitted = FittedLaw.made(law, family, Diagnostics(law, method, **facts))
    assert law_name(fitted) == words


@pytest.mark.parametrize("numbers", [ERRATIC, TWO_SIZES], ids=["erratic", "two sizes"])
@pytest.mark.parametrize("method", ["auto", "predictive", "empirical"])
def test_figures(numbers: list[int], method: str) -> None:
    """Each row has the figures that numpy has for the history, or for the law. The last one of a law names it."""
    leads = [2, 3, 2, 4] * 5  # so many that they are taken as they are
    item = item_of(counts=tuple(numbers), leads=tuple(leads))
    rows = [*laws_of(question_of(item, Settings(fit=method)), None).rows]
    names = "table law mean variance 95.0% 99.0% 99.9% largest"
    assert [it.name for it in LAW_COLUMNS] == names.split()
    its = crn.fit_demand(numbers, method=method)
    names, samples = ["this history"], [numbers]
    if its.family != "empirical":
        names, samples = ["what was seen", law_name(its)], [
            numbers,
            np.repeat(its.values, its.weights),
        ]
    elif method != "empirical":
        names = [f"this history ({method}: no family gives it back)"]
    assert [row[:2] for row in rows] == [
        *(["demand", name] for name in names),
        ["lead", "this history"],
    ]
    for row, sample in zip(rows, [*samples, leads]):
        variance = np.var(sample, ddof=int(len(sample) < 65_536))
        quantiles = [
            int(np.quantile(sample, it, method="inverted_cdf"))
            for it in (0.95, 0.99, 0.999)
        ]
        assert row[2:4] == pytest.approx([np.mean(sample), variance], abs=6e-5)
        assert row[4:] == [*quantiles, max(sample)]


def test_unknown_weeks_are_gaps(
    alone: Alone, counts: list[int], tmp_path: Path
) -> None:
    """A week whose demand is not known is drawn as a gap, and counts for nothing in what is said."""
    known = counts[:2] + counts[3:]
    page = page_of(alone([*counts[:2], None, *counts[3:]]), tmp_path)
    said = f"{len(known):,} weeks, {sum(known):,} items, {known.count(0):,} weeks"
    assert f"{said} without demand, and 1 weeks not known." in page.source
    assert page.source.count('class="gap"') == 1
    assert "and 1 weeks not known" in page.words
