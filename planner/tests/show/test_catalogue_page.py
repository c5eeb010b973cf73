"""Tests the page of a catalogue: it says what the tables say, whatever stands in them, and asks for no other file."""
from __future__ import annotations

import math
import random
import re
import shutil
import sqlite3
from collections import Counter
from dataclasses import replace
from decimal import Decimal
from fractions import Fraction
from pathlib import Path
from urllib.parse import unquote

import pytest
from hypothesis import HealthCheck, given, settings, strategies as st

import crnplan as crn
from crnplan.store.files import own_folder
from crnplan.show import catalogue_page
from crnplan.show.catalogue_page import ITEM_COLUMNS, file_of
from crnplan.show.catalogue_tables import reasons_of
from crnplan.drawing.rendering import LARGE
from crnplan.show.verdicts import VERDICTS
from crnplan.plan.answer import (
    BOUNDED,
    CHEAPER,
    DEARER,
    SAME,
    SERVICE,
    UNCOMPARED,
    UNDECIDED,
    Answer,
)
from crnplan.plan.catalogue import planned_folder
from crnplan.plan.totals import Totals
from crnplan.read.catalogue_reading import ADD_ITEM, CATALOGUE, READ, Writer
from crnplan.read.item import NEW, NO_DEMAND, PHASE_OUT, STOPPED
from crnplan.read.items import Reject
from crnplan.read.overrides import DO_NOT_ORDER
from crnplan.read.parts import ITEM
from crnplan.remarks import Remark
from planner.tests.catalogue.conftest import FILES, SETTINGS, leave_few
from planner.tests.catalogue.made import TODAY, made
from planner.tests.conftest import Command, shared
from planner.tests.show.made_catalogue import QUANTILE, made_folder, made_pair, page_of
from planner.tests.show.page_reader import Page, rows_of

YEAR = 365.25 / 7  # weeks
ALL_VERDICTS = (BOUNDED, CHEAPER, DEARER, DO_NOT_ORDER, NEW, NO_DEMAND, PHASE_OUT)
ALL_VERDICTS += (SAME, SERVICE, STOPPED, UNCOMPARED, UNDECIDED)
HOSTILE = (
    "<img src=x onerror=alert(1)>",
    "<script>alert(1)</script>",
    "=1+1",
    "\"quoted\" & 'single'",
    "  leading",
    "قطعة ٣",
    "x" * 300,
    "&lt;",
    "{{ 7 * 7 }}",
    "A/B\\C",
    "..",
    "%41",
)
NAMES = st.text(
    st.characters(blacklist_categories=("Cc", "Cs")), min_size=1, max_size=20
)


@pytest.fixture(scope="module")
def hostile(tmp_path_factory: pytest.TempPathFactory) -> Path:
    """Returns a folder with some names that are markup, formulas and foreign letters, which nobody changes."""
    return made_folder(tmp_path_factory.mktemp("hostile") / "plan", 60, HOSTILE)


@pytest.fixture(scope="module")
def large(tmp_path_factory: pytest.TempPathFactory) -> Path:
    """Returns a folder with hundreds of items and its page, which nobody changes."""
    return shared(
        tmp_path_factory, "large", lambda folder: crn.report(made_folder(folder, 600))
    )


@pytest.fixture(scope="module")
def large_page(large: Path) -> Page:
    return Page(large / "report.html")


def summary_of(folder: Path) -> str:
    return (folder / "summary.txt").read_text("utf-8")


@pytest.fixture
def folder(hostile: Path, tmp_path: Path) -> Path:
    return Path(shutil.copytree(hostile, tmp_path / "plan"))


@pytest.mark.parametrize("name", ["hostile", "large"])
def test_cells_are_those_of_the_table(
    name: str, request: pytest.FixtureRequest
) -> None:
    """The page has each item once, each cell as decisions.csv spells it, by falling saving."""
    folder = request.getfixturevalue(name)
    page, rows = Page(folder / "report.html"), rows_of(folder / "decisions.csv")
    assert page.columns == [
        column.name for column in ITEM_COLUMNS if not column.is_optional
    ]
    assert page.items == {
        row["item"]: {it: row[it] for it in page.columns} for row in rows
    }
    savings = [Decimal(row["saving"]) for row in page.items.values()]
    assert savings == sorted(savings, reverse=True)


@pytest.fixture(scope="module")
def plain(tmp_path_factory: pytest.TempPathFactory) -> Counter[str]:
    """Returns the elements of the page of twelve items whose names are plain."""
    return Page(
        crn.report(
            made_folder(tmp_path_factory.mktemp("plain") / "plan", 12, has_curve=False)
        )
    ).elements


@settings(
    max_examples=3,
    deadline=None,
    suppress_health_check=[HealthCheck.function_scoped_fixture],
)
@given(names=st.lists(NAMES, min_size=12, max_size=12, unique=True))
def test_names_stand_as_they_are(
    plain: Counter[str], tmp_path: Path, names: list[str]
) -> None:
    """Whatever an item is called, the page shows just that, and has no element of it."""
    page = page_of(tmp_path / "plan", 12, names=names)
    assert sorted(page.items) == sorted(names)
    assert page.elements == plain


def test_totals(large: Path, large_page: Page) -> None:
    """Page and summary have the sums of unrounded answers, with the interval of independent errors."""
    with planned_folder(large) as plan:
        answers = [it for _, it in plan.answers() if isinstance(it, Answer)]
    page, summary = large_page, summary_of(large)
    saving = math.fsum(it.saving for it in answers)
    run = math.fsum(it.run.saving for it in answers)
    today = math.fsum(it.cost_today for it in answers)
    chosen = math.fsum(it.cost_chosen for it in answers)
    half = 1.959964 * math.sqrt(math.fsum((it.run.error or 0) ** 2 for it in answers))
    errors = [
        (float(row["run_high"]) - float(row["run_low"])) / 2 / QUANTILE
        for row in rows_of(large / "details.csv")
        if row["run_low"]
    ]
    assert half == pytest.approx(
        1.959964 * math.sqrt(sum(it**2 for it in errors)), rel=0.001
    )
    assert min(saving, run, today, chosen) > LARGE
    ends = f"{run - half:,.0f} to {run + half:,.0f}"
    for said in (
        f"The difference is {saving:,.0f}, if the coming year is like the last one, by the laws",
        f"By these the difference is {run:,.0f}, from {ends} (95% interval",
        f"cost {today:,.0f} a week with these, and {chosen:,.0f} with the chosen ones",
    ):
        assert said in page.words
    for said in (
        f"{today:,.2f} today, {chosen:,.2f} chosen",
        f"saved: {saving:,.2f} a week; by crnsim's runs ",
        f"{run:,.2f}, 0.95 interval {run - half:,.2f} to {run + half:,.2f}",
    ):
        assert said in summary


def test_sums_of_verdicts(large: Path, large_page: Page) -> None:
    """Page and summary name what has no interval, and what more service costs; and say where to look first."""
    with planned_folder(large) as plan:
        answers = [it for _, it in plan.answers() if isinstance(it, Answer)]
    page, summary = large_page, summary_of(large)
    without = sum(it.run.error is None for it in answers)
    assert without
    assert f"\n{without} items have no interval, since" in summary
    more = [it.saving for it in answers if it.verdict == SERVICE]
    cost = -YEAR * math.fsum(more)
    assert f"of {len(more)} items; keeping it costs {cost:,.0f} a year." in page.words
    assert more and "Look at the greatest savings first: wrong masters" in page.words
    verdicts = {
        row[0]: int(row[1].replace(",", "")) for row in page.tables["Verdicts"][1:]
    }
    assert verdicts == Counter(it.verdict for it in answers)


def test_left_out(large: Path, large_page: Page) -> None:
    """Each kind has the rows of rejects.csv, the first of each reason with its place."""
    page, rejects = large_page, rows_of(large / "rejects.csv")
    titles = {
        "Items left out": "item",
        "Rows that could not be read": "row",
        "Suspicious rows, which count all the same": "suspicious",
    }
    for title, kind in titles.items():
        own = [row for row in rejects if row["kind"] == kind]
        rows = sum(int(row["rows"]) if kind == "item" else 1 for row in own)
        shown = [int(row[3].replace(",", "")) for row in page.tables[title][1:]]
        assert sum(shown) == rows > 0
        if kind == "item":
            assert f"Items left out: {len(own)}, with {rows:,} rows" in page.words
        if kind == "row":
            said = "{file}:{line}, item {item}: {reason}; {advice}"
            assert said.format(**own[0]) in page.words


def test_reasons_verdicts_and_service() -> None:
    """Reasons are those of a column and a code, by their number. Service is weighted by value."""
    rejects = list[Reject]()
    for place in ("A day steps", "B amount steps", "B day own laws", "A day steps"):
        item, column, code = place.split(" ", 2)
        line = len(rejects) + 2
        remark = Remark(code, {"items": line, "reason": ""})
        rejects.append(Reject("row", "d.csv", line, item, column, "", remark, 1))
    assert [
        (it.pattern, it.column, it.count, it.first.line, it.items)
        for it in reasons_of(rejects)
    ] == [
        ("theory counts in steps of \u2026 items", "day", 2, 2, {"A"}),
        ("theory counts in steps of \u2026 items", "amount", 1, 3, {"B"}),
        ("each item has the law of its own history", "day", 1, 4, {"B"}),
    ]
    assert {*VERDICTS} == {*ALL_VERDICTS}
    totals = Totals()
    for price, demand, fill in ((30, 3, 1.0), (2, 5, 0.5)):
        item, answer = made_pair(random.Random(1), "it")
        answer = replace(
            answer,
            law=replace(answer.law, mean=demand),
            today=replace(answer.today, fill=fill),
            chosen=replace(answer.chosen, fill=1.0),
        )
        totals.add(replace(item, price=Fraction(price)), answer)
    assert totals.fill("today") == pytest.approx(0.95)
    assert totals.fill("chosen") == pytest.approx(1)
    assert Totals().fill("today") is None


def test_page_is_small_and_stands_alone(
    large: Path, large_page: Page, hostile: Path, tmp_path: Path
) -> None:
    """The page of 600 items has under 0.4 MB, runs its own script alone, and has the same bytes again."""
    assert (large / "report.html").stat().st_size < 400_000
    for page in (large_page, Page(crn.report(hostile))):
        page.check_alone()
        assert {"style", "script"} <= page.parts.keys()
    other = Path(shutil.copytree(hostile, tmp_path / "elsewhere"))
    first = crn.report(hostile).read_bytes()
    assert first == crn.report(hostile).read_bytes() == crn.report(other).read_bytes()
    assert not [it.name for it in other.iterdir() if it.name.endswith(".part")]


def test_greatest_are_shown_of_very_many(
    hostile: Path, folder: Path, monkeypatch: pytest.MonkeyPatch
) -> None:
    """If there are too many items, those with the greatest saving or loss are shown, and it is said where all are."""
    monkeypatch.setattr(catalogue_page, "MOST_ROWS", 10)
    monkeypatch.setattr(catalogue_page, "MOST_REASONS", 1)
    page, rows = Page(crn.report(folder)), rows_of(folder / "decisions.csv")
    assert len(page.tables["Rows that could not be read"]) == 2
    assert "2 more reasons, 4 times." in page.words
    assert set(page.items) == {
        row["item"]
        for row in sorted(rows, key=lambda row: -abs(float(row["saving"])))[:10]
    }
    assert (
        "The 10 items with the greatest saving or loss are shown. The other 50 stand in decisions.csv"
        in page.words
    )
    assert Page(hostile / "report.html").words.split(".")[0] in page.words


def test_links_and_command(folder: Path, tmp_path: Path, crnplan: Command) -> None:
    """An item with a page is a link. The command prints the page, and refuses a folder without a plan."""
    linked = {HOSTILE[0], HOSTILE[3], HOSTILE[5], HOSTILE[6], HOSTILE[9], HOSTILE[11]}
    for name in linked:
        path = file_of(folder, name)
        path.parent.mkdir(exist_ok=True)
        path.write_text(name)
    page = Page(crn.report(folder))
    assert set(page.links) == linked
    assert all(
        (folder / unquote(address)).read_text() == name
        for name, address in page.links.items()
    )
    assert crnplan("report", folder) == (0, f"{folder / 'report.html'}\n", "")
    assert len(Page(folder / "report.html").items) == 60
    empty = tmp_path / "empty"
    empty.mkdir()
    message = (
        f"no plan is in it; run crnplan plan DEMAND.csv ITEMS.csv --out {empty} first"
    )
    assert crnplan("report", empty) == (
        2,
        "",
        f"crnplan: {empty}: {message}\n",
    )
    assert not [*empty.iterdir()]


def test_lost_items_and_other_rows(folder: Path) -> None:
    """Lost items are said at the top. If rows have changed since, the answers are those of an earlier plan."""
    base = sqlite3.connect(folder / READ)
    with base:
        base.execute(
            "UPDATE facts SET value = replace(value, '\"named\": 65', '\"named\": 66')"
        )
    base.close()
    assert (
        "THE COUNTS DO NOT ADD UP. items: 66 are named"
        in Page(crn.report(folder)).words
    )
    with own_folder(folder, CATALOGUE) as own:
        writer = Writer(own)
        writer.add_rows(
            ADD_ITEM,
            [
                ITEM.cells(
                    replace(made_pair(random.Random(1), "P00020")[0], counts=(1,))
                )
            ],
        )
        writer.finish(
            {"counts": {}, "every": "week", "decimals": 2, "currency": "", "keys": ""}
        )
    with pytest.raises(
        crn.Refused,
        match="its plan is not as the rows that were read last; run crnplan plan",
    ):
        crn.report(folder)


def test_page_of_a_plan(tmp_path: Path, program: Path, crnplan: Command) -> None:
    """A plan writes its page at its end. The totals are those of summary.txt. Pages of items are written if asked."""
    made().write(tmp_path)
    leave_few(tmp_path, 6)
    crn.plan(
        crn.read_catalogue(*(tmp_path / it for it in FILES), today=TODAY),
        out=tmp_path / "plan",
        jobs=1,
        program=program,
        **SETTINGS,
    )
    plan = tmp_path / "plan"
    page, summary = Page(plan / "report.html"), summary_of(plan)
    saving, run, low, high = re.search(
        r"saved: (\S+) a week; .* (\S+), \S+ interval (\S+) to (\S+)", summary
    ).groups()
    assert f"The difference is {saving}, if" in page.words.replace("\u2212", "-")
    assert f"the difference is {run}, from {low} to {high} (" in page.words.replace(
        "\u2212", "-"
    )
    assert len(page.items) == 6
    assert not (tmp_path / "plan/curve.csv").exists()
    assert ", seed crnplan" in page.words
    name = next(iter(page.items))
    status, output, errors = crnplan(
        "report", plan, "--item", name, "--program", program
    )
    assert (status, errors) == (0, "")
    assert output.split() == [str(file_of(plan, name)), str(plan / "report.html")]
    assert {
        unquote(address) for address in Page(plan / "report.html").links.values()
    } == {f"items/{name}.html"}
    assert name in Page(file_of(plan, name)).words
    status, output, errors = crnplan(
        "report", plan, "--item", "A-999", "--program", program
    )
    assert (status, output) == (2, "")
    assert "A-999" in errors


def test_stores_of_earlier_versions(tmp_path: Path) -> None:
    """A folder with a store that crnplan no longer makes has its page, and loses the store when it is planned again. A
    file of the user stays."""
    folder = made_folder(tmp_path / "plan", 3)
    with own_folder(folder, CATALOGUE) as own:
        old = own.store("kept/swings.sqlite")
        old.write_bytes(b"old")
    (folder / "kept/swings.txt").write_text("mine", "utf-8")
    assert crn.report(folder).is_file() and old.is_file()
    made_folder(folder, 3)
    assert not old.exists() and crn.report(folder).is_file()
    assert (folder / "kept/swings.txt").read_text("utf-8") == "mine"
