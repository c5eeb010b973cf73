"""Tests the page Result: its rows are those of decisions.csv, whatever they are called, and its files those of the plan."""
from __future__ import annotations

import io
import operator
from collections.abc import Iterator
from dataclasses import replace
from pathlib import Path
from random import Random
from typing import Any, cast

import openpyxl
import pandas as pd
import pytest

from crnplan.desk.kept import PLANS, Begun
from crnplan.desk.results import ROWS
from crnplan.desk.safety import WHOLE_PAGE
from crnplan.desk.work import PLANNING
from crnplan.read.catalogue_reading import CATALOGUE
from crnplan.show.catalogue_page import ITEM_COLUMNS
from crnplan.store.files import own_folder
from planner.tests.desk.conftest import MADE_PLAN, Planner, add_made_plan, opened
from planner.tests.show.made_catalogue import made_pair
from planner.tests.show.page_reader import Page, rows_of
from planner.tests.show.test_catalogue_page import HOSTILE

SUPPLIER = "<b>Müller & Söhne</b>"
ITEMS = 130
TEXTS = "item", "description", "class", "verdict", "by", "warnings", "abc", "override"


@pytest.fixture(scope="module")
def buyer(tmp_path_factory: pytest.TempPathFactory) -> Iterator[Planner]:
    """Returns who asks a desk with a plan, of whose items some have hostile names and one has a supplier."""
    item, answer = made_pair(Random(1), "bought")
    change = replace(item, supplier=SUPPLIER), answer
    with opened(tmp_path_factory.mktemp("result") / "desk") as front:
        add_made_plan(front, ITEMS, names=HOSTILE, change=change)
        yield Planner(front)


@pytest.fixture(scope="module")
def decisions(buyer: Planner) -> pd.DataFrame:
    """Returns the decisions with their details, by the headings of the page."""
    files = (folder_of(buyer) / name for name in ("decisions.csv", "details.csv"))
    frame = pd.DataFrame(map(operator.or_, *map(rows_of, files)))
    headings = {column.name: column.title for column in ITEM_COLUMNS}
    return frame.rename(columns=headings)


def folder_of(planner: Planner) -> Path:
    return planner.desk.path / PLANS / MADE_PLAN


def page_of(planner: Planner, room: Path, **query: Any) -> Page:
    """Returns a page of the table."""
    answer = planner.get("/result", **query)
    assert answer.status_code == 200, answer.text
    place = room / "page.html"
    place.write_text(answer.text, "utf-8")
    return Page(place)


def listed(planner: Planner, room: Path, **query: Any) -> pd.DataFrame:
    """Returns the rows of all pages of the table, with the headings of decisions.csv."""
    rows = list[list[str]]()
    heading, *more = page_of(planner, room, **query).tables["All items"]
    while more:
        rows += more
        if len(more) < ROWS:
            break
        page = len(rows) // ROWS + 1
        answer = planner.get("/result", **query, page=page)
        if answer.status_code == 400:
            break
        _, *more = page_of(planner, room, **query, page=page).tables["All items"]
    names = [name.partition(",")[0] for name in heading]  # without their units
    return pd.DataFrame(rows, columns=names)


SORTS = [
    ("item", ""),
    ("saving", "1"),
    ("fill_today", ""),
    ("class", "1"),
    ("s_today", ""),
]
QUERIES: list[tuple[dict[str, str], str]] = [
    ({}, "index >= 0"),
    ({"class": "X"}, "`class` == 'X'"),
    ({"verdict": "undecided"}, "verdict == 'undecided'"),
    ({"code": "few demands"}, "codes == 'few demands'"),
    ({"words": "PUMP"}, "description.str.contains('pump')"),
    ({"words": "<SCRIPT"}, "item.str.contains('<script')"),
    ({"words": "no such item"}, "index < 0"),
    ({"supplier": SUPPLIER}, "item == 'bought'"),
    ({"class": "X", "verdict": "cheaper"}, "`class` == 'X' and verdict == 'cheaper'"),
]


@pytest.mark.parametrize("sort, falls", SORTS)
def test_rows_are_those_of_decisions(
    buyer: Planner, decisions: pd.DataFrame, tmp_path: Path, sort: str, falls: str
) -> None:
    """Each query has the rows and the order that pandas gives, each cell as decisions.csv spells it."""
    heading = next(column.title for column in ITEM_COLUMNS if column.name == sort)
    for query, kept in QUERIES:
        found = listed(buyer, tmp_path, **query, sort=sort, falls=falls)
        want = decisions.query(kept, engine="python")
        keys = want[heading]
        if heading not in TEXTS:
            keys = pd.to_numeric(keys)
        order = keys.where(keys != "").sort_values(
            ascending=not falls, kind="stable", na_position="last"
        )
        assert found[heading].to_list() == want.loc[order.index, heading].to_list()
        own, its = (frame.set_index("item").sort_index() for frame in (found, want))
        pd.testing.assert_frame_equal(own, its[own.columns], check_dtype=False)


def test_hostile_names_add_no_element(buyer: Planner, tmp_path: Path) -> None:
    page = page_of(buyer, tmp_path, words="script")
    assert len(page.tables["All items"]) == 2
    assert page.elements["script"] == 1  # that of the desk


def test_first_screen_is_that_of_the_page(buyer: Planner, tmp_path: Path) -> None:
    whole = Page(folder_of(buyer) / "report.html")
    page = page_of(buyer, tmp_path)
    assert page.parts["h1"] == whole.parts["h1"]
    assert page.tables["By class"] == whole.tables["By class"]


def test_headings_sort(buyer: Planner, tmp_path: Path) -> None:
    """A click on the heading sorts by it, numbers from the greatest on, and a second click the other way. A text has its
    column though no item has one."""
    links = page_of(buyer, tmp_path).links
    assert "sort=override" in links["override"]
    saving = links["saving, money a week"]
    assert "sort=saving" in saving and "falls" not in saving
    assert "sort=cost_today&falls=1" in links["cost today, money a week"]
    assert "sort=verdict" in links["verdict"] and "falls" not in links["verdict"]
    again = page_of(buyer, tmp_path, sort="verdict").links
    assert "sort=verdict&falls=1" in again["verdict"]


def test_links_keep_what_was_asked(buyer: Planner, tmp_path: Path) -> None:
    links = page_of(buyer, tmp_path, verdict="cheaper").links
    assert "verdict=cheaper" in links["Next page"] and "page=2" in links["Next page"]
    saving = links["saving, money a week"]
    assert "verdict=cheaper" in saving and "page" not in saving
    last = page_of(buyer, tmp_path, page=3).links
    assert "page=2" in last["Previous page"] and "Next page" not in last


@pytest.mark.parametrize(
    "query",
    [
        {"plan": "2020-01-01"},
        {"plan": "../../etc"},
        {"sort": "nothing"},
        {"class": "no class"},
        {"verdict": "<b>"},
        {"code": "x"},
        {"supplier": "nobody"},
        {"page": "0"},
        {"page": "-1"},
        {"page": "4"},
        {"page": "9" * 5000},
        {"page": "one"},
    ],
)
def test_unknown_names_are_refused(buyer: Planner, query: dict[str, str]) -> None:
    assert buyer.get("/result", **query).status_code == 400


def test_page_of_the_plan(buyer: Planner) -> None:
    """It is served as it is, and knows nothing of the desk."""
    answer = buyer.get("/result/report.html", plan=MADE_PLAN)
    assert answer.data == (folder_of(buyer) / "report.html").read_bytes()
    assert answer.headers["Content-Security-Policy"] == WHOLE_PAGE


@pytest.mark.parametrize("name", ["decisions.csv", "rejects.csv"])
def test_tables_are_downloaded(buyer: Planner, name: str) -> None:
    answer = buyer.get(f"/result/{name}")
    assert answer.data == (folder_of(buyer) / name).read_bytes()
    assert answer.headers["Content-Disposition"] == f"attachment; filename={name}"


def test_workbook_is_downloaded(buyer: Planner) -> None:
    answer = buyer.get("/result/plan.xlsx")
    assert answer.headers["Content-Disposition"] == "attachment; filename=plan.xlsx"
    book = openpyxl.load_workbook(io.BytesIO(answer.data), read_only=True)
    names = [row[0] for row in book["Decisions"].iter_rows(values_only=True)]
    assert "bought" in names


@pytest.mark.parametrize("name", ["summary.txt", "kept", "..%2f..%2fcrnplan.toml"])
def test_no_other_file_is_served(buyer: Planner, name: str) -> None:
    assert buyer.get(f"/result/{name}").status_code == 404


def test_other_plans_are_offered(planner: Planner) -> None:
    path = add_made_plan(planner.front, 12)
    assert 'name="plan"><option' not in planner.get("/result").text
    path.rename(path.with_name("older"))
    with planner.desk.changing() as state:
        state.plans = ["older"]
    add_made_plan(planner.front, 24)
    assert "24 items" in planner.get("/result").text
    answer = planner.get("/result", plan="older")
    assert "12 items" in answer.text and "<option>2026-11-27</option>" in answer.text


def test_plan_in_which_a_run_works(planner: Planner) -> None:
    """It is refused plainly: by the work of this desk before that holds it, and by a run elsewhere."""
    path = add_made_plan(planner.front, 12)
    with own_folder(path, CATALOGUE):
        answer = planner.get("/result")
    assert answer.status_code == 400 and "another run of crnplan works" in answer.text
    with planner.desk.changing() as state:
        state.begun = Begun(PLANNING, f"{PLANS}/{MADE_PLAN}")
    work = {"kind": PLANNING, "progress": {}, "close": lambda: None}
    planner.front.work = cast(Any, type("Work", (), work))
    answer = planner.get("/result")
    planner.front.work = None
    assert answer.status_code == 400 and "is made again now" in answer.text
    assert planner.get("/result").status_code == 200


def test_desk_without_a_plan(planner: Planner) -> None:
    answer = planner.get("/result")
    assert answer.status_code == 200 and 'href="/plan"' in answer.text
    assert planner.get("/result/decisions.csv").status_code == 400
