"""Tests the pages of items and of the past: what if, what a planner sets, and plans as they would have been, for small exports."""
from __future__ import annotations

import datetime
import io
from collections.abc import Iterator
from pathlib import Path
from typing import Any

import pytest

import crnplan as crn
from crnplan.desk.kept import LAST_TEST, OVERRIDES, Begun, DeskOverride
from crnplan.desk.safety import WHOLE_PAGE
from crnplan.desk.work import STOPPED, TESTING
from crnplan.read.overrides import SET_LEVELS, Override as Stated
from crnplan.read.overriding import read_overrides
from crnplan.read.items import Reading
from crnplan.read.configuration import made_from
from planner.tests.conftest import shared
from planner.tests.desk.conftest import (
    MADE_PLAN,
    Planner,
    add_made_plan,
    opened,
    wait_for,
)
from planner.tests.desk.test_desk_result import page_of
from planner.tests.show.page_reader import Page
from planner.tests.show.test_catalogue_page import HOSTILE

MONDAY = datetime.date(2024, 1, 1)
WEEKS = 70
TODAY = MONDAY + datetime.timedelta(weeks=WEEKS)
# A and B are usual, R is reviewed each second week, so that it has no run, and nobody has asked for D.
MASTERS = """item,setup,holding,backlog,fill,lead (weeks),s,S,price,stock,review (weeks),supplier
A,20,0.2,3,,2,1,9,5,4,1,x
B,20,0.2,,95%,2,1,9,5,1,1,x
R,20,0.2,3,,2,1,9,5,4,2,y
D,20,0.2,3,,2,1,9,5,4,1,y
"""
QUICK_PAST = {"fit": "empirical", "borrow": "none"}
QUICK = {"periods": 64, "replications": 4, "fit": "empirical", "borrow": "none"}


def drop(planner: Planner, kind: str, text: str) -> None:
    """Puts a file of a kind into a desk."""
    file = planner.desk.add_file(f"{kind}.csv", io.BytesIO(text.encode()))
    planner.desk.set_file(file.name, kind, "")


def plan(planner: Planner, **fields: str) -> None:
    """Plans on the page Plan, and waits for the end."""
    assert planner.post("/plan/begin", fields).status_code == 303
    assert planner.wait() == []


def planned(folder: Path, program: Path) -> None:
    """Makes a desk with a plan of four items."""
    rows = ["item,date,quantity"]
    for place, name in enumerate("ABR", 1):
        for week in range(0, WEEKS, place):
            day = MONDAY + datetime.timedelta(weeks=week)
            rows.append(f"{name},{day},{1 + week * place % 4}")
    with opened(folder / "desk", program) as front:
        planner = Planner(front)
        drop(planner, "demand", "\n".join([*rows, ""]))
        drop(planner, "items", MASTERS)
        planner.desk.keep_words(QUICK)
        plan(planner)


@pytest.fixture(scope="module")
def buyer(tmp_path_factory: pytest.TempPathFactory, program: Path) -> Iterator[Planner]:
    """Returns who asks such a desk."""
    made = shared(tmp_path_factory, "buyer", lambda folder: planned(folder, program))
    with opened(made / "desk", program) as front:
        yield Planner(front)


@pytest.fixture
def set_none(buyer: Planner) -> Iterator[None]:
    """Forgets at the end what the planner has set."""
    yield
    with buyer.desk.changing() as state:
        state.overrides = {}


def last_plan(planner: Planner) -> crn.Plan:
    return planner.front.plan()


def item_page_of(planner: Planner, room: Path, **query: Any) -> Page:
    """Returns the page of an item."""
    answer = planner.get("/item", **query)
    assert answer.status_code == 200, answer.text
    place = room / "item.html"
    place.write_text(answer.text, "utf-8")
    return Page(place)


def asked(planner: Planner, room: Path, **query: Any) -> dict[str, list[str]]:
    """Returns the rows of the table of what if, by their names."""
    _, *rows = item_page_of(planner, room, **query).tables["What if?"]
    return {name: cells for name, *cells in rows}


def test_item_has_what_its_page_has(buyer: Planner, tmp_path: Path) -> None:
    item = last_plan(buyer).item("A")
    whole = tmp_path / "whole.html"
    whole.write_text(item.page, "utf-8")
    own, page = Page(whole), item_page_of(buyer, tmp_path, item="A", drawn="1")
    assert page.parts["h1"] == own.parts["h1"]
    assert {*own.pictures.items()} <= {*page.pictures.items()}
    assert own.tables.items() <= page.tables.items()
    assert page.elements["h1"] == 1


def test_item_is_there_before_its_pictures(buyer: Planner, tmp_path: Path) -> None:
    """Its row of the table and the forms are shown at once. A link leads to the pictures, which stay then."""
    buyer.front.known.pop("item", None)
    first = item_page_of(buyer, tmp_path, item="A")
    decisions = last_plan(buyer).decisions.set_index("item")
    heading, (name, *cells) = first.tables["A"]
    assert name == "A" and not first.pictures
    levels = [f"{decisions.loc['A', column]:,}" for column in ("s_chosen", "S_chosen")]
    assert [
        cells[heading.index(column) - 1] for column in ("s chosen", "S chosen")
    ] == levels
    drawn = item_page_of(buyer, tmp_path, item="A", drawn="1")
    assert drawn.pictures and "A" not in drawn.tables
    again = item_page_of(buyer, tmp_path, item="A")
    assert again.pictures == drawn.pictures
    assert item_page_of(buyer, tmp_path, item="B").pictures == {}


@pytest.mark.parametrize(
    "lead, share", [("", ""), ("4", ""), ("", "90%"), ("5", "0.98")]
)
@pytest.mark.parametrize("name", ["A", "B"])
def test_what_if(
    buyer: Planner, tmp_path: Path, name: str, lead: str, share: str
) -> None:
    """Figures are those of the item's scenario with another lead time, and the best levels are the cheapest of all that
    meet the share."""
    rows = asked(buyer, tmp_path, item=name, s="6", S="24", lead=lead, fill=share)
    scenario = last_plan(buyer).item(name).scenario
    if name == "B":  # Nothing costs what is owed, but theory needs a cost.
        scenario = scenario.changed(costs={"backlog": 1})
    if lead:
        scenario = scenario.changed(lead={int(lead): 1})
    every = [(s, S) for s in range(25) for S in range(s, s + 50)]
    frame = scenario.theory(every).frame
    if name == "B":
        frame["cost"] = 20 * frame["orders"] + 0.2 * frame["stock"]
        wanted = 0.95
    else:
        wanted = 0.0
    if share:
        wanted = float(share.replace("90%", "0.9"))

    def cells(s: int, S: int) -> list[str]:
        (row,) = frame[(frame["s"] == s) & (frame["S"] == S)].to_dict("records")
        figures = f"{row['cost']:.1f}", f"{row['fill']:.1%}", f"{row['stock']:.1f}"
        return [f"{s}", f"{S}", *figures, f"{row['orders']:.3f}"]

    assert rows["as you typed"] == cells(6, 24)
    assert rows["today's"] == cells(1, 9)
    chosen = last_plan(buyer).item(name).words.answer.chosen
    assert rows["of the plan"] == cells(*chosen.levels)
    best = frame[frame["fill"] >= wanted].sort_values("cost").iloc[0]
    assert rows["best for this"] == cells(int(best["s"]), int(best["S"]))


def test_what_if_of_an_item_without_a_run(buyer: Planner, tmp_path: Path) -> None:
    """It has no pictures, and the page says why; theory says what if."""
    page = item_page_of(buyer, tmp_path, item="R", lead="3")
    assert "reviewed once in 2 periods" in page.words
    _, *rows = page.tables["What if?"]
    assert [row[0] for row in rows] == ["of the plan", "today's", "best for this"]


def test_item_without_demand(buyer: Planner, tmp_path: Path) -> None:
    page = item_page_of(buyer, tmp_path, item="D", s="1", S="2")
    assert "it could not be planned" in page.words
    assert "What if?" not in page.tables


@pytest.mark.parametrize(
    "query",
    [
        {},
        {"item": "nobody"},
        {"item": "A", "plan": "1999-01-01"},
        {"item": "A", "s": "5"},
        {"item": "A", "S": "5"},
        {"item": "A", "s": "6", "S": "5"},
        {"item": "A", "s": "-1", "S": "5"},
        {"item": "A", "s": "1.5", "S": "5"},
        {"item": "A", "s": "0", "S": "1000001"},
        {"item": "A", "lead": "0"},
        {"item": "A", "lead": "33"},
        {"item": "A", "fill": "much"},
        {"item": "A", "fill": "97"},
        {"item": "A", "fill": "100%"},
    ],
)
def test_questions_that_cannot_be_meant(buyer: Planner, query: dict[str, str]) -> None:
    assert buyer.get("/item", **query).status_code == 400


SET = {"item": "A", "way": "levels", "s": "30", "S": "70", "reason": "a fair"}


@pytest.mark.parametrize(
    "change",
    [
        {"reason": ""},
        {"reason": " "},
        {"s": ""},
        {"s": "71"},
        {"S": "much"},
        {"s": "", "S": ""},
        {"way": "x"},
        {"way": ""},
        {"item": "nobody"},
        {"plan": "../x"},
    ],
)
def test_overrides_that_cannot_be_meant(buyer: Planner, change: dict[str, str]) -> None:
    assert buyer.post("/item/override", SET | change).status_code == 400
    assert buyer.desk.state.overrides == {}


def levels_today(planner: Planner) -> dict[str, tuple[int, int]]:
    """Returns s and S by which items are ordered today."""
    frame = last_plan(planner).orders_today(date=TODAY).frame
    return {row["item"]: (row["s"], row["S"]) for row in frame.to_dict("records")}


@pytest.mark.usefixtures("set_none")
def test_override_is_ordered_by_once_planned_again(
    buyer: Planner, tmp_path: Path
) -> None:
    """What a planner sets counts after planning again, stands on Result, and is ended by a row with nothing. Result is
    computed when a plan ends, so that nobody waits for it."""
    before = levels_today(buyer)
    fields = [
        SET,
        {"item": "B", "way": "stop", "s": "7", "S": "9", "reason": "quality <stop>"},
    ]
    for sent in fields:
        answer = buyer.post("/item/override", sent)
        assert answer.status_code == 303
        assert answer.headers["Location"].startswith("/item?")
    _, *rows = page_of(buyer, tmp_path).tables["What you have set"]
    assert rows == [
        ["A", "s 30, S 70", "a fair", "change or end"],
        ["B", "do not order", "quality <stop>", "change or end"],
    ]
    assert levels_today(buyer) == before
    buyer.front.known.pop("listed", None)
    plan(buyer, way="again")
    wait_for(lambda: "listed" in buyer.front.known)
    assert f"overrides={buyer.desk.path / OVERRIDES}" in buyer.get("/plan").text
    after = levels_today(buyer)
    assert after["A"] == (30, 70) and "B" in before and "B" not in after
    page = item_page_of(buyer, tmp_path, item="B")
    assert "quality <stop>" in page.words
    for name in "AB":
        sent = {"item": name, "way": "end", "reason": "over"}
        assert buyer.post("/item/override", sent).status_code == 303
    assert buyer.desk.state.overrides["A"] == DeskOverride("A", reason="over")
    assert "What you have set" not in page_of(buyer, tmp_path).tables
    assert "as the plan says" in item_page_of(buyer, tmp_path, item="A").words
    plan(buyer, way="again")
    assert levels_today(buyer) == before


@pytest.mark.parametrize("name", HOSTILE)
def test_hostile_names(planner: Planner, tmp_path: Path, name: str) -> None:
    """They are shown as they are, on the page of the item and where it is set."""
    add_made_plan(planner.front, 12, names=[name])
    sent = SET | {"item": name, "reason": name, "plan": MADE_PLAN}
    location = planner.post("/item/override", sent).headers["Location"]
    answer = planner.client.get(location)
    (tmp_path / "item.html").write_text(answer.text, "utf-8")
    page, shown = Page(tmp_path / "item.html"), " ".join(name.split())
    assert answer.status_code == 200
    assert page.elements["script"] == 1 and page.elements["img"] == 0
    assert shown in page.words
    _, row = page_of(planner, tmp_path).tables["What you have set"]
    assert row[0] == name and row[2] == shown


def test_item_that_left_the_plan_can_be_ended(planner: Planner, tmp_path: Path) -> None:
    add_made_plan(planner.front, 12)
    with planner.desk.changing() as state:
        state.overrides["gone"] = DeskOverride("gone", 1, 2, reason="why")
    page = item_page_of(planner, tmp_path, item="gone")
    assert "there is no item" in page.words
    sent = {"item": "gone", "way": "end", "reason": "sold"}
    assert planner.post("/item/override", sent).status_code == 303


def test_past_is_tested(buyer: Planner, tmp_path: Path) -> None:
    """The page says what the summary of the test says."""
    assert "Begin the test" in buyer.get("/past").text
    assert buyer.get("/past/backtest.html").status_code == 404
    assert buyer.post("/past/begin", {}).status_code == 303
    assert buyer.wait() == []
    tests = crn.backtest(
        *(buyer.desk.table_of(kind) for kind in ("demand", "items")),
        jobs=1,
        **QUICK_PAST,
    )
    place = tmp_path / "past.html"
    place.write_text(buyer.get("/past").text, "utf-8")
    page = Page(place)
    assert "".join(page.parts["pre"]).startswith(tests.text)
    assert tests.verdict in page.words
    answer = buyer.get("/past/backtest.html")
    assert answer.text == tests.page
    assert answer.headers["Content-Security-Policy"] == WHOLE_PAGE


@pytest.mark.parametrize(
    "ended, said, shown",
    [
        (STOPPED, [], "Go on with the test"),
        ("refused", ["<b>no</b> row"], "&lt;b&gt;no&lt;/b&gt; row"),
    ],
)
def test_past_that_has_not_ended_well(
    planner: Planner, ended: str, said: list[str], shown: str
) -> None:
    with planner.desk.changing() as state:
        state.begun, state.ended, state.said = Begun(TESTING, LAST_TEST), ended, said
    assert shown in planner.get("/past").text


@pytest.mark.parametrize("words", [{}, {"encoding": "cp1252", "delimiter": ";"}])
def test_what_is_set_is_read_whatever_the_files_are_like(
    planner: Planner, words: dict[str, str]
) -> None:
    """The tables that the desk writes are read by the words for the files of its planner."""
    planner.desk.keep_words(words)
    with planner.desk.changing() as state:
        state.overrides["Größe; 1"] = DeskOverride("Größe; 1", 7, 33, reason="größer")
    table = planner.desk.overrides_table()
    words = made_from(Reading, planner.desk.tree)
    stated = read_overrides(table, words, ["Größe; 1"]).overrides
    assert stated == {"Größe; 1": Stated(SET_LEVELS, 7, 33, "größer")}
