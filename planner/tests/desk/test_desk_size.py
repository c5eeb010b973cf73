"""Tests that pages of the desk stay small and quick whatever the catalogue: by counts that depend on no machine."""
from __future__ import annotations

import os
import re
from collections.abc import Iterator
from pathlib import Path
from typing import Any

import pytest

from crnplan.desk import results
from crnplan.desk.orders import MOST_LINES
from crnplan.desk.results import LIST, ROWS
from crnplan.plan import risk, standing
from crnplan.plan.catalogue import ANSWERS, PlannedFolder
from crnplan.plan.today import Days
from planner.tests.conftest import shared
from planner.tests.desk.conftest import (
    MADE_PLAN,
    Planner,
    add_made_plan,
    file_of,
    opened,
)

ITEMS = 700
MOST_BYTES = 300_000
STOCK = "item,stock\n" + "".join(f"P{number:05},0\n" for number in range(ITEMS))
RESULTS = "/result", "/result?sort=item", "/result?verdict=cheaper&words=P0001"
PAGES = "/files /settings /plan /result /result?sort=item /result?words=P /today /past".split()


def make_large(path: Path) -> None:
    """Makes a desk with a plan of many items, all of which are out of stock."""
    with opened(path / "desk") as front:
        add_made_plan(front, ITEMS)
        front.desk.add_file("stock.csv", file_of(STOCK.encode(), "stock.csv")[0])
        (file,) = front.desk.state.files
        front.desk.set_file(file.name, "stock", "")


@pytest.fixture
def large(tmp_path_factory: pytest.TempPathFactory) -> Iterator[Planner]:
    """Returns who asks such a desk."""
    with opened(shared(tmp_path_factory, "large desk", make_large) / "desk") as front:
        yield Planner(front)


def test_pages_are_small(large: Planner) -> None:
    """No page has all items, and a page of the result has as many rows as it says."""
    for page in PAGES:
        answer = large.get(page)
        assert answer.status_code == 200, page
        assert len(answer.data) < MOST_BYTES, page
    items = re.findall(r'<a href="/item\?[^"]*">(\w+)</a>', large.get("/result").text)
    assert len(items) == len({*items}) == ROWS
    seen = {
        item
        for number in range(1, ITEMS // ROWS + 1)
        for item in re.findall(
            r'<a href="/item\?[^"]*">(\w+)</a>',
            large.get("/result", page=number, sort="item").text,
        )
    }
    assert seen == {f"P{number:05}" for number in range(ITEMS)}


def test_orders_are_shown_in_parts(large: Planner) -> None:
    """A page of orders has few of hundreds of lines, and the tables to download have all."""
    text = large.get("/today", day="2026-11-27").text
    shown = text.count('name="quantity"')
    table = large.get("/today/today_lines.csv", day="2026-11-27").text
    assert 0 < shown <= 250 < len(table.splitlines())


def test_placed_orders_are_shown_in_parts(large: Planner) -> None:
    """A page has few of hundreds of orders that were placed, and its parts have each of them once."""
    text = large.get("/today", day=MADE_PLAN).text
    sign = re.findall('name="sign" value="(\\w+)"', text)[0]
    answer = large.post("/today/place", {"day": MADE_PLAN, "sign": sign})
    assert answer.status_code == 303, answer.text
    placed = [order.key for order in large.front.desk.state.placed]
    seen = list[str]()
    for first in range(0, len(placed), MOST_LINES):
        answer = large.get("/today", day=MADE_PLAN, placed=str(first))
        assert len(answer.data) < MOST_BYTES
        seen += re.findall('name="order" value="([^"]*)"', answer.text)
    assert seen == placed and len(placed) > 2 * MOST_LINES
    links = re.findall(r'placed=(\d+)#placed"', answer.text)
    assert [*map(int, links)] == [*range(0, len(placed), MOST_LINES)]


def test_what_is_kept_of_a_plan_is_computed_once(large: Planner) -> None:
    """Pages of one plan share what was computed of it."""
    first = large.get("/result").text
    known = {**large.front.known}
    assert large.get("/result").text == first
    assert {name: value for name, value in large.front.known.items()} == known


def calls(monkeypatch: pytest.MonkeyPatch, owner: Any, name: str) -> list[str]:
    """Returns a list to which each later call of a function adds its name."""
    made, called = getattr(owner, name), list[str]()

    def noted(*words: Any, **named: Any) -> Any:
        called.append(name)
        return made(*words, **named)

    monkeypatch.setattr(owner, name, noted)
    return called


def test_saving_computes_what_has_changed(
    large: Planner, monkeypatch: pytest.MonkeyPatch
) -> None:
    """Of hundreds of items, few laws are looked at when the quantity of one is saved, and no answer is read again."""
    laws = calls(monkeypatch, standing, "demands_of")
    monkeypatch.setattr(risk, "demands_of", standing.demands_of)
    read = calls(monkeypatch, PlannedFolder, "answers")
    text = large.get("/today", day=MADE_PLAN).text
    assert len(laws) > ITEMS and len(read) == 1
    laws.clear()
    sign = re.findall('name="sign" value="(\\w+)"', text)[0]
    fields = {"day": MADE_PLAN, "sign": sign, "item": "P00003", "quantity": "7"}
    answer = large.post("/today/save", {**fields, "ordered": "P00003"})
    assert answer.status_code == 303, answer.text
    text = large.get("/today", day=MADE_PLAN).text
    assert re.search('value="7" [^>]* of P00003"', text)
    assert len(laws) <= 2 and len(read) == 1


def test_pages_are_prepared(large: Planner, monkeypatch: pytest.MonkeyPatch) -> None:
    """A desk that is opened computes what its first pages have, so that these need not."""
    listed = calls(monkeypatch, results, "made_list")
    days = calls(monkeypatch, Days, "today")
    laws = calls(monkeypatch, standing, "demands_of")
    large.front.prepare().join()
    assert (len(listed), len(days)) == (1, 1)
    laws.clear()
    for page in ("/result", "/today"):
        assert large.get(page).status_code == 200
    assert (len(listed), len(days), len(laws)) == (1, 1, 0)


def test_a_kept_result_is_shown(
    tmp_path: Path, monkeypatch: pytest.MonkeyPatch
) -> None:
    """A desk that is opened again shows what it has kept, unless that is damaged, or the plan has changed since."""
    made, folder = calls(monkeypatch, results, "made_list"), tmp_path / "desk"

    def shown() -> list[str]:
        """Returns pages of the desk, opened anew, but for their token."""
        made.clear()
        with opened(folder) as front:
            texts = [Planner(front).get(page).text for page in RESULTS]
        return [re.sub('value="[0-9a-f]{64}"', "", text) for text in texts]

    with opened(folder) as front:
        path = add_made_plan(front, 60, currency="EUR")
    plain = shown()
    assert len(made) == 1 and shown() == plain and not made
    kept = (folder / LIST).read_text("utf-8")
    for text in ("{", "[]", f"{kept[:-1]}, 1]"):
        (folder / LIST).write_text(text, "utf-8")
        assert shown() == plain and len(made) == 1
    os.utime(path / ANSWERS, (1, 1))
    assert shown() == plain and len(made) == 1
    assert shown() == plain and not made
