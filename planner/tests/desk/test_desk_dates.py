"""Tests of what counts today: of which day each file is, and that no order comes from a stock that is older than the open
orders."""
from __future__ import annotations

import csv
import html
import io
import re

import pytest
from werkzeug.test import TestResponse

from crnplan.desk import kept
from planner.tests.desk.conftest import MADE_PLAN, Planner, file_of
from planner.tests.desk.today import (
    ITEMS,
    Levels,
    Shown,
    expected,
    levels,
    refusal,
    stock_of,
    table_of,
)

__all__ = ["levels"]
OPEN = {"P00010": 1, "P00011": 2, "P00012": 3}


class Days:
    """A planner who drops files on days."""

    def __init__(self, planner: Planner, monkeypatch: pytest.MonkeyPatch) -> None:
        self.planner, self.day = planner, MADE_PLAN
        monkeypatch.setattr(kept, "now", lambda: f"{self.day} 08:00:00")

    def drop(self, day: str, name: str, data: bytes, way: str = "") -> None:
        """Drops a file on a day, perhaps beside those that are there."""
        self.day = day
        fields = {"files": [file_of(data, name)], "way": way}
        assert self.planner.post("/files/drop", fields).status_code == 303

    def drop_stock(self, day: str, levels: Levels) -> None:
        self.drop(day, "stock.csv", table_of("stock", stock_of(levels)).read())

    def drop_orders(self, day: str, way: str = "") -> None:
        self.drop(day, "open.csv", table_of("qty on order", OPEN).read(), way)

    def drop_masters(self, day: str, levels: Levels) -> None:
        """Drops masters that say the stock, with columns and signs of their own."""
        text = io.StringIO()
        table = csv.writer(text, delimiter=";")
        table.writerow(["item", "setup", "holding", "Soll", "available"])
        for name, stock in stock_of(levels).items():
            table.writerow([name, 1, 2, f"{stock}.000", 5])
        masters = {"delimiter": ";", "decimal": {"stock": "."}}
        self.planner.desk.keep_words(
            {
                "items": {"stock": "Soll"},
                "stock": {"stock": "stock"},
                "written": {"items": masters, "stock": {"decimal": {"stock": ","}}},
            }
        )
        self.drop(day, "items.csv", text.getvalue().encode())

    @property
    def counts(self) -> list[str]:
        """Returns what the page says of the files that count."""
        text = Shown(self.planner, day=self.day).text
        files = text.partition('<h2 id="files">')[2].partition("</ul>")[0]
        lines = re.findall('(?s)<li(?: class="warn")?>(.*?)</li>', files)
        return [html.unescape(re.sub("<[^>]*>", "", line)) for line in lines]


@pytest.fixture
def days(planner: Planner, monkeypatch: pytest.MonkeyPatch) -> Days:
    return Days(planner, monkeypatch)


def test_old_stock_is_refused(days: Days, levels: Levels) -> None:
    """A stock of the day before the open orders gives no orders, no file and nothing to place, until its planner says that
    these files count. Of others it is asked again."""
    planner = days.planner
    days.drop_stock("2026-11-30", levels)
    before = Shown(planner, day="2026-12-01")
    days.drop_orders("2026-12-01")
    old = Shown(planner, day="2026-12-01")
    said = "The stock is of 2026-11-30, and the open orders are of 2026-12-01."
    assert said in old.text and not old.lines and not old.cards
    german = Planner(planner.front, "de").get("/today", day="2026-12-01").text
    assert "Der Bestand ist vom 2026-11-30" in german
    table = planner.get("/today/today_lines.csv", day="2026-12-01")
    assert "the stock is of 2026-11-30" in refusal(table)
    placed = before.send(before.forms[-2], "/today/place")
    assert "the open orders are of 2026-12-01" in refusal(placed)

    assert agreed(old).status_code == 303
    shown = Shown(planner, day="2026-12-01")
    assert (
        shown.lines == expected(levels)
        and "this stock counts all the same" in shown.text
    )
    days.drop_orders("2026-12-01")
    assert not Shown(planner, day="2026-12-01").lines
    days.drop_stock("2026-12-01", levels)
    shown = Shown(planner, day="2026-12-01")
    assert shown.lines == expected(levels) and said not in shown.text


def test_no_stock_is_not_an_old_one(days: Days, levels: Levels) -> None:
    """If nothing says the stock, that is said, and not that it is old."""
    for file in [*days.planner.desk.state.files]:
        days.planner.desk.remove_file(file.name)
    days.drop_orders("2026-12-01")
    text = Shown(days.planner, day="2026-12-01").text
    assert (
        "no item has a stock in its masters" in text and "The stock is of" not in text
    )


def agreed(shown: Shown) -> TestResponse:
    """Ticks that the files of a page count."""
    (name,) = re.findall('name="agreed" value="([^"]*)"', shown.text)
    (form,) = [form for form in shown.forms if form.action == "/today/agree"]
    return shown.send(form, "", None, ("agreed", name))


def test_what_counts_has_a_day_and_a_size(days: Days, levels: Levels) -> None:
    """Stock, open orders, masters and plan are of a day, with their rows or items. New masters count with the next plan, and a
    file of no known kind does not count."""
    plan = f"Plan {MADE_PLAN}: {ITEMS} items, demand up to"
    days.drop_stock("2026-11-30", levels)
    stock = "Stock of 2026-11-30: stock.csv, 18 rows, dropped on 2026-11-30 08:00:00."
    without = "what is on order: no file."
    first, second, third = days.counts
    assert (first, without in second, plan in third) == (stock, True, True)
    days.drop_orders("2026-11-30")
    days.drop("2026-12-01", "items.csv", b"item,setup,holding\nP00010,1,2\n")
    days.drop("2026-12-01", "notes.csv", b"a,b\n1,2\n")
    stock, orders, masters, last, notes = days.counts
    assert stock.endswith("is there a newer one?")
    assert orders.startswith("Open orders of 2026-11-30: open.csv, 3 rows")
    assert masters.startswith(
        "Masters of 2026-12-01: items.csv. They came after the plan"
    )
    assert last.startswith(plan) and "notes.csv: its kind is not known" in notes


@pytest.mark.parametrize("day", ["2026-11-30", "2026-12-01"])
def test_stock_of_newer_masters_counts(day: str, days: Days, levels: Levels) -> None:
    """Masters that came on a later day than a file of stock say the stock, by the columns and the signs of masters; on the same
    day they do not."""
    file = table_of("stock", dict.fromkeys(levels, 99))
    days.drop("2026-11-30", "stock.csv", file.read())
    days.drop_masters(day, levels)
    is_newer = day == "2026-12-01"
    name = "items.csv" if is_newer else "stock.csv"
    assert days.counts[0].startswith(f"Stock of {day}: {name}, 18 rows")
    orders = expected(levels)
    assert Shown(days.planner, day=day).lines == (orders if is_newer else {})


def test_masters_are_newer_than_each_file_of_stock(days: Days, levels: Levels) -> None:
    """Masters that are newer than one of two files of stock do not say the stock. Those that are newer than both do."""
    file = table_of("stock", dict.fromkeys(levels, 99)).read()
    days.drop("2026-11-30", "old.csv", file)
    days.drop("2026-12-01", "new.csv", file, "beside")
    for day, orders in (("2026-12-01", {}), ("2026-12-02", expected(levels))):
        days.drop_masters(day, levels)
        assert Shown(days.planner, day=day).lines == orders


def test_days_of_two_files(days: Days, levels: Levels) -> None:
    """Two files of stock are of the day of the older one, and two of open orders of that of the newer one."""
    rows, half = [*stock_of(levels).items()], len(levels) // 2
    for day, part, way in (
        ("2026-11-29", rows[:half], ""),
        ("2026-12-01", rows[half:], "beside"),
    ):
        days.drop(day, "stock.csv", table_of("stock", dict(part)).read(), way)
    days.drop_orders("2026-11-28")
    days.drop_orders("2026-11-30", "beside")
    old = Shown(days.planner, day="2026-12-01")
    said = "The stock is of 2026-11-29, and the open orders are of 2026-11-30."
    assert said in old.text and not old.lines
    assert agreed(old).status_code == 303
    assert Shown(days.planner, day="2026-12-01").lines == expected(levels)
