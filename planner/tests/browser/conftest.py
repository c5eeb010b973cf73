"""Fixtures of the tests of pages: a browser, and the pages that it shows."""
from __future__ import annotations

import datetime
import random
from collections.abc import Callable, Iterator
from dataclasses import replace
from pathlib import Path
from typing import Any

import pandas as pd
import pytest

from crnplan import Plan, plan
from crnplan.curve.parts import Point
from crnplan.show.catalogue_page import ROWS_A_GROUP, file_name, file_of, report
from crnplan.curve.pictures import exchange_plot
from crnplan.drawing.rendering import Money
from crnplan.drawing.pictures import Picture, savings_picture
from planner.tests.browser.browser import Browser
from planner.tests.catalogue.conftest import SETTINGS
from planner.tests.conftest import shared
from planner.tests.show.made_catalogue import Pair, made_folder, made_pair

# Names of items that are markup, a formula, a path, written from the right, or that no line has room for.
MARKUP, ARABIC, WIDE = "<img src=x onerror=alert(1)>", "قطعة غيار 12", "W" * 300
HOSTILE = (
    MARKUP,
    ARABIC,
    WIDE,
    "</script><script>alert(2)</script>",
    "\"quoted\" 'twice' & &amp;",
    "=1+1",
    "  leading blanks",
    "50%/../x?#",
    "long " * 59 + "names",
)
PLANNED = (MARKUP, ARABIC, WIDE)
POINTS = (
    "today",
    "chosen item by item",
    "today's stock, best service (more orders)",
    "today's service, least stock (fewer orders)",
    "your budget (more orders) (fewer orders)",
)
MASTERS = "item description setup holding backlog fill".split()
MASTERS += ["lead (weeks)", "s", "S", "stock", "price"]
MONDAY = datetime.date(2025, 1, 6)
LARGE = 10**12  # of money
PAGE = "report.html"
PART = "spare part"  # the item of the worked case
Pages = Callable[[str], Path]


@pytest.fixture(scope="session")
def browser(tmp_path_factory: pytest.TempPathFactory) -> Iterator[Browser]:
    """Returns the browser of all tests of a worker. Without Chromium each test fails in one line."""
    try:
        started = Browser(tmp_path_factory.mktemp("browser"))
    except FileNotFoundError as fault:
        raise pytest.fail.Exception(str(fault), pytrace=False) from None
    yield started
    assert started.close() == [], "the browser has left processes behind"


@pytest.fixture(scope="session")
def pages(
    tmp_path_factory: pytest.TempPathFactory, request: pytest.FixtureRequest, top: Path
) -> Pages:
    """Returns a function that makes a page of some name, once in a session, and returns its path."""

    def program() -> Path:
        """Returns the program, for the pages that need it."""
        found: Path = request.getfixturevalue("program")
        return found

    def catalogue(items: int, **more: Any) -> Callable[[Path], object]:
        """Returns what makes the page of a catalogue."""
        return lambda folder: made_folder(folder, items, **more)

    plan, hostile = "plan/report.html", {"names": HOSTILE}
    two_groups = catalogue(ROWS_A_GROUP + 30, **hostile)
    large = catalogue(12, has_curve=False, change=large_money(), currency="JPY")
    makers: dict[str, tuple[str, Callable[[Path], object]]] = {
        "catalogue": (PAGE, catalogue(40, **hostile)),
        "catalogue of large money": (PAGE, large),
        "catalogue without a curve": (PAGE, catalogue(12, has_curve=False)),
        "catalogue of two groups": (PAGE, two_groups),
        "catalogue of hundreds": (PAGE, catalogue(300, **hostile, currency="EUR")),
        "catalogue of a thousand": (PAGE, catalogue(1_000, **hostile)),
        "catalogue of thousands": (
            PAGE,
            lambda folder: repeat_rows(page("catalogue of a thousand"), folder, 3),
        ),
        "catalogue with orders": (PAGE, with_orders),
        "pictures": (PAGE, pictures),
        "planned catalogue": (plan, lambda folder: planned(folder, program())),
        "item": (
            f"plan/items/{file_name(PART)}",
            lambda folder: planned_item(folder, top / "examples/case", program()),
        ),
    }
    made: dict[str, Path] = {}

    def page(name: str) -> Path:
        """Returns a page, and makes it if it is not there. An item of the planned catalogue has a page as well."""
        if name in PLANNED:
            return file_of(page("planned catalogue").parent, name)
        if name not in made:
            place, make = makers[name]
            made[name] = shared(tmp_path_factory, name, make) / place
        return made[name]

    return page


def with_orders(folder: Path) -> None:
    """Makes a page with orders of a day, of items that have nothing and whose orders are late."""
    made = Plan(made_folder(folder, 40, HOSTILE, currency="EUR"))
    names = {"item": made.decisions.item}
    stock = pd.DataFrame(names | {"stock": 0})
    late = pd.DataFrame(names | {"quantity": 1, "due": "2026-11-02"})
    made.report(orders=made.orders_today(stock, late, "2026-11-27"))


def pictures(folder: Path) -> None:
    """Writes a page of pictures as files have them: curves of small and large stocks, savings and losses, and runs."""
    drawn = []
    for value in (12_345.0, 1_234_567.0, 9e10):
        named = {name: Point(value, 0.9, 1.0, 1.0) for name in POINTS}
        line = [Point(value * it, 1 - 0.3**it, 1.0, 1.0) for it in range(1, 12)]
        curve = [*named.items(), *(("", point) for point in line)]
        drawn.append(Picture.of([exchange_plot(curve, Money("EUR", 2))]))
    savings = {"AB-123456/7890 X": 9e9, "PUMP": -8e9, MARKUP: 1.0, ARABIC: 0.0}
    drawn.append(savings_picture(savings, "EUR a week"))
    texts = "".join(picture.svg for picture in drawn)
    head = '<!doctype html><html lang="en"><title>Pictures</title>'
    head += "<style>svg { overflow: visible; }</style>"  # shows what would be cut off
    (folder / PAGE).write_text(f"{head}<body>{texts}</body></html>", "utf-8")


def large_money() -> Pair:
    """Returns an item whose costs and prices are as large as they may be."""
    item, answer = made_pair(random.Random(1), "large")
    today, chosen = (
        replace(figures, cost=LARGE * figures.cost)
        for figures in (answer.today, answer.chosen)
        if figures
    )
    costs = {"cost_today": today.cost, "cost_chosen": chosen.cost}
    saving = today.cost - chosen.cost
    answer = replace(answer, today=today, chosen=chosen, saving=saving, **costs)
    return replace(item, price=9 * LARGE), answer


def repeat_rows(page: Path, folder: Path, times: int) -> None:
    """Writes a page of a catalogue that has each group of its rows so many times."""
    head, groups = page.read_text("utf-8").split('<table id="items">')
    first, last = groups.index("<tbody>"), groups.rindex("</tbody>") + len("</tbody>")
    text = f'{head}<table id="items">{groups[:first]}{times * groups[first:last]}{groups[last:]}'
    (folder / page.name).write_text(text, "utf-8")


def planned_item(folder: Path, case: Path, program: Path) -> None:
    """Plans the worked case, and makes the page of its item."""
    tables, out = (case / "history.csv", case / "items.csv"), folder / "plan"
    plan(*tables, out=out, jobs=1, program=program)
    report(out, [PART], program=program)


def planned(folder: Path, program: Path) -> None:
    """Plans a catalogue of few items with hostile names, and makes its page and theirs."""
    source, demand = random.Random(1), list[tuple[object, ...]]()
    for name in PLANNED:
        for week in range(60):
            day = MONDAY + datetime.timedelta(weeks=week)
            demand.append((name, day, source.choice((0, 0, 1, 2, 5))))
    # One item has costs and a price as large as they may be.
    gold = "of gold", 99_999_999, 9_999, 9_999, "", 2, 6, 20, 9, 99 * LARGE
    masters = [
        (ARABIC, "of a shelf", 45, 0.6, "", 0.95, 2, 6, 20, 9, 30),
        (WIDE, "of a shelf", 45, 0.6, 9, "", 2, 6, 20, 9, 30),
        (PLANNED[0], *gold),
    ]
    sales = pd.DataFrame(demand, columns=["item", "date", "quantity"])
    items, out = pd.DataFrame(masters, columns=MASTERS), folder / "plan"
    plan(sales, items, out=out, jobs=1, program=program, **SETTINGS)
    report(out, PLANNED, program=program)
