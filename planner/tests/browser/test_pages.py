"""Tests each page in each form by all rules, its policy of scripts and the table of a catalogue as a reader uses it."""
from __future__ import annotations

import operator
import statistics
from collections.abc import Callable, Iterable
from pathlib import Path

import pytest
from selenium.webdriver.common.action_chains import ActionChains
from selenium.webdriver.common.by import By
from selenium.webdriver.common.keys import Keys

from crnplan.show.catalogue_page import ROWS_A_GROUP
from planner.tests.browser.browser import FORMS, PAPER, TALL, WIDE, Browser, Form
from planner.tests.browser.conftest import MARKUP, PLANNED, Pages
from planner.tests.browser.items import PLAIN, Items, in_order, is_number
from planner.tests.browser.rules import faults_of, rules_of
from planner.tests.show.page_reader import Row, rows_of

NAMES = (
    "catalogue",
    "catalogue without a curve",
    "planned catalogue",
    "catalogue with orders",
    "item",
    *PLANNED,
)
IDS = [*NAMES[:5], "item of markup", "item in Arabic", "item of a long name"]
INJECTED = Path(__file__).with_name("injected.js").read_text("utf-8")


# Colours do not depend on the name of an item.
@pytest.mark.parametrize(
    "name, form",
    [
        pytest.param(name, form, id=f"{said}-{form}")
        for name, said in zip(NAMES, IDS)
        for form in FORMS
        if name not in PLANNED or form.scheme == "light"
    ],
)
def test_page_has_no_fault(
    browser: Browser, pages: Pages, name: str, form: Form
) -> None:
    browser.open(pages(name), form)
    assert faults_of(browser, *rules_of(form)) == []


def test_pictures_have_no_fault(browser: Browser, pages: Pages) -> None:
    """No text of a picture meets another one or ends beyond an edge, whatever the amounts."""
    browser.open(pages("pictures"), Form(776, height=TALL))
    assert len(browser.driver.find_elements(By.CSS_SELECTOR, "body > svg")) == 4
    rules = "console", "requests", "names", "overflow", "overlaps", "contrast"
    assert faults_of(browser, *rules) == []


@pytest.mark.parametrize(
    "name", ["catalogue of large money", MARKUP], ids=["catalogue", "item"]
)
def test_large_money_stays_in_its_card(
    browser: Browser, pages: Pages, name: str
) -> None:
    """However large an amount is, each word of it is on one line within its card, and no table widens the page."""
    browser.open(pages(name))
    assert len(browser.driver.find_elements(By.CSS_SELECTOR, ".card")) > 4
    forms = [Form(width) for width in (1440, 1280, 1200, 1100, 768, 390)]
    for form in (*forms, Form(PAPER, medium="print")):
        browser.show(form)
        assert faults_of(browser, "cards", "overflow", "clipped") == [], form


@pytest.mark.parametrize("form", [WIDE, Form(390)], ids=str)
def test_page_of_thousands_has_no_fault(
    browser: Browser, pages: Pages, form: Form
) -> None:
    """Thousands of items print nothing on the console, ask for nothing and stay within the page."""
    browser.open(pages("catalogue of a thousand"), form)
    assert faults_of(browser, "console", "requests", "overflow") == []


def test_first_screen(browser: Browser, pages: Pages) -> None:
    """What a board reads stands on the first screen as a whole, with its picture. On a phone none of it scrolls."""
    browser.open(pages("catalogue of hundreds"), Form(1440, height=900))
    assert (
        browser.run(
            "return document.getElementById('board').getBoundingClientRect().bottom;"
        )
        <= 900
    )
    assert (
        browser.run("return document.querySelectorAll('#board .pairs circle').length;")
        > 4
    )
    browser.show(Form(390))
    assert faults_of(browser, "overflow") == []
    assert (
        browser.run("return document.querySelectorAll('#board .scroll').length;") == 0
    )


def test_sheets(browser: Browser, pages: Pages) -> None:
    """The first screen is the first sheet. 300 items have five sheets at most, each of which says something."""
    browser.open(pages("catalogue of hundreds"))
    first, *others = browser.printed(landscape=True)
    assert "saved a year" in first
    assert "What was left out" in first
    assert "Service that the stock can give" in others[0]
    assert len(others) <= 4
    assert min(len(sheet.split()) for sheet in others) > 60


@pytest.mark.parametrize("name", NAMES, ids=IDS)
def test_script_of_another_is_refused(
    browser: Browser, pages: Pages, name: str
) -> None:
    """The policy refuses scripts, handlers and pictures that are put into the page."""
    browser.open(pages(name), WIDE)
    ran, refused = browser.run(INJECTED)
    assert ran == []
    assert set(refused) == {"script-src-elem", "script-src-attr", "img-src"}


SEARCHED = ("item", "description", "class", "warnings")
COLUMNS = """item s_chosen S_chosen saving verdict s_today S_today description class cost_today cost_chosen value_today
    value_chosen orders_chosen warnings fill_today fill_chosen by""".split()
# Seconds in which thousands of items are sorted on a quiet machine.
LONGEST_SORT = 0.3
MOST_LAYOUTS = 100
# A height that all rows of a page have room in, in CSS pixels.
ALL_ROWS = 6_400
Check = Callable[[Iterable[tuple[str, object]]], None]


@pytest.fixture
def items(browser: Browser, pages: Pages) -> Items:
    """Returns the table of a page that has just been loaded."""
    browser.open(pages("catalogue of two groups"), Form(1280, height=ALL_ROWS))
    return Items(browser)


@pytest.fixture
def decisions(pages: Pages) -> list[Row]:
    """Returns the rows of the file that the page shows, with their details."""
    page = pages("catalogue of two groups")
    files = (page.with_name(name) for name in ("decisions.csv", "details.csv"))
    return [*map(operator.or_, *map(rows_of, files))]


def by_item(rows: list[Row]) -> dict[str, Row]:
    """Returns the columns of the page in each row, by the name of its item."""
    return {row["item"]: {name: row[name] for name in COLUMNS} for row in rows}


def test_cells_are_those_of_the_file(items: Items, decisions: list[Row]) -> None:
    """The page shows each cell as the file spells it, also markup and Arabic, the greatest saving first."""
    assert items.columns == COLUMNS
    assert by_item(items.shown()) == by_item(decisions)
    savings = [row["saving"] for row in decisions]
    assert [row["saving"] for row in items.shown()] == in_order(savings, descends=True)
    assert items.orders() == {"saving": "descending"}


def sorts(items: Items, decisions: list[Row], column: str) -> bool:
    """Returns whether a click sorts by a column, and the next one the other way. Each row keeps its cells."""
    cells = [row[column] for row in decisions]
    numbers = all(map(is_number, filter(None, cells)))
    button = items.button(column)
    for order in ("ascending", "descending"):
        button.click()
        shown = items.shown()
        judged = [
            it
            for it in (row[column] for row in shown)
            if numbers or it == "" or PLAIN.fullmatch(it)
        ]
        if not (
            items.orders() == {column: order}
            and judged == in_order(cells, descends=order == "descending")
            and by_item(shown) == by_item(decisions)
        ):
            return False
    return True


def test_click_on_a_heading_sorts(
    items: Items, decisions: list[Row], check_all: Check
) -> None:
    check_all((column, sorts(items, decisions, column)) for column in COLUMNS)


@pytest.mark.parametrize("key", [Keys.ENTER, Keys.SPACE], ids=["enter", "space"])
def test_heading_is_pressed_by_keyboard(items: Items, key: str) -> None:
    """Both keys of a button sort, and the focus stays on the heading."""
    button = items.button("cost_today")
    for order in ("ascending", "descending"):
        button.send_keys(key)
        assert items.orders() == {"cost_today": order}
        assert items.driver.switch_to.active_element == button


def test_search_shows_the_rows_that_have_a_text(
    items: Items, decisions: list[Row], check_all: Check
) -> None:
    def shows(text: str) -> bool:
        wanted = [
            row
            for row in decisions
            if any(text.lower() in row[name].lower() for name in SEARCHED)
        ]
        items.search(text)
        return (
            by_item(items.shown()) == by_item(wanted)
            and items.count() == f"{len(wanted)} of {len(decisions)}"
        )

    searched = "bearing", "P0001", "UNLIKE the", "<img", '"quoted"', "قطعة", "=1+1"
    check_all((text, shows(text)) for text in (*searched, "  lead", "x y z"))


def has_warning(row: Row, choice: str) -> bool:
    """Returns whether a row is shown by a choice of warnings."""
    if choice in ("with", "without"):
        return (row["warnings"] != "") == (choice == "with")
    return choice == "" or "few demands" in row["codes"].split("; ")


def test_lists_show_the_rows_of_a_choice(items: Items, decisions: list[Row]) -> None:
    """A verdict with, without or with one code of a warning shows just its rows, also sorted, and can be undone."""
    for verdict in sorted({row["verdict"] for row in decisions}):
        items.choose("verdict", verdict)
        for warning in ("is few demands", "with", "without", ""):
            items.choose("warning", warning)
            wanted = [
                row
                for row in decisions
                if row["verdict"] == verdict and has_warning(row, warning)
            ]
            assert by_item(items.shown()) == by_item(wanted)
            assert items.count() == f"{len(wanted)} of {len(decisions)}"
    items.button("s_today").click()
    assert by_item(items.shown()) == by_item(wanted)
    items.choose("verdict", "")
    assert len(items.shown()) == len(decisions)


def test_print_has_the_rows_that_are_shown(items: Items, decisions: list[Row]) -> None:
    """Print has the first rows of the choice alone, below headings that each sheet repeats, and nothing to press."""
    items.choose("verdict", "cheaper")
    shown = {row["item"] for row in items.shown()[:ROWS_A_GROUP]}
    sheets = items.browser.printed(landscape=True)
    table = "\f".join(sheets).rpartition("All items")[2]
    for row in decisions:
        if row["item"].startswith("P"):
            assert (row["item"] in table) == (row["item"] in shown), row["item"]
    for sheet in table.split("\f"):
        if "P0" in sheet:
            assert "verdict" in sheet
    assert "item, description, class or warning" not in table
    assert "second click" not in table


@pytest.mark.parametrize("name", PLANNED, ids=["markup", "arabic", "long"])
def test_link_leads_to_the_page_of_the_item(
    browser: Browser, pages: Pages, name: str
) -> None:
    browser.open(pages("planned catalogue"), Form(1280, height=TALL))
    (link,) = (
        it
        for it in browser.driver.find_elements(By.CSS_SELECTOR, "#items a")
        if it.text == name
    )
    link.click()
    assert browser.driver.current_url == pages(name).as_uri()
    assert name in browser.driver.find_element(By.TAG_NAME, "main").text


def test_thousands(browser: Browser, pages: Pages) -> None:
    """Few of thousands are seen without scrolling. The first press of Tab lays out all rows in few steps."""
    browser.open(pages("catalogue of a thousand"))
    items = Items(browser)
    items.search("P0020")
    assert sorted(row["item"] for row in items.shown()) == [
        f"P0020{it}" for it in range(10)
    ]
    heights = browser.run(
        "const rows = [...document.querySelectorAll('#items tr')].filter((it) => !it.hidden);"
        "return [document.getElementById('items').offsetHeight,"
        "rows.reduce((sum, it) => sum + it.offsetHeight, 0)];"
    )
    assert heights[0] == pytest.approx(heights[1], abs=2)

    def layouts() -> float:
        """Returns how often the page has been laid out so far."""
        metrics = browser.command("Performance.getMetrics")["metrics"]
        return next(float(it["value"]) for it in metrics if it["name"] == "LayoutCount")

    browser.command("Performance.enable")
    browser.open(pages("catalogue of a thousand"))
    before = layouts()
    ActionChains(browser.driver).send_keys(Keys.TAB).perform()
    assert browser.run("return document.activeElement !== document.body;")
    assert layouts() - before < MOST_LAYOUTS


@pytest.mark.serial
def test_thousands_are_sorted_at_once(browser: Browser, pages: Pages) -> None:
    """A click on a heading and the layout after it take a short time, in the median over the headings."""
    browser.open(pages("catalogue of thousands"))
    times = browser.run(
        "return [...document.querySelectorAll('#items thead button')].map((button) => {"
        "const began = performance.now(); button.click(); document.body.offsetHeight;"
        "return performance.now() - began; });"
    )
    assert statistics.median(times) / 1000 < LONGEST_SORT, times
