"""Tests the way of a planner through the desk in a browser: from the exports of companies to orders, and the next week."""
from __future__ import annotations

import contextlib
import csv
import html
import io
import re
import shlex
from collections.abc import Callable, Iterator
from pathlib import Path
from typing import TypeVar

import pytest
from selenium.common.exceptions import WebDriverException
from selenium.webdriver.common.by import By
from selenium.webdriver.remote.webelement import WebElement
from selenium.webdriver.support.expected_conditions import staleness_of
from selenium.webdriver.support.ui import Select

from planner.tests.browser.browser import WIDE, Browser
from planner.tests.browser.test_desk import leaving
from planner.tests.conftest import Command, rows_of
from planner.tests.desk.conftest import QUICK, held, opened, wait_for
from planner.tests.desk.monday import ALL, EXPORTS, MONDAY
from planner.tests.desk.opened import Opened

# The settings of each company, as they are typed; and the heading of a column that is not known by its name, in masters.
MONEY = {"currency": "EUR", "setup": "45", "holding_rate": "20%", "fill": "95%"}
SETTINGS = {
    "wide": MONEY,
    "japanese": {**MONEY, "currency": "JPY", "setup": "3000", "net": "yes"},
    "warehouses": {**MONEY, "currency": "USD", "where": "Warehouse=Main\nType=Sale"},
}
ENCODED = {"japanese": "cp932"}
PRICES, OTHER = {"japanese": "単価", "warehouses": "Unit Cost"}, "X9"
REASON = "<img src=x onerror=alert(1)> shelf"


pytestmark = pytest.mark.timeout(600)
# What is raised if a page is loaded anew while one looks at it: no element, one that is gone, or one of no document.
ANEW = WebDriverException, StopIteration
T = TypeVar("T")


class Walk:
    """A planner before a browser, who sees what pages show and presses what they have."""

    def __init__(self, browser: Browser, desk: Opened) -> None:
        self.browser, self.driver, self.desk = browser, browser.driver, desk
        browser.visit(desk.address)

    def go(self, page: str) -> None:
        """Opens a page, once no work is under way."""
        wait_for(lambda: self.desk.get("/progress")[1].strip() == "{}")
        self.browser.visit(f"http://{self.desk.host}/{page}", WIDE)
        assert leaving(self.browser, self.desk) == []

    def all(self, selector: str) -> list[WebElement]:
        return self.driver.find_elements(By.CSS_SELECTOR, selector)

    def seen(self, look: Callable[[], T]) -> T:
        """Returns what a look at the page gives, which is repeated if the page is loaded anew meanwhile."""
        found = list[T]()

        def has_looked() -> bool:
            with contextlib.suppress(*ANEW):
                found.append(look())
            return bool(found)

        wait_for(has_looked)
        return found[0]

    def press(self, text: str, within: str = "main") -> None:
        """Presses the button with a text, the first of a part of the page, and waits for the answer."""

        def press() -> WebElement:
            buttons = self.all(f"{within} button")
            found = next(button for button in buttons if button.text == text)
            found.click()
            return found

        has_left = staleness_of(self.seen(press))
        wait_for(lambda: self.seen(lambda: bool(has_left(self.driver))))
        assert "This can't be done" not in self.text(), self.text()

    def text(self) -> str:
        """Returns what the page says."""
        return self.seen(lambda: self.driver.find_element(By.TAG_NAME, "main").text)

    def fill(self, field: WebElement, value: str) -> None:
        field.clear()
        field.send_keys(value)

    def file(self, called: str) -> str:
        """Returns the selector of the part of the page Files that has a file."""
        heading = next(it for it in self.all("h2[id^=file-]") if called in it.text)
        return f"section[aria-labelledby='{heading.get_attribute('id')}']"

    def kinds(self) -> dict[str, str]:
        """Returns the kind of each file, by what its owner calls it."""
        texts = [heading.text.split(": ", 1) for heading in self.all("h2[id^=file-]")]
        return {called: kind for kind, called in texts}

    def command(self) -> list[str]:
        """Returns the words of the command that does what the page does."""
        source = self.desk.get(
            self.driver.current_url.removeprefix(f"http://{self.desk.host}")
        )[1]
        (text,) = re.findall(
            '(?s)<details class="command">.*?<pre[^>]*>(.*?)</pre>', source
        )
        return shlex.split(html.unescape(text))[1:]


# What a planner does with a plan of a company, and perhaps with new files in a folder.
Then = Callable[[Walk, str, Path], None]
Walked = Callable[[Browser, str, Then], None]


def drop(walk: Walk, paths: list[Path]) -> None:
    """Drops files on the page, all at once."""
    walk.go("files")
    (field,) = walk.all("input[type=file]")
    field.send_keys("\n".join(str(path) for path in paths))
    walk.press("Take these files")
    walk.go("files")


def correct(walk: Walk, company: str, paths: dict[str, Path]) -> None:
    """Says how the files of a company are written, and which column of the masters has the price. Each answer shows what
    was said before, while the files are read anew."""
    encoded = paths.values() if company in ENCODED else ()
    for path in encoded:
        part = walk.file(path.name)
        if not walk.all(f"{part} details[open]"):
            walk.all(f"{part} summary")[0].click()
        Select(walk.all(f"{part} [name=encoding]")[0]).select_by_value(ENCODED[company])
        walk.press("Save", part)
    if company in PRICES:
        part = walk.file(paths["items"].name)
        names = [it.text for it in walk.all(f"{part} thead .data")]
        role = walk.all(f"{part} [name=role-{names.index(OTHER)}]")[0]
        assert Select(role).first_selected_option.text == "not used"
        Select(role).select_by_value("price")
        walk.press("Save", part)
    for path in encoded:
        part = walk.file(path.name)
        for sign in walk.all(f"{part} [name^=decimal]"):
            Select(sign).select_by_value(".")
        walk.press("Save", part)
    walk.go("files")


def settle(walk: Walk, company: str) -> None:
    """Types the settings of a company."""
    walk.go("settings")
    for name, value in SETTINGS[company].items():
        (field,) = walk.all(f"main [name={name}]")
        if field.get_attribute("type") == "checkbox":
            field.click()
        else:
            walk.fill(field, value)
    walk.press("Save")
    walk.go("settings")
    shown = {
        name: walk.all(f"main [name={name}]")[0].get_property("value")
        for name in SETTINGS[company]
    }
    assert shown["currency"] == SETTINGS[company]["currency"]


def made(company: str, folder: Path) -> dict[str, Path]:
    """Makes the files of a company by their kind, with a column of the masters whose name says nothing."""
    folder.mkdir()
    export = EXPORTS[company](folder)
    words = [*export.today]
    today = {
        word.removeprefix("--").replace("-", "_"): Path(path)
        for word, path in zip(words[::2], words[1::2])
    }
    if company in PRICES:
        encoding = ENCODED.get(company, "utf-8")
        text = export.masters.read_text(encoding)
        assert PRICES[company] in text
        export.masters.write_text(text.replace(PRICES[company], OTHER), encoding)
    return {"demand": export.demand, "items": export.masters, **today}


def plan(walk: Walk, hold: Path) -> None:
    """Begins to plan, stops it before the program goes on, and goes on."""
    walk.go("plan")
    walk.press("Begin to plan")
    walk.press("Stop", ".work")
    hold.unlink()
    walk.go("plan")
    assert "The plan was stopped" in walk.text()
    walk.press("Go on")
    walk.go("plan")
    assert f"{len(ALL)} items" in walk.text(), walk.text()


def override(walk: Walk, company: str, folder: Path) -> None:
    """Sets levels for the first item of the result, and plans again: the item then has these levels."""
    walk.go("result")
    link = walk.all("table.listed tbody a")[0]
    item = link.text
    link.click()
    form = "form[action='/item/override']"
    for name, value in {"s": "7", "S": "77", "reason": REASON}.items():
        walk.fill(walk.all(f"{form} [name={name}]")[0], value)
    walk.press("Keep this", form)
    assert REASON in walk.text()
    walk.go("plan")
    walk.press("Begin to plan")
    walk.go("result")
    assert REASON in walk.text()
    details = rows_of(next(walk.desk.folder.glob("plans/*/details.csv")))
    assert [details[item][it] for it in ("s_override", "S_override")] == ["7", "77"]


def next_week(walk: Walk, company: str, folder: Path) -> None:
    """Drops the files of the next week, which have other names: they are known, and a plan after the last one is made."""
    walk.go("files")
    kinds, files = sorted(walk.kinds().values()), made(company, folder)
    files = {
        kind: path.rename(path.with_stem(f"{path.stem} of week 2"))
        for kind, path in files.items()
    }
    drop(walk, [*files.values()])
    assert sorted(walk.kinds().values()) == kinds
    assert all("of week 2" in called for called in walk.kinds())
    walk.go("plan")
    assert walk.all("[value=after]")[0].is_selected()
    walk.press("Begin to plan")
    walk.go("plan")
    assert len(walk.all("main h3")) == 2, walk.text()


def tables_in(folder: Path) -> dict[str, list[list[str]]]:
    """Returns the cells of each table that a command has written."""
    return {
        path.name: [*csv.reader(io.StringIO(path.read_text("utf-8")))]
        for path in folder.glob("*.csv")
    }


def downloaded(walk: Walk) -> dict[str, list[list[str]]]:
    """Returns the cells of each table to which the page Today has a link."""
    links = {str(it.get_attribute("href")) for it in walk.all("a[download]")}
    tables = {}
    for link in links:
        name = re.findall(r"/today/([^?]+)", link)[0]
        if name.endswith(".csv"):
            status, text = walk.desk.get(link.removeprefix(f"http://{walk.desk.host}"))
            assert status == 200
            tables[name] = [*csv.reader(io.StringIO(text))]
    return tables


def order(walk: Walk, crnplan: Command, out: Path) -> None:
    """Changes an order of the day, and downloads what is ordered: that is what the command says. Once the order is placed, it is
    suggested no longer."""
    walk.go(f"today?day={MONDAY}")
    (field, *_) = walk.all("input[name=quantity][step]")
    more = int(str(field.get_attribute("value"))) + int(
        str(field.get_attribute("step"))
    )
    label = str(field.get_attribute("aria-label"))
    walk.fill(field, str(more))
    walk.press("Save", "main section form")
    changed = walk.all(f"[aria-label='{label}']")[0]
    assert changed.get_attribute("value") == str(more)
    said = crnplan(*walk.command(), "--out", out)
    assert said.status == 0, said.errors
    files, ours = tables_in(out), downloaded(walk)
    assert len(ours) > 2
    assert {name: files[name] for name in ours} == ours
    item = label.removeprefix("Quantity of ")
    lines = files["today_lines.csv"]
    (row,) = [
        dict(zip(lines[0], cells))
        for cells in lines
        if cells[0] == item or item in cells
    ]
    assert str(more) in row.values()
    walk.press("Mark the ticked ones as placed", "main section form")

    def is_placed() -> bool:
        rows = walk.all("section[aria-labelledby=placed] tbody tr")
        return [item, f"{more:,}"] in [placed.text.split()[1:3] for placed in rows]

    wait_for(lambda: walk.seen(is_placed))
    assert not walk.all(f"input[name=ordered][value='{item}']:checked")


@pytest.fixture
def scriptless(tmp_path: Path) -> Iterator[Browser]:
    """Returns a browser that runs no scripts of pages."""
    (tmp_path / "browser").mkdir()
    started = Browser(tmp_path / "browser", has_scripts=False)
    yield started
    assert started.close() == []


@pytest.fixture
def walked(tmp_path: Path, crnplan: Command, program: Path) -> Walked:
    """Returns a function that walks in a browser from the exports of a company to a plan, goes on from there, and orders."""

    def walked(browser: Browser, company: str, then: Then) -> None:
        with opened(tmp_path / "desk") as front:
            front.desk.keep_words(QUICK)
        desk = Opened(tmp_path, "--program", held(tmp_path, program))
        try:
            desk.enter()
            walk, files = Walk(browser, desk), made(company, tmp_path / "week 1")
            drop(walk, [*files.values()])
            correct(walk, company, files)
            settle(walk, company)
            plan(walk, tmp_path / "hold")
            then(walk, company, tmp_path / "week 2")
            order(walk, crnplan, tmp_path / "orders")
            assert browser.messages == []
        finally:
            desk.close()

    return walked


@pytest.mark.parametrize(
    ("company", "then"), [("wide", override), ("warehouses", next_week)]
)
def test_way_of_a_planner(
    browser: Browser, company: str, then: Then, walked: Walked
) -> None:
    walked(browser, company, then)


def test_way_of_a_planner_without_scripts(scriptless: Browser, walked: Walked) -> None:
    walked(scriptless, "japanese", override)
