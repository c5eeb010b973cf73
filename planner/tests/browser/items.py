"""The table of items on the page of a catalogue, as a reader uses it."""
from __future__ import annotations

import re
from collections.abc import Sequence
from decimal import Decimal

from selenium.webdriver.common.by import By
from selenium.webdriver.remote.webelement import WebElement
from selenium.webdriver.support.ui import Select

from planner.tests.browser.browser import Browser
from planner.tests.show.page_reader import Row

# A text that Python puts into the same order as the collation of Unicode: it begins with a letter of ASCII.
PLAIN = re.compile(r"[A-Za-z][ -~]*")
# A row that comes into view has its texts after the next frame.
SHOWN = """
const shown = () => [...document.querySelectorAll("#items tbody tr")].filter((it) => it.checkVisibility())
    .map((row) => [...row.cells].map((it) => it.innerText));
return new Promise((done) => requestAnimationFrame(() => requestAnimationFrame(() => done(shown()))));
"""


def order_of(text: str) -> list[str | int]:
    """Returns what orders a plain text: numbers in it by their value, and letters without their case."""
    return [
        int(it) if it.isdigit() else it.casefold() for it in re.split(r"(\d+)", text)
    ]


def is_number(text: str) -> bool:
    return re.fullmatch(r"-?\d+(\.\d+)?", text) is not None


def in_order(cells: Sequence[str], descends: bool) -> list[str]:
    """Returns the cells of a column as a click must order them: numbers by their value, empty cells last."""
    filled = [it for it in cells if it]
    if all(map(is_number, filled)):
        ordered = sorted(filled, key=Decimal, reverse=descends)
    else:
        ordered = sorted(
            (it for it in filled if PLAIN.fullmatch(it)), key=order_of, reverse=descends
        )
    return ordered + [""] * (len(cells) - len(filled))


class Items:
    """The table of the page that the browser shows."""

    def __init__(self, browser: Browser) -> None:
        """Takes the page that is shown."""
        self.browser, self.driver = browser, browser.driver
        self.columns: list[str] = browser.run(
            "return [...document.querySelectorAll('#items thead th')].map((it) => it.dataset.name);"
        )

    def button(self, column: str) -> WebElement:
        return self.driver.find_element(
            By.CSS_SELECTOR, f"#items thead th[data-name='{column}'] button"
        )

    def orders(self) -> dict[str, str]:
        """Returns the order that each heading says it has, if it says one."""
        orders = self.browser.run(
            "return [...document.querySelectorAll('#items thead th')].map((it) => it.ariaSort);"
        )
        return {column: order for column, order in zip(self.columns, orders) if order}

    def shown(self) -> list[Row]:
        """Returns the rows that are shown, as a reader sees their texts, in their order."""
        return [dict(zip(self.columns, row)) for row in self.browser.run(SHOWN)]

    def count(self) -> str:
        """Returns what the page says of the number of rows that are shown."""
        return self.driver.find_element(By.ID, "count").text

    def search(self, text: str) -> None:
        field = self.driver.find_element(By.ID, "words")
        field.clear()
        field.send_keys(text)

    def choose(self, field: str, value: str) -> None:
        Select(self.driver.find_element(By.ID, field)).select_by_value(value)
