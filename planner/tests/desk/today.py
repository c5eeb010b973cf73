"""The page Today as a planner sees it, of a made plan with hostile names, whose stock says what is to be ordered."""
from __future__ import annotations

import csv
import html
import io
import math
import random
import re
from collections import defaultdict
from collections.abc import Mapping
from dataclasses import replace
from fractions import Fraction
from html.parser import HTMLParser
from typing import Any, NamedTuple

import pytest
from werkzeug.test import TestResponse

import crnplan as crn
from crnplan.desk.kept import State
from crnplan.read.bounds import OrderBounds
from planner.tests.desk.conftest import MADE_PLAN, Planner, add_made_plan
from planner.tests.show import made_catalogue

DAY, ITEMS, OWED = MADE_PLAN, 18, "P00008"
PACK, PRICE, LEAST = 6, Fraction(5, 2), 900
RUN, TAG, TURNED = "=cmd|'/C calc'!A0", "<script>alert(1)</script>", "\u202egnp & Co"
SUPPLIERS = RUN, TAG, TURNED
NAMES = "=1+1", "<b>bold</b>", "\u202etxt.exe", "a\"b'c", "0017", "x,y;z", "{{7*7}}"
made_pair = made_catalogue.made_pair
Levels = dict[str, tuple[int, int]]


def supplied(source: random.Random, name: str) -> made_catalogue.Pair:
    """Returns a made item in packs of one of the suppliers, of which the second has a least value."""
    item, answer = made_pair(source, name)
    place = 1 if name[-1] in "1357" else 2
    supplier = SUPPLIERS[len(name) % 2 if name in NAMES else place]
    least = Fraction(LEAST) if supplier == TAG else None
    more = {"supplier": supplier, "supplier_min": least, "price": PRICE}
    return replace(item, bounds=OrderBounds(PACK), **more), answer


class Button(NamedTuple):
    """A button of a form: where it sends the form, and its own field."""

    to: str
    name: str
    value: str


def supplier_of(name: str) -> str:
    """Returns the supplier of a made item."""
    return supplied(random.Random(1), name)[0].supplier


class Form(NamedTuple):
    """A form of a page: where it is sent to, its fields in their order, and its buttons."""

    action: str
    fields: list[tuple[str, str]]
    buttons: list[Button]

    def values(self, name: str) -> list[str]:
        """Returns the values of the fields of a name."""
        return [value for own, value in self.fields if own == name]


class Forms(HTMLParser):
    """Reads the forms of a page as a browser sends them, with no button, and the texts of all buttons."""

    def __init__(self, text: str) -> None:
        super().__init__()
        self.forms, self.texts = list[Form](), list[str]()
        self.is_in_button = False
        self.feed(text)
        self.close()

    def handle_starttag(self, tag: str, attrs: list[tuple[str, str | None]]) -> None:
        its = {name: value or "" for name, value in attrs}
        if tag == "form":
            self.forms.append(Form(its["action"], [], []))
        is_sent = its.get("type") != "checkbox" or "checked" in its
        if tag == "input" and is_sent:
            self.forms[-1].fields.append((its["name"], its.get("value", "")))
        self.is_in_button = tag == "button"
        if self.is_in_button:
            own = its.get("name", ""), its.get("value", "")
            to = its.get("formaction", self.forms[-1].action)
            self.forms[-1].buttons.append(Button(to, *own))

    def handle_data(self, data: str) -> None:
        if self.is_in_button:
            self.texts.append(data)
        self.is_in_button = False


class Shown:
    """The page as a planner sees it."""

    def __init__(self, planner: Planner, **query: Any) -> None:
        self.planner = planner
        self.answer = planner.get("/today", **{"day": DAY, **query})
        assert self.answer.status_code == 200, self.answer.text
        self.text = self.answer.text
        read = Forms(self.text)
        self.forms = read.forms
        buttons = [(form, it) for form in read.forms for it in form.buttons]
        self.buttons = [*zip(read.texts, buttons, strict=True)]

    @property
    def cards(self) -> list[str]:
        """Returns the sums at the top."""
        return re.findall('<li class="card.*?"><b>(.*?)</b>', self.text)

    @property
    def lines(self) -> dict[str, int]:
        """Returns the quantities of items with a tick."""
        lines = dict[str, int]()
        for form in self.forms:
            amounts = zip(form.values("item"), form.values("quantity"))
            ticked = form.values("ordered")
            lines |= {item: int(text) for item, text in amounts if item in ticked}
        return lines

    def form(self, item: str) -> Form:
        """Returns the form with an item."""
        return next(form for form in self.forms if item in form.values("item"))

    def ending(self) -> Form:
        """Returns the form of what was placed."""
        return next(form for form in self.forms if form.action == "/today/end")

    def add(self, item: str, amount: str) -> TestResponse:
        """Sends the form for any item."""
        form = next(form for form in self.forms if form.values("alone"))
        fields = {**dict(form.fields), "item": item, "quantity": amount}
        return self.planner.post(form.action, fields)

    def send(
        self,
        form: Form,
        to: str = "",
        change: Mapping[str, str] | None = None,
        *more: tuple[str, str],
        without: str = "",
    ) -> TestResponse:
        """Sends a form, perhaps where one of its buttons does, with other quantities of items, more fields, and an item without
        a tick."""
        assert to == "" or to in [it.to for it in form.buttons]
        fields, item = defaultdict[str, list[str]](list), ""
        for name, value in [*form.fields, *more]:
            if name == "item":
                item = value
            if name == "quantity":
                value = (change or {}).get(item, value)
            if (name, value) != ("ordered", without):
                fields[name].append(value)
        return self.planner.post(to or form.action, dict(fields))

    def press(
        self,
        text: str,
        item: str = "",
        change: Mapping[str, str] | None = None,
        *more: tuple[str, str],
    ) -> State:
        """Presses the first button with a text, of the form with an item, and returns what the desk then keeps."""
        form, button = next(
            (form, button)
            for said, (form, button) in self.buttons
            if said == text and (not item or item in form.values("item"))
        )
        own = [(button.name, button.value)] if button.name else []
        assert self.send(form, button.to, change, *more, *own).status_code == 303
        return self.planner.desk.state


def refusal(answer: TestResponse) -> str:
    """Returns what is said of a form that was refused."""
    assert answer.status_code == 400, answer.text
    return html.unescape(answer.text)


def table_of(amount: str, rows: Mapping[str, object]) -> io.BytesIO:
    """Returns a file with a row for each item."""
    text = io.StringIO()
    csv.writer(text).writerows([["item", amount], *rows.items()])
    return io.BytesIO(text.getvalue().encode())


def dropped(planner: Planner, kind: str, rows: Mapping[str, object]) -> None:
    """Has the desk keep a file of today."""
    data = table_of("stock" if kind == "stock" else "quantity", rows)
    file = planner.desk.add_file(f"{TAG}.csv", data)
    planner.desk.set_file(file.name, kind, "")


@pytest.fixture
def levels(
    planner: Planner, monkeypatch: pytest.MonkeyPatch
) -> dict[str, tuple[int, int]]:
    """Returns s and S of the items of a plan of which the first ones, with hostile names, are below s, and of
    one more some are owed."""
    monkeypatch.setattr(made_catalogue, "made_pair", supplied)
    path = add_made_plan(planner.front, ITEMS, names=NAMES, has_curve=False)
    table = crn.open_plan(path).decisions.set_index("item")
    levels = {
        name: (int(row.s_chosen), int(row.S_chosen)) for name, row in table.iterrows()
    }
    dropped(planner, "stock", stock_of(levels))
    return levels


def stock_of(levels: Mapping[str, tuple[int, int]]) -> dict[str, int]:
    """Returns the stock of items: that of each hostile name is 10 below s, that of others 1 above, and some of one item are
    owed."""
    stock = {
        name: s - 10 if name in NAMES else s + 1 for name, (s, _) in levels.items()
    }
    return stock | {OWED: -2}


def packed(amount: float) -> int:
    """Returns an amount in whole packs."""
    return math.ceil(amount / PACK) * PACK


def expected(levels: Mapping[str, tuple[int, int]]) -> dict[str, int]:
    """Returns what is to be ordered by a loop over all items."""
    orders = {}
    for name, stock in stock_of(levels).items():
        s, S = levels[name]
        if stock < s:
            orders[name] = packed(S - stock)
    return orders


@pytest.fixture
def shown(planner: Planner, levels: Levels) -> Shown:
    """Returns the page of the plan and its stock."""
    return Shown(planner)
