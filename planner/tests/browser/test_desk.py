"""Tests the pages of the desk in a browser: what each must hold in each form, and the way of a planner through them."""
from __future__ import annotations

import csv
import datetime
import html
import itertools
import re
from collections.abc import Callable, Iterable, Iterator
from pathlib import Path
from urllib.parse import urlsplit

import pytest

from crnplan.desk.kept import PLANS, Begun, DeskOverride, Placed
from crnplan.desk.work import PLANNING
from planner.tests.browser.browser import Browser, Form
from planner.tests.browser.conftest import HOSTILE, MARKUP
from planner.tests.browser.rules import RULES, faults_of
from planner.tests.conftest import shared
from planner.tests.desk.conftest import (
    MADE_PLAN,
    QUICK,
    add_export,
    opened,
    wait_for,
)
from planner.tests.desk.monday import warehouses
from planner.tests.desk.opened import Opened

FORMS = [Form(width, scheme) for scheme in ("light", "dark") for width in (1200, 390)]
# Rules of pages that are files: the policy of the desk is in the head of its answers, and it loads its style and script.
OF_FILES = "policy", "requests"
# What a page links to that is no page of the desk: tables, workbooks, and the whole page of a plan.
FILES = re.compile(r"\.(csv|xlsx|html|json|zip)$")
MOST_ALIKE = 2  # pages that differ by the values of their query alone
REFUSED = "the server responded with a status of 400"  # which a console says
pytestmark = pytest.mark.timeout(600)
Check = Callable[[Iterable[tuple[str, object]]], None]


def planned(folder: Path, program: Path) -> None:
    """Makes a desk that has all that its pages show: files, a plan, what was set and placed by a planner."""
    with opened(folder / "desk", program) as front:
        export, desk = warehouses(folder), front.desk
        add_export(front, export)
        for kind, name in (("stock", "stock.csv"), ("on_order", "open.csv")):
            with (folder / name).open("rb") as data:
                file = desk.add_file(name, data)
            desk.set_file(file.name, kind, "")
        front.read()
        wait_for(lambda: front.work is None)
        changed = desk.state.changed
        front.begin(Begun(PLANNING, f"{PLANS}/{MADE_PLAN}", changed=changed))
        wait_for(lambda: front.work is None)
        assert desk.state.said == [] and desk.state.plans == [MADE_PLAN]
        with desk.changing() as state:
            state.overrides["P-001"] = DeskOverride(
                "P-001", 3, 9, reason="<b>shelf</b>"
            )
            state.placed.append(Placed("P-002", 6, "1", "2026-11-27 08:00:00"))


@pytest.fixture
def desk(tmp_path_factory: pytest.TempPathFactory, program: Path) -> Iterator[Opened]:
    """Returns a desk that has a plan, in a process of its own."""
    made = shared(tmp_path_factory, "desk", lambda folder: planned(folder, program))
    desk = Opened(made, "--program", program)
    desk.enter()
    yield desk
    desk.close()


def pages_of(desk: Opened) -> list[str]:
    """Returns the addresses of all pages to which links lead from the first one, few of those that are alike."""
    found, waiting = dict[str, int](), ["/files"]
    pages = list[str]()
    while waiting:
        page = waiting.pop(0)
        parts = urlsplit(page)
        is_known = page in pages or found.get(parts.path, 0) >= MOST_ALIKE
        if is_known or FILES.search(parts.path):
            continue
        found[parts.path] = found.get(parts.path, 0) + 1
        pages.append(page)
        status, text = desk.get(page)
        assert status == 200, page
        links = re.findall(r'href="(/[^"#]*)', text)
        waiting += [link.replace("&amp;", "&") for link in links if link != "/icon.svg"]
    return [page for page in pages if not page.endswith(".css")]


def address(desk: Opened, page: str) -> str:
    return f"http://{desk.host}{page}"


def show(browser: Browser, address: str) -> None:
    """Shows a page, with the pictures that its script loads."""
    browser.visit(address)
    drawn = "return document.getElementById('draw') === null;"
    wait_for(lambda: bool(browser.run(drawn)))


def leaving(browser: Browser, desk: Opened) -> list[str]:
    """Returns the requests of the page that go to anything but the desk. A browser draws its own fields by data."""
    others = [it for it in browser.requests if not it.startswith("data:")]
    return [it for it in others if urlsplit(it).netloc != desk.host]


def faults(browser: Browser, desk: Opened, form: Form) -> list[str]:
    """Returns the faults of the page that is shown."""
    rules = [rule for rule in RULES if rule not in OF_FILES]
    if form.scheme == "dark":
        rules = ["console", "contrast", *["keyboard"] * (form.width > 390)]
    left = [f"requests: {it}" for it in leaving(browser, desk)]
    return [*faults_of(browser, *rules), *left]


def test_pages_have_no_fault(browser: Browser, desk: Opened, check_all: Check) -> None:
    """Each page has labels, names, headings and contrasts, is reached by Tab, and does not run over its side."""
    pages = pages_of(desk)
    assert {urlsplit(page).path for page in pages} >= {"/files", "/settings", "/plan"}
    browser.visit(desk.address)

    def judged() -> Iterator[tuple[str, object]]:
        for page in pages:
            show(browser, address(desk, page))
            for form in FORMS:
                browser.show(form)
                found = faults(browser, desk, form)
                yield f"{page} {form}", "; ".join(found) or True

    check_all(judged())


def hostile(folder: Path, program: Path) -> None:
    """Makes a desk whose files have markup in each text: names of items, suppliers, files, columns and settings."""
    with opened(folder / "desk", program) as front:
        desk, start = front.desk, datetime.date(2026, 1, 5)
        days = [start + datetime.timedelta(weeks=week) for week in range(40)]
        sales = [
            (name, day, place % 4) for name in HOSTILE for place, day in enumerate(days)
        ]
        supplied = [
            (name, f"{MARKUP} {name}", f"{MARKUP}{place % 2}", 45, 0.6, 9, 2, 6, 20)
            for place, name in enumerate(HOSTILE)
        ]
        heading = "item description supplier setup holding backlog".split()
        tables = {
            "demand": [("item", "date", "quantity"), *sales],
            "items": [(*heading, "lead (weeks)", "s", "S"), *supplied],
            "stock": [
                ("item", "stock", MARKUP),
                *((name, 0, MARKUP) for name in HOSTILE),
            ],
        }
        for kind, rows in tables.items():
            path = folder / f"{kind}.csv"
            with path.open("w", encoding="utf-8", newline="") as file:
                csv.writer(file).writerows(rows)
            with path.open("rb") as data:
                dropped = desk.add_file(f"{MARKUP}{kind}.csv", data)
            desk.set_file(dropped.name, kind, "")
        desk.keep_words({**QUICK, "currency": "EUR"})
        front.read()
        wait_for(lambda: front.work is None)
        changed = desk.state.changed
        front.begin(Begun(PLANNING, f"{PLANS}/{MADE_PLAN}", changed=changed))
        wait_for(lambda: front.work is None)
        assert desk.state.said == [] and desk.state.plans == [MADE_PLAN]
        with desk.changing() as state:
            state.overrides[MARKUP] = DeskOverride(MARKUP, 3, 9, reason=MARKUP)
            state.placed.append(Placed(MARKUP, 6, MARKUP, "2026-11-27 08:00:00"))


def send_markup(browser: Browser, page: str, place: int) -> bool:
    """Fills each field of a form of a page with markup, and sends it as a browser would. Returns whether there is one."""
    browser.driver.get(page)
    fills = """const forms = [...document.querySelectorAll("main form")];
        const form = forms[arguments[0]];
        if (!form) return false;
        for (const field of form.querySelectorAll("input:not([type=hidden], [type=file], [type=radio]), textarea")) {
          field.type = "text";
          field.value = arguments[1];
        }
        form.noValidate = true;
        form.requestSubmit(form.querySelector("button"));
        return true;"""
    return bool(browser.run(fills, place, MARKUP))


def test_markup_stays_text(
    browser: Browser,
    tmp_path_factory: pytest.TempPathFactory,
    program: Path,
    check_all: Check,
) -> None:
    """Markup in files and in each field of each form runs no script, asks for nothing, and is shown as it is written."""
    made = shared(tmp_path_factory, "markup", lambda folder: hostile(folder, program))
    desk = Opened(made, "--program", program)
    desk.enter()
    browser.visit(desk.address)

    def is_text(what: str) -> tuple[str, object]:
        found = browser.run("return document.querySelectorAll('img[src=x]').length;")
        said = [it for it in browser.messages if REFUSED not in it]
        faults = [*said, *leaving(browser, desk)]
        return what, not found and not faults or f"{found} elements, {faults}"

    def judged() -> Iterator[tuple[str, object]]:
        pages = pages_of(desk)
        assert any("/item" in page for page in pages)
        for page in pages:
            show(browser, address(desk, page))
            yield is_text(page)
            if page in ("/files", "/result", "/today"):
                assert html.escape(MARKUP) in desk.get(page)[1], page
        # Forms of the last pages change what the first ones show, and those of the first remove files.
        for page in reversed(pages):
            for place in itertools.count():
                if not send_markup(browser, address(desk, page), place):
                    break
                wait_for(
                    lambda: bool(browser.run("return document.querySelector('h1');"))
                )
                yield is_text(f"{page}, form {place}")

    try:
        check_all(judged())
    finally:
        desk.close()
