"""Tests of the page Today: sums by a loop of their own, tables as the command writes them, and what was placed."""
from __future__ import annotations

import copy
import csv
import html
import io
import re
import shlex
from pathlib import Path
from urllib.parse import parse_qsl, urlsplit

import openpyxl
import pytest

from crnplan.desk import kept, orders as module
from planner.tests.conftest import Command
from planner.tests.desk.conftest import Planner
from planner.tests.desk.today import (
    DAY,
    LEAST,
    NAMES,
    PACK,
    PRICE,
    RUN,
    TAG,
    Button,
    Forms,
    Levels,
    Shown,
    dropped,
    expected,
    levels,
    packed,
    refusal,
    shown,
    stock_of,
    supplier_of,
)

__all__ = ["levels", "shown"]


def test_sums_of_a_loop(planner: Planner, levels: Levels) -> None:
    """Orders, their worth, and what is owed are those of a loop over all items; each line has its supplier's form."""
    orders, shown = expected(levels), Shown(planner)
    assert shown.lines == orders and {*NAMES} < {*orders}
    owed = sum(stock < 0 for stock in stock_of(levels).values())
    worth = f"{float(sum(orders.values()) * PRICE):,.2f}"
    assert shown.cards[:3] == [str(len(orders)), worth, str(owed)]
    for name in NAMES:
        supplier = supplier_of(name)
        own = {other for other in NAMES if len(other) % 2 == len(name) % 2}
        assert {*shown.form(name).values("item")} >= own
        assert (
            f"<bdi>{html.escape(supplier).replace('&#x27;', '&#39;')}</bdi></h3>"
            in shown.text
        )
    german = planner.client.get(
        "/today", query_string={"day": DAY}, headers={"Accept-Language": "de"}
    )
    assert Forms(german.text).forms == shown.forms


def test_worth_of_whole_packs(planner: Planner, levels: Levels) -> None:
    """Each line, each order and each addition is worth the whole packs that are ordered: no order up to S is whole packs by
    itself."""
    orders, text = expected(levels), Shown(planner).text
    lines = re.findall(
        '<input type="hidden" name="item" value="([^"]*)"></th>(.*?)</tr>', text, re.S
    )
    worths = {
        html.unescape(name): re.findall("<td>([0-9,.]+)</td>", cells)[-1]
        for name, cells in lines
    }
    assert worths == {
        name: f"{float(items * PRICE):,.2f}" for name, items in orders.items()
    }
    for name in NAMES[:2]:
        own = [other for other in orders if supplier_of(other) == supplier_of(name)]
        worth = float(sum(orders[other] for other in own) * PRICE)
        assert f": {len(own)} items, worth {worth:,.2f}." in text
    additions = re.findall(
        'name="quantity" value="([0-9]+)"><bdi>.*?: [0-9]+, worth ([0-9,.]+) <', text
    )
    # S of each made item is 18 above s, and the stock 1 above.
    wanted = packed(18 - 1)
    assert {*additions} == {(str(wanted), f"{float(wanted * PRICE):,.2f}")}


def test_files_are_those_of_the_command(
    planner: Planner, shown: Shown, crnplan: Command, tmp_path: Path
) -> None:
    """With quantities and orders that were placed, each file has the cells that the command of the page writes."""
    shown.send(shown.form("<b>bold</b>"), "/today/place")
    shown = Shown(planner)
    shown.send(shown.form("=1+1"), change={"=1+1": "48"}, without="0017")
    shown = Shown(planner)
    (command,) = re.findall("<pre[^>]*>(crnplan.*?)</pre>", shown.text)
    words = shlex.split(html.unescape(command))
    assert {"--placed", "--quantities", "--stock"} < {*words}
    ran = crnplan(*words[1:], "--out", tmp_path / "out")
    assert ran.status == 0, ran.errors
    files = {path.name: path.read_text("utf-8") for path in tmp_path.glob("out/*.csv")}
    named = re.findall(r'href="/today/(\w+[.]csv)', shown.text)
    assert {*named} < {*files} and sum("supplier_" in name for name in named) == 2
    for name, text in files.items():
        answer = planner.get(f"/today/{name}", day=DAY)
        assert answer.headers["Content-Disposition"] == f"attachment; filename={name}"
        assert answer.text == text, name
    rows = [*csv.reader(io.StringIO(files["today_lines.csv"]))]
    ordered = {row[4]: row[8] for row in rows[1:]}
    assert ordered["'=1+1"] == "48" and "0017" not in ordered
    book = planner.get("/today/today_orders.xlsx", day=DAY)
    (sheet, *_) = openpyxl.load_workbook(io.BytesIO(book.data)).worksheets
    cells = [[row[4].value, str(row[8].value)] for row in sheet.iter_rows()]
    assert cells == [[row[4].removeprefix("'"), row[8]] for row in rows]


@pytest.mark.parametrize(
    "name", ["today.txt", "..%2fdesk.json", "today_supplier_009.csv", "\0"]
)
def test_other_files_are_refused(planner: Planner, shown: Shown, name: str) -> None:
    assert planner.get(f"/today/{name}", day=DAY).status_code in (400, 404)


def test_quantities_of_a_planner(planner: Planner, shown: Shown) -> None:
    """Only what is not the plan's own is kept, on its day; a line that is left out keeps the plan's quantity beside it."""
    orders, state = shown.lines, planner.desk.state
    form = shown.form("0017")
    sent = shown.send(form, change={"0017": "36"}, without="=1+1")
    assert (sent.status_code, state.quantities) == (303, {"0017": 36, "=1+1": 0})
    other = Shown(planner)
    del orders["=1+1"]
    assert other.lines == orders | {"0017": 36}
    assert (
        dict(
            zip(
                other.form("=1+1").values("item"), other.form("=1+1").values("quantity")
            )
        )["=1+1"]
        == "30"
    )
    assert Shown(planner, day="2026-11-28").lines.keys() == orders.keys() | {"=1+1"}

    added = other.add("P00010", "12")
    assert added.status_code == 303
    assert Shown(planner).lines == orders | {"0017": 36, "P00010": 12}
    again = Shown(planner)
    again.send(again.form("P00010"), without="P00010")
    assert state.quantities.keys() == {"0017", "=1+1"}
    again.send(Shown(planner).forms[1], "/today/forget")
    assert Shown(planner).lines.keys() == orders.keys() | {"=1+1"}


def test_additions(planner: Planner, shown: Shown) -> None:
    """A supplier below its least value says what lacks and what may be added; a button adds that and keeps all else."""
    form, orders = shown.form("<b>bold</b>"), shown.lines
    lacking = LEAST - sum(orders[name] for name in orders if len(name) % 2) * PRICE
    assert f"This order lacks {float(lacking):,.2f} of the supplier's" in html.unescape(
        shown.text
    )
    may_be = [name for name in form.values("item") if name not in orders]
    assert may_be and {name[0] for name in may_be} == {"P"}
    more = ("ordered", may_be[0])
    sent = shown.send(form, "", {"<b>bold</b>": "36"}, more)
    assert sent.status_code == 303
    after = Shown(planner).lines
    # S of each made item is 18 above s, which is three packs.
    assert after == orders | {"<b>bold</b>": 36, may_be[0]: 18}


@pytest.mark.parametrize(
    "text, said",
    [
        ("50", "50 of 0017 is not in packs of 6; write 48 or 54"),
        ("-1", "-1 of 0017 is below 0; write 0 or 6"),
        ("1.5", "1.5 of 0017 is not in packs of 6; write 0 or 6"),
        ("", "0017: '' is no number; write digits, as 12"),
        ("1e999999999", "is no number"),
        ("6e300", "is not a number; write digits"),
    ],
)
def test_wrong_quantities(planner: Planner, shown: Shown, text: str, said: str) -> None:
    """A quantity that is no whole packs is refused with those beside it, and all is as before."""
    shown.send(shown.form("=1+1"), change={"=1+1": "48"})
    shown = Shown(planner)
    before = copy.deepcopy(planner.desk.state)
    sent = shown.send(shown.form("0017"), change={"0017": text, "=1+1": "36"})
    assert said in refusal(sent)
    assert planner.desk.state == before
    assert Shown(planner).forms == shown.forms
    table = planner.desk.path / kept.QUANTITIES
    assert table.read_text("utf-8-sig") == "item,quantity\n=1+1,48\n"


def test_unknown_items_are_refused(planner: Planner, shown: Shown) -> None:
    """Neither an item that is not in the plan, nor packs that are wrong, are added."""
    for item, amount, said in (
        (TAG, "6", f"{TAG}: no item of this name"),
        ("P00010", "7", "7 of P00010 is not in packs of 6; write 6 or 12"),
    ):
        assert said in refusal(shown.add(item, amount))
    assert Shown(planner).forms == shown.forms
    assert planner.post("/today/other", dict(shown.forms[1].fields)).status_code == 405
    for query in (
        {"day": "x"},
        {"day": "9999-12-31"},
        {"supplier": TAG},
        {"first": "-1"},
    ):
        assert planner.get("/today", **{"day": DAY, **query}).status_code == 400


def test_placed_is_suggested_no_longer(planner: Planner, shown: Shown) -> None:
    """What was placed is not ordered again on this day, also if it was less than the plan says; what is taken back is, and
    what was received is, as it counts no longer."""
    orders, own = shown.lines, shown.form("0017").values("item")
    less, left, last = own
    shown.send(shown.form("0017"), "/today/place", {less: "6"}, without=left)
    assert [(it.item, it.quantity) for it in planner.desk.state.placed] == [
        (less, 6),
        (last, 30),
    ]
    (number,) = {order.number for order in planner.desk.state.placed}
    assert re.fullmatch("20261127-[0-9]{3}", number)
    assert Shown(planner).lines == {
        name: orders[name] for name in orders.keys() - {*own}
    }
    tomorrow = Shown(planner, day="2026-11-28").lines
    assert tomorrow[less] == orders[less] - 6
    for order, way in zip([*planner.desk.state.placed], ("back", "received")):
        other = Shown(planner)
        other.send(other.ending(), "", None, ("order", order.key), ("way", way))
    assert Shown(planner).lines == {
        name: orders[name] for name in orders.keys() - {left}
    }


@pytest.mark.parametrize("more", [0, 2 * PACK])
@pytest.mark.parametrize("is_saved", [False, True])
def test_no_less_than_the_plan_says_is_placed_once(
    planner: Planner, shown: Shown, more: int, is_saved: bool
) -> None:
    """What was placed is not suggested again, nor placed with all orders, if it was as much as the plan says or more."""
    orders = shown.lines
    quantity = orders["0017"] + more
    if is_saved:
        shown.send(shown.form("0017"), change={"0017": str(quantity)})
        shown = Shown(planner)
    shown.send(shown.form("0017"), "/today/place", {"0017": str(quantity)})
    own, other = {*shown.form("0017").values("item")}, Shown(planner)
    assert other.lines == {name: orders[name] for name in orders.keys() - own}
    other.press("Mark all orders as placed")
    placed = [(it.item, it.quantity) for it in planner.desk.state.placed]
    assert sorted(placed) == sorted((orders | {"0017": quantity}).items())
    assert Shown(planner).lines == {}


def test_what_did_not_come_stays_on_order(planner: Planner, shown: Shown) -> None:
    """Of 30 placed items 12 came: 18 stay, and all of them if none came. What is not ticked stays whole, and more than was
    placed can't come."""
    shown.send(shown.form("0017"), "/today/place")
    placed = [*planner.desk.state.placed]
    (order,) = (it for it in placed if it.item == "0017")
    for came, rest in (("31", 30), ("0", 30), ("12", 18), ("", 0)):
        form = Shown(planner).ending()
        fields = [(name, value) for name, value in form.fields if "came" not in name]
        fields += [(f"came {order.key}", came), ("order", order.key)]
        form = form._replace(fields=[*fields, ("way", "received")])
        sent = Shown(planner).send(form)
        assert sent.status_code == (400 if came == "31" else 303)
        left = {it.item: it.quantity for it in planner.desk.state.placed}
        assert left.get("0017", 0) == rest
        assert left.keys() >= {it.item for it in placed} - {"0017"}


def test_what_was_typed_is_shown_again(shown: Shown) -> None:
    """A form that is refused is shown with its quantities beside those that are kept."""
    sent = shown.send(shown.form("0017"), change={"0017": "50"}, without="=1+1")
    assert "50 of 0017 is not in packs of 6" in refusal(sent)
    for name, typed in (("0017", 50), ("=1+1", 0)):
        assert f"<li><bdi>{name}</bdi>: you typed {typed}</li>" in sent.text
    assert len(re.findall('<span class="warn small">you typed', sent.text)) == 2


def test_buttons_of_quantities(planner: Planner, shown: Shown) -> None:
    """Each button is pressed by its text: it keeps the quantities of its own form, or those of the plan again."""
    one, more = "0017", "<b>bold</b>"
    state = shown.press("Save", one, {one: "36"})
    assert (state.quantities, state.placed) == ({one: 36}, [])
    state = Shown(planner).press("Go back to the plan's quantities")
    assert (state.quantities, state.placed) == ({}, [])
    offered = [it for it in shown.form(more).values("item") if it not in shown.lines]
    state = Shown(planner).press("Add", more)
    # S of each made item is 18 above s, which is three packs.
    assert (state.quantities, state.placed) == ({offered[0]: 18}, [])
    (form,) = [form for form in shown.forms if form.values("alone")]
    assert form.buttons == [Button("/today/save", "", "")]


def test_buttons_of_orders(planner: Planner, shown: Shown) -> None:
    """Each button is pressed by its text: it places the lines of its own form, or all orders, or ends one that is ticked."""
    orders = shown.lines
    less, back, filed = shown.form("0017").values("item")
    state = shown.press("Mark the ticked ones as placed", less, {less: "6"})
    own = {less: 6, back: orders[back], filed: orders[filed]}
    assert {it.item: it.quantity for it in state.placed} == own
    state = Shown(planner).press("Mark all orders as placed")
    assert {it.item: it.quantity for it in state.placed} == orders | own
    keys = {it.item: it.key for it in state.placed}
    # Less than the plan says was placed on this day: the rest is not suggested, also once that is received.
    Shown(planner).press("Received", "", None, ("order", keys[less]))
    assert Shown(planner).lines == {}
    Shown(planner).press("Take back", "", None, ("order", keys[back]))
    assert Shown(planner).lines == {back: orders[back]}
    dropped(planner, "on_order", {filed: orders[filed]})
    state = Shown(planner).press("Take what is or was in a file off this list")
    assert {it.item for it in state.placed} == orders.keys() - {less, back, filed}


def test_two_browsers(planner: Planner, shown: Shown) -> None:
    """What one planner does, the other sees; what the other sends by a page of before is refused."""
    other = Shown(Planner(planner.front, "de"))
    assert shown.send(shown.form("0017"), "/today/place").status_code == 303
    for to in ("/today/place", "/today/save"):
        sent = other.send(other.form("0017"), to)
        assert "The orders have changed since this page was shown" in refusal(sent)
        assert "von Ihnen eingegeben: 30" in sent.text
    assert len(planner.desk.state.placed) == 3
    assert Shown(other.planner).lines == Shown(planner).lines


def test_what_counts_is_said(planner: Planner, levels: Levels) -> None:
    """Without files that is said, with a link to Files, and without any stock nothing else is shown; a file that is older
    than the day is named."""
    dropped(planner, "on_order", {"0017": 99})
    shown_now, old = Shown(planner).text, Shown(planner, day="2099-01-01")
    assert old.text.count("is there a newer one?") == 2 and "0017" not in old.lines
    assert (
        old.text.count('<li class="warn">') == 2 > shown_now.count('<li class="warn">')
    )
    for file in [*planner.desk.state.files]:
        planner.desk.remove_file(file.name)
    bare = Shown(planner)
    assert (
        "The stock of the masters counts" in bare.text and 'href="/files"' in bare.text
    )
    assert "Nothing counts as on order but" in bare.text
    assert "no item has a stock in its masters" in bare.text and not bare.cards
    assert len(bare.forms) == 2


def test_quantities_that_no_longer_fit(planner: Planner, shown: Shown) -> None:
    """If a new plan has other packs, the page says what does not fit, and leads back to the plan's quantities."""
    shown.send(shown.form("0017"), change={"0017": "36"})
    planner.desk.state.quantities["0017"] = 37
    bare = Shown(planner)
    assert "37 of 0017 is not in packs of 6; write 36 or 42" in bare.text
    (form,) = [form for form in bare.forms if form.action == "/today/forget"]
    assert bare.send(form).status_code == 303
    assert Shown(planner).lines == shown.lines


def test_many_lines_are_shown_in_parts(
    planner: Planner, shown: Shown, monkeypatch: pytest.MonkeyPatch
) -> None:
    """Each line is on one part, and in the list of one supplier; a form goes back to its supplier."""
    orders = shown.lines
    monkeypatch.setattr(module, "MOST_LINES", 4)
    parts = [Shown(planner, first=first).lines for first in (0, 4, 8)]
    assert sum(map(len, parts)) == len(orders) and parts[2] == {}
    assert parts[0] | parts[1] == orders
    links = re.findall('supplier=([0-9-]+)"', Shown(planner).text)
    own = [Shown(planner, supplier=number) for number in links]
    assert sum(len(page.lines) for page in own) == len(orders) and len(own) == 3
    sent = own[0].send(own[0].form(next(iter(own[0].lines))), "/today/place")
    query = dict(parse_qsl(urlsplit(sent.location).query))
    assert query == {"day": DAY, "supplier": links[0]}


def test_hostile_names_are_texts(planner: Planner, shown: Shown) -> None:
    """No name becomes a tag or a formula, and what turns the direction of writing ends with its name."""
    assert TAG not in shown.text and "<b>bold</b>" not in shown.text
    assert shown.text.count("\u202e") > 3
    visible = re.sub('(value|aria-label)="[^"]*"', "", shown.text).split("<details")[0]
    assert visible.count("\u202e") == visible.count("<bdi>\u202e")
    table = planner.get("/today/today_orders.csv", day=DAY).text
    assert "\n'=1+1," in table and f",'{RUN}," in table
