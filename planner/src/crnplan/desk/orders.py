"""The page Today of the desk: what to order by the last plan, supplier by supplier, and what was placed."""
from __future__ import annotations

import datetime
from collections.abc import Mapping, Sequence
from dataclasses import replace
from itertools import groupby
from typing import Any, NamedTuple

from flask import Blueprint, Response, redirect, request, send_file, url_for
from werkzeug.datastructures import MultiDict
from werkzeug.wrappers import Response as Redirect

from ..errors import CrnplanError, Refused
from ..read.observed import stated_day
from ..read.quantities import quantity_of
from ..read.stock import EXPORTED, ON_ORDER, STOCK
from ..show.today_tables import OrdersToday, rows_of
from ..store.digests import digest_of
from .front import (
    PREPARED,
    Front,
    command_of,
    front,
    page,
    table_to_download,
    whole_of,
)
from .kept import PLACED, QUANTITIES, UNKNOWN, Placed, now
from .today_files import DAY, TodayFiles, last_plan, today_files

pages = Blueprint("orders", __name__)
ORDERS = "orders"  # what the front keeps of them
HEADING = "item", "quantity"
BOOK = "today_orders.xlsx"
MOST, MOST_LINES = 1_000_000, 200  # lines of all orders, and of a table of the page
NOTHING: Mapping[str, str] = {}


class OldStock(Refused):
    """A stock that is older than the open orders, and of which nobody has said that it counts."""


class ShownOrders(NamedTuple):
    """What the last plan says on a day: a sign of all that this depends on, the tables of the day, and the orders."""

    sign: str
    tables: dict[str, str | None]
    orders: OrdersToday

    def prepare(self) -> None:
        """Computes what the page has first."""
        self.orders.text
        self.orders.tables["groups"]
        rows_of(self.orders, self.orders.today.lines_of("")[:MOST_LINES])


def asked_day() -> str:
    """Returns the day that a page or a form names, by default today."""
    day = request.values.get("day") or datetime.date.today()
    return str(stated_day("date", day))


def first_of(name: str) -> int:
    """Returns from which line on a table of the page is asked for."""
    return whole_of(name, 0, MOST) or 0


def parts_of(lines: Sequence[object]) -> range:
    """Returns the first line of each part of a table of the page."""
    return range(0, len(lines), MOST_LINES)


def coming(own: Front) -> list[Placed]:
    """Returns what was placed and counts as on order: if the open orders do not have it."""
    placed = own.desk.state.placed
    named = {*today_files(own).named(placed)}
    return [it for it in placed if it not in named]


def check_stock(own: Front, files: TodayFiles) -> None:
    """Raises OldStock if the stock is older than the open orders, and its planner has not said that it counts."""
    if files.is_old and own.desk.state.agreed != names_of_files(own):
        stock, orders = files.days[STOCK], files.days[ON_ORDER]
        raise OldStock(
            f"the stock is of {stock}, and the open orders are of {orders}: what came between them would be ordered again",
            "drop the stock of that day on the page Files, or say on the page Today that this one counts",
        )


def names_of_files(own: Front) -> str:
    """Returns the names of the files of today."""
    files = [*today_files(own).stock_files, *own.desk.files_of(ON_ORDER)]
    return " ".join(file.name for file in files)


def shown_on(own: Front, day: str) -> ShownOrders:
    """Returns what the last plan says on a day. No orders are changed meanwhile."""
    desk = own.desk
    with own.orders:
        files = today_files(own)
        check_stock(own, files)
        state, placed = desk.state, [(it.item, it.quantity) for it in coming(own)]
        quantities = [*state.quantities.items()] if state.day == day else []
        sign = digest_of(own.version(""), day, state.changed, placed, quantities)

        def made() -> ShownOrders:
            own.known.pop(ORDERS, None)  # Its tables are written anew.
            with desk.lock:
                tables = {
                    **files.tables,
                    "placed": desk.table(PLACED, HEADING, placed),
                    "quantities": desk.table(QUANTITIES, HEADING, quantities),
                }
            return ShownOrders(sign, tables, last_plan(own).days.orders(tables, day))

        return own.once(ORDERS, sign, made)


PREPARED.append(lambda own: shown_on(own, str(datetime.date.today())).prepare())


def counting(own: Front) -> dict[str, Any]:
    """Returns what the page shows of the files that count, and of the plan: of which day each is."""
    with own.orders:
        counts, last = today_files(own), last_plan(own)
    files = {
        STOCK: counts.stock_files,
        ON_ORDER: own.desk.files_of(ON_ORDER),
        UNKNOWN: own.desk.files_of(UNKNOWN),
    }
    plan = own.plan().path.name
    return {"counts": counts, "last": last, "plan": plan, "files": files}


def placed_on(own: Front) -> dict[str, Any]:
    """Returns what the page shows of the orders that were placed: those that count first."""
    counted, first = {*coming(own)}, first_of("placed")
    placed = sorted(own.desk.state.placed, key=lambda order: order not in counted)
    return {
        "coming": counted,
        "placed": placed[first : first + MOST_LINES],
        "from_placed": first,
        "parts_placed": parts_of(placed),
    }


@pages.get("/today")
def today(refused: str = "", typed: Mapping[str, str] = NOTHING) -> str:
    """Returns the page, perhaps with why a form was refused, and with its quantities by item."""
    own, day = front(), asked_day()
    desk = own.desk
    facts: dict[str, Any] = {
        "refused": refused,
        "typed": typed,
        "day": day,
        "files": {kind: desk.files_of(kind) for kind in (*EXPORTED, UNKNOWN)},
        "masters": desk.files_of("items"),
        "letters": DAY,
    }
    try:
        facts |= counting(own)
        sign, tables, orders = shown_on(own, day)
        facts |= placed_on(own)
    except OldStock:
        return page("today.html", said=[], agrees=names_of_files(own), **facts)
    except CrnplanError as why:
        return page("today.html", said=str(why).splitlines(), **facts)
    number, first = request.values.get("supplier", ""), first_of("first")
    lines = orders.today.lines_of(number)
    some, plan = lines[first : first + MOST_LINES], own.plan().path
    rows = rows_of(orders, some).cells(is_shown=True)
    return page(
        "today.html",
        sign=sign,
        orders=orders,
        number=number,
        first=first,
        parts=parts_of(lines),
        forms=groupby(zip(some, rows), lambda pair: pair[0].item.supplier),
        command=command_of("today", plan, **tables, date=day, config=desk.config),
        **facts,
    )


@pages.get("/today/<name>")
def file(name: str) -> Response:
    """Returns a table of the orders, or all as a workbook."""
    orders = shown_on(front(), asked_day()).orders
    if name == BOOK:
        path = front().desk.folder.room() / BOOK
        orders.to_excel(path)
        return send_file(path, as_attachment=True)
    table = orders.files.get(name)
    if table is None:
        raise Refused(f"{name}: there is no such file on {orders.today.day}")
    return table_to_download(table, name)


def keep(day: str) -> OrdersToday:
    """Keeps the quantities of a form that are not those of the plan, and returns the orders. Raises Refused for what is no
    packs, and for an item of which too little is known."""
    own, form = front(), request.form
    kept = own.desk.state.quantities
    items, ticked = form.getlist("item"), form.getlist("ordered")
    standings = shown_on(own, day).orders.today.standings
    before = {it.item.name: it for it in standings}
    for item, text in zip(items, form.getlist("quantity")):
        line = before.get(item)
        kept[item] = 0
        if item in ticked or "alone" in form:
            kept[item] = quantity_of(text, item, line.item.bounds.pack if line else 1)
        if line and kept[item] == line.planned:
            del kept[item]
    orders = shown_on(own, day).orders
    for item in {*items} & kept.keys() - {
        it.item.name for it in orders.today.standings
    }:
        raise Refused(
            f"{item}: no item of this name has a plan and a known stock",
            "see the page Result",
        )
    return orders


def place(day: str) -> None:
    """Keeps the lines of a form, or all orders, as placed. What the plan orders beyond that waits for another day."""
    state, orders = front().desk.state, keep(day)
    names = request.form.getlist("item")
    for line in orders.today.whole.due:
        item, number = line.item.name, orders.today.number(line.item.supplier)
        if names and item not in names:
            continue
        had = today_files(front()).had(item)
        state.placed.append(Placed(item, line.placed, number, now(), had))
        state.quantities.pop(item, None)
        if line.placed < line.planned:
            state.quantities[item] = 0


def end(day: str) -> None:
    """Ends orders that were placed: they were received, and what did not come stays, or are taken back and may be ordered
    anew, or all those that the open orders have."""
    form, state = request.form, front().desk.state
    ended = {*form.getlist("order")}
    if form.get("way") == "filed":
        settled = today_files(front()).settled(state.placed)
        state.placed = [order for order in settled if not order.is_filed]
        return
    for order in [*state.placed]:
        if order.key not in ended:
            continue
        place, rest = state.placed.index(order), 0
        if form.get("way") == "back":
            state.quantities.pop(order.item, None)
        else:
            came = whole_of(f"came {order.key}", 0, order.quantity)
            rest = 0 if came is None else order.quantity - came
        state.placed[place : place + 1] = [replace(order, quantity=rest)] * (rest > 0)


def typed_in(form: MultiDict[str, str]) -> dict[str, str]:
    """Returns the quantities of a form by item, 0 for one that is not ticked."""
    pairs = zip(form.getlist("item"), form.getlist("quantity"))
    ticked = form.getlist("ordered")
    return {it: text if it in ticked or "alone" in form else "0" for it, text in pairs}


@pages.post("/today/agree")
def agree() -> Redirect:
    """Keeps that the files which the form names count, though the stock is older than the open orders."""
    with front().desk.changing() as state:
        state.agreed = request.form.get("agreed", "")
    return redirect(url_for("orders.today", day=asked_day()), 303)


WAYS = {"save": keep, "place": place, "end": end}


@pages.post("/today/<any(save, place, end, forget):way>")
def change(way: str) -> Redirect | tuple[str, int]:
    """Changes the orders of a day, or orders what the plan says. If they are not as the form's page has shown them, or can't
    be as asked, all is as before, and what was typed is shown beside what is now."""
    own, day, form = front(), asked_day(), request.form
    try:
        with own.orders, own.lock, own.desk.changing() as state:
            is_change = way in WAYS
            if is_change and form.get("sign") != shown_on(own, day).sign:
                raise Refused(
                    "the orders have changed since this page was shown",
                    "look at them again: nothing of the form was kept",
                )
            if state.day != day or not is_change:
                state.day, state.quantities = day, {}
            if is_change:
                WAYS[way](day)
            shown_on(own, day)
    except Refused as why:
        return today(str(why), typed_in(form)), 400
    place = url_for("orders.today", day=day, supplier=form.get("supplier") or None)
    return redirect(place, 303)
