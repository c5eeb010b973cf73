"""Writes a plan as a workbook: a sheet for each table, a chart of the curve, and what columns mean.

The same plan with the same orders gives the same bytes.
"""
from __future__ import annotations

from collections.abc import Iterator, Mapping
from pathlib import Path
from typing import NamedTuple

from ..curve.exchange_curve import COLUMNS, CurvePoint, kept_curve
from ..errors import Refused
from ..plan.answer import CHOSEN, TODAY
from ..plan.catalogue import PlannedFolder, planned_folder
from ..plan.survey import Survey
from ..plan.totals import Totals
from ..table import MONEY, TableCell, Column, number, whole
from .board import ALL_PARTS, NO_CLASS, PARTS
from .book import LINES, MEANING_WIDTH, TEXT, SheetWriter, new_book, number_format
from .catalogue_tables import catalogue_summary, decisions_of, details_of, rejects_of
from .change_tables import change_lines
from ..columns import columns_of
from .lateness import lateness_of
from .today_tables import WITHOUT, OrdersToday, orders_by_masters

SUMMARY = "Summary"
SHEETS = {
    "Today": "orders",
    "At risk": "at_risk",
    LINES: "lines",
}  # of orders, with their tables
POLICIES = TODAY, CHOSEN
SUM_COLUMNS, CLASS_COLUMNS, READ_ME_COLUMNS = (
    columns_of("show", "sums"),
    columns_of("show", "classes"),
    columns_of("show", "read_me"),
)
ON_CURVE = "point", "value", "fill", "orders", "cost"
CURVE_COLUMNS = [column for column in COLUMNS if column.name in ON_CURVE]
# How the lines of the summary are shown.
FORMS = (
    number("money", "money", "", MONEY),
    number("share", "share", "", ".4f"),
    number("orders", "orders", "", ".1f"),
    whole("items", "items", ""),
)


class Sum(NamedTuple):
    """What all items come to, today and chosen: a line of the summary, which may be a text alone."""

    figure: str
    today: float | None = None
    chosen: float | None = None


def sums_of(folder: PlannedFolder, totals: Totals) -> Iterator[tuple[Sum, Column]]:
    """Yields what all items come to, today and chosen, and a column of such figures."""
    every = folder.every
    money, share, orders, items = FORMS
    parts = {
        f"of it {words}": name for words, name in PARTS.items() if name != ALL_PARTS
    }
    for words, name in {
        f"cost a {every}": ALL_PARTS,
        **parts,
        "value of the mean stock": "value",
    }.items():
        yield Sum(words, totals[f"{name}_{TODAY}"], totals[f"{name}_{CHOSEN}"]), money
    yield Sum(f"saved a {every}", None, totals["saving"]), money
    yield Sum(
        "demand met at once, by value", totals.fill(TODAY), totals.fill(CHOSEN)
    ), share
    yield Sum(
        f"orders a {every}", totals[f"orders_{TODAY}"], totals[f"orders_{CHOSEN}"]
    ), orders
    yield Sum("items planned", None, totals.planned), items


def class_row(name: str, totals: Totals) -> Mapping[str, TableCell]:
    """Returns what the items of a class come to."""
    row: dict[str, TableCell] = {
        "name": name,
        "items": totals.planned,
        "saving": totals["saving"],
    }
    for policy in POLICIES:
        row[f"fill_{policy}"] = totals.fill(policy)
        row[f"value_{policy}"] = totals[f"value_{policy}"]
    return row


def add_summary(
    book: SheetWriter, folder: PlannedFolder, totals: Totals, orders: OrdersToday | None
) -> None:
    """Writes what all items come to, and the summary of the plan."""
    sums = [*sums_of(folder, totals)]
    lines = catalogue_summary(folder, totals, (), change_lines(folder)).splitlines()
    if orders:
        lines = [orders.headline, "", *lines]
    texts = [Sum(line) for line in ["", *lines]]
    table = folder.table(SUM_COLUMNS, [row for row, _ in sums] + texts)
    styles = [
        [TEXT, number_format(column, table), number_format(column, table)]
        for _, column in sums
    ]
    book.add(SUMMARY, table, styles + [[TEXT] * 3] * len(texts))


def add_orders(book: SheetWriter, orders: OrdersToday) -> None:
    """Writes the orders of a day; by supplier, with what is at risk, if it is known what is on order."""
    if not orders.today.has_orders:
        book.add(WITHOUT.capitalize(), orders.table)
        return
    for name, table in SHEETS.items():
        book.add(name, orders.tables[table])


def fill_book(
    book: SheetWriter, folder: PlannedFolder, orders: OrdersToday | None
) -> None:
    """Writes all sheets of a planned folder. Raises Refused if one has too many rows."""
    survey, curve = Survey(folder), kept_curve(folder.store)
    add_summary(book, folder, survey.totals, orders)
    book.add("Decisions", decisions_of(folder, survey.seen(folder.answers())))
    if orders:
        add_orders(book, orders)
    book.add("Left out", rejects_of(folder.read.rejects(survey.faults)))
    if curve:
        points = [CurvePoint(name, point) for name, point in curve]
        book.add_curve(curve, folder.table(CURVE_COLUMNS, points), folder.currency.code)
    classes = {name or NO_CLASS: totals for name, totals in survey.classes.items()}
    book.add(
        "Classes",
        folder.table(
            CLASS_COLUMNS,
            [class_row(name, totals) for name, totals in sorted(classes.items())],
        ),
    )
    lateness = lateness_of(folder.read)
    if lateness.rows:
        book.add("Suppliers", lateness)
    book.add("Details", details_of(folder, folder.answers()))
    book.add(
        "Read me", folder.table(READ_ME_COLUMNS, book.meanings[:]), widest=MEANING_WIDTH
    )


def write_workbook(folder: Path, path: Path, orders: OrdersToday | None = None) -> None:
    """Writes the plan of a folder as a workbook, with the orders of a day, or without them those of today by the stock
    of the masters, if these have one. Raises Refused for a folder without a finished plan of the rows that were read
    last, for orders of another plan, and for a table with more rows than a sheet has.
    """
    orders = orders or orders_by_masters(folder)
    with planned_folder(folder) as planned:
        planned.check()
        if orders:
            orders.check(planned)
        with new_book(path, "Plan") as book:
            fill_book(book, planned, orders)
