"""The commands that say what to order today, by themselves and on the pages of a plan: by the same words."""
from __future__ import annotations

import datetime
from pathlib import Path
from typing import Any

import click

import crnplan as crn
from ..store.files import own_folder
from ..show.catalogue_page import file_of
from ..show.catalogue_tables import hardly_read
from ..show.today_tables import TODAY, OrdersToday, has_stock, orders_today
from ..plan.settings import read_config
from ..read.stock import KINDS
from .catalogues import status_of
from .keys import words_of
from .commands import command


def orders_by(
    folder: Path, *, date: datetime.date | None, config: str | None, **asked: Any
) -> OrdersToday:
    """Returns what to order on a day by the words of both commands."""
    tables = {kind: asked.pop(kind) for kind in KINDS}
    words, _ = words_of(asked, read_config(config))
    return orders_today(folder, tables, words, date)


@command()
def today(
    folder: Path,
    anyway: bool,
    table: str | None,
    out: Path | None,
    xlsx: Path | None,
    csv_style: str,
    **asked: Any,
) -> int:
    orders = orders_by(folder, **asked)
    if out:
        with own_folder(out, TODAY) as kept:
            orders.write(kept, csv_style)
    if xlsx:
        orders.to_excel(xlsx)
    click.echo(orders.tables[table].csv if table else orders.text, nl=False)
    return status_of([] if anyway else hardly_read(orders.today.holdings.counts))


@command()
def report(
    folder: Path,
    anyway: bool,
    items: tuple[str, ...],
    xlsx: Path | None,
    program: str | None,
    **asked: Any,
) -> int:
    orders = None
    if any(asked[kind] for kind in KINDS) or has_stock(folder):
        orders = orders_by(folder, **asked)
    if xlsx:
        crn.Plan(folder).to_excel(xlsx, orders)
        click.echo(xlsx)
    page = crn.report(folder, items, orders=orders, program=program)
    for name in items:
        click.echo(file_of(folder, name))
    click.echo(page)
    if orders is None or anyway:
        return 0
    return status_of(hardly_read(orders.today.holdings.counts))
