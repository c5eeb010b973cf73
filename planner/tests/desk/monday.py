"""Makes exports of three companies for a Monday: a French workbook with a column for each week, Japanese files in cp932,
and American files of three warehouses with transfers and returns.

Each has sales, masters, and open orders of the same parts. What is ordered to the part's policy today is known. The
seed is fixed.
"""
from __future__ import annotations

import csv
import datetime
import random
from collections.abc import Sequence
from dataclasses import dataclass
from pathlib import Path
from typing import Any

import xlsxwriter

MONDAY = datetime.date(2026, 11, 23)
WEEKS, PARTS = 78, 18
FIRST = MONDAY - datetime.timedelta(weeks=WEEKS)
SUPPLIERS = 3


@dataclass(frozen=True)
class Part:
    """A part: its place, cost in cents, days of delivery, pack, levels, stock, items on order, and sales and returns by
    week."""

    place: int
    cents: int
    days: int
    pack: int
    low: int
    high: int
    stock: int
    on_order: int
    sales: Sequence[int]
    returns: Sequence[int]


@dataclass(frozen=True)
class Export:
    """The files of a company and the words by which they are read: those of the plan, and those of the day."""

    demand: Path
    masters: Path
    planning: Sequence[str]
    today: Sequence[str]
    currency: str


def part_of(place: int) -> Part:
    """Returns a part, whose sales are at random by week."""
    source = random.Random(1000 + place)
    chance, most = source.choice([0.3, 0.6, 0.9]), source.choice([2, 6, 30])
    sales = [
        source.randint(1, most) if source.random() < chance else 0 for _ in range(WEEKS)
    ]
    returns = [min(sold, 1) if source.random() < 0.1 else 0 for sold in sales]
    low = source.randint(2, 3 * most)
    return Part(
        place,
        source.randint(50, 90_000),
        source.choice([7, 14, 28]),
        source.choice([1, 1, 6]),
        low,
        low + source.randint(3, 9 * most),
        source.randint(0, 4 * most),
        source.choice([0, 0, 2 * most]),
        sales,
        returns,
    )


ALL = [part_of(place) for place in range(PARTS)]


def monday_of(week: int) -> datetime.date:
    """Returns the Monday of a week of the record."""
    return FIRST + datetime.timedelta(weeks=week)


def written(path: Path, encoding: str, rows: Sequence[Sequence[object]]) -> Path:
    """Writes rows as a CSV file."""
    with path.open("w", encoding=encoding, newline="") as file:
        csv.writer(file).writerows(rows)
    return path


def sheet_of(
    path: Path, rows: Sequence[Sequence[object]], formats: dict[int, str]
) -> Path:
    """Writes rows as a workbook of one sheet, with number formats by the place of the column."""
    with xlsxwriter.Workbook(str(path)) as book:
        sheet = book.add_worksheet("Feuille 1")
        shown: dict[int, Any] = {
            place: book.add_format({"num_format": text})
            for place, text in formats.items()
        }
        for line, cells in enumerate(rows):
            for place, cell in enumerate(cells):
                if cell != "":
                    sheet.write(line, place, cell, shown.get(place) if line else None)
    return path


def sales_by_week() -> list[list[object]]:
    """Returns a row for each article, a column for each week, and a total at the end of each."""
    weeks = [monday_of(week).isocalendar() for week in range(WEEKS)]
    heading = [
        "Code article",
        "Désignation",
        *(f"{week.year}-W{week.week:02}" for week in weeks),
        "Total",
    ]
    sales = [
        [
            part.place,
            f"Joint {part.place}",
            *(sold or "" for sold in part.sales),
            sum(part.sales),
        ]
        for part in ALL
    ]
    totals = [
        "Total",
        "",
        *(sum(part.sales[week] for part in ALL) for week in range(WEEKS)),
        sum(sum(part.sales) for part in ALL),
    ]
    return [heading, *sales, totals]


def wide(folder: Path) -> Export:
    """Writes a French workbook."""
    masters: list[list[object]] = [
        "Code article;Désignation;Délai (jours);Prix unitaire;Point de commande;Stock maximum;Stock actuel;Conditionnement;Fournisseur".split(
            ";"
        )
    ]
    masters += [
        [
            part.place,
            f"Joint {part.place}",
            part.days,
            part.cents / 100,
            part.low,
            part.high,
            part.stock,
            part.pack,
            f"Société {part.place % SUPPLIERS}",
        ]
        for part in ALL
    ]
    orders = written(
        folder / "commandes.csv",
        "utf-8-sig",
        [
            ["Code article", "Quantité en commande", "Date de livraison"],
            *(
                [f"{part.place:04}", part.on_order, "30/11/2026"]
                for part in ALL
                if part.on_order
            ),
        ],
    )
    return Export(
        sheet_of(folder / "ventes.xlsx", sales_by_week(), {0: "0000"}),
        sheet_of(folder / "articles.xlsx", masters, {0: "0000", 3: '#,##0.00 "€"'}),
        "--set setup=45 --set holding_rate=20% --fill 95%".split(),
        ["--on-order", str(orders)],
        "EUR",
    )


def japanese_sales() -> list[list[str]]:
    """Returns sales by day: returns are below 0, with a triangle."""

    def day(week: int, place: int) -> str:
        date = monday_of(week) + datetime.timedelta(days=place % 5)
        return f"{date.year}年{date.month}月{date.day}日"

    sales = [["商品コード", "出荷日", "出荷数量"]]
    for part in ALL:
        for week, (sold, returned) in enumerate(zip(part.sales, part.returns)):
            if sold:
                sales.append([f"部品{part.place:03}", day(week, part.place), f"{sold:,}"])
            if returned:
                sales.append(
                    [f"部品{part.place:03}", day(week, part.place), f"▲{returned}"]
                )
    return sales


def japanese(folder: Path) -> Export:
    """Writes Japanese files in cp932."""
    masters: list[list[object]] = [
        "商品コード;商品名;リードタイム（日）;単価;発注点;最大在庫;在庫数;入数;仕入先".split(";")
    ]
    masters += [
        [
            f"部品{part.place:03}",
            f"軸受 {part.place}",
            part.days,
            f"￥{part.cents:,}",
            part.low,
            part.high,
            f"{part.stock:,}",
            part.pack,
            f"仕入先{part.place % SUPPLIERS}",
        ]
        for part in ALL
    ]
    orders = written(
        folder / "発注残.csv",
        "cp932",
        [
            ["商品コード", "発注残", "納期"],
            *(
                [f"部品{part.place:03}", f"{part.on_order:,}", "2026年11月30日"]
                for part in ALL
                if part.on_order
            ),
        ],
    )
    return Export(
        written(folder / "出荷.csv", "cp932", japanese_sales()),
        written(folder / "商品.csv", "cp932", masters),
        "--set encoding=cp932 --set currency=JPY --set setup=3000 --set holding_rate=20% --fill 95% --set net=true --set decimal=.".split(),
        ["--on-order", str(orders)],
        "JPY",
    )


def sales_of_warehouses() -> list[list[object]]:
    """Returns sales, transfers and returned items, of which only those of the main one are wanted."""
    sales: list[list[object]] = [
        "Item;Date;Warehouse;Type;Qty Sold;Qty Returned".split(";")
    ]
    for part in ALL:
        for week, (sold, returned) in enumerate(zip(part.sales, part.returns)):
            date = f"{monday_of(week):%m/%d/%Y}"
            for place, count in (
                ("Main", sold),
                ("East", 2 * sold),
                ("West", sold + 1),
            ):
                if count:
                    sales.append(
                        [
                            f"P-{part.place:03}",
                            date,
                            place,
                            "Sale",
                            count,
                            returned if place == "Main" else "",
                        ]
                    )
            if week % 13 == 0:
                sales.append([f"P-{part.place:03}", date, "Main", "Transfer", 500, ""])
    return sales


def today_of_warehouses(folder: Path) -> list[str]:
    """Writes stock and open orders, and returns the words that name them."""
    stock = written(
        folder / "stock.csv",
        "utf-8",
        [
            ["Item", "Warehouse", "On Hand"],
            *(
                [f"P-{part.place:03}", place, count]
                for part in ALL
                for place, count in (("Main", part.stock), ("East", 999), ("West", 1))
            ),
        ],
    )
    orders = written(
        folder / "open.csv",
        "utf-8",
        [
            "Item;Warehouse;Qty on Order;Due Date".split(";"),
            *(
                [f"P-{part.place:03}", place, part.on_order, "11/30/2026"]
                for part in ALL
                if part.on_order
                for place in ("Main", "East")
            ),
        ],
    )
    return ["--stock", str(stock), "--on-order", str(orders)]


def warehouses(folder: Path) -> Export:
    """Writes American files of three warehouses."""
    masters: list[list[object]] = [
        "Item;Description;Preferred Vendor;Lead Time (days);Reorder Point;Order up to Level;Pack Size;Unit Cost".split(
            ";"
        )
    ]
    masters += [
        [
            f"P-{part.place:03}",
            f"Bracket {part.place}",
            f"Vendor {part.place % SUPPLIERS}",
            part.days,
            part.low,
            part.high,
            part.pack,
            f"${part.cents // 100:,}.{part.cents % 100:02}",
        ]
        for part in ALL
    ]
    return Export(
        written(folder / "sales.csv", "utf-8", sales_of_warehouses()),
        written(folder / "items.csv", "utf-8", masters),
        "--set where=Warehouse=Main --set where=Type=Sale --set currency=USD --set setup=45 --set holding_rate=20% --fill 95%".split(),
        today_of_warehouses(folder),
        "USD",
    )


EXPORTS = {"wide": wide, "japanese": japanese, "warehouses": warehouses}
