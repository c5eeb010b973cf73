"""Makes small exports of three systems: of SAP in German, of an American shop, and of a Chinese plant in GB18030.

Each has movements and masters of the same items, as the system writes numbers, dates and texts. Some items are new,
some have no policy, some owe more than they have. The seed is fixed.
"""
from __future__ import annotations

import csv
import datetime
import random
from collections.abc import Callable, Sequence
from dataclasses import dataclass
from pathlib import Path

LAST = datetime.date(2026, 11, 22)  # a Sunday
WEEKS, ITEMS = 60, 12
FIRST = LAST - datetime.timedelta(days=7 * WEEKS - 1)
NEW, BARE, OWING = (
    7,
    5,
    3,
)  # the places of an item without a policy that is new, of another one, and of one that owes


@dataclass(frozen=True)
class Part:
    """An item: its place, price in cents, days of delivery, least order, pack, levels, stock, and sales by day."""

    place: int
    cents: int
    days: int
    least: int
    pack: int
    levels: tuple[int, int] | None
    stock: int
    sales: Sequence[tuple[datetime.date, int]]


@dataclass(frozen=True)
class Export:
    """The files of a system, with the words by which they are planned, and its currency."""

    demand: Path
    masters: Path
    words: Sequence[str]
    currency: str


def part(place: int) -> Part:
    """Returns an item."""
    source = random.Random(place)
    chance, most = source.choice([0.2, 0.5, 0.9]), source.choice([1, 4, 40])
    sales = [
        (
            FIRST + datetime.timedelta(days=7 * week + source.randrange(5)),
            source.randint(1, most),
        )
        for week in range(WEEKS - 4 if place == NEW else 0, WEEKS)
        if source.random() < chance
    ]
    low = source.randint(2, 3 * most)
    return Part(
        place,
        source.randint(50, 90_000),
        source.choice([10, 14, 30]),
        source.choice([0, 0, 25]),
        source.choice([1, 1, 6]),
        None if place in (NEW, BARE) else (low, low + source.randint(2, 9 * most)),
        -2 if place == OWING else source.randint(0, 9 * most),
        sales,
    )


def german(number: int, digits: int = 3) -> str:
    """Returns thousandths as SAP writes them in German, with the minus behind."""
    whole, rest = divmod(abs(number), 10**digits)
    return f"{whole:,}".replace(",", ".") + f",{rest:0{digits}}" + "-" * (number < 0)


def written(
    path: Path, encoding: str, delimiter: str, rows: Sequence[Sequence[object]]
) -> Path:
    with path.open("w", encoding=encoding, newline="") as file:
        csv.writer(file, delimiter=delimiter).writerows(rows)
    return path


def of_sap(folder: Path, parts: Sequence[Part]) -> Export:
    """Writes movements as MB51 has them, one of which is cancelled by a later one, and material masters."""
    moves = [
        (day, f"{it.place:010}", "601", sold) for it in parts for day, sold in it.sales
    ]
    moves.append((LAST, moves[0][1], "602", -moves[0][3]))
    demand = [
        "Material;Werk;Bewegungsart;Buchungsdatum;Menge in ErfassME;ErfassME".split(
            ";"
        ),
        *(
            [name, "1000", kind, f"{day:%d.%m.%Y}", german(1000 * sold), "ST"]
            for day, name, kind, sold in moves
        ),
    ]
    masters: list[list[object]] = [
        "Material;Materialkurztext;Planlieferzeit;Meldebestand;Höchstbestand;Mindestlosgröße;Rundungswert;Frei verwendbar;Standardpreis;Preiseinheit;Währung;Lieferant".split(
            ";"
        )
    ]
    masters += [
        [
            f"{it.place:010}",
            f"Dichtung Größe {it.place}",
            it.days,
            *(it.levels or ["", ""]),
            it.least or "",
            it.pack,
            german(1000 * it.stock),
            german(100 * it.cents, 2),
            100,
            "EUR",
            f"Müller {it.place % 3}",
        ]
        for it in parts
    ]
    words = "--set encoding=cp1252 --set decimal=, --set net=true --fill 0.97".split()
    return Export(
        written(folder / "MB51.csv", "cp1252", ";", demand),
        written(folder / "Material.csv", "cp1252", ";", masters),
        words,
        "EUR",
    )


def of_shop(folder: Path, parts: Sequence[Part]) -> Export:
    """Writes sales and items of an American shop."""
    demand = [
        "Item;Date;Qty. Sold;Location".split(";"),
        *(
            [f"SKU-{it.place:03}", f"{day:%m/%d/%Y}", f"{sold:,}", "Main"]
            for it in parts
            for day, sold in it.sales
        ),
    ]
    masters: list[list[object]] = [
        "Item;Display Name;Preferred Vendor;Lead Time (Days);Reorder Point;Preferred Stock Level;Minimum Order Quantity;On Hand;Average Cost".split(
            ";"
        )
    ]
    masters += [
        [
            f"SKU-{it.place:03}",
            f"Bracket {it.place}",
            f"Vendor {it.place % 3}",
            it.days,
            *(it.levels or ["", ""]),
            it.least or "",
            f"({-it.stock})" if it.stock < 0 else f"{it.stock:,}",
            f"${it.cents // 100:,}.{it.cents % 100:02}",
        ]
        for it in parts
    ]
    return Export(
        written(folder / "sales.csv", "utf-8-sig", ",", demand),
        written(folder / "items.csv", "utf-8-sig", ",", masters),
        "--fill 0.95 --set currency=USD".split(),
        "USD",
    )


def of_plant(folder: Path, parts: Sequence[Part]) -> Export:
    """Writes issues and materials of a Chinese plant."""
    demand = [
        "物料编码;出库日期;出库数量;单位".split(";"),
        *(
            [f"料{it.place:03}", f"{day:%Y/%m/%d}", sold, "件"]
            for it in parts
            for day, sold in it.sales
        ),
    ]
    masters: list[list[object]] = [
        "物料编码;物料描述;提前期（天）;再订货点;最大库存;最小起订量;现有库存;单价;供应商".split(";")
    ]
    masters += [
        [
            f"料{it.place:03}",
            f"轴承 {it.place}",
            it.days,
            *(it.levels or ["", ""]),
            it.least or "",
            it.stock,
            f"¥{it.cents / 100:.2f}",
            f"供应商{it.place % 3}",
        ]
        for it in parts
    ]
    return Export(
        written(folder / "出库.csv", "gb18030", ",", demand),
        written(folder / "物料.csv", "gb18030", ",", masters),
        "--set encoding=gb18030 --fill 95% --set currency=CNY".split(),
        "CNY",
    )


PARTS = [part(place) for place in range(ITEMS)]
SYSTEMS: dict[str, Callable[[Path, Sequence[Part]], Export]] = {
    "sap": of_sap,
    "shop": of_shop,
    "plant": of_plant,
}
