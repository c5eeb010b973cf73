"""Makes a catalogue of any size as a system would export it: three years of slow, lumpy and fast items, and few faults.

A third of the items have several lead times, half of these by the dates of orders, and a quarter have a wanted fill
rate in place of a backlog cost. Rows of demand come in order of their days. The same seed makes the same bytes.
"""
from __future__ import annotations

import datetime
import math
from collections import Counter
from collections.abc import Callable, Iterator
from dataclasses import dataclass, field
from pathlib import Path
from typing import Any

import numpy as np
import numpy.typing as npt

Whole = npt.NDArray[np.int64]
Short = npt.NDArray[np.int32]
Random = np.random.Generator

START, WEEKS, WORKDAYS = datetime.date(2023, 11, 20), 156, 5  # a Monday; three years
DEMAND, ITEMS, ORDERS = "demand.csv", "items.csv", "orders.csv"
# How often each kind of item is. The first three are asked for in most weeks.
KINDS = {
    "very fast": 0.01,
    "fast": 0.09,
    "smooth": 0.36,
    "intermittent": 0.43,
    "lumpy": 0.11,
}
LEADS = {1: 0.2, 2: 0.25, 3: 0.2, 4: 0.15, 6: 0.1, 8: 0.07, 12: 0.03}
# Rows that are written at a time.
AT_ONCE = 200_000
# Faults of a row: its column and its text. One row of so many has one, and one of so many stands twice.
BAD_ROWS = [
    ("quantity", "n/a"),
    ("quantity", ""),
    ("quantity", "-2"),
    ("quantity", "3.5"),
    ("date", ""),
    ("date", "2025-02-30"),
    ("date", "2062-03-04"),
    ("date", "soon"),
]
ROWS_A_FAULT, ROWS_A_TWIN = 2_000, 1_500
# Changes of a master for which its item is left out. One item of so many has one.
BAD_MASTERS = [
    {"setup": ""},
    {"holding": "0"},
    {"lead (weeks)": "n/a"},
    {"backlog": "", "fill": ""},
    {"fill": "120%"},
]
ITEMS_A_FAULT = 60


@dataclass
class Made:
    """The folder of a catalogue, its rows of demand, those that stand twice, and what was planted: rows by kind, and
    the items with a master that is wrong."""

    folder: Path
    rows: int = 0
    twice: int = 0
    bad_rows: Counter[str] = field(default_factory=Counter)
    bad_items: set[str] = field(default_factory=set)

    @property
    def paths(self) -> dict[str, str | Path | None]:
        """Returns the files by what they are."""
        return {
            "demand": self.folder / DEMAND,
            "items": self.folder / ITEMS,
            "orders": self.folder / ORDERS,
        }


def between(random: Random, low: float, high: float) -> float:
    """Draws a number between two, of which each ratio is as likely."""
    return math.exp(random.uniform(math.log(low), math.log(high)))


def frequent(random: Random, mean: float, size: float) -> Whole:
    """Draws demand by week from a negative binomial law with a mean and a size."""
    return random.negative_binomial(size, size / (size + mean), WEEKS)


def rare(random: Random, chance: float, mean: float) -> Whole:
    """Draws demand by week that is rare, with geometric sizes."""
    return np.where(random.random(WEEKS) < chance, random.geometric(1 / mean, WEEKS), 0)


DRAWN: dict[str, Callable[[Random], Whole]] = {
    "very fast": lambda it: frequent(it, between(it, 3_000, 30_000), it.uniform(2, 6)),
    "fast": lambda it: frequent(it, between(it, 20, 600), it.uniform(2, 20)),
    "smooth": lambda it: frequent(it, between(it, 1, 20), 3.0),
    "intermittent": lambda it: rare(it, it.uniform(0.05, 0.35), between(it, 1, 20)),
    "lumpy": lambda it: rare(it, it.uniform(0.01, 0.06), between(it, 2, 120)),
}


def name_of(number: int) -> str:
    """Returns the name of an item."""
    return f"P{number:06}"


def rows_of(random: Random, kind: str, weeks: Whole) -> tuple[Whole, Whole]:
    """Returns the days and the amounts of the rows of an item. Fast items have one for each workday."""
    if kind in ("fast", "very fast"):
        amounts = random.multinomial(weeks, [1 / WORKDAYS] * WORKDAYS)
    else:
        amounts = np.zeros((WEEKS, WORKDAYS), int)
        amounts[np.arange(WEEKS), random.integers(0, WORKDAYS, WEEKS)] = weeks
    week, day = np.nonzero(amounts)
    return 7 * week + day, amounts[week, day]


def master_of(
    random: Random, name: str, kind: str, weeks: Whole
) -> tuple[dict[str, Any], list[tuple[str, str, str]]]:
    """Returns the master of an item, and its orders if its lead times are not in the master."""
    price = round(min(between(random, 1, 150), between(random, 1, 150)) + 0.5, 2)
    holding, setup = max(round(price * 0.22 / 52, 4), 0.0001), int(
        random.choice([12, 25, 45, 80, 150])
    )
    mean, spread = max(float(weeks.mean()), 0.001), float(weeks.std())
    lead, several = (
        int(random.choice([*LEADS], p=[*LEADS.values()])),
        random.random() < 1 / 3,
    )
    point = round(
        mean * (lead + 1)
        + random.choice([0.3, 1.0, 2.5]) * spread * math.sqrt(lead + 1)
    )
    gap = max(
        1,
        round(
            min(math.sqrt(2 * setup * mean / holding), 40 * mean + 2)
            * random.choice([0.4, 1.0, 1.8])
        ),
    )
    leads = (
        [max(1, lead + int(it)) for it in random.integers(-1, 3, 6)]
        if several
        else [lead]
    )
    wanted = (
        str(random.choice(["95%", "0.95", "98%", "99%"]))
        if random.random() < 0.25
        else ""
    )
    backlog = "" if wanted else f"{holding * float(random.choice([9, 19, 49, 99])):.4f}"
    by_orders = several and random.random() < 0.5
    orders = []
    for its in leads * 2 if by_orders else []:
        placed = START + datetime.timedelta(
            int(random.integers(0, 7 * (WEEKS - its - 2)))
        )
        orders.append((name, str(placed), str(placed + datetime.timedelta(7 * its))))
    row = {
        "item": name,
        "description": f"{kind} part",
        "class": kind,
        "setup": str(setup),
        "holding": str(holding),
        "backlog": backlog,
        "fill": wanted,
        "lead (weeks)": "" if by_orders else " ".join(map(str, sorted(leads))),
        "s": str(point),
        "S": str(point + gap),
        "stock": str(point + gap // 2),
        "price": str(price),
    }
    return row, orders


def spelt_days() -> list[list[str]]:
    """Returns the days of the record in each of the two forms in which they are written."""
    days = [START + datetime.timedelta(it) for it in range(7 * WEEKS)]
    return [[f"{it:{form}}" for it in days] for form in ("%Y-%m-%d", "%d.%m.%Y")]


def demand_rows(
    random: Random, made: Made, items: Short, days: Short, amounts: Short
) -> Iterator[str]:
    """Yields the rows of demand in order of their days, some of them with a fault and some twice."""
    order, names = np.argsort(days, kind="stable"), [
        name_of(it) for it in range(int(items.max()) + 1)
    ]
    faults = random.integers(0, ROWS_A_FAULT, len(order)) == 0
    twins, spelt = random.integers(0, ROWS_A_TWIN, len(order)) == 0, spelt_days()
    for start in range(0, len(order), AT_ONCE):
        part = slice(start, start + AT_ONCE)
        its = order[part]
        for item, day, amount, is_faulty, is_twin in zip(
            items[its].tolist(),
            days[its].tolist(),
            amounts[its].tolist(),
            faults[part].tolist(),
            twins[part].tolist(),
        ):
            cells = {"date": spelt[item % 10 == 0][day], "quantity": str(amount)}
            if is_faulty:
                column, text = BAD_ROWS[made.rows % len(BAD_ROWS)]
                cells[column] = text
                made.bad_rows[f"{column} {text!r}"] += 1
            times = 1 + (is_twin and not is_faulty)
            made.rows += times
            made.twice += times - 1
            yield times * f"{names[item]},{cells['date']},{cells['quantity']}\n"


def make(folder: Path, items: int, seed: int = 1) -> Made:
    """Makes a catalogue of so many items in a folder, with some 133 rows of demand for each."""
    import pandas as pd  # Parts that are measured need the paths alone.

    random, made = np.random.default_rng([items, seed]), Made(folder)
    folder.mkdir(parents=True, exist_ok=True)
    kinds = random.choice([*KINDS], items, p=[*KINDS.values()])
    columns: list[tuple[Whole, Whole]] = []
    masters: list[dict[str, Any]] = []
    orders: list[tuple[str, str, str]] = []
    for number, kind in enumerate(kinds.tolist()):
        weeks = DRAWN[kind](random)
        weeks[:1] += not weeks.any()
        columns.append(rows_of(random, kind, weeks))
        row, placed = master_of(random, name_of(number), kind, weeks)
        if number % ITEMS_A_FAULT == ITEMS_A_FAULT - 1:
            row |= BAD_MASTERS[number // ITEMS_A_FAULT % len(BAD_MASTERS)]
            placed = []
            made.bad_items.add(row["item"])
        masters.append(row)
        orders += placed
    days, amounts = (np.concatenate(its).astype(np.int32) for its in zip(*columns))
    numbers = np.repeat(
        np.arange(items, dtype=np.int32), [len(its) for its, _ in columns]
    )
    with (folder / DEMAND).open("w", encoding="utf-8") as file:
        file.write("item,date,quantity\n")
        file.writelines(demand_rows(random, made, numbers, days, amounts))
    pd.DataFrame(masters).to_csv(folder / ITEMS, index=False)
    pd.DataFrame(orders, columns=["item", "ordered", "received"]).to_csv(
        folder / ORDERS, index=False
    )
    return made
