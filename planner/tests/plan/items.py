"""Items whose facts are known, for tests of their plans."""
from __future__ import annotations

import datetime
import itertools
from collections.abc import Iterable, Iterator, Sequence
from fractions import Fraction
from pathlib import Path
from typing import Any

import numpy as np
import pandas as pd

from crnplan.plan.how import Settings
from crnplan.policies import Levels
from crnplan.read.item import Item

# Short runs: a plan takes little time.
SHORT: dict[str, Any] = {"periods": 64, "replications": 4}
ALONE: dict[str, Any] = {"fit": "empirical", "borrow": "none", "jobs": 1}
QUICK = {**ALONE, **SHORT}
WEEKS = 60
START = datetime.date(2024, 1, 1)  # a Monday


def item_of(place: int = 0, **changed: Any) -> Item:
    """Returns an item: of demands by a law that is drawn for its place, with a backlog cost, and today's levels."""
    source = np.random.default_rng(place)
    asked = source.random(WEEKS) < source.uniform(0.2, 0.8)
    counts = np.where(asked, 1 + source.poisson(source.uniform(0.5, 4), WEEKS), 0)
    counts[:2] += 1
    level = int(4 * counts.mean() + 3)
    facts: dict[str, Any] = {
        "name": f"I-{place:03}",
        "counts": tuple(counts.tolist()),
        "leads": (2,),
        "levels": (level, 2 * level + 5),
        "setup": Fraction(20 + place % 7),
        "holding": Fraction(11, 20),
        "backlog": Fraction(9),
    }
    return Item(**facts | changed)


def several(count: int) -> Iterator[Item]:
    """Yields items of all kinds: several lead times, wanted fill rates, returns, packs."""
    kinds: tuple[dict[str, Any], ...] = (
        {},
        {"leads": (1, 3, 2)},
        {"backlog": None, "fill": Fraction(19, 20), "levels": (1, 9)},
        {"fill": Fraction(9, 10)},
    )
    for place in range(count):
        item = item_of(place, **kinds[place % len(kinds)])
        if place % 5 == 4:
            item = item_of(
                place,
                **kinds[place % len(kinds)],
                returns=tuple(it // 4 for it in item.counts),
            )
        yield item


def alone(**changed: Any) -> Settings:
    """Returns settings of short runs by which an item learns from no other."""
    return Settings(borrow="none", **SHORT | changed)


def stocks_of(
    levels: Levels, demands: Sequence[int], lead: int | Sequence[int], stock: int
) -> Iterator[tuple[int, int]]:
    """Yields what a policy orders in each period, which is there so many periods later, or as many as each one says, and
    the stock at its end."""
    leads = np.broadcast_to(lead, len(demands)).tolist()
    (s, S), due, position = levels, [0] * (len(demands) + max(leads) + 1), stock
    for period, (asked, later) in enumerate(zip(demands, leads)):
        order = S - position if position < s else 0
        due[period + later] += order
        stock += due[period] - asked
        position += order - asked
        yield order, stock


def unmet_of(
    levels: Levels, demands: Sequence[int], lead: int, stock: int
) -> list[int]:
    """Returns what a policy does not meet at once in each period."""
    ends = stocks_of(levels, demands, lead, stock)
    return [min(asked, max(0, -end)) for asked, (_, end) in zip(demands, ends)]


def moves(item: Item) -> list[tuple[datetime.date, int, int]]:
    """Returns the movements of an item: day, demand and what came back."""
    found = list[tuple[datetime.date, int, int]]()
    pairs = itertools.zip_longest(item.counts, item.returns, fillvalue=0)
    for week, (asked, back) in enumerate(pairs):
        if asked or back:
            found.append((START + datetime.timedelta(weeks=week), asked, back))
    return found


def tables_of(items: Iterable[Item]) -> tuple[pd.DataFrame, pd.DataFrame]:
    """Returns demand and masters of items, each second of which is of class b, as a catalogue has them."""
    sales, masters = list[tuple[object, ...]](), list[tuple[object, ...]]()
    for place, item in enumerate(items):
        sales += [(item.name, *move) for move in moves(item)]
        backlog, fill = (it and float(it) for it in (item.backlog, item.fill))
        costs = float(item.setup), float(item.holding), backlog, fill
        leads = " ".join(map(str, item.leads))
        masters.append((item.name, "ab"[place % 2], *costs, leads, *item.levels))
    columns = "item class setup holding backlog fill".split() + [
        "lead (weeks)",
        "s",
        "S",
    ]
    return (
        pd.DataFrame(sales, columns=["item", "date", "quantity", "returned"]),
        pd.DataFrame(masters, columns=columns),
    )


def write_tables(
    folder: Path, sales: Sequence[object], masters: Sequence[object], columns: str
) -> list[Path]:
    """Writes demand and masters of these rows, and returns their files."""
    pairs = (("demand", sales, "item,date,quantity"), ("items", masters, columns))
    for kind, rows, names in pairs:
        table = pd.DataFrame(rows, columns=names.split(","))
        table.to_csv(folder / f"{kind}.csv", index=False)
    return [folder / f"{kind}.csv" for kind, *_ in pairs]
