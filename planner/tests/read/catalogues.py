"""Makes small catalogues for the tests of reading, reads them, and returns the cases that stand beside the tests."""
from __future__ import annotations

import datetime
import tomllib
from collections.abc import Mapping, Sequence
from pathlib import Path
from typing import Any

import pandas as pd

import crnplan as crn
from crnplan.read.item import Item

Day = datetime.date
MONDAY, WEEKS, TODAY = Day(2026, 3, 2), 26, Day(2026, 11, 26)
Master = Mapping[str, Any]
# The cells of a master by the headings of its table.
MASTER: Master = {
    "setup": "45",
    "holding": "1",
    "backlog": "10",
    "lead (weeks)": "2",
    "s": "3",
    "S": "9",
}
HEADING = f"item,{','.join(MASTER)}"
MASTERS = f"{HEADING}\nA,{','.join(MASTER.values())}\n"


def cases_of(name: str) -> dict[str, Any]:
    """Returns the tables of cases of a file beside this one."""
    return tomllib.loads(Path(__file__).with_name(f"{name}.toml").read_text("utf-8"))


def day_of(week: int, days: int = 0) -> Day:
    """Returns a day of a week of the record, by default its Monday."""
    return MONDAY + datetime.timedelta(7 * week + days)


def weekly(amounts: Sequence[object], item: str = "A") -> str:
    """Returns rows of demand of an item, one a week, without those of 0."""
    rows = [
        f"{item},{day_of(week)},{amount}\n"
        for week, amount in enumerate(amounts)
        if amount
    ]
    return "".join(rows)


def demand_of(*items: str) -> pd.DataFrame:
    """Returns a row a week of each item."""
    rows = []
    for item in items:
        rows += [(item, str(day_of(week)), 2 + week % 3) for week in range(WEEKS)]
    return pd.DataFrame(rows, columns=["item", "date", "quantity"])


def but(*roles: str) -> dict[str, Any]:
    """Returns the cells of a master without those of some roles."""
    return {
        heading: cell
        for heading, cell in MASTER.items()
        if heading.partition(" ")[0] not in roles
    }


def masters_of(*masters: Master) -> pd.DataFrame:
    """Returns a table of masters, whose items are called A, B and so on."""
    rows = [{"item": name, **cells} for name, cells in zip("ABCDEFGH", masters)]
    return pd.DataFrame(rows, dtype=object)


def items_of(catalogue: crn.Catalogue) -> dict[str, Item]:
    """Returns the items that can be planned."""
    with catalogue.opened() as read:
        return {item.name: item for item in read.items()}


def catalogue_of(*masters: Master, **words: Any) -> tuple[dict[str, Item], list[str]]:
    """Returns the items of some masters, which are called A, B and so on, and why others are left out."""
    table = masters_of(*masters)
    read = crn.read_catalogue(demand_of(*table.item), table, today=TODAY, **words)
    rejects = read.rejects
    return items_of(read), [*(rejects.reason + "; " + rejects.advice)]


def read_text(
    folder: Path,
    demand: str | bytes,
    masters: str = MASTERS,
    orders: str = "",
    **words: Any,
) -> crn.Catalogue:
    """Reads a catalogue of files: of rows of demand below the usual heading, or of a whole file as bytes."""
    if isinstance(demand, str):
        demand = f"item,date,quantity\n{demand}".encode()
    (folder / "demand.csv").write_bytes(demand)
    (folder / "items.csv").write_bytes(masters.encode(words.get("encoding") or "utf-8"))
    paths = [folder / "demand.csv", folder / "items.csv"]
    if orders:
        (folder / "orders.csv").write_text(f"item,ordered,received\n{orders}", "utf-8")
        paths.append(folder / "orders.csv")
    return crn.read_catalogue(*paths, **{"today": TODAY, **words})
