"""Tests how today's stock and what is on order are read, as systems export them: expected values are worked by hand."""
from __future__ import annotations

import datetime
from collections.abc import Mapping
from fractions import Fraction
from pathlib import Path
from typing import Any

import pandas as pd
import pytest

from crnplan.errors import RefusedFaults
from crnplan.read.items import Reading
from crnplan.read.quantities import Quantity
from crnplan.read.stock import KINDS, Arrival, Holdings, OnHand, read_holdings
from crnplan.catalogues import read_catalogue
from crnplan.sentences import sentence
from planner.tests.read.catalogues import (
    MASTER,
    TODAY,
    cases_of,
    demand_of,
    items_of,
    masters_of,
)

CASES = cases_of("stock")
DUE = datetime.date(2026, 12, 1)


def read(
    folder: Path,
    stock: str = "",
    on_order: str = "",
    placed: str = "",
    quantities: str = "",
    **words: Any,
) -> Holdings:
    """Reads files of these lines for the items A and B."""
    tables: dict[str, Path | None] = {}
    for kind, lines in zip(KINDS, (stock, on_order, placed, quantities)):
        tables[kind] = folder / f"{kind}.csv" if lines else None
        if lines:
            (folder / f"{kind}.csv").write_text(f"{lines}\n", "utf-8")
    return read_holdings(tables, Reading(**words), dict.fromkeys("AB"))


def hand(stock: Fraction | int, owed: Fraction | int = 0) -> OnHand:
    return OnHand(Fraction(stock), Fraction(owed))


@pytest.mark.parametrize("heading", CASES["stock"])
def test_headings_of_stock(tmp_path: Path, heading: str) -> None:
    """Names of systems are found, and a column is never taken for another one."""
    holdings = read(tmp_path, f"{heading}\nA;12;3\nA;1,5;\nB;-2;0")
    assert holdings.on_hand == {"A": hand(Fraction(27, 2), 3), "B": hand(0, 2)}


@pytest.mark.parametrize("kind", ["on_order", "placed"])
@pytest.mark.parametrize("heading", CASES["on_order"])
def test_headings_of_orders(tmp_path: Path, heading: str, kind: str) -> None:
    """Orders that were placed since have the headings of what is on order, too. Of a line with 0 nothing is to come."""
    lines = f"{heading}\nA;10;01.12.2026\nB;2;\nA;0;2026-12-01"
    holdings = read(tmp_path, **{kind: lines})
    assert holdings.on_hand is None
    assert holdings.arrivals == {
        "A": [Arrival(Fraction(10), DUE)],
        "B": [Arrival(Fraction(2), None)],
    }


@pytest.mark.parametrize("heading", CASES["placed"])
def test_headings_of_placed_orders(tmp_path: Path, heading: str) -> None:
    """Orders as they are placed add to what is on order, which has no such columns."""
    lines = f"{heading}\nA;x;10;2026-12-01\nB;y;2;"
    holdings = read(tmp_path, on_order="item,quantity\nA,4", placed=lines)
    assert holdings.arrivals == {
        "A": [Arrival(Fraction(4)), Arrival(Fraction(10), DUE)],
        "B": [Arrival(Fraction(2))],
    }
    with pytest.raises(RefusedFaults, match="no column looks like the quantity"):
        read(tmp_path, on_order=lines)


@pytest.mark.parametrize("heading", CASES["quantities"])
def test_headings_of_quantities(tmp_path: Path, heading: str) -> None:
    """Quantities have names of their own, and those of orders as they are placed; why a plan orders is no reason."""
    holdings = read(tmp_path, quantities=f"{heading}\nA;x;10;one truck\nB;y;0;")
    reason = "" if heading.endswith("why") else "one truck"
    assert holdings.quantities == {"A": Quantity(10, reason), "B": Quantity(0)}
    packs = read(tmp_path, quantities="item,qty (packs of 12)\nA,2")
    assert packs.quantities == {"A": Quantity(24)}
    assert not packs.arrivals and packs.on_hand is None


@pytest.mark.parametrize("heading, cells, words, stock, owed", CASES["words"])
def test_units_and_words(
    tmp_path: Path,
    heading: str,
    cells: str,
    words: Mapping[str, Any],
    stock: str,
    owed: str,
) -> None:
    """Packs become items, and stated columns and signs hold."""
    holdings = read(tmp_path, f"item,{heading}\nA,{cells}", **words)
    assert holdings.on_hand == {"A": hand(Fraction(stock), Fraction(owed))}


@pytest.mark.parametrize("cells, code, text", CASES["faults"])
def test_rows_that_cannot_be_read(
    tmp_path: Path, cells: str, code: str, text: str
) -> None:
    """A row with a fault is named with its line, and nothing is then known of its item, whatever other rows say."""
    holdings = read(tmp_path, f"item,stock,owed\nA,1,\nA,{cells}\nB,4,")
    (reject,) = holdings.rejects
    assert (reject.kind, reject.line, reject.remark.code) == ("row", 3, code)
    assert text in sentence(reject.remark)
    known = code == "long"
    assert holdings.on_hand == ({"A": hand(1)} if known else {}) | {"B": hand(4)}
    assert holdings.unread == (set() if known else {"A"})
    counts = {**holdings.counts["stock"]}
    assert counts.pop("name") == "stock.csv"
    used = {"used": 1 + known, "with_item": 1 - known}
    assert counts == {"read": 3, "blank": 0, "rejected": 1, "other": 0, **used}


def test_rows_that_are_named(tmp_path: Path) -> None:
    """Rows of other items are left out with them, rows without a name are rejected, equal rows both count."""
    stock = "item,stock,place\nA,1,x\nC,2,x\n,3,x\nA,1,x\nC,2,y\nA,1,y"
    holdings = read(tmp_path, stock, "item,quantity,due\nB,4,31.02.2026")
    rejects = []
    for reject in holdings.rejects:
        place = reject.kind, reject.file, reject.line, reject.item
        rejects.append((*place, reject.remark.code))
    assert rejects == [
        ("row", "on_order.csv", 2, "B", "no day"),
        ("item", "stock.csv", 3, "C", "not in the plan"),
        ("row", "stock.csv", 4, "", "no item"),
        ("suspicious", "stock.csv", 5, "A", "equal rows"),
    ]
    assert holdings.on_hand == {"A": hand(3)} and holdings.unread == {"B"}
    counts = holdings.counts["stock"]
    assert (counts["used"], counts["rejected"], counts["with_item"]) == (3, 1, 2)


def test_frames_and_tables_that_cannot_be_read(tmp_path: Path) -> None:
    """A frame is read as a file. A missing column is refused, and two are never chosen between."""
    frame = pd.DataFrame({"sku": ["A", "B"], "on hand": [2.0, float("nan")]})
    tables = {"stock": frame, "on_order": None}
    holdings = read_holdings(tables, Reading(), dict.fromkeys("AB"))
    assert holdings.on_hand == {"A": hand(2)} and holdings.unread == {"B"}
    said = "no column looks like the stock; .* item, place"
    with pytest.raises(RefusedFaults, match=said):
        read(tmp_path, "item,place\nA,1")
    with pytest.raises(RefusedFaults, match="'qty' and 'stock'"):
        read(tmp_path, "item,qty,stock\nA,1,2")


@pytest.mark.parametrize("heading, least", CASES["suppliers"])
def test_suppliers_of_masters(heading: list[str], least: int) -> None:
    """A supplier is found by the whole name of its column alone: others that begin so are no suppliers."""
    others = [f"{heading[0]} x", "note", "z"]
    for names, wanted in ((heading, ("Bosch", least or None)), (others, ("", None))):
        cells = dict(zip(names, ("Bosch", "5 days", 500)))
        masters = masters_of({**MASTER, **cells})
        item = items_of(read_catalogue(demand_of("A"), masters, today=TODAY))["A"]
        assert (item.supplier, item.supplier_min) == wanted


def test_a_closed_line_in_a_unit_that_nobody_knows(tmp_path: Path) -> None:
    """Reads the other lines: how many items were ordered in that one is not known, and nobody needs to say it."""
    lines = "item,quantity,uom,status\nA,10,pcs,open\nA,5,XYZ,closed\nA,7,pcs,closed"
    holdings = read(tmp_path, on_order=lines)
    assert holdings.arrivals == {"A": [Arrival(Fraction(10))]}
    assert holdings.filed == {"A": [10, 7]}
