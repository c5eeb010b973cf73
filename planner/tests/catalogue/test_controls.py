"""Tests control totals against pandas' sums of the source: rows, units, value and dates of each file, by what became of
the rows."""
from __future__ import annotations

from datetime import date
from fractions import Fraction
from pathlib import Path
from types import SimpleNamespace
from typing import Any

import pandas as pd
import pytest

import crnplan as crn
from crnplan.show.control_tables import controls_of
from crnplan.read.blocks import Sizes
from crnplan.read.catalogue_reading import read_alone
from crnplan.read.controls import (
    Control,
    Controls,
    controls_in,
    names_of_files,
    together,
    tree_of,
)
from crnplan.read.items import Reading
from crnplan.read.stock import read_holdings
from crnplan.catalogues import Catalogue, read_catalogue
from planner.tests.conftest import Command, rows_of
from planner.tests.read.catalogues import TODAY

USED, LEFT_OUT, REJECTED, OTHER = (
    "used",
    "left out with their item",
    "rejected",
    "other rows",
)
# What each planted row becomes.
BAD = [
    ("A", "2026-02-30", "4", "Main", REJECTED),
    ("A", "2026-03-02", "2.5", "Main", REJECTED),
    ("B", "2026-03-02", "n/a", "Main", REJECTED),
    ("", "2026-03-02", "3", "Main", REJECTED),
    ("A", "2027-05-03", "6", "Main", REJECTED),
    ("Z", "2026-03-03", "7", "Main", LEFT_OUT),
    ("A", "2025-01-01", "1000", "North", OTHER),
]
PRICES = {"A": Fraction("2.5"), "B": Fraction("0.3")}
MASTERS = "item,setup,holding (per week),backlog (per week),lead (weeks),price,stock\n"
WEEKS = pd.date_range("2026-01-05", periods=30, freq="7D").strftime("%Y-%m-%d")


@pytest.fixture(scope="module")
def source() -> pd.DataFrame:
    """Returns movements of two items in one place, with rows that are not used, and what becomes of each."""
    days = pd.date_range("2026-01-05", periods=150).strftime("%Y-%m-%d")
    rows = [*BAD]
    for place, day in enumerate(days):
        rows.append(("AB"[place % 2], day, str(1 + place % 5), "Main", USED))
    columns = ["item", "date", "quantity", "Location", "rows_are"]
    return pd.DataFrame(rows, columns=columns)


@pytest.fixture
def tables(tmp_path: Path, source: pd.DataFrame) -> dict[str, Path]:
    """Returns the tables of a catalogue, of which that of demand is in two files."""
    rows = source.drop(columns="rows_are")
    for place in range(2):
        rows[place::2].to_csv(tmp_path / f"demand-{place}.csv", index=False)
    rows_of_masters = (
        "A,20,0.06,0.9,2,2.5,12\nB,20,0.06,0.9,2,0.3,7.5\nC,,0.06,0.9,2,100,9\n"
    )
    (tmp_path / "items.csv").write_text(MASTERS + rows_of_masters, "utf-8")
    orders = "item,ordered,received\nA,2026-02-02,2026-02-17\nA,2026-03-02,bad\n"
    (tmp_path / "orders.csv").write_text(orders, "utf-8")
    names = {"demand": "demand-*.csv", "items": "items.csv", "orders": "orders.csv"}
    return {kind: tmp_path / name for kind, name in names.items()}


def sums(
    frame: pd.DataFrame, amounts: str = "quantity", dates: str = "date"
) -> dict[str, list[Any]]:
    """Returns rows, units, value, dates and amounts that are no number, of rows of the source by pandas: of all, and by
    what they are."""
    units = pd.to_numeric(frame[amounts], errors="coerce")
    days = pd.to_datetime(frame[dates], errors="coerce").dt.strftime("%Y-%m-%d")
    value = units * frame.item.map(PRICES).astype(float)
    found = {}
    for name, rows in {"read": frame.index, **frame.groupby("rows_are").groups}.items():
        known, seen = value[rows].dropna(), days[rows].dropna()
        total = pytest.approx(known.sum()) if len(known) else None
        ends = [seen.min(), seen.max()] if len(seen) else [None, None]
        unread = int(units[rows].isna().sum()) or None
        found[str(name)] = [len(rows), units[rows].sum(), total, *ends, unread]
    return found


def rows_in(controls: pd.DataFrame, file: str) -> dict[str, list[Any]]:
    """Returns rows, units, value and dates of a file, by what its rows are; None for no figure."""
    names = ["rows", "units", "value", "first", "last", "unread"]
    table = controls[controls.file == file].set_index("rows_are")[names].astype(object)
    return table.where(table.notna(), None).T.to_dict("list")


@pytest.mark.parametrize(
    "sizes", [Sizes(), Sizes(1_000, 500, plain=0)], ids=["one part", "parts"]
)
def test_controls_of_a_catalogue(
    tmp_path: Path, tables: dict[str, Path], source: pd.DataFrame, sizes: Sizes
) -> None:
    """What was read and what became of it is what pandas sums in the source, in one part or in several."""
    words = Reading(today=TODAY, where=("Location=Main",))
    catalogue = Catalogue(read_alone(tmp_path / "read", tables, words, 1, sizes))
    controls = catalogue.controls
    for place in range(2):
        read = sums(source[place::2])["read"]
        assert rows_in(controls, f"demand-{place}.csv") == {"read": read}
    assert rows_in(controls, "demand, all files") == sums(source)
    used = pytest.approx(12 * 2.5 + 7.5 * 0.3)
    assert rows_in(controls, "items.csv") == {
        "read": [3, 28.5, pytest.approx(12 * 2.5 + 7.5 * 0.3 + 900), *[None] * 3],
        USED: [2, 19.5, used, None, None, None],
        LEFT_OUT: [1, 9, 900, None, None, None],
    }
    assert rows_in(controls, "orders.csv") == {
        "read": [2, None, None, "2026-02-02", "2026-03-02", None],
        USED: [1, None, None, "2026-02-02", "2026-02-02", None],
        REJECTED: [1, None, None, "2026-03-02", "2026-03-02", None],
    }
    counts = dict(catalogue.counts["files"]["demand"])
    names = "read", "blank", "used", "rejected", "with_item", "other"
    assert [counts[name] for name in names] == [len(source), 0, 150, 5, 1, 1]
    assert "returned" not in controls


def controls_by(demand: pd.DataFrame, price: object, **words: Any) -> pd.DataFrame:
    """Returns the controls of demand of item A by what its rows are."""
    cells = ["A", 20, 0.06, 0.9, 2, price, 0]
    masters = pd.DataFrame([cells], columns=MASTERS.strip().split(","))
    controls = read_catalogue(demand, masters, today=TODAY, **words).controls
    return controls[controls.file == "demand"].set_index("rows_are")


def test_units_as_they_stand_and_values_in_items() -> None:
    """Packs and units of measure count for the value alone; the sum of returns has a column of its own."""
    factors, packs = {"PCE": 1, "KAR": 10}, "quantity (pack of 6)"
    demand = pd.DataFrame({"item": "A", "date": WEEKS})
    demand[packs] = 1 + demand.index % 4
    demand["returned"] = demand.index % 2
    demand["unit of measure"] = demand.returned.map(dict(enumerate(factors)))
    used = controls_by(demand, 0.1, factors=factors).loc[USED]
    counts = 6 * demand[packs] * demand["unit of measure"].map(factors)
    assert (used.units, used.returned) == (demand[packs].sum(), demand.returned.sum())
    assert used.value == pytest.approx(counts.sum() * 0.1)


def test_huge_amounts() -> None:
    """Amounts whose sums pass 64 bits have an exact value."""
    amount = 900_000_000_000_000
    demand = pd.DataFrame(
        {"item": "A", "date": WEEKS, "quantity": amount}, dtype=object
    )
    demand.loc[0, "quantity"] = "0.00001"
    read = controls_by(demand, 2).loc["read"]
    assert read.units == 29 * amount and read.value == 2 * read.units


def test_sums_are_exact() -> None:
    """Sums of parts are exact, are kept as such, and no rows come to nothing."""
    value, days = 10**20 + Fraction(1, 7), (date(2026, 1, 2), date(2026, 1, 3))
    key = "demand", "a", USED
    third = Control(1, {"quantity": Fraction(1, 3)}, value, *days, 2)
    controls: Controls = {key: third}
    whole = together([controls, controls, controls, {key: Control()}])
    assert whole[key] == Control(3, {"quantity": Fraction(1)}, 3 * value, *days, 6)
    assert controls_in(tree_of(whole)) == whole
    empty = controls_of({key: Control()}, 2, "").rows
    assert [row[:4] for row in empty] == [["a", "read", 0, None], ["a", USED, 0, None]]


def test_controls_are_said(
    tmp_path: Path,
    tables: dict[str, Path],
    source: pd.DataFrame,
    crnplan: Command,
    program: Path,
    monkeypatch: pytest.MonkeyPatch,
) -> None:
    """The summary, the page and Python have the same table."""
    monkeypatch.chdir(tmp_path)
    settings = '[catalogue]\nfit = "empirical"\nborrow = "none"\nperiods = 16\n'
    (tmp_path / "crnplan.toml").write_text(settings, "utf-8")
    words = "--set where=Location=Main --out plan --set currency=EUR --program".split()
    answer = crnplan("plan", "demand-*.csv", "items.csv", *words, program)
    assert answer.status == 0, answer
    lines = [line.split() for line in answer.output.splitlines()]
    heading = ["file", "rows_are", "rows", "units", "value", "first", "last", "unread"]
    count, units, *_ = sums(source)["read"]
    total = ["demand,", "all", "files", "read", str(count), f"{units:,.15g}"]
    assert heading in lines and total in [line[:6] for line in lines]
    page = (tmp_path / "plan/report.html").read_text("utf-8")
    assert "Control totals" in page and f">{units:,.15g}</td>" in page
    controls = crn.open_plan(tmp_path / "plan").controls
    assert controls.units[2] == units
    assert controls.attrs["units"]["value"] == "EUR"
    assert rows_of(tmp_path / "plan/decisions.csv").keys() == {"A", "B"}


def test_controls_of_today(tmp_path: Path) -> None:
    """Tables of today come to what pandas sums in them, by what became of their rows."""
    stock = [
        ("A", "12", "0", USED),
        ("B", "7.5", "2", LEFT_OUT),
        ("A", "3", "1", USED),
        ("Z", "9", "0", LEFT_OUT),
        ("B", "n/a", "0", REJECTED),
        ("C", "4", "0", USED),
    ]
    due = [
        ("A", "20", "2026-12-07", USED),
        ("A", "5", "2026-12-01", USED),
        ("B", "6", "soon", REJECTED),
    ]
    frames = {
        "stock": pd.DataFrame(stock, columns=["item", "stock", "owed", "rows_are"]),
        "on_order": pd.DataFrame(due, columns=["item", "quantity", "due", "rows_are"]),
    }
    for kind, frame in frames.items():
        frame.drop(columns="rows_are").to_csv(tmp_path / f"{kind}.csv", index=False)
    tables = {kind: tmp_path / f"{kind}.csv" for kind in frames}
    read = read_holdings(tables, Reading(), {**PRICES, "C": None})
    controls = controls_of(read.controls, 2, "EUR").frame
    on_order = sums(frames["on_order"], dates="due")
    assert rows_in(controls, "on_order.csv") == {
        **on_order,
        REJECTED: [1, 6, 1.8, None, None, None],
    }
    undated = frames["stock"].assign(date="")
    found, wanted = rows_in(controls, "stock.csv"), sums(undated, "stock")
    # A row without an amount is worth nothing.
    wanted[REJECTED] = [1, 0, 0, None, None, 1]
    assert found == wanted
    assert controls.owed[controls.file == "stock.csv"].tolist() == [3, 1, 0, 2]


def test_fractional_factors(tmp_path: Path) -> None:
    """A row counts as many items as its factor says, also if that is a part of one."""
    rows = "item,stock,qty per unit\nA,12,0.5\nB,8,0.25\nA,3,12\n"
    (tmp_path / "stock.csv").write_text(rows, "utf-8")
    tables = {"stock": tmp_path / "stock.csv"}
    read = read_holdings(tables, Reading(), PRICES)
    value = (12 * Fraction(1, 2) + 3 * 12) * PRICES["A"] + 2 * PRICES["B"]
    (control,) = read.controls.values()
    assert (control.amounts, control.value) == ({"stock": 23}, value)


@pytest.mark.parametrize(
    "paths, names",
    [
        (["a/x.csv", "a/y.csv"], ["x.csv", "y.csv"]),
        (["a/x.csv", "b/x.csv"], ["a/x.csv", "b/x.csv"]),
    ],
)
def test_files_of_one_name(paths: list[str], names: list[str]) -> None:
    """Files of a table are named with their folders if two have one name."""
    files = [SimpleNamespace(name=path, file_name=Path(path).name) for path in paths]
    sheet: Any = SimpleNamespace(files=files)
    assert names_of_files(sheet) == names
