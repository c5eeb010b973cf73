"""Tests exports of systems from files to rejects and orders, by the calls that users have: nothing is lost, and each order is as
computed by hand."""
from __future__ import annotations

import contextlib
import datetime
import gzip
import tomllib
from operator import attrgetter
from pathlib import Path
from typing import Any

import pandas as pd
import pytest

import crnplan as crn
from planner.tests.conftest import Command
from planner.tests.read import books

# Where levels are set, no order shows the demand, the lead times and the costs that a plan starts from.
from planner.tests.read.catalogues import items_of

FIRST_DAY, WEEKS = datetime.date(2026, 3, 2), 26
TODAY = datetime.date(2026, 9, 7)
DAY_0 = datetime.date(1899, 12, 30)  # of a spreadsheet, whose day 46083 is 2 March 2026
CASES = tomllib.loads(Path(__file__).with_name("exports.toml").read_text("utf-8"))
PAST, BESIDE = ("demand", "items", "receipts"), ("laws", "out_of_stock")
HELD, TYPED = ("stock", "on_order"), ("placed", "quantities")
TABLES = *PAST, *BESIDE, *HELD, *TYPED, "overrides", "earlier"
# Letters of a cell: a table of 78 rows with so many is read by pandas.
LONG = 26_000


def date_of(day: datetime.date, demand: dict[str, Any]) -> str:
    """Returns a day as the table of demand writes it."""
    form = demand.get("date", "")
    if day.day <= 12:
        form = demand.get("early", form)
    if "months" in demand:
        form = form.replace("%b", demand["months"][day.month - FIRST_DAY.month])
    return day.strftime(form)


def demand_of(case: dict[str, Any]) -> str:
    """Returns the table of demand of a case: a row of each item in each week, and its further lines."""
    demand = case["demand"]
    names, more = demand.get("items", "ABC"), demand.get("more", ())
    counts = [2 + week % 3 for week in range(WEEKS)]
    first = FIRST_DAY + datetime.timedelta(demand.get("weekday", 0))
    days = [first + datetime.timedelta(7 * week) for week in range(WEEKS)]
    if "wide" in demand:
        heading = ["item", *(day.strftime(demand["wide"]) for day in days)]
        lines = [heading, *([item, *map(str, counts)] for item in names)]
        return "\n".join([*map(",".join, lines), *more, ""])
    rows = list[str]()
    for day, count in zip(days, counts):
        cells = {"date": date_of(day, demand), "serial": (day - DAY_0).days}
        cells |= {"quantity": count, "long": "x" * LONG}
        rows += [demand["row"].format(item=item, **cells) for item in names]
    return "\n".join([demand["heading"], *rows, *more, ""])


def written(folder: Path, case: dict[str, Any]) -> dict[str, Path]:
    """Writes the tables of a case, and returns their paths by kind. A table of lists is a workbook, in which a number with its
    format is a list."""
    tables = {**case, "demand": demand_of(case)}
    paths = dict[str, Path]()
    for name in filter(tables.get, TABLES):
        table = tables[name]
        if isinstance(table, str):
            paths[name] = folder / f"{name}.csv"
            encoding = case.get("encoding", "utf-8")
            paths[name].write_text(table.lstrip("\n"), encoding)
        else:
            rows = [
                [tuple(it) if type(it) is list else it for it in row] for row in table
            ]
            paths[name] = books.written(folder / f"{name}.xlsx", rows)
    return paths


def given(folder: Path, case: dict[str, Any]) -> dict[str, Any]:
    """Returns the tables of a case by kind, in the form in which they are given."""
    paths = written(folder, case)
    demand = paths["demand"]
    match case.get("form"):
        case "frames":
            frames = {name: pd.read_csv(path) for name, path in paths.items()}
            days = frames["demand"].pop("date").to_numpy()
            frames["demand"].index = pd.DatetimeIndex(days)
            return frames
        case "packed":
            paths["demand"] = folder / "demand.csv.gz"
            paths["demand"].write_bytes(gzip.compress(demand.read_bytes()))
        case "files":
            paths["demand"] = folder / "demand-*.csv"
            heading, *rows = demand.read_text("utf-8").splitlines()
            for number, part in enumerate((rows[:40], rows[40:])):
                text = "\n".join([heading, *part, ""])
                (folder / f"demand-{number}.csv").write_text(text, "utf-8")
    return paths


def check_facts(
    case: dict[str, Any], folder: Path, past: list[Any], words: dict[str, Any]
) -> None:
    """Compares what items are known by with what was worked by hand; it is the same if the files are read as was found."""
    read = crn.read_catalogue(*past, **words)
    items = items_of(read)
    for place, fact in case["facts"].items():
        item, _, name = place.partition(".")
        found = attrgetter(name)(items[item])
        if isinstance(fact, float):
            assert float(found) == pytest.approx(fact, rel=1e-3), place
        else:
            found = [*found] if isinstance(found, tuple) else found
            assert str(found) == str(fact), place
    config = folder / "found.toml"
    config.write_text(read.found, "utf-8")
    reading, _ = crn.read_config(config)
    beside = {kind: words[kind] for kind in (*BESIDE, "today")}
    assert items_of(crn.read_catalogue(*past, reading=reading, **beside)) == items


def check_read(case: dict[str, Any], plan: crn.Plan) -> None:
    """Compares what rows of demand come to, what is left out, and how late suppliers are."""
    controls = plan.controls[plan.controls["rows_are"] == "used"]
    demand = controls[controls["file"].str.startswith("demand")]
    assert demand["units"].sum() == case["units"]
    if "value" in case:
        assert demand["value"].sum() == case["value"]
    rejects = [
        (f"{row.file}:{row.line}" if row.kind == "row" else str(row.item), row.reason)
        for row in plan.rejects.itertuples()
    ]
    expected = case.get("rejects", [])
    assert len(rejects) == len(expected), rejects
    for (place, reason), (wanted, part) in zip(sorted(rejects), sorted(expected)):
        assert place == wanted and part in reason
    if "late" in case:
        late = plan.lateness
        assert dict(zip(late["supplier"], late["seen_90"])) == case["late"]


def check_orders(
    tables: dict[str, Any], case: dict[str, Any], folder: Path, program: Path
) -> None:
    """Compares what is read, planned and ordered with what was worked by hand."""
    past = [tables.get(kind) for kind in PAST]
    beside = {kind: tables.get(kind) for kind in BESIDE}
    words = {**beside, "today": TODAY, **case.get("words", {})}
    if "facts" in case:
        check_facts(case, folder, past, words)
    words |= {"jobs": 1, "program": program}
    if "earlier" in tables:
        words["after"] = folder / "earlier-plan"
        crn.plan(
            *past,
            overrides=tables["earlier"],
            out=words["after"],
            **words | {"after": None},
        )
    plan = crn.plan(*past, overrides=tables.get("overrides"), **words)
    check_read(case, plan)
    for key in case.get("keys", ()):
        assert plan.item(key)
    held = (tables.get(kind) for kind in HELD)
    typed = {kind: tables.get(kind) for kind in TYPED}
    orders = plan.orders_today(*held, str(TODAY), **typed, **case.get("today", {}))
    found = zip(map(str, orders.frame["item"]), orders.frame["placed"])
    assert dict(found) == case["orders"]


@pytest.mark.parametrize("case", CASES["case"], ids=lambda case: case["name"])
def test_from_exports_to_orders(
    tmp_path: Path, program: Path, case: dict[str, Any]
) -> None:
    tables = given(tmp_path, case)
    expected: Any = contextlib.nullcontext()
    if "refused" in case:
        expected = pytest.raises(crn.Refused, match=case["refused"])
    with expected:
        check_orders(tables, case, tmp_path, program)


def test_a_folder_of_exports(tmp_path: Path, crnplan: Command) -> None:
    """The command says what each file is, leaves out what crnplan has written, and asks about a list of names and
    about a table of two kinds, unless it is told to leave that out."""
    wide = next(case for case in CASES["case"] if "wide" in case["demand"])
    written(tmp_path, wide)
    (tmp_path / "decisions.csv").write_text("item,s_chosen,S_chosen\nA,20,50\n")
    told = crnplan("plan", tmp_path, "--check")
    assert told.status == 0 and "demand.csv: 104 rows = 103 used" in told.output
    for name, what in (
        ("demand", "it is the table demand by its columns"),
        ("items", "it is the table items by its columns"),
        ("stock", "left out: it is the table stock"),
        ("on_order", "left out: it is the table on_order"),
        ("decisions", "left out, since crnplan has written it"),
    ):
        assert f"{name}.csv: {what}" in told.errors
    # Stock and open orders may have these columns.
    for heading in ("item,description", "item,quantity"):
        (tmp_path / "names.csv").write_text(f"{heading}\nA,5\n")
        told = crnplan("plan", tmp_path, "--check")
        assert told.refuses("names.csv: its columns are those of no table")
    told = crnplan("plan", tmp_path, f"none={tmp_path / 'names.csv'}", "--check")
    assert told.status == 0 and "names.csv: left out, as was said" in told.errors
