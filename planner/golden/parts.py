"""Computes the parts of the golden data: examples, catalogues, items alone and the smallest parts of the studies."""
from __future__ import annotations

import csv
import tempfile
from collections.abc import Callable
from concurrent.futures import ProcessPoolExecutor
from dataclasses import replace
from functools import partial
from pathlib import Path
from typing import Any

import pandas as pd

import crnplan as crn
from crnplan.read.item import Item
from planner.bench.made import make
from planner.golden import house
from planner.golden.house import Figures

TOP = Path(__file__).parents[2]
EXAMPLES = TOP / "examples"
SCENARIOS = ("two_policies", "spare_part", "mail_order")
ITEMS, CANDIDATES, ALONE = 300, 60, 50
FEW, PLANNED = (
    40,
    15,
)  # of a small catalogue: items that teach, and those of them that are planned
# Keys of a long run of a scenario.
KEYS = 6


def scenarios(program: str, jobs: int) -> Figures:
    """Returns the figures of the scenarios of the examples."""
    found: Figures = {}
    for name in SCENARIOS:
        scenario = crn.Scenario.read(EXAMPLES / f"{name}.toml")
        found[name] = {
            "run": house.run_rows(scenario, program),
            "theory": house.theory_rows(scenario),
            "long_run": house.long_run_rows(scenario, program, KEYS),
        }
    return found


def case(program: str, jobs: int) -> Figures:
    """Returns the figures of the worked case, from its history to its doubt, and of its plan."""
    folder = EXAMPLES / "case"
    files = folder / "history.csv", folder / "items.csv"
    with crn.read_catalogue(*files).opened() as read:
        (item,) = read.items()
    counts, leads = item.counts, item.leads
    own = crn.Scenario.read(folder / "scenario.toml")
    suggested = house.suggested(own, counts, leads)
    # Its random numbers follow from its name.
    planned = house.planned(replace(item, name="history"), program)
    return {
        "fit": house.fitted(counts, leads),
        "run": house.run_rows(own, program),
        "theory": house.theory_rows(own),
        "long_run": house.long_run_rows(suggested, program, 48),
        "item": house.item_figures(planned),
        "doubt": house.doubt_rows(suggested, counts, leads),
        "sweep": house.sweep_rows(own, program),
    }


def planned(
    files: dict[str, Any], program: str, jobs: int, candidates: int, **settings: Any
) -> Figures:
    """Returns the figures of a catalogue: what was read, the plan, the curve and the candidates of some items."""
    with tempfile.TemporaryDirectory() as room:
        folder = Path(room) / "plan"
        house.plan_catalogue(files, folder, program, jobs, **settings)
        items, curve = house.plan_rows(folder), house.curve_rows(
            folder, jobs, fill=0.97
        )
        value = next(it["value"] for it in curve if it["point"] == "today")
        orders = next(it["orders"] for it in curve if it["point"] == "today")
        budgets = {
            "value": {"stock_value": 0.8 * value},
            "fill and orders": {"fill": 0.95, "orders": 0.8 * orders},
            "value and orders": {"stock_value": 1.1 * value, "orders": 0.8 * orders},
        }
        points = {
            name: [
                it
                for it in house.curve_rows(folder, jobs, **its)
                if it["point"] == "budget"
            ]
            for name, its in budgets.items()
        }
        names = [name for name, its in items.items() if "fault" not in its][
            :: max(1, len(items) // candidates)
        ]
        return {
            "read": house.read_rows(folder),
            "items": items,
            "curve": curve,
            "budgets": points,
            "candidates": house.candidate_rows(folder, names),
        }


def example_catalogue(program: str, jobs: int) -> Figures:
    """Returns the figures of the catalogue of the examples."""
    folder = EXAMPLES / "catalogue"
    return planned(
        {it: folder / f"{it}.csv" for it in ("demand", "items", "orders")},
        program,
        jobs,
        6,
    )


def catalogue(program: str, jobs: int) -> Figures:
    """Returns the figures of a made catalogue, whose items learn from one another."""
    with tempfile.TemporaryDirectory() as room:
        return planned(make(Path(room), ITEMS).paths, program, jobs, CANDIDATES)


def with_boxes(folder: Path) -> None:
    """Changes a made catalogue: some items, with a backlog cost and with a wanted fill rate, are counted by thousands,
    so in boxes, and some have returns."""
    rows = [*csv.DictReader((folder / "demand.csv").open(encoding="utf-8"))]
    masters = pd.read_csv(folder / "items.csv", dtype=str, keep_default_na=False)
    by_fill = masters.index[masters["fill"] != ""]
    boxed = {*masters["item"][by_fill[:2]], *masters["item"].drop(by_fill)[:3]}
    returned = {*masters["item"][by_fill[1:4]], *masters["item"].drop(by_fill)[2::3]}
    for number, row in enumerate(rows):
        if row["quantity"].isdigit():
            row["returned"] = str(int(row["item"] in returned and number % 5 == 0))
            for name in ("quantity", "returned"):
                row[name] = str(int(row[name]) * (3_000 if row["item"] in boxed else 1))
    for place in masters.index[masters["item"].isin(boxed)]:
        for name in ("s", "S", "stock"):
            masters.loc[place, name] = str(3_000 * int(masters.loc[place, name]))
        for name in ("holding", "backlog", "price"):
            text = masters.loc[place, name]
            masters.loc[place, name] = f"{float(text) / 100:.8f}" if text else ""
    pd.DataFrame(rows).fillna("0").to_csv(folder / "demand.csv", index=False)
    masters.to_csv(folder / "items.csv", index=False)


def plan_first(folder: Path, count: int) -> None:
    """Changes a made catalogue: later items only teach others, since their costs are too far apart for a plan."""
    masters = pd.read_csv(folder / "items.csv", dtype=str, keep_default_na=False)
    masters.loc[masters.index[count:], ["holding", "backlog", "fill"]] = (
        "0.0001",
        "500",
        "",
    )
    masters.to_csv(folder / "items.csv", index=False)


def few(program: str, jobs: int) -> Figures:
    """Returns the figures of a small catalogue with boxes, returns, and a confidence in fill rates, by short runs."""
    with tempfile.TemporaryDirectory() as room:
        made = make(Path(room), FEW)
        with_boxes(made.folder)
        plan_first(made.folder, PLANNED)
        return planned(
            made.paths,
            program,
            jobs,
            PLANNED,
            borrow="all",
            confidence=0.8,
            periods=64,
            replications=8,
        )


def alone_of(program: str, item: Item) -> tuple[str, Figures]:
    """Plans an item alone."""
    return item.name, house.item_rows(item.name, item, program)


def items(program: str, jobs: int) -> Figures:
    """Returns the figures of items that are planned alone: those of the made catalogue with a backlog cost,
    counted one by one."""
    with tempfile.TemporaryDirectory() as room:
        found = house.items_of(make(Path(room) / "files", ITEMS).paths, Path(room))
    asked = [item for item in found.values() if item.backlog and item.box == 1][:ALONE]
    with ProcessPoolExecutor(jobs) as pool:
        return dict(pool.map(partial(alone_of, program), asked))


def study_of(name: str) -> tuple[str, list[Figures]]:
    """Runs the smallest part of a study."""
    from planner.studies import (
        borrowing,
        dependence,
        doubt,
        fills,
        laws,
        laws_leads,
        search,
        warnings,
    )

    parts: dict[str, Callable[[], pd.DataFrame]] = {
        "borrowing": lambda: borrowing.study(**borrowing.SMALL | {"most": 3}),
        "borrowing_odd": lambda: borrowing.odd_study(
            **borrowing.SMALL_ODD | {"histories": 2}
        ),
        "dependence": lambda: dependence.study(dependence.SMALL, 4, 60),
        "doubt": lambda: doubt.study(**doubt.SMALL | {"histories": 2}),
        "fills": lambda: fills.study(**fills.SMALL | {"laws": ("INT",)}),
        "laws": lambda: laws.study(**laws.SMALL | {"histories": 3}),
        "laws_leads": lambda: laws_leads.study(2, (5,)),
        "search": lambda: search.study(**search.SMALL),
        "warnings": lambda: warnings.study(**warnings.SMALL),
    }
    return name, house.records(parts[name]())


STUDIES = (
    "borrowing",
    "borrowing_odd",
    "dependence",
    "doubt",
    "fills",
    "laws",
    "laws_leads",
    "search",
    "warnings",
)


def studies(program: str, jobs: int) -> Figures:
    """Returns the figures of the smallest parts of the studies."""
    with ProcessPoolExecutor(jobs) as pool:
        return dict(pool.map(study_of, STUDIES))


Part = Callable[[str, int], Figures]
PARTS: dict[str, Part] = {
    "scenarios": scenarios,
    "few": few,
    "case": case,
    "example_catalogue": example_catalogue,
    "catalogue": catalogue,
    "items": items,
    "studies": studies,
}
# The parts that the gate computes.
FAST = ("scenarios", "few")
