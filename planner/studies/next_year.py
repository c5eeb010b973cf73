"""Says whether what `crnplan backtest` names on two years of a catalogue is what the year after them confirms.

    python -m planner.studies.next_year --jobs 2 --out planner/studies/next_year.csv    what is stored, in some minutes
    python -m planner.studies.next_year --small                                        a few items, in some seconds

`open_kinds.py` makes the catalogues: 48 items that weigh alike, and are to meet 95% together. The test sees two years. It
plans at the end of the first, and again each quarter. Then each way plans at the end of the second year, by what two years
teach, and again each quarter of the third: as `crnplan plan` does at the end of the second. Both years have the same
simulator, that of the test.

`past` is by how many percent more stock a way needs than the plan in the second year, as the test says. `beside` is the
same of the third year, where both meet 95%, or as near to that as both get (`at`). Its errors are from samples with
replacement of items and of blocks of four weeks of a class (`by_commands.py`), since a class moves together.

- confirmed: the way that the test names needs less in the third year by two errors; or it names none, and none does.
- missed: it names none, and one needs less by two errors.
- false: the way that it names needs more.
- unsure: the way that it names needs less, but not by two errors.

With `follow` none the plan follows no levels, and the test may name the plan that does.
"""
from __future__ import annotations

from collections.abc import Mapping, Sequence
from concurrent.futures import ProcessPoolExecutor
from dataclasses import replace
from datetime import timedelta
from pathlib import Path
from tempfile import TemporaryDirectory
from types import SimpleNamespace
from typing import Any, NamedTuple

import click
import numpy as np
import pandas as pd

from crnplan.api import take_tables
from crnplan.demand import AUTO
from crnplan.plan.backtest.catalogue import TESTS, backtest_into
from crnplan.plan.backtest.lessons import Lessons, Records
from crnplan.plan.backtest.methods import METHODS, PLANNED, Walk
from crnplan.plan.backtest.one import Backtest, backtest_one
from crnplan.plan.backtest.sums import Sums
from crnplan.plan.how import NONE, Settings
from crnplan.read.catalogue_reading import CATALOGUE, READ
from crnplan.read.items import Reading
from crnplan.store.files import own_folder
from crnplan.store.means import Means
from crnplan.store.stored import Store
from planner.studies.by_commands import Curve, Samples, beside, said
from planner.studies.fair import setup_of
from planner.studies.open_kinds import ITEMS, START, Catalogue, catalogue_of
from planner.studies.page import markdown

STORED = Path(__file__).with_name("next_year.csv")
WANTED, SHARE = "95%", 0.95
KINDS, SEEDS, SMALL_ITEMS = ("season", "doubles", "dealers", "flat"), (1, 2, 3), 10
MOVING = "doubles"  # the kind that is planned without following levels too
ERRORS = 2
CATALOGUES = ["kind", "follow", "seed"]
FIGURES = "past", "beside"
CONFIRMED, FALSE, MISSED, UNSURE = "confirmed", "false", "missed", "unsure"


class Case(NamedTuple):
    """A catalogue that is tested, of so many items a class, and whether its plan follows levels."""

    kind: str
    seed: int
    follow: str = AUTO
    items: int = ITEMS


CASES = [Case(kind, seed) for kind in KINDS for seed in SEEDS]
CASES += [Case(MOVING, seed, NONE) for seed in SEEDS]
SMALL: dict[str, Any] = {"cases": [Case("season", 1, AUTO, SMALL_ITEMS)]}


def tables_of(catalogue: Catalogue) -> tuple[pd.DataFrame, pd.DataFrame]:
    """Returns the movements of the record and the masters. A week's mean demand of each item costs as much to hold, and
    is worth as much."""
    rows, masters = list[Any](), list[Any]()
    for one in catalogue.items:
        seen, member = one.seen[: catalogue.record], one.member
        days = (START + timedelta(weeks=week) for week in range(len(seen)))
        rows += [(member.name, *row) for row in zip(days, seen.tolist())]
        unit = round(1 / max(float(seen.mean()), 0.01), 6)
        own = member.name, member.group, setup_of(1), unit, 100 * unit, member.lead
        masters.append(own)
    headings = ["item", "class", "setup", "holding (week)", "price", "lead (weeks)"]
    sales = pd.DataFrame(rows, columns=["item", "date", "quantity"])
    return sales, pd.DataFrame(masters, columns=headings)


def both_years(case: Case) -> tuple[Sums, list[Backtest]]:
    """Returns what the test of the record says of all items; and what ways come to on the year after it, by item."""
    catalogue = catalogue_of(case.kind, case.seed, case.items)
    settings, means = Settings(fill=WANTED, follow=case.follow), Means(1)
    with TemporaryDirectory() as room, own_folder(Path(room), CATALOGUE) as folder:
        tables = tables_of(catalogue)
        take_tables(folder, *tables, None, None, Reading(fill=WANTED), 1)
        past = backtest_into(folder, settings, Walk(), means).whole
        with (
            Records(folder.path / READ, catalogue.record) as read,
            Store(folder.store(TESTS), Backtest) as tests,
        ):
            ways = Lessons.of(folder, tests, read, settings, means).ways
            known = {item.name: item for item in read.whole_items()}
    assert past
    later = list[Backtest]()
    for one in catalogue.items:
        counts = tuple(one.member.counts.tolist())
        item = replace(known[one.member.name], counts=counts)
        later.append(backtest_one(item, Walk(catalogue.record), ways))
    return past, later


def curve_of(tests: Sequence[Backtest], way: str, samples: Samples) -> Curve:
    """Returns what the aims of a way come to on the later year."""
    held = np.array([[test.holding] for test in tests])
    asked = samples.sums(held * np.array([test.demands for test in tests]))
    traced = [getattr(test, way) for test in tests]
    unmet = np.array([own.unmet_by_aim for own in traced])
    stocks = np.array([own.stocks_by_aim for own in traced])
    shares, stock = list[Any](), list[Any]()
    for aim in range(unmet.shape[1]):
        shares.append(samples.sums(held * unmet[:, aim]) / asked)
        stock.append(samples.sums(held * stocks[:, aim]))
    left, amounts = np.array(shares), np.array(stock)
    return Curve(left, left, amounts, amounts)


def later_rows(tests: Sequence[Backtest]) -> dict[str, dict[str, float]]:
    """Returns what each way needs beside the plan on the later year."""
    shop: Any = SimpleNamespace(groups=[test.group for test in tests])
    samples = Samples(shop, len(tests[0].demands))
    planned, rows = curve_of(tests, PLANNED, samples), dict[str, dict[str, float]]()
    for method in METHODS:
        if method.code != PLANNED and getattr(tests[0], method.code):
            curve = curve_of(tests, method.code, samples)
            rows[method.code] = beside(curve, planned, SHARE)
    return rows


def verdict_of(named: str, later: Mapping[str, Mapping[str, float]]) -> str:
    """Returns what the later year says of the way that a test names, none if that is empty."""
    most = {
        way: row["beside"] + ERRORS * row["beside_error"] for way, row in later.items()
    }
    if not named:
        return MISSED if min(most.values()) < 0 else CONFIRMED
    if most[named] < 0:
        return CONFIRMED
    return FALSE if later[named]["beside"] > 0 else UNSURE


def rows_of(case: Case) -> list[dict[str, Any]]:
    """Returns a row for each way that the test of a catalogue compares, with what it names and the verdict."""
    past, tests = both_years(case)
    named = past.gains[0].code if past.gains else ""
    later, rows = later_rows(tests), list[dict[str, Any]]()
    verdict = verdict_of(named, later)
    for way, equal in past.equal.items():
        row: dict[str, Any] = {**case._asdict(), "way": way, "named": named}
        row |= {"past": 100 * equal.stock.value, "past_error": 100 * equal.stock.error}
        row |= {name: later[way][name] for name in ("at", "beside", "beside_error")}
        rows.append({**row, "verdict": verdict})
    return rows


def study(cases: Sequence[Case], jobs: int = 1) -> pd.DataFrame:
    """Returns the rows of catalogues."""
    with ProcessPoolExecutor(jobs) as pool:
        return pd.DataFrame([row for rows in pool.map(rows_of, cases) for row in rows])


def tables() -> dict[str, str]:
    """Returns the stored figures for the page: a line for each catalogue, with the way that the test names, or else the one
    that most surely needs least in the third year."""
    lines = list[dict[str, Any]]()
    stored = pd.read_csv(STORED, keep_default_na=False, na_values=[""])
    for (kind, follow, seed), rows in stored.groupby(CATALOGUES, sort=False):
        most = rows["beside"] + ERRORS * rows["beside_error"]
        named = rows["named"].iloc[0]
        own = rows.loc[most.idxmin()].to_dict()
        if not pd.isna(named):
            own = rows[rows["way"] == named].iloc[0].to_dict()
        line = {"kind": kind, "follow": follow, "catalogue": seed}
        line |= {"named": "-" if pd.isna(named) else named, "way": own["way"]}
        line["second year, %"] = said(own, "past", "{:+.1f}")
        line["third year, %"] = said(own, "beside", "{:+.1f}")
        lines.append({**line, "verdict": own["verdict"]})
    return {"next-year": markdown(pd.DataFrame(lines))}


@click.command()
@click.option("--jobs", type=click.IntRange(1), default=1, show_default=True)
@click.option("--small", is_flag=True, help="Only a few items of one kind.")
@click.option("--out", type=click.Path(dir_okay=False, path_type=Path))
def main(jobs: int, small: bool, out: Path | None) -> None:
    """Say of tests on the past what the next year confirms."""
    table = study(**SMALL) if small else study(CASES, jobs)
    click.echo(table.to_string(index=False))
    if out:
        table.to_csv(out, index=False, float_format="%.6g")


if __name__ == "__main__":
    main()
