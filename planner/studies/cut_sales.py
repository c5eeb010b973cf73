"""Measures what a law of demand is worth that was fitted to sales of periods in which an item was out of stock.

    python -m planner.studies.cut_sales --out planner/studies/cut_sales.csv    what is stored, in some minutes
    python -m planner.studies.cut_sales --small                                a small part, in some seconds

For each law and number of periods histories are drawn as in `laws.py`. In each period the shelf is short with a chance of
20% or 50%, by a random number of its own, and then has as much as an independent draw of the same law. Sales are the
demand, but at most that; the period is cut if the shelf is empty in the end. `cut` is the share of such periods. A law is
fitted by `fit_demand` in four ways: to the demand itself, which nobody has (`demand`), to sales as if they were that
(`sales`), to the periods that are not cut (`left out`), and to these and what `expected_demands` says of the cut ones
(`at least`). By each law the cheapest policy with a fill rate of 95% is chosen, in the two settings of `fills.py`.

`mean` is how far the mean of the law is from the true one, `fill` the fill rate of the policy in truth, and `promise` by
how many points its promised fill rate is above that. All are in percent, with standard errors over histories.
"""
from __future__ import annotations

import itertools
import math
from collections.abc import Iterable, Sequence
from concurrent.futures import ProcessPoolExecutor
from pathlib import Path
from typing import Any

import click
import numpy as np
import pandas as pd

from crnplan.demand.cut_sales import expected_demands
from crnplan.demand.borrowing import fit_demand
from planner.studies.fills import scenarios_of, spelt, table_of, theory_of
from planner.studies.laws import Truth
from planner.studies.page import markdown

WANTED = 0.95
SEED = 1
SHORT = (0.2, 0.5)
PERIODS = (52, 104)
NAMES = ("P2", "P10", "NB3_9", "NB10_60", "NB1_4", "two", "gamma")
WAYS = ("demand", "sales", "left out", "at least")
FIGURES = ("mean", "fill", "promise")
HISTORIES = 40
STORED = Path(__file__).with_name("cut_sales.csv")
SMALL: dict[str, Any] = {
    "laws": ("NB3_9",),
    "periods": (52,),
    "shares": (0.5,),
    "histories": 4,
}  # of `study`


def histories_of(
    demand: Sequence[int], truth: Truth, short: float, number: int
) -> tuple[dict[str, list[int]], float]:
    """Returns what the law is fitted to in each way, and the share of cut periods."""
    asked = np.array(demand)
    seed = [SEED, truth.place, len(asked), number, round(100 * short)]
    random = np.random.default_rng(seed)
    shelf = random.choice(len(truth.law), len(asked), p=truth.law / truth.law.sum())
    is_cut = (random.random(len(asked)) < short) & (asked >= shelf)
    sales = np.where(is_cut, shelf, asked)
    known = sales[~is_cut].tolist()
    ways = [asked.tolist(), sales.tolist(), known]
    ways.append([*known, *expected_demands(known, sales[is_cut].tolist())])
    return dict(zip(WAYS, ways)), float(is_cut.mean())


def cell(job: tuple[str, int, float, int]) -> list[dict[str, object]]:
    """Returns the figures of all ways for a law, a number of periods and a chance of a short shelf."""
    name, periods, short, histories = job
    truth = Truth(name)
    theories = [*map(theory_of, scenarios_of(table_of(truth.law), truth.mean))]
    found = np.empty((len(FIGURES), histories, len(WAYS)))
    cuts = list[float]()
    for number in range(histories):
        demand = truth.history(periods, number)
        ways, cut = histories_of(demand, truth, short, number)
        cuts.append(cut)
        for place, way in enumerate(WAYS):
            law = fit_demand(ways[way]).table
            fills, promises = list[float](), list[float]()
            for own, theory in zip(scenarios_of(law, truth.mean), theories):
                planned = theory_of(own)
                best = planned.best(WANTED)
                fills.append(theory.figures(best.point, best.level).fill)
                promises.append(planned.figures(best.point, best.level).fill)
            fill, promise = np.mean(fills), np.mean(promises)
            mean = float(law.mean) / truth.mean - 1
            found[:, number, place] = mean, fill, promise - fill
    found *= 100
    rows: list[dict[str, object]] = []
    for place, way in enumerate(WAYS):
        row: dict[str, object] = {"law": name, "periods": periods, "short": short}
        row |= {"way": way, "histories": histories, "cut": 100 * float(np.mean(cuts))}
        for figure, values in zip(FIGURES, found[:, :, place]):
            row[figure] = values.mean()
            row[f"{figure}_error"] = values.std(ddof=1) / math.sqrt(histories)
        rows.append(row)
    return rows


def study(
    laws: Iterable[str] = NAMES,
    periods: Iterable[int] = PERIODS,
    shares: Iterable[float] = SHORT,
    histories: int = HISTORIES,
    jobs: int = 1,
) -> pd.DataFrame:
    """Returns the figures of all cells, in the order of laws, periods and shares whatever the number of jobs."""
    work = [(*cell, histories) for cell in itertools.product(laws, periods, shares)]
    if jobs == 1:
        return pd.DataFrame([row for rows in map(cell, work) for row in rows])
    with ProcessPoolExecutor(jobs) as pool:
        return pd.DataFrame([row for rows in pool.map(cell, work) for row in rows])


def tables() -> dict[str, str]:
    """Returns the stored figures for the page: the means over laws, and those by law where most is cut."""
    stored = pd.read_csv(STORED)
    most = stored[stored["short"] == max(SHORT)]
    return {
        "cut-sales": markdown(_table(stored, ["periods", "short"])),
        "cut-sales-by-law": markdown(_table(most, ["law", "periods"])),
    }


def _table(stored: pd.DataFrame, keys: Sequence[str]) -> pd.DataFrame:
    """Returns the figures of the ways side by side, in the mean over all other keys."""
    lines = []
    for key, rows in stored.groupby([*keys], sort=False):
        line: dict[str, object] = dict(zip(keys, key))
        line["cut"] = f"{rows['cut'].mean():.0f}"
        for figure, way in itertools.product(FIGURES, WAYS):
            own = rows[rows["way"] == way]
            errors = own[f"{figure}_error"]
            both = {
                figure: own[figure].mean(),
                f"{figure}_error": math.sqrt((errors**2).sum()) / len(own),
            }
            line[f"{figure}, {way}"] = spelt(pd.Series(both), figure)
        lines.append(line)
    return pd.DataFrame(lines)


@click.command()
@click.option("--small", is_flag=True, help="Run a small part.")
@click.option("--jobs", type=click.IntRange(1), default=1, show_default=True)
@click.option(
    "--out",
    type=click.Path(dir_okay=False, path_type=Path),
    help="Write the rows as CSV.",
)
def main(small: bool, jobs: int, out: Path | None) -> None:
    """Measure what sales of periods out of stock say of demand."""
    rows = study(**SMALL, jobs=jobs) if small else study(jobs=jobs)
    if out:
        rows.to_csv(out, index=False, float_format="%.3f")
    click.echo(rows.round(2).to_string(index=False) + "\n")


if __name__ == "__main__":
    main()
