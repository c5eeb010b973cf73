"""Measures what theory says of a buyer who reviews once in several periods, and what levels for each period give such a
buyer.

    python -m planner.studies.reviews --out planner/studies/reviews.csv    what is stored, in a minute or two
    python -m planner.studies.reviews --small                              a small part, in some seconds

For each law of `laws.py`, lead times that are stated or vary, and reviews once in 1, 2, 4 or 8 periods, the cheapest policy
with a fill rate of 95% is chosen by theory: for that review (`own`), and for one in each period, whose levels the buyer
then uses as they are (`each period`). Both are simulated, period by period, with code of its own: independent runs that
begin with S, of which the first 200 periods are left out. An order costs what is best for 8 periods of mean demand.

`fill` is the fill rate, `promise` by how many points the promised one is above that, and `cost` and `stock` what both are
above their promise, all in percent, with standard errors over runs. The promise is that of theory for the review for which
the policy was chosen.
"""
from __future__ import annotations

import dataclasses
import math
from collections.abc import Iterable, Sequence
from pathlib import Path
from typing import Any

import click
import numpy as np
import pandas as pd

from crnplan.chances import Floats
from crnplan.runs import Scenario
from crnplan.theory.long_run import Candidate
from planner.studies.fills import HOLDING, scenario_of, spelt, table_of, theory_of
from planner.studies.laws import Truth
from planner.studies.page import markdown

WANTED = 0.95
COVER = 8  # periods of mean demand, for which an order is best
SEED = 1
RUNS, WARM, PERIODS = 400, 200, 1_200
NAMES = ("P2", "NB3_9", "NB1_4")
LEADS = ((2,), (6,), (1, 2, 3), (1, 4, 8))
REVIEWS = (1, 2, 4, 8)
OWN, EACH = "own", "each period"
FIGURES = ("fill", "promise", "cost", "stock")
STORED = Path(__file__).with_name("reviews.csv")
SMALL: dict[str, Any] = {
    "laws": ("NB3_9",),
    "leads": ((1, 2, 3),),
    "reviews": (4,),
    "runs": 100,
}  # of `study`


def simulated(
    scenario: Scenario, policy: Candidate, review: int, runs: int, seed: Sequence[int]
) -> Floats:
    """Returns of each run the share of demand met at once, the cost and the mean stock of a period."""
    random, costs = np.random.default_rng([SEED, *seed]), scenario.costs
    longest, size = max(scenario.lead.values), (PERIODS, runs)
    demands, leads = (
        random.choice([*law], size, p=[*map(float, law.values())])
        for law in (scenario.demand.chances, scenario.lead.chances)
    )
    every = np.arange(runs)
    due = np.zeros((PERIODS + longest + 1, runs), int)
    stock, position = np.full(runs, policy.level), np.full(runs, policy.level)
    sums = np.zeros((4, runs))
    for period in range(PERIODS):
        is_order = (position < policy.point) & (period % review == 0)
        amount = np.where(is_order, policy.level - position, 0)
        due[period + leads[period], every] += amount
        stock = stock + due[period]
        met = np.minimum(np.maximum(stock, 0), demands[period])
        stock = stock - demands[period]
        position = position + amount - demands[period]
        if period >= WARM:
            held, owed = np.maximum(stock, 0), np.maximum(-stock, 0)
            cost = costs.setup * is_order + costs.holding * held + costs.backlog * owed
            sums += met, demands[period], cost, held
    fill = sums[0] / sums[1].mean()
    return np.array([fill, *sums[2:] / (PERIODS - WARM)])


def rows_of(
    name: str, leads: Sequence[int], review: int, runs: int
) -> Iterable[dict[str, object]]:
    """Yields what both policies come to for a law, lead times and a review."""
    truth = Truth(name)
    setup = HOLDING * truth.mean * COVER**2 / 2
    often = scenario_of(table_of(truth.law), leads, setup)
    plans = {OWN: dataclasses.replace(often, review=review), EACH: often}
    for place, (way, scenario) in enumerate(plans.items()):
        theory = theory_of(scenario)
        policy = theory.best(WANTED)
        promised = theory.figures(*policy.levels)
        seed = truth.place, sum(leads), len(leads), review, place
        fill, cost, stock = simulated(often, policy, review, runs, seed)
        values = 100 * np.array(
            [
                fill,
                promised.fill - fill,
                cost / promised.cost - 1,
                stock / promised.stock - 1,
            ]
        )
        row: dict[str, object] = {"law": name, "leads": " ".join(map(str, leads))}
        row |= {"review": review, "way": way, "runs": runs}
        for figure, by_run in zip(FIGURES, values):
            row[figure] = by_run.mean()
            row[f"{figure}_error"] = by_run.std(ddof=1) / math.sqrt(runs)
        yield row


def study(
    laws: Iterable[str] = NAMES,
    leads: Iterable[Sequence[int]] = LEADS,
    reviews: Iterable[int] = REVIEWS,
    runs: int = RUNS,
) -> pd.DataFrame:
    """Returns the figures of all laws, lead times and reviews."""
    rows: list[dict[str, object]] = []
    for name in laws:
        for lead in leads:
            for review in reviews:
                rows += rows_of(name, lead, review, runs)
    return pd.DataFrame(rows)


def tables() -> dict[str, str]:
    """Returns the stored figures for the page: the means over laws and lead times, by review."""
    stored, lines = pd.read_csv(STORED), []
    for review, rows in stored.groupby("review", sort=False):
        line: dict[str, object] = {"review once in": review}
        for way in (OWN, EACH):
            own = rows[rows["way"] == way]
            for figure in FIGURES:
                error = math.sqrt((own[f"{figure}_error"] ** 2).sum()) / len(own)
                both = {figure: own[figure].mean(), f"{figure}_error": error}
                line[f"{figure}, {way}"] = spelt(pd.Series(both), figure)
        lines.append(line)
    return {"reviews": markdown(pd.DataFrame(lines))}


@click.command()
@click.option("--small", is_flag=True, help="Run a small part.")
@click.option(
    "--out",
    type=click.Path(dir_okay=False, path_type=Path),
    help="Write the rows as CSV.",
)
def main(small: bool, out: Path | None) -> None:
    """Measure what theory says of a buyer who reviews once in several periods."""
    rows = study(**SMALL) if small else study()
    if out:
        rows.to_csv(out, index=False, float_format="%.3f")
    click.echo(rows.round(2).to_string(index=False) + "\n")


if __name__ == "__main__":
    main()
