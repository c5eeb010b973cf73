"""Measures how often a promised fill rate of 98% is below 97% in truth, and what an honest promise costs.

    python -m planner.studies.fills --out planner/studies/fills.csv    what is stored, in about 20 minutes
    python -m planner.studies.fills --small                            a small part, in some seconds

For each law and number of periods histories are drawn as in `laws.py`. A policy is the cheapest with a fill rate of
98%: by what was seen (`empirical`), by the fit of `fit_demand` (`auto`), and by that fit and under 80% or 90% of 100
laws that the history allows (`sure 80%`, `sure 90%`: `theory.many_laws`). There are two settings: lead time 2 and an
order for 8 periods of demand, lead time 6 and an order for 2; backlog costs 9 times holding. Of each policy the exact
long-run fill rate and cost under the true law are computed. `below` is the share of histories and settings with a fill
rate below 97%, `price` how much more a policy costs than the cheapest that has 98% in truth. All are in percent, with
standard errors over histories.
"""
from __future__ import annotations

import math
from collections.abc import Iterable, Iterator, Sequence
from concurrent.futures import ProcessPoolExecutor
from pathlib import Path
from typing import Any

import click
import numpy as np
import pandas as pd

from crnplan.demand.borrowing import fit_demand
from crnplan.demand.posterior import allowed_laws
from crnplan.law import Law
from crnplan.policies import Policy
from crnplan.money import Costs
from crnplan.runs import Scenario
from crnplan.theory.lattice import theories_of
from crnplan.chances import Floats
from crnplan.theory.long_run import Candidate, LongRun
from crnplan.theory.many_laws import Promises
from planner.studies.laws import DESIGNED, GROUPS, LAWS, PERIODS, Truth
from planner.studies.page import markdown

SHARE, ENOUGH = 0.98, 0.97
CONFIDENCES = (0.8, 0.9)
METHODS = ("empirical", "auto", *(f"sure {it:.0%}" for it in CONFIDENCES))
FIGURES = ("below", "fill", "price")
BY_LAW = METHODS[2]
STORED = Path(__file__).with_name("fills.csv")
HISTORIES = 40
SETTINGS = ((2, 8), (6, 2))  # lead time and cover
SMALL: dict[str, Any] = {
    "laws": ("INT",),
    "periods": (26,),
    "histories": 2,
}  # of `study`
HOLDING, BACKLOG = 1_000, 9_000
WHOLE = 10**12  # what the weights of a true law add up to, about


def table_of(chances: Floats) -> Law:
    """Returns the table of a true law."""
    return Law.of(
        {
            value: round(WHOLE * chance)
            for value, chance in enumerate(chances / chances.sum())
        }
    )


def scenario_of(demand: Law, leads: Sequence[int], setup: float) -> Scenario:
    """Returns a scenario, as far as theory looks at it. Its lead times have equal weights."""
    return Scenario(
        1,
        ("0" * 16,) * 4,
        1,
        1,
        0,
        1,
        Costs(round(setup), 0, HOLDING, BACKLOG),
        demand,
        Law((*leads,), (1,) * len(leads)),
        (Policy("today", 0, 1),),
    )


def scenarios_of(demand: Law, mean: float) -> list[Scenario]:
    """Returns the scenario of each setting. An order costs what is best for its cover of a mean demand."""
    return [
        scenario_of(demand, (lead,), HOLDING * mean * cover**2 / 2)
        for lead, cover in SETTINGS
    ]


def chosen(history: Sequence[int], mean: float) -> Iterator[list[Candidate]]:
    """Yields the policies of all methods for each setting, whose true mean demand is known."""
    seen, fitted = (
        scenarios_of(fit_demand(history, method=method).table, mean)
        for method in METHODS[:2]
    )
    laws = allowed_laws(history)
    for by_history, own in zip(seen, fitted):
        theory = theory_of(own)
        plain = theory.best(SHARE)
        promises = Promises(
            own,
            theory,
            theory.gap_of(plain.point, plain.level),
            [(law, own.lead) for law in laws],
            [SHARE],
        )
        policies = [theory_of(by_history).best(SHARE), plain]
        for confidence in CONFIDENCES:
            promises.confidence = confidence
            policies.append(promises.cheapest(plain, SHARE))
        yield policies


def theory_of(scenario: Scenario) -> LongRun:
    """Returns the theory of a scenario on its finest lattice."""
    return theories_of(scenario)[0]


def cell(job: tuple[str, int, int]) -> list[dict[str, object]]:
    """Returns the figures of the methods for a law and a number of periods."""
    name, periods, histories = job
    truth = Truth(name)
    theories = [*map(theory_of, scenarios_of(table_of(truth.law), truth.mean))]
    least = [it.best(SHARE).cost for it in theories]
    found = np.empty((len(FIGURES), histories, len(theories), len(METHODS)))
    for number in range(histories):
        for at, its in enumerate(chosen(truth.history(periods, number), truth.mean)):
            figures = [theories[at].figures(it.point, it.level) for it in its]
            found[0, number, at] = [it.fill < ENOUGH for it in figures]
            found[1, number, at] = [it.fill for it in figures]
            found[2, number, at] = [it.cost / least[at] - 1 for it in figures]
    means = 100 * found.mean(axis=2)
    rows: list[dict[str, object]] = []
    for at, method in enumerate(METHODS):
        its = dict(zip(FIGURES, means[:, :, at]))
        errors = {
            f"{it}_error": its[it].std(ddof=1) / math.sqrt(histories) for it in its
        }
        rows.append(
            {
                "law": name,
                "group": GROUPS[name],
                "periods": periods,
                "method": method,
                "histories": histories,
                **{it: its[it].mean() for it in its},
                **errors,
            }
        )
    return rows


def study(
    laws: Iterable[str], periods: Iterable[int], histories: int, jobs: int = 1
) -> pd.DataFrame:
    """Returns the figures of all cells, in the order of laws and periods whatever the number of jobs."""
    work = [(name, count, histories) for name in laws for count in periods]
    if jobs == 1:
        return pd.DataFrame([row for its in map(cell, work) for row in its])
    with ProcessPoolExecutor(jobs) as pool:
        return pd.DataFrame([row for its in pool.map(cell, work) for row in its])


def summary(rows: pd.DataFrame) -> pd.DataFrame:
    """Returns the means over the laws of a group."""
    lines = []
    for (group, periods, method), its in rows.groupby(
        ["group", "periods", "method"], sort=False
    ):
        errors = {
            f"{it}_error": math.sqrt((its[f"{it}_error"] ** 2).sum()) / len(its)
            for it in FIGURES
        }
        lines.append(
            {
                "group": group,
                "periods": periods,
                "method": method,
                **its[[*FIGURES]].mean(),
                **errors,
            }
        )
    return pd.DataFrame(lines)


def spelt(its: pd.Series, figure: str) -> str:
    """Returns a figure with its standard error."""
    return f"{its[figure]:.1f} ± {its[f'{figure}_error']:.1f}"


def tables() -> dict[str, str]:
    """Returns the stored figures for the page: all methods in the mean of the laws, and one of them by law."""
    stored = pd.read_csv(STORED)
    means = summary(stored).set_index(["group", "periods", "method"])
    lines = [
        {
            "laws": group,
            "periods": periods,
            **{
                f"{figure}, {method}": spelt(means.loc[group, periods, method], figure)
                for figure in ("below", "price")
                for method in METHODS
            },
        }
        for group, periods in means.index.droplevel("method").unique()
    ]
    cells = stored[stored["method"] == BY_LAW].set_index(["law", "periods"])
    by_law = [
        {
            "law": law,
            **{
                f"{figure}, {periods}": spelt(cells.loc[law, periods], figure)
                for figure in ("below", "price")
                for periods in PERIODS
            },
        }
        for law in stored["law"].unique()
    ]
    return {
        "fills": markdown(pd.DataFrame(lines)),
        "fills-by-law": markdown(pd.DataFrame(by_law)),
    }


@click.command()
@click.option("--small", is_flag=True, help="Run a small part.")
@click.option("--jobs", type=click.IntRange(1), default=1, show_default=True)
@click.option(
    "--histories",
    type=click.IntRange(2),
    default=HISTORIES,
    show_default=True,
    help="Histories of a cell.",
)
@click.option(
    "--law",
    "names",
    type=click.Choice([*LAWS]),
    multiple=True,
    help="A true law; without it the designed " "ones.",
)
@click.option("--periods", type=int, multiple=True, default=PERIODS, show_default=True)
@click.option(
    "--out",
    type=click.Path(dir_okay=False, path_type=Path),
    help="Write the rows as CSV.",
)
def main(
    small: bool,
    jobs: int,
    histories: int,
    names: tuple[str, ...],
    periods: tuple[int, ...],
    out: Path | None,
) -> None:
    """Measure how often promised fill rates hold under true laws."""
    rows = (
        study(**SMALL, jobs=jobs)
        if small
        else study(names or DESIGNED, periods, histories, jobs)
    )
    if out:
        rows.to_csv(out, index=False, float_format="%.3f")
    for table in (rows, summary(rows)):
        click.echo(table.round(2).to_string(index=False) + "\n")


if __name__ == "__main__":
    main()
