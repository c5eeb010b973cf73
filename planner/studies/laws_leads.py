"""Measures what a short record of lead times costs: the regret of the policy that is best under the fitted law.

    python -m planner.studies.laws_leads            all, in about a quarter of an hour
    python -m planner.studies.laws_leads --small    a small part

The demand is known: a Poisson law of mean 2, or a negative binomial law of mean 3 and variance 9. There are two laws of
lead times: a rough one of 1, 2 or 4 periods, and a smooth one of 1 to 6. Records of 5, 10 and 20 lead times are drawn.
Each method fits a law to a record, and the best policy under it is found by the theory of the package for six settings
(an order for 2 and for 8 periods of demand; backlog 9, 19 and 99 times holding). Its regret is its exact long-run cost
under the true law over the least possible, less 1. The figures are means over records and settings, in percent, with
their standard errors over records. Seeds are fixed: [place of the case, lead times, number of the record].
"""
from __future__ import annotations

import itertools
import math
from collections.abc import Mapping
from concurrent.futures import ProcessPoolExecutor
from functools import cache
from pathlib import Path
from typing import Any

import click
import numpy as np
import pandas as pd

from crnplan.demand.fitting import fit_lead
from crnplan.law import Law
from crnplan.money import Costs
from crnplan.runs import Scenario
from crnplan.theory.lattice import theories_of
from crnplan.theory.long_run import LongRun
from planner.studies.laws import BACKLOGS, COVERS, DESIGNED
from planner.studies.page import markdown

DEMANDS = ("P2", "NB3_9")
TRUE = {
    "rough": {1: 20, 2: 50, 4: 30},
    "smooth": {1: 15, 2: 30, 3: 25, 4: 15, 5: 10, 6: 5},
}
CASES = [*itertools.product(DEMANDS, TRUE)]
RECORDS = (5, 10, 20)
METHODS = ("empirical", "auto")
SETTINGS = [*itertools.product(COVERS, BACKLOGS)]
SMALL: dict[str, Any] = {"records": 4, "counts": (5,)}
FIGURES = "regret", "gain"
STORED = Path(__file__).with_name("laws_leads.csv")


def theory_of(demand: str, leads: Mapping[int, int]) -> LongRun:
    """Returns the theory of a demand with a law of lead times, for orders of the larger cover."""
    law = Law.of_chances(DESIGNED[demand])
    scenario = Scenario.of(
        law,
        dict(leads),
        setup=order_of(demand, max(COVERS)),
        holding=1,
        backlog=BACKLOGS[0],
        today=(1, 2),
    )
    return theories_of(scenario)[0]


def order_of(demand: str, cover: int) -> int:
    """Returns the cost of an order that lasts for so many periods of demand, if holding costs 1."""
    law = DESIGNED[demand]
    return round(float(law @ np.arange(len(law))) * cover**2 / 2)


def priced(theory: LongRun, demand: str, cover: int, backlog: int) -> LongRun:
    """Returns a theory with the costs of a setting."""
    return theory.priced(
        Costs(order_of(demand, cover), 0, 1, backlog), theory.most, theory.feasible
    )


@cache
def policies_of(
    demand: str, leads: tuple[tuple[int, int], ...]
) -> list[tuple[int, int]]:
    """Returns the best policy of each setting."""
    theory = theory_of(demand, dict(leads))
    found = (
        priced(theory, demand, cover, backlog).best() for cover, backlog in SETTINGS
    )
    return [(policy.point, policy.level) for policy in found]


def cell(job: tuple[str, str, int, int]) -> list[dict[str, object]]:
    """Returns the figures of both methods for a case and a number of lead times."""
    demand, name, count, records = job
    truth, leads = theory_of(demand, TRUE[name]), TRUE[name]
    shares = np.array([*leads.values()]) / sum(leads.values())
    regrets = np.empty((records, len(METHODS), len(SETTINGS)))
    for record in range(records):
        random = np.random.default_rng([CASES.index((demand, name)), count, record])
        drawn = sorted(int(it) for it in random.choice([*leads], count, p=shares))
        for at, method in enumerate(METHODS):
            law = fit_lead(drawn, method=method)
            policies = policies_of(demand, tuple(zip(law.values, law.weights)))
            best = policies_of(demand, tuple(leads.items()))
            for place, setting in enumerate(SETTINGS):
                costs = [
                    priced(truth, demand, *setting).figures(*it[place]).cost
                    for it in (policies, best)
                ]
                regrets[record, at, place] = 100 * (costs[0] / costs[1] - 1)
    means = regrets.mean(axis=2)
    gains = means[:, :1] - means
    return [
        {
            "demand": demand,
            "leads": name,
            "seen": count,
            "method": method,
            "regret": means[:, at].mean(),
            "regret_error": means[:, at].std(ddof=1) / math.sqrt(records),
            "gain": gains[:, at].mean(),
            "gain_error": gains[:, at].std(ddof=1) / math.sqrt(records),
        }
        for at, method in enumerate(METHODS)
    ]


def study(
    records: int, counts: tuple[int, ...] = RECORDS, jobs: int = 1
) -> pd.DataFrame:
    """Returns the figures of all cells, in order."""
    work = [(*case, count, records) for case in CASES for count in counts]
    with ProcessPoolExecutor(jobs) as pool:
        return pd.DataFrame([row for rows in pool.map(cell, work) for row in rows])


def tables() -> dict[str, str]:
    """Returns the stored figures for the page: the regret after so many lead times."""
    cells = pd.read_csv(STORED).set_index(["demand", "leads", "seen", "method"])
    lines = [
        {
            "demand": demand,
            "lead times": leads,
            **{
                f"{method}, after {seen}": "{regret:.1f} ± "
                "{regret_error:.1f}".format(**cells.loc[demand, leads, seen, method])
                for seen in RECORDS
                for method in METHODS
            },
        }
        for demand, leads in CASES
    ]
    return {"lead-times": markdown(pd.DataFrame(lines))}


@click.command()
@click.option("--small", is_flag=True, help="Run a small part.")
@click.option("--jobs", type=click.IntRange(1), default=1, show_default=True)
@click.option(
    "--records",
    type=click.IntRange(2),
    default=60,
    show_default=True,
    help="Records of a cell.",
)
@click.option(
    "--out",
    type=click.Path(dir_okay=False, path_type=Path),
    help="Write the rows as CSV.",
)
def main(small: bool, jobs: int, records: int, out: Path | None) -> None:
    """Measure the regret of fitted laws of lead times under true laws."""
    rows = study(**SMALL, jobs=jobs) if small else study(records, jobs=jobs)
    if out:
        rows.to_csv(out, index=False, float_format="%.3f")
    click.echo(rows.round(2).to_string(index=False))


if __name__ == "__main__":
    main()
