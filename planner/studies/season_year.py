"""Compares what theory computes for the parts of a year, each as if it lasted, with a simulation of the whole year.

    python -m planner.studies.season_year --out planner/studies/season_year.csv    all, in about a minute
    python -m planner.studies.season_year --small                                  one case

An item of mean 10 is planned by parts of the year, from 104 weeks of negative binomial demand: `steady` with a variance of 1.5 means,
`erratic` with a size of 1.2. Its season is `strong` or a `peak`, those of `planner.studies.seasons`. Its
law at the rate of each part is then what comes, so that nothing but theory's parts can be wrong. The same 52 weeks come again for 400 years, with an order that takes 2 or 6 weeks and costs
8 weeks of holding. `promised` is what theory computes; errors are over years. Seeds are fixed: [place of the season, of
the demand, lead time, wanted percent].
"""
from __future__ import annotations

import dataclasses
import itertools
from collections.abc import Iterable
from fractions import Fraction
from pathlib import Path
from typing import Any

import click
import numpy as np
import pandas as pd

from crnplan.chances import Floats
from crnplan.crnsim.periods import Realization, periods_of
from crnplan.demand.index import Index
from crnplan.demand.rate import at_rate
from crnplan.demand.seasons import parts_of
from crnplan.plan.choice import choice_of
from crnplan.plan.how import NONE, Settings
from crnplan.plan.question import Question, question_of
from crnplan.plan.seasons import Seasons
from planner.studies.correction import item_of
from planner.studies.page import markdown
from planner.studies.real_series import Series
from planner.studies.season_plans import FIRST, KINDS, LATER
from planner.studies.seasons import SEASONS
from planner.studies.warnings import percent

STORED = Path(__file__).with_name("season_year.csv")
MEAN, RECORD, YEARS, SETUP = 10.0, 104, 400, 8
INDICES: dict[str, Floats] = {name: SEASONS[name] for name in ("strong", "peak")}
CASES = [*itertools.product(INDICES, KINDS, (2, 6), (0.95, 0.98))]
SMALL = CASES[:1]
FIGURES = ("fill", "stock")


def question(
    season: str, kind: str, lead: int, wanted: float, random: np.random.Generator
) -> Question:
    """Returns what is asked for an item of a class with a season."""
    index = INDICES[season]
    means = MEAN * index[parts_of("week", FIRST, RECORD)]
    size = means / 0.5 if kind == KINDS[0] else np.full(RECORD, 1.2)
    counts = random.negative_binomial(size, size / (size + means)).tolist()
    item = item_of(Series("item", tuple(counts)), RECORD)
    known = Seasons("week", {"class": Index(tuple(index.tolist()), 0.0, 1.0, 2)})
    settings = Settings(borrow=NONE, every="week", seasons=known)
    changed: dict[str, Any] = {"group": "class", "first": FIRST, "leads": (lead,)}
    changed |= {
        "fill": Fraction(str(wanted)),
        "setup": round(SETUP * MEAN) * item.holding,
    }
    return question_of(dataclasses.replace(item, **changed), settings)


def promised(asked: Question) -> tuple[list[tuple[int, int]], Floats]:
    """Returns the levels of each week of a year, and what theory computes of their parts: the share met at once, by
    demand, stock and cost, by weeks."""
    weeks, rows, weights = list[tuple[int, int]](), list[Floats](), list[Floats]()
    assert asked.season
    for stretch in asked.season.year:
        part, periods = asked.during(stretch), stretch.end - stretch.first
        figures = part.figures(choice_of(part, True).levels)
        weeks += [figures.levels] * periods
        rows.append(np.array([figures.fill, figures.stock, figures.cost]))
        weights.append(np.array([float(part.demand.mean), 1, 1]) * periods)
    return weeks, np.average(rows, axis=0, weights=weights)


def simulated(
    asked: Question, weeks: list[tuple[int, int]], random: np.random.Generator
) -> Floats:
    """Returns by year the demand, what of it was not met at once, mean stock and cost of a week, of years after the
    first."""
    season, item = asked.season, asked.item
    assert season
    demands = np.zeros((YEARS + 1, LATER), int)
    for week, rate in enumerate(season.rates(LATER).tolist()):
        law = at_rate(season.law, rate)
        demands[:, week] = law.draws(random, YEARS + 1)
    every = demands.size
    past = Realization(demands.ravel().tolist(), (0,) * every, item.leads * every)
    periods = periods_of(past, weeks * (YEARS + 1), weeks[0][1])
    stock = np.array([max(0, period.stock) for period in periods], float)
    ordered = np.array([period.ordered > 0 for period in periods], float)
    unmet = np.array([period.unmet for period in periods], float)
    costs = float(item.holding) * stock + float(item.setup) * ordered
    rows = [each.reshape(demands.shape)[1:] for each in (unmet, stock, costs)]
    sums = [demands[1:].sum(axis=1), rows[0].sum(axis=1)]
    return np.array([*sums, rows[1].mean(axis=1), rows[2].mean(axis=1)])


def case(season: str, kind: str, lead: int, wanted: float) -> dict[str, Any]:
    """Returns the figures of a case."""
    places = [*INDICES].index(season), KINDS.index(kind)
    random = np.random.default_rng([*places, lead, round(100 * wanted)])
    asked = question(season, kind, lead, wanted, random)
    weeks, (fill, stock, cost) = promised(asked)
    demand, unmet, held, paid = simulated(asked, weeks, random)
    share = unmet.sum() / demand.sum()
    errors = [
        np.std(row, ddof=1) / np.sqrt(YEARS)
        for row in ((unmet - share * demand) / demand.mean(), held, paid)
    ]
    row: dict[str, Any] = {"season": season, "demand": kind, "lead": lead}
    row |= {"wanted": wanted, "promised": fill, "stock_promised": stock}
    row |= {"fill": 1 - share, "fill_error": errors[0]}
    row |= {"stock": held.mean() / stock - 1, "stock_error": errors[1] / stock}
    return row | {"cost": paid.mean() / cost - 1, "cost_error": errors[2] / cost}


def study(cases: Iterable[tuple[str, str, int, float]]) -> pd.DataFrame:
    """Returns a row for each case."""
    return pd.DataFrame([case(*words) for words in cases])


def tables() -> dict[str, str]:
    """Returns the stored figures for the page."""
    lines = []
    for row in pd.read_csv(STORED).to_dict("records"):
        line = {name: row[name] for name in ("season", "demand", "lead")}
        line |= {"wanted": f"{100 * row['wanted']:g}"}
        line |= {"promised": f"{100 * row['promised']:.1f}"}
        line["met in the year"] = percent(row["fill"], row["fill_error"])
        for name in ("stock", "cost"):
            value, error = 100 * row[name], 100 * row[f"{name}_error"]
            line[f"{name} beside its promise, %"] = f"{value:+.1f} ± {error:.1f}"
        lines.append(line)
    return {"season-year": markdown(pd.DataFrame(lines))}


@click.command()
@click.option("--small", is_flag=True, help="Run one case.")
@click.option(
    "--out",
    type=click.Path(dir_okay=False, path_type=Path),
    help="Write the rows as CSV.",
)
def main(small: bool, out: Path | None) -> None:
    """Compare the parts of a year, each as if it lasted, with a simulation of the whole year."""
    rows = study(SMALL if small else CASES)
    if out:
        rows.to_csv(out, index=False, float_format="%.5f")
    click.echo(rows.round(4).to_string(index=False))


if __name__ == "__main__":
    main()
