"""Measures plans by laws that are stated: by a mean and a variance, by quantiles, or by sample paths.

    python -m planner.studies.stated_laws --out planner/studies/stated_laws.csv    what is stored, in some minutes
    python -m planner.studies.stated_laws --small                                  a small part, in some seconds

**Quantiles.** Of each law of `laws.py`, in the two settings of `fills.py`, quantiles are stated: three (10, 50 and 90%) or
nine (5 to 99%). A law is made of these in two ways: one with straight lines between the quantiles, and exponential tails
through the last two on each side (`between`, `law_of_quantiles`), and the nearest one of the family of `law_of_moments`
(`nearest`). Beside them are the
law of the true mean and variance (`moments`), and the true law (`known`). The cheapest policies by each for the shares of
`fair.NOMINAL` have exact fill rates and stocks by the true law. Each way is so a curve of the mean fill over all laws and
settings against the mean stock, in units of what the true law needs for 95%.

**Paths.** Demand is Poisson about a level whose logarithm is an autoregression of order 1 with a spread of 0.5. 200 paths of
13 periods are stated; orders take 1, 4 or 8 periods. The variance is that of sums (`together`, `moments_of_paths`), or of
periods taken apart (`apart`). Policies are run on 10,000 periods, for each of three correlations.

`realized` is what a way meets if it aims at 95%, and `off` how far one law is from that in the mean, in points. `more` is
how much more stock it needs at a fill of 95% than the true law (of paths: than `apart`), in percent. Errors are those of leaving out each law, or each case, in turn.
"""
from __future__ import annotations

import itertools
import math
from collections.abc import Iterable, Iterator, Mapping, Sequence
from fractions import Fraction
from pathlib import Path
from typing import Any

import click
import numpy as np
import pandas as pd
from scipy.optimize import minimize
from scipy.special import ndtri

from crnplan.chances import Floats
from crnplan.crnsim.periods import Realization, periods_of
from crnplan.law import Law
from crnplan.read.law_forms import (
    above_of,
    law_of_moments,
    law_of_quantiles,
    least_variance,
    moments_of_paths,
)
from planner.studies.fair import NOMINAL
from planner.studies.fills import scenario_of, scenarios_of, table_of, theory_of
from planner.studies.laws import LAWS, Truth
from planner.studies.page import markdown

SEED = 1
WANTED = 0.95
SHARES = {
    "3": (0.1, 0.5, 0.9),
    "9": (0.05, 0.1, 0.25, 0.5, 0.75, 0.9, 0.95, 0.98, 0.99),
}
SPREAD, PATHS, AHEAD, PERIODS = 0.5, 200, 13, 10_000  # of levels, and of samples
MEANS, LEADS, RHOS = (3, 20), (1, 4, 8), (0.0, 0.5, 0.9)
COVER = 4  # periods of demand of an order
FIGURES = ("realized", "off", "more")
INSIDE = 0.01  # what the place of a share between those of two whole numbers weighs
MOST_RATIO, MOST_LOG = (
    1e4,
    20,
)  # of a variance to its mean, and of the logarithm of a mean
CLOSE = {"xatol": 1e-4, "fatol": 1e-8}  # of a search
STORED = Path(__file__).with_name("stated_laws.csv")
SMALL = ("P2", "NB3_9", "two")  # laws
# A row for each nominal share: the fill rate that is met, and the stock.
Curve = Floats


def nearest(values: Mapping[Fraction, Fraction]) -> Law:
    """Returns the law of the family of `law_of_moments` that is nearest to quantiles.

    A whole value x that is the quantile of a share has at least that share of the law up to x, and less below x. What a law
    misses of that counts by squares of normal scores; beside it, little, by how far the share is from its place between.
    """
    shares = np.array([*map(float, sorted(values))])
    numbers = np.array([float(values[share]) for share in sorted(values)])
    scores = ndtri(shares)

    def moments(point: Sequence[float]) -> tuple[float, float]:
        mean, ratio = math.exp(point[0]), min(math.exp(point[1]), MOST_RATIO)
        return mean, max(mean * ratio, least_variance(mean))

    def distance(point: Sequence[float]) -> float:
        if abs(point[0]) > MOST_LOG:
            return math.inf
        above = above_of(*moments(point))
        low, middle, high = (
            -ndtri(np.clip(above(ends), 1e-12, 1 - 1e-12))
            for ends in (np.maximum(numbers - 1, -0.5), numbers - 0.5, numbers)
        )
        low = np.where(numbers >= 1, low, -np.inf)
        missed = np.maximum(low - scores, 0) + np.maximum(scores - high, 0)
        return float(missed @ missed + INSIDE * (middle - scores) @ (middle - scores))

    # The normal law through the quantiles is where the search begins.
    slope, middle = np.polyfit(scores, numbers, 1)
    mean = max(middle, float(numbers.mean()) / 2, 0.01)
    starts = [math.log(mean), math.log(max(slope**2, 0.1 * mean, 0.01) / mean)]
    found = minimize(distance, starts, method="Nelder-Mead", options=CLOSE)
    return law_of_moments(*moments(found.x.tolist()))


def moments_of(chances: Floats) -> tuple[float, float]:
    """Returns the mean and the variance of a law."""
    values = np.arange(len(chances))
    mean = float(chances @ values)
    return mean, float(chances @ (values - mean) ** 2)


def ways_of(chances: Floats) -> Iterator[tuple[str, Law]]:
    """Yields a true law, and those that are made of what is stated of it, each with its name."""
    chances = chances / chances.sum()
    yield "known", table_of(chances)
    yield "moments", law_of_moments(*moments_of(chances))
    below = np.cumsum(chances)
    for name, shares in SHARES.items():
        values = {}
        for share in shares:
            place = int(np.searchsorted(below, share - 1e-12))
            values[Fraction(str(share))] = Fraction(place)
        if any(values.values()):
            yield f"between {name}", law_of_quantiles(values)
            yield f"nearest {name}", nearest(values)


def curves_of(name: str) -> dict[str, Curve]:
    """Returns the curve of each way for a law: fill rates and stocks, means of both settings."""
    truth = Truth(name)
    theories = [*map(theory_of, scenarios_of(table_of(truth.law), truth.mean))]
    curves = dict[str, Curve]()
    for way, law in ways_of(truth.law):
        rows = np.zeros((len(NOMINAL), 2))
        for own, theory in zip(scenarios_of(law, truth.mean), theories):
            planned = theory_of(own)
            for place, share in enumerate(NOMINAL):
                figures = theory.figures(*planned.best(share).levels)
                rows[place] += figures.fill, figures.stock
        curves[way] = rows / len(theories)
    return in_units(curves, "known")


def levels_of_paths(rho: float, count: int, size: int, random: Any) -> Floats:
    """Returns levels with a mean of 1 whose logarithms are an autoregression, a row for each path."""
    normal = random.standard_normal((count, size))
    for place in range(1, size):
        normal[:, place] *= math.sqrt(1 - rho**2)
        normal[:, place] += rho * normal[:, place - 1]
    return np.exp(SPREAD * normal - SPREAD**2 / 2)


def curves_of_paths(mean: int, lead: int, rho: float) -> dict[str, Curve]:
    """Returns the curve of each way for demand with a mean and a correlation, of which sample paths are stated."""
    random = np.random.default_rng([SEED, mean, lead, round(10 * rho)])
    paths = random.poisson(mean * levels_of_paths(rho, PATHS, AHEAD, random))
    happened = random.poisson(mean * levels_of_paths(rho, 1, PERIODS, random))[0]
    past = Realization(happened.tolist(), (0,) * PERIODS, (lead,) * PERIODS)
    curves = dict[str, Curve]()
    for way, together in (("apart", 1), ("together", lead + 1)):
        law = law_of_moments(*moments_of_paths(paths.astype(float), together))
        planned = theory_of(scenario_of(law, [lead], 1_000 * mean * COVER**2 / 2))
        rows = list[tuple[float, float]]()
        for share in NOMINAL:
            s, S = planned.best(share).levels
            run = periods_of(past, [(s, S)] * PERIODS, S)
            unmet = sum(period.unmet for period in run)
            stock = sum(max(period.stock, 0) for period in run) / PERIODS
            rows.append((1 - unmet / happened.sum(), stock))
        curves[way] = np.array(rows)
    return in_units(curves, "apart")


def stock_at(curve: Curve) -> float:
    """Returns the stock of a curve with the wanted fill, between two by the logarithm of what is unmet."""
    return float(
        np.interp(-math.log(1 - WANTED), -np.log(1 - curve[:, 0]), curve[:, 1])
    )


def in_units(curves: Mapping[str, Curve], base: str) -> dict[str, Curve]:
    """Returns curves whose stock is in units of what one of them needs for the wanted fill: so all cases weigh alike."""
    unit = stock_at(curves[base])
    return {way: curve / (1, unit) for way, curve in curves.items()}


def figures_of(curves: Sequence[Curve], base: Sequence[Curve]) -> tuple[float, ...]:
    """Returns the figures of a way by its curves, beside another one's, in percent."""
    curve, other = np.mean(curves, axis=0), np.mean(base, axis=0)
    fills = np.array([own[NOMINAL.index(WANTED), 0] for own in curves])
    off = float(np.abs(fills - WANTED).mean())
    more = stock_at(curve) / stock_at(other) - 1
    return 100 * float(fills.mean()), 100 * off, 100 * more


def rows_of(
    part: str, curves: Sequence[Mapping[str, Curve]], base: str
) -> Iterator[dict[str, object]]:
    """Yields a row for each way, with errors by leaving out each case in turn."""
    ways = dict.fromkeys(way for some in curves for way in some)
    for way in ways:
        cases = [some for some in curves if way in some]
        pairs = [(some[way], some[base]) for some in cases]
        known = figures_of(*zip(*pairs))
        without = [
            figures_of(*zip(*(pairs[:place] + pairs[place + 1 :])))
            for place in range(len(pairs))
        ]
        errors = np.std(without, axis=0) * math.sqrt(len(pairs) - 1)
        row: dict[str, object] = {"part": part, "way": way, "cases": len(cases)}
        for name, figure, error in zip(FIGURES, known, errors):
            row |= {name: figure, f"{name}_error": error}
        yield row


def study(
    laws: Iterable[str] = tuple(LAWS),
    means: Iterable[int] = MEANS,
    leads: Iterable[int] = LEADS,
    rhos: Iterable[float] = RHOS,
) -> pd.DataFrame:
    """Returns the figures of all ways: of quantiles over laws, and of paths by correlation."""
    rows = [*rows_of("quantiles", [curves_of(name) for name in laws], "known")]
    cases = [*itertools.product(means, leads)]
    for rho in rhos:
        curves = [curves_of_paths(*case, rho) for case in cases]
        rows += rows_of(f"paths {rho:g}", curves, "apart")
    return pd.DataFrame(rows)


def tables() -> dict[str, str]:
    """Returns the stored figures for the page."""
    stored = pd.read_csv(STORED)
    lines = []
    for _, row in stored.iterrows():
        line: dict[str, object] = {name: row[name] for name in ("part", "way", "cases")}
        for name in FIGURES:
            line[name] = f"{row[name]:.1f} ± {row[f'{name}_error']:.1f}"
        lines.append(line)
    return {"stated-laws": markdown(pd.DataFrame(lines))}


@click.command()
@click.option("--small", is_flag=True, help="Run a small part.")
@click.option(
    "--out",
    type=click.Path(dir_okay=False, path_type=Path),
    help="Write the rows as CSV.",
)
def main(small: bool, out: Path | None) -> None:
    """Measure plans by laws that are stated."""
    rows = study(SMALL, MEANS[:1], LEADS[:2], RHOS[:1]) if small else study()
    if out:
        rows.to_csv(out, index=False, float_format="%.3f")
    click.echo(rows.round(2).to_string(index=False) + "\n")


if __name__ == "__main__":
    main()
