"""Measures how far the chosen policy is from the best one under the true law, for each way of fitting the demand.

    python -m planner.studies.laws --out planner/studies/laws.csv    all, in about half an hour
    python -m planner.studies.laws --small                           a small part, in some seconds

For each law, histories of 26, 52, 104 and 208 periods are drawn. Each method fits a law of demand to a history. For
each of twelve settings (lead time 2 and 6; an order for 2 and for 8 periods of demand; backlog 9, 19 and 99 times
holding) the best policy under the fitted law is found. Its regret is its exact long-run cost under the true law over
the least possible, less 1; the promise is its cost under the fitted law over that under the true law, less 1. Policies
have s of at least 0. The figures are means over histories and settings, in percent, with their standard errors over
histories. Seeds are fixed: [place of the law, periods, number of the history]. A history has at least two periods with
demand; others are drawn anew.

The laws are in three groups: those that the methods were designed on, others on which they were compared, and some
that were looked at only once the methods stood. `--small` runs a part of it.
"""
from __future__ import annotations

import itertools
import math
from collections.abc import Iterable, Iterator, Sequence
from concurrent.futures import ProcessPoolExecutor
from pathlib import Path
from typing import Any, NamedTuple

import click
import numpy as np
import pandas as pd
from scipy import stats

from crnplan.chances import Floats
from crnplan.demand.fitted import FittedLaw
from crnplan.demand.borrowing import fit_demand
from crnplan.theory.walk import LatticeLaw, power_of, renewal_sequence
from planner.studies.page import markdown

PERIODS = (26, 52, 104, 208)
LEADS, COVERS, BACKLOGS = (2, 6), (2, 8), (9, 19, 99)
SETTINGS = [*itertools.product(LEADS, BACKLOGS, COVERS)]
METHODS = ("empirical", "predictive", "auto")
FIGURES = ["regret", "promise", "gain"]
STORED = Path(__file__).with_name("laws.csv")
HISTORIES = 60
SMALL: dict[str, Any] = {
    "laws": ("NB3_9", "INT"),
    "periods": (26, 52),
    "histories": 5,
}  # of `study`


class Choice(NamedTuple):
    """A policy by gap and level, with its cost of a period."""

    gap: int
    level: int
    cost: float


class LongRuns:
    """The long-run costs of all policies of a demand law under all settings, per unit of holding cost.

    With one lead time L, the stock at the end of a period is the position L periods earlier less the demand of L + 1
    periods: the formulas of `crnplan.theory.long_run`, for all settings at once.
    """

    def __init__(self, chances: Floats, gaps: int, levels: int) -> None:
        """Makes the table of the costs of stock, one row for each lead time and backlog cost."""
        law = LatticeLaw.scaled(0, chances)
        stay = chances[0] / chances.sum()
        falls = np.zeros(law.high + 1)
        falls[law.low :] = law.chances / (1 - stay)
        falls[0] = 0.0
        self.span = 1 / (1 - stay)
        self.lows = renewal_sequence(np.ones(1), falls, gaps)
        self.visits = np.cumsum(self.lows)
        self.costs = np.array(
            [
                stock_costs(power_of(law, lead + 1), backlog, levels)
                for lead, backlog in itertools.product(LEADS, BACKLOGS)
            ]
        )

    def best(self, orders: Floats) -> list[Choice]:
        """Returns the best policy of each setting. `orders` are the costs of an order, by cover."""
        sums, levels = np.zeros_like(self.costs), self.costs.shape[1]
        least = np.empty((len(self.lows), len(sums)))
        places = np.empty(least.shape, np.int64)
        for gap, low in enumerate(self.lows):
            sums[:, gap:] += low * self.costs[:, : levels - gap]
            places[gap] = gap + np.argmin(sums[:, gap:], axis=1)
            least[gap] = sums[np.arange(len(sums)), places[gap]]
        costs = (
            (least[:, :, None] + orders / self.span) / self.visits[:, None, None]
        ).reshape(len(least), -1)
        gaps = np.argmin(costs, axis=0)
        return [
            Choice(int(gap), int(places[gap, at // len(COVERS)]), float(costs[gap, at]))
            for at, gap in enumerate(gaps)
        ]

    def cost(self, setting: int, order: float, gap: int, level: int) -> float:
        """Returns the cost of a policy."""
        row = self.costs[setting // len(COVERS)]
        stock = self.lows[: gap + 1] @ row[level - gap : level + 1][::-1]
        return float((stock + order / self.span) / self.visits[gap])


def stock_costs(under_way: LatticeLaw, backlog: float, levels: int) -> Floats:
    """Returns the mean cost of stock and of backlog of each level, if this demand is under way."""
    chances = np.zeros(max(levels, under_way.high + 1))
    chances[under_way.cells] = under_way.chances
    left = np.concatenate([[0.0], np.cumsum(np.cumsum(chances))])[:levels]
    costs: Floats = left + backlog * (left - np.arange(levels) + under_way.mean)
    return costs


def mixture(*parts: tuple[float, Floats]) -> Floats:
    """Returns a mixture of laws with these shares."""
    law = np.zeros(max(len(it) for _, it in parts))
    for share, it in parts:
        law[: len(it)] += share * it / it.sum()
    return law


def negative_binomial(mean: float, variance: float, cells: int = 2000) -> Floats:
    """Returns a negative binomial law."""
    law: Floats = np.exp(
        stats.nbinom.logpmf(
            np.arange(cells), mean * mean / (variance - mean), mean / variance
        )
    )
    return law


def poisson(mean: float, cells: int = 200) -> Floats:
    """Returns a Poisson law."""
    law: Floats = np.exp(stats.poisson.logpmf(np.arange(cells), mean))
    return law


def lognormal(mean: float, variation: float, cells: int = 4000) -> Floats:
    """Returns a rounded lognormal law with a coefficient of variation."""
    deviation = math.sqrt(math.log(1 + variation**2))
    law = stats.lognorm(deviation, scale=mean * math.exp(-(deviation**2) / 2))
    return np.diff(law.cdf(np.arange(cells) + 0.5), prepend=0.0)


def geometric(mean: float, most: int = 400) -> Floats:
    """Returns a geometric law on 1, 2 and so on up to a most."""
    return np.concatenate([[0.0], stats.geom.pmf(np.arange(1, most + 1), 1 / mean)])


def even(low: int, high: int) -> Floats:
    """Returns the even law on a range."""
    return np.concatenate(
        [np.zeros(low), np.full(high - low + 1, 1 / (high - low + 1))]
    )


def weibull(scale: float, shape: float, cells: int = 200) -> Floats:
    """Returns a rounded Weibull law."""
    law: Floats = np.diff(
        stats.weibull_min(shape, scale=scale).cdf(np.arange(cells) + 0.5), prepend=0.0
    )
    return law


def packed(law: Floats, pack: int) -> Floats:
    """Returns the law of the items in packs."""
    items = np.zeros((len(law) - 1) * pack + 1)
    items[::pack] = law
    return items


def orders_of(rate: float, sizes: Floats) -> Floats:
    """Returns the law of the demand of a Poisson number of customers."""
    customers, law, power = poisson(rate, 40), np.zeros(40 * len(sizes)), np.ones(1)
    for share in customers:
        law[: len(power)] += share * power
        power = np.convolve(power, sizes)
    return law


NOTHING = np.ones(1)
SPIKES = mixture(
    (0.6, even(1, 1)), (0.25, even(5, 5)), (0.1, even(10, 10)), (0.05, even(50, 50))
)
# The laws that the methods were designed on.
DESIGNED = {
    "P0.3": poisson(0.3),
    "P2": poisson(2),
    "P10": poisson(10),
    "NB3_9": negative_binomial(3, 9),
    "NB10_60": negative_binomial(10, 60),
    "INT": mixture((0.9, NOTHING), (0.1, geometric(8))),
    "LN100": lognormal(100, 0.6),
    "PACK6": packed(poisson(0.5, 30), 6),
    "PROJ": np.convolve(poisson(3, 60), mixture((0.95, NOTHING), (0.05, even(30, 30)))),
}
# Laws that none was designed on; the methods were compared on them.
OTHERS = {
    "bulk": mixture((0.97, poisson(8)), (0.03, even(60, 60))),
    "hump": mixture((0.92, negative_binomial(1, 2)), (0.08, even(20, 40))),
    "binomial": stats.binom.pmf(np.arange(13), 12, 0.75),
    "heavy": mixture((0.8, NOTHING), (0.2, lognormal(10, 3))),
    "boxes": orders_of(1.5, mixture((0.5, even(1, 1)), (0.5, even(6, 6)))),
    "NB1_4": negative_binomial(1, 4),
    "two": mixture((0.5, poisson(2)), (0.5, poisson(12))),
    "cut": mixture((0.4, NOTHING), (0.6, geometric(6, 12))),
    "prices": orders_of(0.4, SPIKES),
    "LN20": lognormal(20, 1.2),
    "even": even(0, 12),
    "inflated": mixture((0.3, NOTHING), (0.7, poisson(6))),
    "gamma": np.diff(stats.gamma(4, scale=4).cdf(np.arange(200) + 0.5), prepend=0.0),
    "rare-bulk": mixture((0.95, poisson(0.5)), (0.05, even(10, 20))),
    "dozens": mixture((0.7, poisson(2)), (0.3, packed(geometric(1.5, 20), 12))),
}
# Laws that were looked at only once the methods stood.
UNSEEN = {
    "contracts": orders_of(0.5, even(4, 10)),
    "cut-NB": negative_binomial(4, 16)[:16],
    "two-packs": mixture(
        (0.5, NOTHING),
        (0.3, packed(geometric(1.5, 12), 4)),
        (0.2, packed(geometric(2, 10), 10)),
    ),
    "weibull": mixture((0.4, NOTHING), (0.6, weibull(12, 1.8))),
    "promotions": np.convolve(
        poisson(6, 60), mixture((0.96, NOTHING), (0.04, even(15, 25)))
    ),
    "inflated-LN": mixture((0.5, NOTHING), (0.5, lognormal(12, 0.8))),
}
LAWS = DESIGNED | OTHERS | UNSEEN
GROUPS = {
    name: group
    for group, laws in (("designed", DESIGNED), ("others", OTHERS), ("unseen", UNSEEN))
    for name in laws
}


class Truth:
    """A true law with its best policies."""

    def __init__(self, name: str) -> None:
        """Finds the best policies, and how large the tables of fitted laws must be."""
        self.place, self.law = [*LAWS].index(name), LAWS[name] / LAWS[name].sum()
        self.mean = float(self.law @ np.arange(len(self.law)))
        self.orders = self.mean * np.array(COVERS) ** 2 / 2
        large = self.mean >= 50
        self.runs = LongRuns(self.law, *((1500, 6000) if large else (500, 2000)))
        self.best = self.runs.best(self.orders)
        gap, level = max(it.gap for it in self.best), max(it.level for it in self.best)
        most = self.runs.costs.shape[1]
        self.size = min(2 * gap + 60, len(self.runs.lows)), min(
            (2 if large else 3) * level + 120, most
        )

    def history(self, periods: int, number: int) -> list[int]:
        """Draws a history."""
        random, below = np.random.default_rng([self.place, periods, number]), np.cumsum(
            self.law
        )
        while True:
            drawn = np.searchsorted(below[:-1], random.random(periods), side="right")
            if np.count_nonzero(drawn) >= 2:
                return [int(it) for it in drawn]

    def regrets(self, law: FittedLaw) -> Iterator[tuple[float, float]]:
        """Returns regret and promise of each setting."""
        chances = np.zeros(law.values[-1] + 1)
        chances[[*law.values]] = law.weights
        for at, choice in enumerate(LongRuns(chances, *self.size).best(self.orders)):
            cost = self.runs.cost(
                at, self.orders[at % len(COVERS)], choice.gap, choice.level
            )
            yield cost / self.best[at].cost - 1, choice.cost / cost - 1


def cell(job: tuple[str, int, int, Sequence[str]]) -> list[dict[str, object]]:
    """Returns the figures of the methods for a law and a number of periods."""
    name, periods, histories, methods = job
    truth = Truth(name)
    found = np.array(
        [
            [[*truth.regrets(fit_demand(history, method=method))] for method in methods]
            for history in (truth.history(periods, it) for it in range(histories))
        ]
    )
    means = 100 * found.mean(axis=2)  # histories, methods, figures
    gains = means[:, :1, 0] - means[:, :, 0]
    rows: list[dict[str, object]] = []
    for at, method in enumerate(methods):
        figures = {
            "regret": means[:, at, 0],
            "promise": means[:, at, 1],
            "gain": gains[:, at],
        }
        errors = {
            f"{it}_error": figures[it].std(ddof=1) / math.sqrt(histories)
            for it in figures
        }
        rows.append(
            {
                "law": name,
                "group": GROUPS[name],
                "periods": periods,
                "method": method,
                "histories": histories,
                **{it: figures[it].mean() for it in figures},
                **errors,
            }
        )
    return rows


def study(
    laws: Iterable[str],
    periods: Iterable[int],
    histories: int,
    methods: Sequence[str] = METHODS,
    jobs: int = 1,
) -> pd.DataFrame:
    """Returns the figures of all cells, in the order of laws and periods whatever the number of jobs."""
    work = [(name, count, histories, methods) for name in laws for count in periods]
    with ProcessPoolExecutor(jobs) as pool:
        return pd.DataFrame([row for rows in pool.map(cell, work) for row in rows])


def summary(rows: pd.DataFrame) -> pd.DataFrame:
    """Returns the means over the laws of a group, and the law on which a method loses most against `empirical`."""
    lines = []
    groups = rows.reset_index(drop=True).groupby(
        ["group", "periods", "method"], sort=False
    )
    for (group, periods, method), its in groups:
        worst = its.loc[its["gain"].idxmin()]
        errors = {
            f"{it}_error": math.sqrt((its[f"{it}_error"] ** 2).sum()) / len(its)
            for it in FIGURES
        }
        lines.append(
            {
                "group": group,
                "periods": periods,
                "method": method,
                **its[FIGURES].mean(),
                **errors,
                "worst": worst["law"],
                "worst_gain": worst["gain"],
                "worst_error": worst["gain_error"],
            }
        )
    return pd.DataFrame(lines)


def tables() -> dict[str, str]:
    """Returns the stored figures for the page: regret and promise by group, and the worst law of each group."""
    lines, stored = [], summary(pd.read_csv(STORED))
    for (group, periods), its in stored.groupby(["group", "periods"], sort=False):
        by_method = its.set_index("method")
        cells = {
            f"{figure}, {method}": f"{by_method[figure][method]:.1f} ± {by_method[f'{figure}_error'][method]:.1f}"
            for figure in FIGURES[:2]
            for method in by_method.index
        }
        worst = by_method.loc["auto"]
        lines.append(
            {
                "laws": group,
                "periods": periods,
                **cells,
                "worst law of auto, points": f"{worst['worst_gain']:+.1f} ± {worst['worst_error']:.1f} "
                f"({worst['worst']})",
            }
        )
    return {"laws": markdown(pd.DataFrame(lines))}


@click.command()
@click.option("--small", is_flag=True, help="Run a small part.")
@click.option("--jobs", type=click.IntRange(1), default=1, show_default=True)
@click.option(
    "--histories",
    type=click.IntRange(2),
    default=HISTORIES,
    show_default=True,
    help="Histories of a cell.",
)
@click.option(
    "--law",
    "names",
    type=click.Choice([*LAWS]),
    multiple=True,
    help="A true law; without it all.",
)
@click.option("--method", "methods", multiple=True, default=METHODS, show_default=True)
@click.option(
    "--out",
    type=click.Path(dir_okay=False, path_type=Path),
    help="Write the rows as CSV.",
)
def main(
    small: bool,
    jobs: int,
    histories: int,
    names: tuple[str, ...],
    methods: tuple[str, ...],
    out: Path | None,
) -> None:
    """Measure the regret of fitted laws of demand under true laws."""
    rows = (
        study(**SMALL, jobs=jobs)
        if small
        else study(names or LAWS, PERIODS, histories, methods, jobs)
    )
    if out:
        rows.to_csv(out, index=False, float_format="%.3f")
    for table in (rows, summary(rows)):
        click.echo(table.round(2).to_string(index=False) + "\n")


if __name__ == "__main__":
    main()
