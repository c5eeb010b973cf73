"""Measures what it costs to plan as if periods were independent and of one law.

    python -m planner.studies.dependence --out planner/studies/dependence.csv    all, in some minutes
    python -m planner.studies.dependence --small                                 a small part, in a second

For each of the twelve settings of `planner.studies.laws`, the best policy for independent periods with the law of all
periods together is found by theory, and judged by its cost under the true demand. The regret is that cost over the cost
of the best (s,S) policy for the true demand, less 1. The promise is the planned cost over that cost, less 1. The level
is S of the best policy over that of the plan, less 1. The figures are means over the settings, in percent, of two laws:
`steady` is Poisson with mean 10, `erratic` negative binomial with mean 3 and variance 9.

- autocorrelation: chains of first order with these laws, by binomial thinning (Al-Osh and Alzaid, First-order
  integer-valued autoregressive (INAR(1)) process, 1987) and by beta-binomial thinning (McKenzie, Autoregressive
  moving-average processes with negative-binomial and geometric marginal distributions, 1986). 0 is the control.
- season: the mean follows a sine of this amplitude, in so many periods.
- trend: the mean rose or fell from 1 - size to 1 + size times the mean of the record, and then stays.
- shift: the mean of the last quarter of the record is 1 + size times the mean before, and stays.

For the last two the future is independent again, so theory computes them. The others are simulated on independent
paths. The walk below S depends on the gap S - s alone, so one pass counts how far the stock is below S for each gap,
and gives the cost of all policies. The best policy is chosen on one half of the paths and judged on the other, both
ways. Standard errors are over paths. Seeds are fixed: [place of the case].
"""
from __future__ import annotations

import itertools
import math
from collections.abc import Iterable
from pathlib import Path
from typing import NamedTuple

import click
import numpy as np
import numpy.typing as npt
import pandas as pd

from planner.studies import laws
from planner.studies.laws import COVERS, LEADS, Choice, Floats, LongRuns
from planner.studies.page import markdown

Whole = npt.NDArray[np.int64]

STORED = Path(__file__).with_name("dependence.csv")
PATHS, CYCLES = 20, 1000  # of 52 periods, on each path
SMALL_PATHS, SMALL_CYCLES = 8, 120
BLOCK = 1040  # periods that are counted at a time
RECORD = 100  # equal parts of the record of a trend
FIGURES = ["regret", "promise", "level"]


class Case(NamedTuple):
    """A kind of demand, one of the laws, the size of the effect in percent, and the length of a season."""

    kind: str
    law: str
    size: int
    length: int = 0


MEANS = {"steady": 10.0, "erratic": 3.0}
RATIO = 3.0  # of variance and mean of the erratic law
SIZE, SHARE = MEANS["erratic"] / (RATIO - 1), 1 / RATIO  # the parameters of that law
CASES = [
    Case(*it)
    for it in itertools.chain(
        itertools.product(["autocorrelation"], MEANS, [0, 15, 30, 45, 60]),
        itertools.product(["season"], MEANS, [15, 30, 45, 60, 80], [52]),
        itertools.product(["season"], MEANS, [30, 60], [12]),
        itertools.product(["season"], MEANS, [30, 60], [7]),
        itertools.product(["trend", "shift"], MEANS, [-50, -25, 25, 50]),
        itertools.product(["shift"], MEANS, [100]),
    )
]
SMALL = [
    Case("autocorrelation", "steady", 0),
    Case("autocorrelation", "steady", 60),
    Case("season", "steady", 60, 12),
    Case("trend", "erratic", 50),
    Case("shift", "steady", -25),
]


def scaled_law(law: str, factor: float) -> Floats:
    """Returns a law with another mean."""
    mean = MEANS[law] * factor
    return (
        laws.poisson(mean)
        if law == "steady"
        else laws.negative_binomial(mean, RATIO * mean, 200)
    )


def factors_of(case: Case) -> Floats:
    """Returns the factors of the mean in equal parts of the record."""
    size = case.size / 100
    if case.kind == "season":
        return 1 + size * np.sin(2 * math.pi * np.arange(case.length) / case.length)
    if case.kind == "trend":
        return 1 + size * np.linspace(-1, 1, RECORD)
    return np.array([1, 1, 1, 1 + size]) if case.kind == "shift" else np.ones(1)


def chain(case: Case, random: np.random.Generator, periods: int, paths: int) -> Whole:
    """Returns autocorrelated demand of each period, in rows, and path."""
    stay, mean = case.size / 100, MEANS[case.law]
    steady = case.law == "steady"
    new = (
        random.poisson(mean * (1 - stay), (periods, paths))
        if steady
        else random.negative_binomial(SIZE * (1 - stay), SHARE, (periods, paths))
    )
    last = (
        random.poisson(mean, paths)
        if steady
        else random.negative_binomial(SIZE, SHARE, paths)
    )
    for row in new if stay else ():
        kept = stay if steady else random.beta(SIZE * stay, SIZE * (1 - stay), paths)
        row += random.binomial(last, kept)
        last = row
    return new


def drawn(case: Case, random: np.random.Generator, periods: int, paths: int) -> Whole:
    """Returns the demand of each period, in rows, and path."""
    if case.kind == "autocorrelation":
        return chain(case, random, periods, paths)
    factors = np.resize(factors_of(case), periods)[:, None]
    if case.law == "steady":
        return random.poisson(MEANS["steady"] * factors, (periods, paths))
    return random.negative_binomial(SIZE * factors, SHARE, (periods, paths))


class Paths:
    """The cost of all policies on independent paths of demand, with gaps and levels below given ones."""

    def __init__(self, demand: Whole, gaps: int, levels: int) -> None:
        """Counts how far the stock is below S at the end of each period, for each path, lead time and gap."""
        periods, paths = demand.shape
        self.shape, self.levels = (paths, gaps), levels
        used = periods - max(LEADS)
        sums = np.cumsum(
            np.vstack([np.zeros((1, paths), demand.dtype), demand]), axis=0
        )
        under_way = [sums[lead + 1 : lead + 1 + used] - sums[:used] for lead in LEADS]
        most = gaps + max(int(it.max()) for it in under_way)
        self.counts = np.zeros((len(LEADS), paths, gaps * most))
        self.orders, below = np.zeros(self.shape), np.zeros(self.shape, demand.dtype)
        for start in range(0, used, BLOCK):
            block = slice(start, min(start + BLOCK, used))
            walk, below = self.walk(demand[block], below)
            for lead, path in itertools.product(range(len(LEADS)), range(paths)):
                cells = (
                    walk[path]
                    + under_way[lead][block, path, None]
                    + most * np.arange(gaps)
                )
                self.counts[lead, path] += np.bincount(
                    cells.ravel(), minlength=gaps * most
                )
        self.counts = self.counts.reshape(len(LEADS), paths, gaps, most) / used
        self.orders /= used

    def walk(self, demand: Whole, below: Whole) -> tuple[Whole, Whole]:
        """Returns how far the position is below S after each review, for each path and gap, and before the next."""
        walk, gaps = np.empty(
            (self.shape[0], len(demand), self.shape[1]), below.dtype
        ), np.arange(self.shape[1])
        for period, amounts in enumerate(demand):
            due = below > gaps
            self.orders += due
            below = np.where(due, 0, below)
            walk[:, period] = below
            below = below + amounts[:, None]
        return walk, below

    def costs(self, setting: int, order: float) -> Floats:
        """Returns the mean cost of a period, for each path, gap and level."""
        lead, backlog = (
            LEADS.index(laws.SETTINGS[setting][0]),
            laws.SETTINGS[setting][1],
        )
        counts = self.counts[lead]
        below = np.zeros((*self.shape, self.levels))
        width = min(self.levels, counts.shape[2])
        below[:, :, :width] = counts[:, :, :width]
        left = np.cumsum(np.cumsum(below, axis=2), axis=2)
        left = np.concatenate([np.zeros((*self.shape, 1)), left[:, :, :-1]], axis=2)
        mean = (counts @ np.arange(counts.shape[2]))[:, :, None]
        levels = np.arange(self.levels)
        costs: Floats = (
            left + backlog * (left - levels + mean) + order * self.orders[:, :, None]
        )
        costs[:, levels < np.arange(self.shape[1])[:, None]] = np.inf  # s is at least 0
        return costs


def judged(costs: Floats, plan: Choice) -> tuple[Floats, float]:
    """Returns each path's regret of a plan, and the mean level of the best policies, each chosen on the other half."""
    halves = np.arange(len(costs)) % 2
    regrets, levels = np.empty(len(costs)), []
    for half in (0, 1):
        gap, level = np.unravel_index(
            np.argmin(costs[halves != half].mean(axis=0)), costs.shape[1:]
        )
        regrets[halves == half] = (
            costs[:, plan.gap, plan.level] / costs[:, gap, level]
        )[halves == half] - 1
        levels.append(level)
    return regrets, float(np.mean(levels))


def simulated(case: Case, paths: int, cycles: int) -> dict[str, float]:
    """Returns the figures of a case from simulated paths."""
    marginal = laws.mixture(
        *((1.0, scaled_law(case.law, it)) for it in factors_of(case))
    )
    plans, orders = plans_of(marginal, case.law)
    gaps, levels = (
        max(it.gap for it in plans) * 3 // 2 + 10,
        max(it.level for it in plans) * 7 // 4 + 20,
    )
    random = np.random.default_rng([CASES.index(case)])
    on_paths = Paths(drawn(case, random, 52 * cycles, paths), gaps, levels)
    figures = []
    for at, plan in enumerate(plans):
        costs = on_paths.costs(at, orders[at % len(COVERS)])
        regrets, level = judged(costs, plan)
        promises = plan.cost / costs[:, plan.gap, plan.level] - 1
        figures.append([regrets, promises, np.full(paths, level / plan.level - 1)])
    means = 100 * np.mean(figures, axis=0)  # figures, paths
    return {name: its.mean() for name, its in zip(FIGURES, means)} | {
        f"{name}_error": its.std(ddof=1) / math.sqrt(paths)
        for name, its in zip(FIGURES[:2], means)
    }


def plans_of(marginal: Floats, law: str) -> tuple[list[Choice], Floats]:
    """Returns the best policy of each setting for independent periods, and the costs of an order, by cover."""
    orders = MEANS[law] * np.array(COVERS) ** 2 / 2
    return LongRuns(marginal / marginal.sum(), 200, 700).best(orders), orders


def computed(case: Case) -> dict[str, float]:
    """Returns the figures of a trend or a shift from theory."""
    factors = factors_of(case)
    plans, orders = plans_of(
        laws.mixture(*((1.0, scaled_law(case.law, it)) for it in factors)), case.law
    )
    now = scaled_law(case.law, float(factors[-1]))
    runs = LongRuns(now / now.sum(), 200, 700)
    figures = []
    for at, (plan, best) in enumerate(zip(plans, runs.best(orders))):
        cost = runs.cost(at, orders[at % len(COVERS)], plan.gap, plan.level)
        figures.append(
            [cost / best.cost - 1, plan.cost / cost - 1, best.level / plan.level - 1]
        )
    means = 100 * np.mean(figures, axis=0)
    return dict(zip(FIGURES, means)) | {f"{name}_error": 0.0 for name in FIGURES[:2]}


def study(cases: Iterable[Case], paths: int, cycles: int) -> pd.DataFrame:
    """Returns the figures of cases, a row for each."""
    rows = []
    for case in cases:
        its = (
            computed(case)
            if case.kind in ("trend", "shift")
            else simulated(case, paths, cycles)
        )
        rows.append({**case._asdict(), **its})
    return pd.DataFrame(rows)


def effect_of(kind: str, size: int, length: int = 0) -> str:
    """Returns a kind and a size in words."""
    if kind == "autocorrelation":
        return f"autocorrelation {size / 100:g}" if size else "independent"
    return f"season {size}% in {length} periods" if length else f"{kind} {size:+}%"


def tables() -> dict[str, str]:
    """Returns the stored figures for the page: a row for each effect, with the figures of both laws."""
    stored = pd.read_csv(STORED)
    lines: dict[str, dict[str, str]] = {}
    for row in stored.to_dict("records"):
        effect = effect_of(row["kind"], row["size"], row["length"])
        line = lines.setdefault(effect, {"demand": effect})
        for name in FIGURES[:2]:
            error = row[f"{name}_error"]
            line[f"{name}, {row['law']}"] = f"{row[name]:.1f}" + (
                f" ± {error:.1f}" if error else ""
            )
        line[f"S, {row['law']}"] = str(round(row["level"]))
    return {"dependence": markdown(pd.DataFrame([*lines.values()]).fillna("-"))}


@click.command()
@click.option("--small", is_flag=True, help="Run a small part.")
@click.option("--paths", type=click.IntRange(2), default=PATHS, show_default=True)
@click.option(
    "--cycles",
    type=click.IntRange(1),
    default=CYCLES,
    show_default=True,
    help="Of 52 periods, on a path.",
)
@click.option(
    "--out",
    type=click.Path(dir_okay=False, path_type=Path),
    help="Write the rows as CSV.",
)
def main(small: bool, paths: int, cycles: int, out: Path | None) -> None:
    """Measure what it costs to plan as if periods were independent and of one law."""
    rows = (
        study(SMALL, SMALL_PATHS, SMALL_CYCLES)
        if small
        else study(CASES, paths, cycles)
    )
    if out:
        rows.to_csv(out, index=False, float_format="%.3f")
    click.echo(rows.round(2).to_string(index=False))


if __name__ == "__main__":
    main()
