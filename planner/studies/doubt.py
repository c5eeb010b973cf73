"""Measures how often what is said of the doubt about a law of demand holds: `crnplan.doubt`.

    python -m planner.studies.doubt --jobs 2 --out planner/studies/doubt.csv    all, in about a quarter of an hour
    python -m planner.studies.doubt --small                                     a small part, in some seconds

Histories of 26, 52, 104 and 208 periods are drawn from some laws of `laws.py`. From each, laws are drawn
that it allows, and `auto` fits a law. For each of four settings (lead time; backlog and cover as in `laws.py`) there
are two policies: the best one under the fitted law, and the cheapest one with a fill rate of 98% under it. Three
statements are compared with the truth, which is known here:

- regret: under 90% of the allowed laws the best policy costs at most so much more than the best one of each law. Held
  is how often its true regret is within that bound.
- fill: under 90% of the allowed laws the 98% policy has at least such a fill rate. Held is how often its true one has.
- promise: the mean cost of the best policy over the allowed laws, over its true cost, less 1; and `fitted`, the same of
  its cost under the fitted law.

All figures are in percent, as means over histories and settings, with their standard errors over histories. Seeds are
fixed: [place of the law, periods, number of the history], and 1 for the allowed laws.
"""
from __future__ import annotations

import itertools
import math
from collections.abc import Iterable, Sequence
from concurrent.futures import ProcessPoolExecutor
from pathlib import Path
from typing import Any

import click
import numpy as np
import pandas as pd

from crnplan.chances import Floats
from crnplan.demand.borrowing import fit_demand
from crnplan.demand.posterior import allowed_laws
from crnplan.law import Law
from crnplan.theory.walk import room_for
from planner.studies.laws import (
    COVERS,
    GROUPS,
    LAWS,
    LEADS,
    PERIODS,
    SETTINGS,
    Choice,
    LongRuns,
    Truth,
)
from planner.studies.page import markdown

PICKED = (
    (2, 9, 2),
    (2, 19, 8),
    (6, 99, 2),
    (6, 9, 8),
)  # lead time, backlog cost, cover
PLACES = [SETTINGS.index(it) for it in PICKED]
# Laws of different kinds. The draws were tuned on a few histories of all of them but bulk, inflated and even.
NAMES = ("NB3_9", "INT", "P2", "bulk", "hump", "cut", "inflated", "rare-bulk", "even")
TIMES, HISTORIES, SHARE, FILL = 60, 60, 0.9, 0.98
FIGURES = (
    "regret_held",
    "fill_held",
    "promise",
    "fitted",
    "regret_said",
    "regret_true",
    "fill_said",
    "fill_true",
)
STORED = Path(__file__).with_name("doubt.csv")
SMALL: dict[str, Any] = {
    "laws": ("NB3_9",),
    "periods": (26, 52),
    "histories": 4,
}  # of `study`


class PickedRuns:
    """The long runs of all policies under the picked settings, for many laws of demand at once.

    It counts as `LongRuns` does, per unit of holding cost. Arrays have a row for each law.
    """

    def __init__(self, laws: Sequence[Floats], gaps: int, levels: int) -> None:
        """Makes the tables of the costs of stock and of what is not met at once: for each law, setting and level."""
        chances = np.zeros((len(laws), levels))
        for row, law in zip(chances, laws):
            row[: len(law)] = law[:levels] / law.sum()
        self.means = np.array([law @ np.arange(len(law)) / law.sum() for law in laws])
        self.levels, self.span = levels, 1 / (1 - chances[:, 0])
        self.lows = renewals(chances[:, 1:gaps] * self.span[:, None], gaps)
        self.visits = np.cumsum(self.lows, axis=1)
        sums = sums_of(
            chances, {periods for lead in LEADS for periods in (lead, lead + 1)}
        )
        stock = {
            periods: np.cumsum(np.cumsum(its, axis=1), axis=1) - np.cumsum(its, axis=1)
            for periods, its in sums.items()
        }
        owed = {
            periods: its - np.arange(levels) + periods * self.means[:, None]
            for periods, its in stock.items()
        }
        self.costs = np.stack(
            [stock[lead + 1] + backlog * owed[lead + 1] for lead, backlog, _ in PICKED],
            axis=1,
        )
        self.unmet = np.stack(
            [owed[lead + 1] - owed[lead] for lead, _, _ in PICKED], axis=1
        )

    def over_cycle(self, table: Floats, at: int, gap: int, level: int) -> Floats:
        """Returns what a policy has in a table on average, in a setting, times the reviews of a cycle."""
        total: Floats = (
            self.lows[:, : gap + 1] * table[:, at, level - gap : level + 1][:, ::-1]
        ).sum(axis=1)
        return total

    def cost(self, at: int, order: float, gap: int, level: int) -> Floats:
        """Returns the cost of a policy in a setting."""
        cost: Floats = (
            self.over_cycle(self.costs, at, gap, level) + order / self.span
        ) / self.visits[:, gap]
        return cost

    def fill(self, at: int, gap: int, level: int) -> Floats:
        """Returns the fill rate of a policy in a setting."""
        fill: Floats = (
            1
            - self.over_cycle(self.unmet, at, gap, level)
            / self.visits[:, gap]
            / self.means
        )
        return fill

    def least(self, orders: Sequence[float]) -> Floats:
        """Returns the least cost of each law and setting."""
        stock, least = np.zeros_like(self.costs), np.full(self.costs.shape[:2], np.inf)
        for gap in range(self.lows.shape[1]):
            stock[:, :, gap:] += (
                self.lows[:, gap, None, None] * self.costs[:, :, : self.levels - gap]
            )
            costs = (
                stock[:, :, gap:].min(axis=2) + np.array(orders) / self.span[:, None]
            ) / self.visits[:, gap, None]
            least = np.minimum(least, costs)
        return least

    def filled(self, at: int, order: float, share: float) -> tuple[int, int]:
        """Returns gap and level of the cheapest policy of the first law with this fill rate."""
        stock, unmet, best = (
            np.zeros(self.levels),
            np.zeros(self.levels),
            (math.inf, 0, self.levels - 1),
        )
        for gap, low in enumerate(self.lows[0]):
            stock[gap:] += low * self.costs[0, at, : self.levels - gap]
            unmet[gap:] += low * self.unmet[0, at, : self.levels - gap]
            enough = np.flatnonzero(
                unmet[gap:] <= (1 - share) * self.visits[0, gap] * self.means[0]
            )
            if len(enough):
                level = gap + max(int(enough[0]), int(np.argmin(stock[gap:])))
                best = min(
                    best,
                    (
                        float(
                            (stock[level] + order / self.span[0]) / self.visits[0, gap]
                        ),
                        gap,
                        level,
                    ),
                )
        return best[1:]


def renewals(falls: Floats, count: int) -> Floats:
    """Returns the chances of the first `count` places to be reached, by steps of 1, 2 and so on with these chances."""
    places = np.zeros((len(falls), count))
    places[:, 0] = 1
    for place in range(1, count):
        back = min(place, falls.shape[1])
        places[:, place] = (
            falls[:, :back] * places[:, place - back : place][:, ::-1]
        ).sum(axis=1)
    return places


def sums_of(chances: Floats, numbers: Iterable[int]) -> dict[int, Floats]:
    """Returns the chances of sums of so many numbers, up to the width of the chances."""
    width = chances.shape[1]
    room, sums = room_for(2 * width), {1: chances}
    for number in range(2, max(numbers) + 1):
        both = np.fft.rfft(sums[number - 1], room) * np.fft.rfft(chances, room)
        sums[number] = np.clip(np.fft.irfft(both, room)[:, :width], 0, None)
    return {number: sums[number] for number in numbers}


def chances_of(table: Law) -> Floats:
    """Returns the chances of 0, 1, 2 and so on."""
    chances = np.zeros(table.values[-1] + 1)
    chances[[*table.values]] = np.array(table.weights) / sum(table.weights)
    return chances


class Case:
    """A true law with its picked runs."""

    def __init__(self, name: str) -> None:
        """Finds the best policies under the true law."""
        self.truth = Truth(name)
        self.runs = PickedRuns(
            [self.truth.law], len(self.truth.runs.lows), self.truth.runs.costs.shape[1]
        )
        self.orders = [
            float(self.truth.orders[COVERS.index(cover)]) for _, _, cover in PICKED
        ]
        self.best = np.array([self.truth.best[place].cost for place in PLACES])

    def policies(
        self, history: Sequence[int]
    ) -> tuple[list[Choice], list[tuple[int, int]]]:
        """Returns the best policy and the 98% policy of each setting under the law that `auto` fits."""
        chances = chances_of(fit_demand(history, method="auto").table)
        choices = LongRuns(chances, *self.truth.size).best(self.truth.orders)
        runs = PickedRuns([chances], *self.truth.size)
        filled = [runs.filled(at, order, FILL) for at, order in enumerate(self.orders)]
        return [choices[place] for place in PLACES], filled

    def under(
        self,
        runs: PickedRuns,
        best: Sequence[Choice],
        filled: Sequence[tuple[int, int]],
    ) -> tuple[Floats, Floats]:
        """Returns the costs of the best policies and the fill rates of the 98% policies: a row for each law."""
        costs = np.array(
            [
                runs.cost(at, self.orders[at], it.gap, it.level)
                for at, it in enumerate(best)
            ]
        )
        return (
            costs.T,
            np.array([runs.fill(at, *policy) for at, policy in enumerate(filled)]).T,
        )

    def figures(self, history: Sequence[int], times: int) -> Floats:
        """Returns all figures of a history: a row for each setting, a column for each of `FIGURES`."""
        best, filled = self.policies(history)
        runs = PickedRuns(
            [chances_of(it) for it in allowed_laws(history, times=times)],
            *self.truth.size,
        )
        (costs, fills), (true_cost, true_fill) = self.under(
            runs, best, filled
        ), self.under(self.runs, best, filled)
        regrets = costs / np.minimum(runs.least(self.orders), costs) - 1
        cost, fill = true_cost[0], true_fill[0]
        regret = cost / self.best - 1
        regret_said, fill_said = np.quantile(regrets, SHARE, axis=0), np.quantile(
            fills, 1 - SHARE, axis=0
        )
        fitted = np.array([it.cost for it in best]) / cost - 1
        return (
            100
            * np.array(
                [
                    regret <= regret_said + 1e-9,
                    fill >= fill_said - 1e-9,
                    costs.mean(axis=0) / cost - 1,
                    fitted,
                    regret_said,
                    regret,
                    fill_said,
                    fill,
                ],
                float,
            ).T
        )


def cell(job: tuple[str, int, int, int]) -> dict[str, object]:
    """Returns the figures of a law and a number of periods."""
    name, periods, histories, times = job
    case = Case(name)
    found = np.array(
        [
            case.figures(case.truth.history(periods, it), times).mean(axis=0)
            for it in range(histories)
        ]
    )
    errors = found.std(axis=0, ddof=1) / math.sqrt(histories)
    return {
        "law": name,
        "group": GROUPS[name],
        "periods": periods,
        "histories": histories,
        "laws": times,
        **dict(zip(FIGURES, found.mean(axis=0))),
        **{f"{it}_error": error for it, error in zip(FIGURES, errors)},
    }


def study(
    laws: Iterable[str],
    periods: Iterable[int],
    histories: int,
    times: int = TIMES,
    jobs: int = 1,
) -> pd.DataFrame:
    """Returns the figures of all cells, in the order of laws and periods whatever the number of jobs."""
    work = [
        (name, count, histories, times)
        for name, count in itertools.product(laws, periods)
    ]
    with ProcessPoolExecutor(jobs) as pool:
        return pd.DataFrame([*pool.map(cell, work)])


def summary(rows: pd.DataFrame) -> pd.DataFrame:
    """Returns the means over the laws of each group, and over all of them, and the laws whose bounds held least."""
    lines: list[dict[str, object]] = []
    for group in (*dict.fromkeys(rows["group"]), "all"):
        for periods, its in rows[(rows["group"] == group) | (group == "all")].groupby(
            "periods", sort=False
        ):
            errors = {
                f"{it}_error": math.sqrt((its[f"{it}_error"] ** 2).sum()) / len(its)
                for it in FIGURES
            }
            worst = {f"{it}_worst": its.loc[its[it].idxmin()] for it in FIGURES[:2]}
            lines.append(
                {
                    "group": group,
                    "periods": periods,
                    **its[[*FIGURES]].mean(),
                    **errors,
                    **{
                        name: f"{row[name[:-6]]:.0f} ({row['law']})"
                        for name, row in worst.items()
                    },
                }
            )
    return pd.DataFrame(lines)


def tables() -> dict[str, str]:
    """Returns the stored figures for the page."""
    titles = {
        "regret_held": "regret held",
        "fill_held": "fill held",
        "promise": "promise",
        "fitted": "promise, fitted",
        "regret_said": "bound of the regret",
        "regret_true": "true regret",
        "fill_said": "bound of the fill",
        "fill_true": "true fill",
    }
    lines = [
        {
            "laws": row["group"],
            "periods": row["periods"],
            **{
                title: f"{row[it]:.1f} ± {row[f'{it}_error']:.1f}"
                for it, title in titles.items()
            },
            "least regret held": row["regret_held_worst"],
            "least fill held": row["fill_held_worst"],
        }
        for row in summary(pd.read_csv(STORED)).to_dict("records")
    ]
    return {"doubt": markdown(pd.DataFrame(lines))}


@click.command()
@click.option("--small", is_flag=True, help="Run a small part.")
@click.option("--jobs", type=click.IntRange(1), default=1, show_default=True)
@click.option(
    "--histories",
    type=click.IntRange(2),
    default=HISTORIES,
    show_default=True,
    help="Histories of a cell.",
)
@click.option(
    "--times",
    type=click.IntRange(10),
    default=TIMES,
    show_default=True,
    help="Laws of a history.",
)
@click.option(
    "--law",
    "names",
    type=click.Choice([*LAWS]),
    multiple=True,
    help="A true law; without it some of different kinds.",
)
@click.option(
    "--out",
    type=click.Path(dir_okay=False, path_type=Path),
    help="Write the rows as CSV.",
)
def main(
    small: bool,
    jobs: int,
    histories: int,
    times: int,
    names: tuple[str, ...],
    out: Path | None,
) -> None:
    """Measure how often what is said of the doubt about a law holds."""
    rows = (
        study(**SMALL, jobs=jobs)
        if small
        else study(names or NAMES, PERIODS, histories, times, jobs)
    )
    if out:
        rows.to_csv(out, index=False, float_format="%.3f")
    for table in (rows, summary(rows)):
        click.echo(table.round(1).to_string(index=False) + "\n")


if __name__ == "__main__":
    main()
