"""Measures how often the checks of a history warn: false alarms, and of histories with an effect.

    python -m planner.studies.warnings --out planner/studies/warnings.csv    all, in about half an hour
    python -m planner.studies.warnings --small                               a small part, in some seconds

Histories have 26, 52, 104 or 208 periods, in a year of 52, and at least two periods with demand; others are drawn anew.
There are two parts:

- independent: histories of all laws of `planner.studies.laws`. The share with any warning is that of false alarms;
  the share of each test at 5%, and of those with a demand that is named as far above all others, stand beside it.
- effect: histories with an effect of a given size. `any` is the share with any warning, `own` that with a warning of
  the test for this effect.

The mean follows a line from 1 - size to 1 + size (trend), a step by `size` after three quarters (shift) or a sine
(season). Autocorrelated demand is that of `planner.studies.dependence`. Seeds are fixed: [part, place of the case,
periods].
"""
from __future__ import annotations

import itertools
import math
from collections.abc import Callable, Iterable, Iterator, Mapping, Sequence
from pathlib import Path
from typing import Any, NamedTuple

import click
import numpy as np
import numpy.typing as npt
import pandas as pd

from crnplan.demand.order_tests import FALSE_ALARMS
from crnplan.demand.outliers import outliers_of
from crnplan.demand.seasons import seasons_of
from crnplan.demand.permutation import ROUNDING, Orders
from crnplan.demand.sample import Sample
from planner.studies import dependence, laws
from planner.studies.dependence import effect_of
from planner.studies.page import markdown

Whole = npt.NDArray[np.int64]

STORED = Path(__file__).with_name("warnings.csv")
PERIODS = laws.PERIODS
YEAR = 52
HISTORIES = 400
TESTS = ("autocorrelation", "trend", "shift", "season")
# Laws whose largest demands are a group apart, so that naming one is no false alarm.
HUMPS = ("PROJ", "bulk", "hump", "prices", "rare-bulk", "promotions")


class Effect(NamedTuple):
    """An effect on a law: its kind, and its size in percent."""

    law: str
    kind: str
    size: int


CHAINS = {"P10": "steady", "NB3_9": "erratic"}
ALL = (*CHAINS, "INT")
SIZES = {
    "autocorrelation": (30, 60),
    "trend": (25, 50),
    "shift": (50,),
    "season": (30, 60),
}
EFFECTS = [
    Effect(law, kind, size)
    for kind, sizes in SIZES.items()
    for size in sizes
    for law in (("P10",) if kind == "autocorrelation" else ALL)
]
SMALL: dict[str, Any] = {  # of `study`
    "names": ("P2", "INT"),
    "effects": (Effect("P10", "autocorrelation", 60), Effect("NB3_9", "trend", 50)),
    "periods": (104,),
    "count": 60,
    "of_effect": 40,
}


def factors_of(kind: str, size: float, periods: int) -> npt.NDArray[np.float64]:
    """Returns the factor of each period's mean."""
    time = np.arange(periods)
    if kind == "trend":
        return 1 + size * (2 * time / (periods - 1) - 1)
    return 1 + size * (
        np.sin(2 * math.pi * (time + 0.5) / YEAR)
        if kind == "season"
        else time >= 0.75 * periods
    )


def drawn(
    law: str, kind: str, size: float, random: np.random.Generator, periods: int
) -> Whole:
    """Draws a history of demand with an effect."""
    if kind == "autocorrelation":
        case = dependence.Case(kind, CHAINS[law], round(100 * size))
        return dependence.chain(case, random, periods, 1)[:, 0]
    factors = factors_of(kind, size, periods)
    if law == "P10":
        return random.poisson(10 * factors)
    if law == "NB3_9":
        return random.negative_binomial(dependence.SIZE * factors, dependence.SHARE)
    return np.where(
        random.random(periods) < 0.1 * factors, random.geometric(1 / 8, periods), 0
    )


def independent(law: str, random: np.random.Generator, periods: int) -> Whole:
    """Draws a history of a law."""
    below = np.cumsum(laws.LAWS[law] / laws.LAWS[law].sum())
    return np.searchsorted(below[:-1], random.random(periods), side="right")


def histories(draw: Callable[[], Whole]) -> Iterator[list[int]]:
    """Yields histories with at least two periods with demand, for ever."""
    while True:
        numbers = draw()
        if np.count_nonzero(numbers) >= 2:
            yield numbers.tolist()


def p_value(statistics: npt.NDArray[np.float64]) -> float:
    """Returns the share of orders that are as suspicious as the history, which is the first of them."""
    return float((statistics >= statistics[0] * (1 - ROUNDING)).mean())


def statistics_of(
    numbers: Sequence[int], seasons: Mapping[str, Whole]
) -> dict[str, npt.NDArray[np.float64]]:
    """Returns each statistic of a history and, after it, of drawn orders of it."""
    orders = Orders(numbers, seasons)
    return dict(zip(orders.names, np.concatenate([*orders.statistics()]).T))


def p_values(numbers: list[int]) -> dict[str, float]:
    """Returns the p value of each test."""
    seasons, _ = seasons_of(None, 1, len(numbers), YEAR)
    found = statistics_of(numbers, {it.name: it.part_of for it in seasons})
    return {name: p_value(statistics) for name, statistics in found.items()}


def warned(found: dict[str, float]) -> list[str]:
    """Returns the tests that warn."""
    return [name for name, p in found.items() if p <= FALSE_ALARMS / len(found)]


def alarms(law: str, periods: int, count: int) -> dict[str, Any]:
    """Returns the shares of false alarms of a law."""
    random = np.random.default_rng([0, [*laws.LAWS].index(law), periods])
    found, far = [], 0
    for numbers in itertools.islice(
        histories(lambda: independent(law, random, periods)), count
    ):
        found.append(p_values(numbers))
        far += bool(outliers_of(numbers, Sample.of(numbers).pack))
    return {
        "part": "independent",
        "law": law,
        "kind": "-",
        "size": 0,
        "periods": periods,
        "histories": count,
        "any": np.mean([bool(warned(it)) for it in found]),
        "outliers": far / count,
        **{
            name: np.mean([it[name] <= FALSE_ALARMS for it in found])
            for name in found[0]
        },
    }


def power(effect: Effect, periods: int, count: int) -> dict[str, Any]:
    """Returns the shares of warnings about an effect."""
    random = np.random.default_rng([1, EFFECTS.index(effect), periods])
    draw = histories(
        lambda: drawn(effect.law, effect.kind, effect.size / 100, random, periods)
    )
    found = [warned(p_values(numbers)) for numbers in itertools.islice(draw, count)]
    return {
        "part": "effect",
        **effect._asdict(),
        "periods": periods,
        "histories": count,
        "any": np.mean([bool(it) for it in found]),
        "own": np.mean([effect.kind in it for it in found]),
    }


def study(
    names: Iterable[str],
    effects: Iterable[Effect],
    periods: Iterable[int],
    count: int,
    of_effect: int,
) -> pd.DataFrame:
    """Returns the figures of all parts, a row for each case and number of periods. A part has so many histories."""
    counts = [*periods]
    of_kind = {
        kind: [it for it in counts if it >= 2 * YEAR or kind != "season"]
        for kind in TESTS
    }
    rows = [alarms(name, it, count) for name in names for it in counts]
    rows += [
        power(effect, it, of_effect)
        for effect in effects
        for it in of_kind[effect.kind]
    ]
    columns = [
        "part",
        "law",
        "kind",
        "size",
        "periods",
        "histories",
        "any",
        "own",
        *TESTS,
        "outliers",
    ]
    return pd.DataFrame(rows).reindex(columns=columns)


def error_of(share: float, count: float) -> float:
    """Returns the standard error of a share."""
    return math.sqrt(share * (1 - share) / count)


def percent(share: float, error: float) -> str:
    """Returns a share with its standard error, in percent."""
    return f"{100 * share:.1f} ± {100 * error:.1f}"


def alarm_table(rows: pd.DataFrame) -> pd.DataFrame:
    """Returns the false alarms of each number of periods: the mean over the laws, and the law with most."""
    lines = []
    for periods, its in rows.groupby("periods"):
        one_hump = its[~its["law"].isin(HUMPS)]

        def mean(name: str, part: pd.DataFrame = its) -> str:
            """Returns the mean of a column over laws."""
            errors = [error_of(*it) for it in zip(part[name], part["histories"])]
            return (
                percent(part[name].mean(), math.hypot(*errors) / len(part))
                if part[name].notna().all()
                else "-"
            )

        most, far = (
            its.loc[its["any"].idxmax()],
            one_hump.loc[one_hump["outliers"].idxmax()],
        )
        lines.append(
            {
                "periods": periods,
                "any warning": mean("any"),
                "most (law)": f"{percent(most['any'], error_of(most['any'], most['histories']))} ({most['law']})",
                **{f"{name} at 5%": mean(name) for name in TESTS},
                "far above, one hump": mean("outliers", one_hump),
                "far above, most": f"{100 * far['outliers']:.1f} ({far['law']})",
            }
        )
    return pd.DataFrame(lines)


def power_table(rows: pd.DataFrame) -> pd.DataFrame:
    """Returns the share of histories with any warning, by effect, law and number of periods."""
    lines = []
    for (kind, size, law), its in rows.groupby(["kind", "size", "law"], sort=False):
        shares = {
            periods: percent(share, error_of(share, count))
            for periods, share, count in zip(
                its["periods"], its["any"], its["histories"]
            )
        }
        effect = effect_of(kind, size, YEAR * (kind == "season"))
        lines.append(
            {
                "effect": effect,
                "law": law,
                **{str(it): shares.get(it, "-") for it in PERIODS},
            }
        )
    return pd.DataFrame(lines)


def tables() -> dict[str, str]:
    """Returns the stored figures for the page: false alarms and power."""
    rows = pd.read_csv(STORED)
    parts = {name: its for name, its in rows.groupby("part")}
    made = {
        "false-alarms": alarm_table(parts["independent"]),
        "power": power_table(parts["effect"]),
    }
    return {name: markdown(table) for name, table in made.items()}


@click.command()
@click.option("--small", is_flag=True, help="Run a small part.")
@click.option(
    "--histories",
    type=click.IntRange(8),
    default=HISTORIES,
    show_default=True,
    help="Of each cell.",
)
@click.option(
    "--out",
    type=click.Path(dir_okay=False, path_type=Path),
    help="Write the rows as CSV.",
)
def main(small: bool, histories: int, out: Path | None) -> None:
    """Measure false alarms and power of the checks of a history."""
    rows = (
        study(**SMALL)
        if small
        else study(laws.LAWS, EFFECTS, PERIODS, histories, histories)
    )
    if out:
        rows.to_csv(out, index=False, float_format="%.4f")
    click.echo(rows.round(3).to_string(index=False))


if __name__ == "__main__":
    main()
