"""Measures what exponential smoothing has that the plan lacks: its level, its spread, or its tail.

    python -m planner.studies.level_spread_tail --jobs 2 --out planner/studies/level_spread_tail.csv

Each series is an item as in `walk_forward`, with a backlog cost of 9 or of 49 times holding. After each `every` periods
laws are fitted to the last ones, and theory chooses s and S for each law until the next fit. The laws swap one part of
that of `auto` at a time:

- `level`: each demand times the smoothed mean over that of the law;
- `spread`: as far from the mean as makes the deviation that of the errors of smoothing;
- `normal`: a rounded normal law with the mean and the deviation of what was seen, in place of the tail;
- `level, spread`: both of these; `all`: the normal law with both, which is what the rule of thumb believes.

Beside them is that rule (`crnplan.plan.backtest.rules`) with s and S that stay until the next fit (`rule, held`),
and with new ones in each period (`rule`). Costs are those of the later periods, in units of an item's own mean demand,
so that all items weigh alike, and beside those of `auto`. Errors are those of clusters of items and of blocks of periods
(`crnplan.plan.backtest.sums`). Made series are those of `walk_forward`, with fixed seeds; the real ones need R. Of each
set at most `--items` series are taken, evenly, and of each series at most 156 periods; of made ones 8 series.
"""
from __future__ import annotations

import contextlib
import dataclasses
from collections.abc import Iterator, Sequence
from concurrent.futures import ProcessPoolExecutor
from fractions import Fraction
from pathlib import Path
from typing import Any, NamedTuple

import click
import numpy as np
import pandas as pd
from scipy.special import ndtr

from crnplan.chances import DEMANDS, Floats, cut
from crnplan.demand.fitted import FittedLaw
from crnplan.demand.learning import Prior
from crnplan.errors import Refused
from crnplan.law import Law
from crnplan.plan.backtest.methods import PLANNED, Walk, Walked, Way, chosen
from crnplan.demand.level import smoothed
from crnplan.plan.backtest.rules import Forecast, normal_levels, wanted_share
from crnplan.plan.backtest.estimates import Ratio
from crnplan.plan.backtest.sums import BLOCK
from crnplan.plan.how import NONE, Settings
from crnplan.plan.question import Levels, Question, question_of
from crnplan.read.item import Item
from planner.studies.page import markdown
from planner.studies.real_series import Series, real_series
from planner.studies.walk_forward import COVER, HOLDING, LEAD, MADE, WALKS

STORED = Path(__file__).with_name("level_spread_tail.csv")
BACKLOGS = (9, 49)
WALK, MOST_PERIODS = (52, 4, 52), 156
SETS = ("juice", "cheese", "tuna", "cases", "flu")
KINDS = ("steady", "promotions")  # of `MADE`
AUTO, RULES = "auto", ("rule, held", "rule")
LAWS = (AUTO, "level", "spread", "level, spread", "normal", "all")
ITEMS, MADE_ITEMS, MADE_PERIODS = 20, 8, 104
SMALL: dict[str, Any] = {"sets": (), "kinds": ("steady",), "made": 2}  # of `study`
FIGURES = ["cost", "fill"]


class Ratios(NamedTuple):
    """The smoothed mean over that of what was seen, and the deviation of its errors over that of what was seen."""

    level: float
    spread: float


def on_lattice(points: Floats, chances: Floats, mean: float) -> Law:
    """Returns a law of points of any size as one of whole numbers with this mean: a point is shared by its neighbours,
    and those below 0 count there."""
    points = np.maximum(points, 0.0)
    own = points @ chances / chances.sum()
    points *= mean / own if own else 1.0
    low = np.floor(points).astype(int)
    law = np.zeros(low.max() + 2)
    np.add.at(law, low, chances * (1 - points + low))
    np.add.at(law, low + 1, chances * (points - low))
    return Law.of_chances(law / law.sum())


def swapped(law: FittedLaw, parts: str, ratios: Ratios) -> Law:
    """Returns a law of demand with some of its parts in place of those of `auto`."""
    seen = law.diagnostics.history
    wanted = (
        ratios
        if parts == "all"
        else Ratios(
            ratios.level if "level" in parts else 1.0,
            ratios.spread if "spread" in parts else 1.0,
        )
    )
    deviation = max(wanted.spread * (seen.variance or 0.0) ** 0.5, 0.1)
    if parts in ("normal", "all"):
        mean = seen.mean * wanted.level
        normal = cut(np.diff(ndtr((DEMANDS + 0.5 - mean) / deviation), prepend=0.0))
        return on_lattice(DEMANDS[: len(normal)].astype(float), normal, mean)
    mean, points = (
        float(law.mean) * wanted.level,
        np.array(law.values, float) * wanted.level,
    )
    if "spread" in parts:
        own = (
            wanted.level * law.figures.variance**0.5 if law.figures.variance else 1.0
        )
        points = mean + (points - mean) * deviation / own
    return on_lattice(points, np.array(law.weights, float), mean)


def item_of(
    series: Series, backlog: int | None, record: int, fill: Fraction | None = None
) -> Item:
    """Returns the item of a series, as in `walk_forward`: with a backlog cost, or a wanted fill rate."""
    mean = max(sum(series.counts[:record]) / record, 0.01)
    setup = Fraction(round(HOLDING * mean * COVER**2 / 2, 2)).limit_denominator(100)
    levels = round((LEAD + 1) * mean), round((LEAD + 1 + COVER) * mean) + 1
    cost = None if backlog is None else Fraction(backlog)
    return Item(
        series.name,
        series.counts,
        (LEAD,),
        levels,
        setup,
        Fraction(HOLDING),
        cost,
        fill,
    )


def question_with(question: Question, parts: str, ratios: Ratios) -> Question:
    """Returns a question with some parts of its law swapped."""
    if parts == AUTO:
        return question
    law = swapped(question.demand, parts, ratios)
    return dataclasses.replace(
        question, demand=FittedLaw.made(law, parts, question.demand.diagnostics)
    )


def ratios_of(counts: Sequence[int], forecast: tuple[float, float]) -> Ratios:
    """Returns how level and spread of smoothing are beside those of the counts of a window; 1 if these have none."""
    mean, deviation = np.mean(counts), np.std(counts, ddof=1)
    return Ratios(
        forecast[0] / mean if mean else 1.0,
        forecast[1] ** 0.5 / deviation if deviation else 1.0,
    )


def plan_of(
    question: Question, parts: str, ratios: Ratios, before: Sequence[Levels]
) -> Levels:
    """Returns s and S by a law with some parts swapped. As in a backtest, the last ones are kept if it has none."""
    try:
        asked = question_with(question, parts, ratios)
        return chosen(asked).levels
    except Refused:
        if before:
            return before[-1]
        raise


def levels_of(walked: Walked) -> dict[str, list[Levels]]:
    """Returns s and S of each period by the law or the rule; in the record those of the first plan. Raises Refused if
    there is no first plan by some law."""
    counts, question = walked.item.counts, walked.question
    forecasts, share = [*smoothed(counts)], [wanted_share(walked.item)]
    rule = list[Levels]()
    for known in forecasts:
        rule += normal_levels(walked.item, share, Forecast(*known), LEAD, 0.0)
    levels: dict[str, list[Levels]] = {name: [] for name in (*LAWS, RULES[0])}
    for start, origin, end in walked.walk.stretches(len(counts)):
        with contextlib.suppress(Refused):
            question = question_of(walked.item.part(start, origin), Settings())
        ratios = ratios_of(counts[start:origin], forecasts[origin])
        for name, own in levels.items():
            plan = (
                rule[origin] if name in RULES else plan_of(question, name, ratios, own)
            )
            own += [plan] * (end - len(own))
    return levels | {RULES[1]: rule}


class Later(NamedTuple):
    """What a law or a rule comes to in the later periods of an item, in units of its mean demand, by period."""

    costs: Floats
    unmet: Floats
    asked: Floats
    stock: float


def later_of(job: tuple[Series, int, tuple[int, int, int]]) -> dict[str, Later]:
    """Returns what each law and each rule comes to for an item; nothing if it could not be planned at first."""
    series, backlog, walk = job
    item = item_of(series, backlog, walk[0])
    try:
        walked = Walked(item, Walk(*walk), {PLANNED: Way(Settings(), Prior(NONE))})
        levels = levels_of(walked)
    except Refused:
        return {}
    mean = float(np.mean(item.counts))
    later = np.array(item.counts[walk[0] :]) / mean
    outcomes = {name: walked.happened.outcome(own) for name, own in levels.items()}
    return {
        name: Later(
            np.array(its.costs) / mean,
            np.array(its.unmet) / mean,
            later,
            its.stock / mean,
        )
        for name, its in outcomes.items()
    }


def rows_of(
    kind: str, backlog: int, items: Sequence[dict[str, Later]]
) -> Iterator[dict[str, Any]]:
    """Yields the figures of each law and each rule of a set, in percent."""
    lengths = [len(item[AUTO].costs) for item in items]
    numbers = np.repeat(np.arange(len(items)), lengths)
    blocks = np.concatenate([np.arange(length) for length in lengths]) // BLOCK

    def joined(name: str, figure: str) -> Floats:
        return np.concatenate([getattr(item[name], figure) for item in items])

    for name in (*LAWS, *RULES):
        own, base = joined(name, "costs"), joined(AUTO, "costs")
        cost = Ratio(own - base, base, numbers, blocks).estimate
        fill = Ratio(
            joined(name, "unmet"), joined(name, "asked"), numbers, blocks
        ).estimate
        stock = sum(item[name].stock for item in items) / sum(
            item[AUTO].stock for item in items
        )
        yield {
            "set": kind,
            "backlog": backlog,
            "law": name,
            "items": len(items),
            "cost": 100 * cost.value,
            "cost_error": 100 * cost.error,
            "fill": 100 - 100 * fill.value,
            "fill_error": 100 * fill.error,
            "stock": 100 * stock - 100,
        }


def made_series(kind: str, items: int) -> list[Series]:
    """Returns series of a kind that is made."""
    random = np.random.default_rng([[*MADE].index(kind), 7])
    return [
        Series(f"{kind} {place}", tuple(MADE[kind](random, MADE_PERIODS).tolist()))
        for place in range(items)
    ]


def sets_of(
    sets: Sequence[str], kinds: Sequence[str], items: int
) -> Iterator[tuple[str, list[Series]]]:
    """Yields real and made series by set: so many of each, evenly. Raises ClickException without the real ones."""
    real = real_series() if sets else {}
    if sets and not real:
        raise click.ClickException(
            "there are no real series: install R with r-cran-surveillance and r-cran-bayesm"
        )
    for name in sets:
        series = real.get(name, [])
        shown = (
            [series[place * len(series) // items] for place in range(items)]
            if len(series) > items
            else series
        )
        if shown:
            yield name, [Series(its.name, its.counts[:MOST_PERIODS]) for its in shown]
    for kind in kinds:
        yield f"made: {kind}", made_series(kind, items)


def study(
    sets: Sequence[str] = SETS,
    kinds: Sequence[str] = KINDS,
    items: int = ITEMS,
    made: int = MADE_ITEMS,
    jobs: int = 1,
) -> pd.DataFrame:
    """Returns the figures of all sets, with so many series of a real set at most, and of a made one."""
    rows = list[dict[str, Any]]()
    with ProcessPoolExecutor(jobs) as pool:
        for name, series in (*sets_of(sets, (), items), *sets_of((), kinds, made)):
            for backlog in BACKLOGS:
                work = [(its, backlog, WALKS.get(name, WALK)) for its in series]
                rows += rows_of(
                    name, backlog, [its for its in pool.map(later_of, work) if its]
                )
    return pd.DataFrame(rows)


def tables() -> dict[str, str]:
    """Returns the stored figures for the page: costs beside the law of `auto`."""
    lines = []
    for (name, backlog), its in pd.read_csv(STORED).groupby(
        ["set", "backlog"], sort=False
    ):
        by_law = its.set_index("law")
        lines.append(
            {
                "set": name,
                "items": str(by_law["items"][AUTO]),
                "backlog": str(backlog),
                **{
                    law: f"{by_law['cost'][law]:+.1f} ± {by_law['cost_error'][law]:.1f}"
                    for law in (*LAWS[1:], *RULES)
                },
            }
        )
    return {"level-spread-tail": markdown(pd.DataFrame(lines))}


@click.command()
@click.option("--small", is_flag=True, help="Run a small part, of made series.")
@click.option("--jobs", type=click.IntRange(1), default=1, show_default=True)
@click.option(
    "--items",
    type=click.IntRange(2),
    default=ITEMS,
    show_default=True,
    help="Series of a set, at most.",
)
@click.option(
    "--set",
    "sets",
    multiple=True,
    default=SETS,
    show_default=True,
    help="A set of real series.",
)
@click.option(
    "--out",
    type=click.Path(dir_okay=False, path_type=Path),
    help="Write the rows as CSV.",
)
def main(
    small: bool, jobs: int, items: int, sets: Sequence[str], out: Path | None
) -> None:
    """Measure what smoothing has that the plan lacks."""
    rows = study(**SMALL, jobs=jobs) if small else study(sets, items=items, jobs=jobs)
    if out:
        rows.to_csv(out, index=False, float_format="%.3f")
    click.echo(rows.round(2).to_string(index=False))


if __name__ == "__main__":
    main()
