"""Compares ways to correct the wanted fill rates of a whole catalogue by its past.

    python -m planner.studies.correction --out planner/studies/correction.csv    what is stored, in half an hour
    python -m planner.studies.correction "steady 1, 52" rides                             some sets alone

`correction_sets.py` says which sets there are. A way learns from the first part of each record alone at
which fill rate to aim: that at which the items of a set have met the wanted one. It is judged on the periods after it.

- `none`: aims at the wanted fill rate.
- `half`: the second half of the record is met by plans from the first.
- `blocks`: each quarter of it is met by plans from the other three, as `crnplan plan --set correct=true` learns.
- `walk`: each eighth of the second half is met by plans from all before it.

`class` learns a rate for slow items and one for fast ones, else one is learned for all. None is below the wanted one or
above 99.9%. `hindsight` is the one rate for all that meets the wanted one in the periods that came, if one does.
Policies are `kept`, or `refitted` after each 13 periods on the last 52.

An item weighs by its mean demand. `fill` is the share of demand met at once, with a standard error over items and over
blocks of periods; `stock` the mean stock beside that of `none`, and `by hand` beside that of one rate for all items
with the same `fill`.
"""
from __future__ import annotations

import dataclasses
import math
from collections.abc import Callable, Iterable, Iterator, Mapping, Sequence
from concurrent.futures import ProcessPoolExecutor
from fractions import Fraction
from functools import partial
from itertools import pairwise
from pathlib import Path
from typing import Any, NamedTuple

import click
import numpy as np
import pandas as pd

from crnplan.chances import Floats
from crnplan.demand.learning import LEAST_ON_REQUEST, Prior, learn
from crnplan.errors import Refused
from crnplan.plan.aims import FILLS, LOGS, Aims, Trial, Tried
from crnplan.crnsim.periods import Realization, periods_of
from crnplan.plan.backtest.estimates import Ratio
from crnplan.plan.backtest.sums import BLOCK
from crnplan.plan.correction import levels_of, trial_of
from crnplan.plan.how import ALL, NONE, Settings
from crnplan.plan.question import Levels, question_of
from crnplan.read.item import Item
from planner.studies.page import markdown
from planner.studies.correction_sets import LEAST_ITEMS, SMALL, Catalogue, catalogues
from planner.studies.real_series import Series
from planner.studies.walk_forward import COVER, HOLDING, LEAD

STORED = Path(__file__).with_name("correction.csv")
WANTED = (0.95, 0.98)
EVERY, WINDOW = 13, 52
BLOCKS = "blocks"
GROUPS = {  # of sets: made ones and `cases`, on which the way was chosen, others that change, and epidemics
    "chosen on": ("steady", "promotions", "shifts", "cases"),
    "unseen": ("juice", "cheese", "homes", "prescriptions", "rides"),
    "epidemics": ("outbreaks", "flu", "measles"),
}
TAKEN = "blocks class"
SHOWN = ("none all", "half all", "blocks all", TAKEN, "walk class", "hindsight all")
Part = tuple[int, int]  # the first period, and the one after the last


class Pass(NamedTuple):
    """Plans, each of a part of the periods, that are in use from a period on to another one. The first is in use before
    that too, which is not counted."""

    stretches: tuple[tuple[Part, int, int], ...]


class Runs(NamedTuple):
    """What policies for `FILLS` come to: by period the demand, what of it is unmet and the stock, with a column for
    each policy."""

    first: int
    asked: Floats
    unmet: Floats
    stock: Floats


class Tested(NamedTuple):
    """An item of a set: the counts of its record, the mean of all its periods, what the ways have tried, and what its
    policies come to in the periods after the record."""

    counts: tuple[int, ...]
    mean: float
    trials: dict[str, Trial]
    judged: dict[str, Runs]


def half(record: int) -> list[Pass]:
    """Returns one plan from the first half, on the second."""
    return [Pass((((0, record // 2), record // 2, record),))]


def walk(record: int) -> list[Pass]:
    """Returns plans from all before each eighth of the second half."""
    edges = (record * eighth // 8 for eighth in range(4, 9))
    return [Pass((((0, start), start, stop),)) for start, stop in pairwise(edges)]


def refitted(first: int, stop: int) -> Pass:
    """Returns plans that are refitted."""
    return Pass(
        tuple(
            ((max(0, origin - WINDOW), origin), origin, min(origin + EVERY, stop))
            for origin in range(first, stop, EVERY)
        )
    )


WAYS: dict[str, Callable[[int], list[Pass]]] = {"half": half, "walk": walk}


def judges(catalogue: Catalogue) -> dict[str, Pass]:
    """Returns the policies on which ways are judged."""
    record, stop = catalogue.record, catalogue.stop
    return {
        "kept": Pass((((0, record), record, stop),)),
        "refitted": refitted(record, stop),
    }


def item_of(series: Series, record: int) -> Item:
    """Returns an item with the counts of a record."""
    setup = Fraction(
        max(1, round(100 * HOLDING * np.mean(series.counts[:record]) * COVER**2 / 2)),
        100,
    )
    return Item(
        series.name,
        series.counts[:record],
        (LEAD,),
        (0, 1),
        setup,
        Fraction(HOLDING),
        fill=Fraction(19, 20),
    )


def prior_of(histories: Iterable[Sequence[int]]) -> Prior:
    """Returns what items learn from one another, if there are 30."""
    try:
        return learn(
            [np.minimum(counts, 2**31).astype(np.uint32) for counts in histories],
            None,
            ALL,
            least=LEAST_ON_REQUEST,
        )
    except Refused:
        return Prior(NONE)


def policies_of(item: Item, prior: Prior) -> list[Levels]:
    """Returns the policies of an item for `FILLS`."""
    levels = levels_of(question_of(item, Settings(borrow=prior.borrow), prior).theory)
    return [(point * item.box, level * item.box) for point, level in levels]


def runs_of(
    counts: Sequence[int],
    through: Pass,
    plans: Mapping[Part, list[Levels]],
    start: float,
) -> Runs:
    """Returns what policies come to on counts. They begin with nothing on order, and with a stock that is a share of
    the way from s to S."""
    (part, first, _), stop = through.stretches[0], through.stretches[-1][2]
    past, figures = Realization(counts[:stop], (0,) * stop, (LEAD,) * stop), []
    for place in range(len(FILLS)):
        s, S = plans[part][place]
        levels = [(s, S)] * first
        for own, begin, end in through.stretches:
            levels += [plans[own][place]] * (end - begin)
        periods = periods_of(past, levels, s + round(start * (S - s)))[first:]
        figures.append([(period.unmet, max(0, period.stock)) for period in periods])
    unmet, stock = np.array(figures, float).transpose(2, 1, 0)
    return Runs(first, np.array(counts[first:stop], float), unmet, stock)


def plans_of(
    item: Item, counts: Sequence[int], priors: Mapping[Part, Prior]
) -> dict[Part, list[Levels]]:
    """Returns the policies of an item from parts of its counts, the record first. A part that has no plan has that of
    the record. Raises Refused if that has none."""
    plans, record = dict[Part, list[Levels]](), (0, len(item.counts))
    for part in (record, *priors):
        try:
            plans[part] = policies_of(
                dataclasses.replace(item, counts=tuple(counts[slice(*part)])),
                priors[part],
            )
        except Refused:
            plans[part] = plans[record] if part != record else []
    if not plans[record]:
        raise Refused("no plan")
    return plans


def tested(
    series: Series, catalogue: Catalogue, priors: Mapping[Part, Prior]
) -> Tested | None:
    """Returns an item with its trials; None if it can't be planned from its record, or nothing is asked for later."""
    record, counts = catalogue.record, series.counts[: catalogue.stop]
    if not any(counts[:record]) or not any(counts[record:]):
        return None
    item, prior = item_of(series, record), priors[0, record]
    try:
        plans = plans_of(item, counts, priors)
        trials = {BLOCKS: trial_of(item, Settings(borrow=prior.borrow), prior)}
    except Refused:
        return None
    start, mean = float(np.random.default_rng([*series.name.encode()]).random()), float(
        np.mean(item.counts)
    )
    for way, passes in WAYS.items():
        runs = [runs_of(counts, through, plans, start) for through in passes(record)]
        asked, unmet = (
            sum(one) / mean
            for one in zip(*((run.asked.sum(), run.unmet.sum(axis=0)) for run in runs))
        )
        trials[way] = Trial(mean, asked, tuple(unmet))
    return Tested(
        item.counts,
        float(np.mean(counts)),
        trials,
        {
            policy: runs_of(counts, through, plans, start)
            for policy, through in judges(catalogue).items()
        },
    )


def tests_of(
    catalogue: Catalogue, mapped: Callable[..., Iterable[Tested | None]] = map
) -> list[Tested]:
    """Returns the items of a set. `mapped` calls a function for each series, as `map` does."""
    passes = [
        *judges(catalogue).values(),
        *(through for way in WAYS.values() for through in way(catalogue.record)),
    ]
    parts = dict.fromkeys(
        part for through in passes for part, _, _ in through.stretches
    )
    priors = {
        part: prior_of(series.counts[slice(*part)] for series in catalogue.series)
        for part in parts
    }
    work = partial(tested, catalogue=catalogue._replace(series=()), priors=priors)
    return [test for test in mapped(work, catalogue.series) if test]


def at(values: Floats, aim: float) -> Floats:
    """Returns what stands between the columns of `FILLS` at a fill rate, by the logarithm of what it leaves unmet."""
    place = float(np.interp(-math.log1p(-aim), -LOGS, np.arange(len(FILLS))))
    low = min(int(place), len(FILLS) - 2)
    mixed: Floats = values[:, low] * (1 - place + low) + values[:, low + 1] * (
        place - low
    )
    return mixed


class Judged(NamedTuple):
    """The share of demand that a set met at once, its standard error, and the mean stock in units of mean demand."""

    fill: float
    error: float
    stock: float


def judged(tests: Sequence[Tested], policy: str, aims: Sequence[float]) -> Judged:
    """Returns what a policy comes to if items have these aims."""
    runs = [test.judged[policy] for test in tests]
    weights = np.repeat(
        [1 / test.mean for test in tests], [len(run.asked) for run in runs]
    )
    unmet = np.concatenate([at(run.unmet, aim) for run, aim in zip(runs, aims)])
    items = np.repeat(np.arange(len(tests)), [len(run.asked) for run in runs])
    blocks = np.concatenate([np.arange(len(run.asked)) for run in runs]) // BLOCK
    ratio = Ratio(
        unmet * weights,
        np.concatenate([run.asked for run in runs]) * weights,
        items,
        blocks,
    )
    stock = np.mean(
        [
            at(run.stock, aim).mean() / test.mean
            for test, run, aim in zip(tests, runs, aims)
        ]
    )
    return Judged(1 - ratio.value, ratio.estimate.error, float(stock))


def aims_of(
    tests: Sequence[Tested], wanted: float
) -> Iterator[tuple[str, str, list[float]]]:
    """Yields each way, for all and by class, with the aim of each item."""
    yield "none", "all", [wanted] * len(tests)
    for way in (BLOCKS, *WAYS):
        trials = [test.trials[way] for test in tests]
        yield way, "all", [Tried.of(trials).aim(wanted)] * len(tests)
        by_class = Aims.of(trials)
        yield way, "class", [by_class.aim(test.counts, wanted) for test in tests]


def rows_of(catalogue: Catalogue, tests: Sequence[Tested]) -> Iterator[dict[str, Any]]:
    """Yields the figures of a set by policy, wanted fill rate and way."""
    for policy in judges(catalogue):
        curve = [judged(tests, policy, [fill] * len(tests)) for fill in FILLS]
        fills = np.maximum.accumulate([one.fill for one in curve])
        for wanted in WANTED:
            plain = judged(tests, policy, [wanted] * len(tests))
            hindsight = -math.expm1(np.interp(wanted, fills, LOGS))
            for way, by, aims in (
                *aims_of(tests, wanted),
                ("hindsight", "all", [hindsight] * len(tests)),
            ):
                done = judged(tests, policy, aims)
                yield {
                    "set": catalogue.name,
                    "items": len(tests),
                    "policy": policy,
                    "wanted": wanted,
                    "way": way,
                    "by": by,
                    "least": min(aims),
                    "most": max(aims),
                    "fill": done.fill,
                    "error": done.error,
                    "stock": done.stock / plain.stock,
                    "by_hand": done.stock
                    / np.interp(done.fill, fills, [one.stock for one in curve]),
                }


def kind_of(name: str) -> str:
    """Returns the kind of a set by its name."""
    return name.split()[0]


def merged(stored: pd.DataFrame) -> pd.DataFrame:
    """Returns rows in which the sets of one kind and record are one, each weighing alike: means, and their errors."""
    stored = stored[stored["set"] != SMALL]
    named = stored.assign(
        kind=stored["set"].map(kind_of),
        method=stored["way"] + " " + stored["by"],
        record=stored["set"].str.extract(r"(\d+)$", expand=False),
        square=stored["error"] ** 2,
    )
    by = named.groupby(["kind", "record", "policy", "wanted", "method"], sort=False)
    means, count = by[["fill", "stock", "by_hand"]].mean(), by.size()
    error = by["square"].sum() ** 0.5 / count
    return means.assign(error=error, sets=count, items=by["items"].sum()).reset_index()


def sets_table(rows: pd.DataFrame) -> pd.DataFrame:
    """Returns what the kept plan met, by set, wanted fill rate and way, and its stock beside that without a correction."""
    lines = []
    for (kind, record, wanted), own in rows[rows["policy"] == "kept"].groupby(
        ["kind", "record", "wanted"], sort=False
    ):
        ways = own.set_index("method")
        line = {
            "set": kind,
            "record": record,
            "items": ways["items"].iloc[0],
            "wanted": f"{100 * wanted:g}",
        }
        for way in SHOWN:
            fill, error, stock = ways.loc[way, ["fill", "error", "stock"]]
            line[way.removesuffix(" all")] = f"{100 * fill:.1f}" + (
                f" ± {100 * error:.1f}" if way == SHOWN[0] else f" (x {stock:.2f})"
            )
        lines.append(line)
    return pd.DataFrame(lines)


def ways_table(rows: pd.DataFrame) -> pd.DataFrame:
    """Returns how far each way is from what is wanted, in the mean of the sets of a group: with its sign, and without."""
    lines = []
    for group, kinds in GROUPS.items():
        own = rows[rows["kind"].isin(kinds)].assign(
            miss=lambda of: 100 * (of["fill"] - of["wanted"])
        )
        for (policy, wanted), cases in own.groupby(["policy", "wanted"], sort=False):
            line = {"sets": group, "policy": policy, "wanted": f"{100 * wanted:g}"}
            ways = cases.set_index("method")
            for way in SHOWN[:-1]:
                miss, stock = ways.loc[[way], "miss"], ways.loc[[way], "stock"].mean()
                line[
                    way.removesuffix(" all")
                ] = f"{miss.mean():+.1f}, {miss.abs().mean():.1f} (x {stock:.2f})"
            taken = ways.loc[[TAKEN]]
            line["within 2"] = f"{(taken['miss'].abs() <= 2).sum()} of {len(taken)}"
            lines.append(line | {"by hand": f"{taken['by_hand'].mean():.2f}"})
    return pd.DataFrame(lines)


def tables() -> dict[str, str]:
    """Returns the stored figures for the page."""
    rows = merged(pd.read_csv(STORED))
    return {
        "correction": markdown(ways_table(rows)),
        "correction-sets": markdown(sets_table(rows)),
    }


@click.command()
@click.argument("sets", nargs=-1)
@click.option("--small", is_flag=True, help="A small made set alone.")
@click.option("--jobs", type=click.IntRange(1), default=1, show_default=True)
@click.option(
    "--out",
    type=click.Path(dir_okay=False, path_type=Path),
    help="Write the rows as CSV.",
)
def main(sets: Sequence[str], small: bool, jobs: int, out: Path | None) -> None:
    """Compare ways to correct wanted fill rates."""
    rows = list[dict[str, Any]]()
    with ProcessPoolExecutor(jobs) as pool:
        for catalogue in catalogues(small):
            if not sets or catalogue.name.startswith(tuple(sets)):
                tests = tests_of(catalogue, partial(pool.map, chunksize=4))
                rows += rows_of(catalogue, tests) if len(tests) >= LEAST_ITEMS else ()
                click.echo(
                    f"{catalogue.name}: {len(tests)} of {len(catalogue.series)} items"
                )
                if out:
                    pd.DataFrame(rows).to_csv(out, index=False, float_format="%.4f")


if __name__ == "__main__":
    main()
