"""Compares what plans at a stated backlog cost promise to cost with what they cost, and tries to aim higher.

    python -m planner.studies.costs --jobs 2 --out planner/studies/costs.csv    what is stored
    python -m planner.studies.costs --small                                    a few items, in some seconds

Sets are those of `correction.py`, but for epidemics. A period late costs 9 times as much as one in stock, or 49 times.
Each quarter of a record is planned from the other three, as `crnplan plan --set correct=true` does: what these plans cost
over what they promised is the factor of the promise, for slow items and for fast ones. Plans of the record are judged on
the periods after it: `kept`, or `refitted` after each 13 periods on the last 52.

- `theory`: by how much they cost more than theory promises.
- `past`: by how much plans cost more in quarters of the record.
- `promise`: by how much they cost more than that times the factor.
- `higher`: by how much they cost more if they are planned with the backlog cost times that of `TIMES` for which
  quarters cost least.

Costs are in units of what it costs to hold a period's mean demand, so that all items weigh alike. Errors are from samples
of stores and brands, or of cities or data sets, as `fair.py` draws them, and include those of the factor.
"""
from __future__ import annotations

import dataclasses
from collections.abc import Callable, Iterable, Iterator, Mapping, Sequence
from concurrent.futures import ProcessPoolExecutor
from functools import partial
from pathlib import Path
from typing import Any, NamedTuple

import click
import numpy as np
import pandas as pd

from crnplan.chances import Floats
from crnplan.crnsim.periods import Realization, Rates, periods_of
from crnplan.demand.learning import Prior
from crnplan.errors import Refused
from crnplan.plan.aims import classed
from crnplan.plan.choice import best_of
from crnplan.plan.correction import blocks_of, in_blocks
from crnplan.plan.how import Settings
from crnplan.plan.question import Levels, Question, question_of
from crnplan.read.item import Item
from planner.studies.correction import (
    GROUPS,
    Part,
    Pass,
    item_of,
    judges,
    kind_of,
    prior_of,
)
from planner.studies.correction_sets import LEAST_ITEMS, SMALL, Catalogue, catalogues
from planner.studies.fair import (
    Estimate,
    Member,
    Moving,
    of_cases,
    of_cheese,
    of_juice,
    samples_of,
)
from planner.studies.page import markdown
from planner.studies.real_series import Series
from planner.studies.walk_forward import LEAD

STORED = Path(__file__).with_name("costs.csv")
BACKLOGS = (9, 49)  # times what it costs to hold an item
TIMES = (1, 2, 4)  # of the backlog cost, by which plans aim
CLUSTERS = {"cheese": of_cheese, "juice": of_juice, "cases": of_cases}
FIGURES = ("theory", "past", "promise", "higher")


class Plan(NamedTuple):
    """Policies of an item that aim by `TIMES` the backlog cost, in items, and what each costs a period by theory."""

    levels: list[Levels]
    promised: Floats


class Sum(NamedTuple):
    """What policies promised to cost in some periods, and what they cost, by `TIMES`."""

    promised: Floats
    cost: Floats


class Tested(NamedTuple):
    """An item of a set: its name, the mean of its record, and what its policies come to in quarters of that, and in the
    periods after it."""

    name: str
    mean: float
    trial: Sum
    judged: dict[str, Sum]


def rates_of(item: Item) -> Rates:
    """Returns the costs of an item in units of what it costs to hold its mean demand."""
    unit = item.holding * sum(item.counts) / len(item.counts)
    return Rates(item.setup / unit, 0, item.holding / unit, (item.backlog or 0) / unit)


def planned(question: Question, unit: float) -> Plan:
    """Returns the policies of an item, and what they cost in so many units of money."""
    box, theory, levels = question.item.box, question.theory, list[Levels]()
    for times in TIMES:
        rates = dict(question.rates)
        rates["backlog"] *= times
        asked = dataclasses.replace(question, rates=rates, known=theory)
        best, _ = best_of(asked)
        levels.append(best.levels)
    promised = [question.figures(policy).cost / unit for policy in levels]
    return Plan([(s * box, S * box) for s, S in levels], np.array(promised))


def trial_of(item: Item, prior: Prior) -> Sum:
    """Returns what policies come to in quarters of a record, each planned from the others. Raises Refused."""
    settings, rates, promised = Settings(borrow=prior.borrow), rates_of(item), []
    unit = float(item.holding / rates.holding)

    def policies(question: Question) -> list[Levels]:
        plan, box = planned(question, unit), question.item.box
        promised.append(plan.promised)
        return [(s // box, S // box) for s, S in plan.levels]

    cost = in_blocks(
        item, settings, prior, policies, lambda period: float(period.cost(rates))
    )
    lengths = [end - first for first, end in blocks_of(len(item.counts))]
    return Sum(np.array(lengths) @ np.array(promised), cost)


def judged(
    item: Item, counts: Sequence[int], through: Pass, plans: Mapping[Part, Plan]
) -> Sum:
    """Returns what plans come to on later counts, from a stock that is a share of the way from s to S on."""
    random = np.random.default_rng([*item.name.encode()])
    (part, first, _), stop = through.stretches[0], through.stretches[-1][2]
    past, rates, start = (
        Realization(counts[:stop], (0,) * stop, (LEAD,) * stop),
        rates_of(item),
        random.random(),
    )
    promised, costs = np.zeros(len(TIMES)), list[float]()
    for own, begin, end in through.stretches:
        promised += (end - begin) * plans[own].promised
    for place in range(len(TIMES)):
        s, S = plans[part].levels[place]
        levels = [(s, S)] * first
        for own, begin, end in through.stretches:
            levels += [plans[own].levels[place]] * (end - begin)
        periods = periods_of(past, levels, s + round(start * (S - s)))[first:]
        costs.append(sum(float(period.cost(rates)) for period in periods))
    return Sum(promised, np.array(costs))


def tested(
    series: Series, catalogue: Catalogue, priors: Mapping[Part, Prior], backlog: int
) -> Tested | None:
    """Returns an item of a set; None if it can't be planned from its record, or nothing is asked for later."""
    record, counts = catalogue.record, series.counts[: catalogue.stop]
    if not any(counts[:record]) or not any(counts[record:]):
        return None
    item = item_of(series, record)
    item = dataclasses.replace(item, fill=None, backlog=item.holding * backlog)
    unit, plans = float(item.holding) * float(np.mean(item.counts)), dict[Part, Plan]()
    try:
        trial = trial_of(item, priors[0, record])
    except Refused:
        return None
    for part in ((0, record), *priors):
        known = dataclasses.replace(item, counts=counts[slice(*part)])
        settings = Settings(borrow=priors[part].borrow)
        try:
            plans[part] = planned(question_of(known, settings, priors[part]), unit)
        except (
            Refused
        ):  # It keeps the plan of the record, without which there is no trial.
            plans[part] = plans[0, record]
    return Tested(
        series.name,
        float(np.mean(item.counts)),
        trial,
        {
            policy: judged(item, counts, through, plans)
            for policy, through in judges(catalogue).items()
        },
    )


def tests_of(
    catalogue: Catalogue,
    backlog: int,
    mapped: Callable[..., Iterable[Tested | None]] = map,
) -> list[Tested]:
    """Returns the items of a set. `mapped` calls a function for each series, as `map` does."""
    parts = dict.fromkeys(
        part
        for through in judges(catalogue).values()
        for part, _, _ in through.stretches
    )
    priors = {
        part: prior_of(series.counts[slice(*part)] for series in catalogue.series)
        for part in parts
    }
    bare = catalogue._replace(series=())
    work = partial(tested, catalogue=bare, priors=priors, backlog=backlog)
    return [test for test in mapped(work, catalogue.series) if test]


def samples(catalogue: Catalogue, tests: Sequence[Tested]) -> Floats:
    """Returns how often each item counts, a row for all once, and one for each sample."""
    names = CLUSTERS.get(kind_of(catalogue.name), lambda name: (name, name))
    members = tuple(
        Member(test.name, *names(test.name), np.zeros(0, int)) for test in tests
    )
    return samples_of(Moving(catalogue.name, members, 0, 1, 1))


def factors_of(tests: Sequence[Tested], weights: Floats) -> Floats:
    """Returns by sample the factor of the promise of each item: that of its class."""
    _, classes = classed(tests, list)
    factors = np.empty_like(weights)
    for own in classes:
        places = [place for place, test in enumerate(tests) if test in own]
        promised, cost = (
            np.array([getattr(tests[place].trial, name)[0] for place in places])
            for name in Sum._fields
        )
        share = weights[:, places]
        with np.errstate(invalid="ignore", divide="ignore"):
            ratio = (share @ cost) / (share @ promised)
        factors[:, places] = ratio[:, None]
    return factors


def rows_of(catalogue: Catalogue, tests: Sequence[Tested]) -> Iterator[dict[str, Any]]:
    """Yields the figures of a set by policy, each in percent with its error."""
    weights = samples(catalogue, tests)
    factors = factors_of(tests, weights)
    in_quarters = np.array([test.trial.cost for test in tests])
    aim = int(in_quarters.sum(axis=0).argmin())
    trial = np.array([test.trial.promised[0] for test in tests])
    for policy in judges(catalogue):
        promised = np.array([test.judged[policy].promised[0] for test in tests])
        cost = np.array([test.judged[policy].cost for test in tests])
        own = weights @ cost[:, 0]
        figures = {
            "theory": own / (weights @ promised),
            "past": (weights @ in_quarters[:, 0]) / (weights @ trial),
            "promise": own / ((weights * factors) @ promised),
            "higher": (weights @ cost[:, aim]) / own,
        }
        row: dict[str, Any] = {"set": catalogue.name, "items": len(tests)}
        row |= {"policy": policy, "times": TIMES[aim]}
        for name, figure in figures.items():
            found = Estimate.of(100 * (figure - 1))
            row |= {name: found.value, f"{name}_error": found.error}
        yield row


def study(
    catalogue: Catalogue, mapped: Callable[..., Iterable[Tested | None]] = map
) -> Iterator[dict[str, Any]]:
    """Yields the rows of a set, if it has enough items."""
    for backlog in BACKLOGS:
        tests = tests_of(catalogue, backlog, mapped)
        if len(tests) >= LEAST_ITEMS:
            for row in rows_of(catalogue, tests):
                yield row | {"backlog": backlog}


def merged(stored: pd.DataFrame) -> pd.DataFrame:
    """Returns rows in which the sets of one kind and record are one, each weighing alike: means, and their errors."""
    own = stored[stored["set"] != SMALL]
    own = own.assign(
        kind=own["set"].map(kind_of),
        record=own["set"].str.extract(r"(\d+)$", expand=False),
    )
    for name in FIGURES:
        own[f"{name}_error"] **= 2
    by = own.groupby(["kind", "record", "backlog", "policy"], sort=False)
    means, count = by[[*FIGURES]].mean(), by.size()
    for name in FIGURES:
        means[f"{name}_error"] = by[f"{name}_error"].sum() ** 0.5 / count
    means["items"] = by["items"].sum()
    means["times"] = by["times"].agg(lambda times: ", ".join(map(str, times)))
    return means.reset_index()


def tables() -> dict[str, str]:
    """Returns the stored figures for the page: a line for each kind, record and backlog cost."""
    lines = []
    keys = ["kind", "record", "backlog"]
    for (kind, record, backlog), rows in merged(pd.read_csv(STORED)).groupby(
        keys, sort=False
    ):
        by_policy = rows.set_index("policy")
        kept = by_policy.loc["kept"]
        line = {"set": kind, "record": record, "items": kept["items"]}
        line |= {"backlog": f"{backlog} times", "in quarters, %": shown(kept, "past")}
        for policy, row in by_policy.iterrows():
            line[f"{policy}: over theory, %"] = shown(row, "theory")
            line[f"{policy}: over promise, %"] = shown(row, "promise")
        line["aims at"] = kept["times"]
        for policy, row in by_policy.iterrows():
            line[f"{policy}: aimed higher, %"] = shown(row, "higher")
        lines.append(line)
    return {"costs": markdown(pd.DataFrame(lines))}


def shown(row: pd.Series[Any], name: str) -> str:
    """Returns a figure with its error; nothing more is paid by plans that aim no higher."""
    if name == "higher" and not row[name] and not row[f"{name}_error"]:
        return "-"
    return f"{row[name]:+.1f} ± {row[f'{name}_error']:.1f}"


@click.command()
@click.argument("sets", nargs=-1)
@click.option("--small", is_flag=True, help="A small made set alone.")
@click.option("--jobs", type=click.IntRange(1), default=1, show_default=True)
@click.option("--out", type=click.Path(dir_okay=False, path_type=Path))
def main(sets: Sequence[str], small: bool, jobs: int, out: Path | None) -> None:
    """Compare what plans at a stated backlog cost promise with what they cost."""
    rows = list[dict[str, Any]]()
    with ProcessPoolExecutor(jobs) as pool:
        for catalogue in catalogues(small):
            is_named = not sets or catalogue.name.startswith(tuple(sets))
            if is_named and kind_of(catalogue.name) not in GROUPS["epidemics"]:
                rows += study(catalogue, partial(pool.map, chunksize=4))
                click.echo(pd.DataFrame(rows[-4:]).to_string())
                if out:
                    pd.DataFrame(rows).to_csv(out, index=False, float_format="%.4f")


if __name__ == "__main__":
    main()
