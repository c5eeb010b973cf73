"""Measures how often 95% intervals of the long run hold the exact saving, over items of a synthetic catalogue.

    python -m planner.studies.long_run            all, in ten minutes: long_run.txt
    python -m planner.studies.long_run --small    a small part

Each item has today's policy and the best by theory. The saving of the long run is exact by theory on the lattice of
single items. Three intervals are compared with it:

- own starts: 48 keys, a drawn start for each policy (`own_starts`);
- one run of 24 replications of 1,024 periods, less the exact bias of the start (`theory.run_effects`);
- the same run as it is.
"""
from __future__ import annotations

import math
import time
from collections.abc import Iterable, Sequence
from concurrent.futures import ProcessPoolExecutor
from dataclasses import dataclass, replace
from functools import partial
from pathlib import Path

import click
import numpy as np
from scipy.special import ndtr

from crnplan.decide.verdicts import t_quantile
from crnplan.crnsim.program import find_program
from crnplan.errors import CrnplanError, Refused
from crnplan.formats import MOST_ITEMS, MOST_PERIODS
from crnplan.table import aligned
from crnplan.policies import Policy
from crnplan.money import Costs
from crnplan.runs import Scenario
from crnplan.theory.lattice import shape_of, theories_of, theory_on
from crnplan.theory.run_effects import start_bias
from planner.studies.long_run_items import Item, items_of
from planner.studies.own_starts import keys_of, own_starts_of

STORED = Path(__file__).with_name("long_run.txt")
SEEDS = (1, 20261126, 48)
REPLICATIONS = 24
SMALL = 12  # items
LEVEL = 0.95
# Tables of the exact target are made up to this gap, and up to this work with late orders (`overtaking.work_of`).
MOST_GAP = 20_000
MOST_WORK = 100_000_000
DESIGNS = ("own starts", "less the bias", "as it is")
# Bounds of the classes: expected orders of the rarer policy in 1,024 periods.
CLASSES = (0, 5, 10, 20, 80, math.inf)


@dataclass(frozen=True)
class Outcome:
    """An item's exact saving a period, the orders of the rarer policy in 1,024 periods, and of each design the mean and
    the standard error of the saving, with its degrees of freedom. The time is of the program's 48 runs, in seconds.
    """

    saving: float
    cost: float
    orders: float
    found: tuple[tuple[float, float, int], ...]
    bias: float
    seconds: float


def scenario_of(item: Item, seed: int) -> Scenario | None:
    """Returns the scenario with today's policy and the best by theory; None if these are the same, or none is found."""
    key = keys_of([f"study {seed}"], item.number + 1)[-1]
    version = 2 if item.returns else 1
    plain = Scenario(
        version,
        key,
        MOST_PERIODS,
        REPLICATIONS,
        0,
        1024,
        Costs(item.setup, 0, item.holding, item.backlog),
        item.demand,
        item.lead,
        (Policy("today", *item.today),),
        item.returns,
    )
    asked = replace(plain, costs=replace(plain.costs, backlog=max(1, item.backlog)))
    try:
        theory, _ = theories_of(asked)
    except Refused:
        return None
    best = theory.best(item.fill or 0.0)
    if best.cost == math.inf or (best.point, best.level) == item.today:
        return None
    initial = min(
        max(round(theory.mean_position(best.point, best.level)), 0), MOST_ITEMS
    )
    chosen = Policy("chosen", best.point, best.level)
    return replace(plain, initial=initial, policies=(*plain.policies, chosen))


def exact_costs(scenario: Scenario) -> list[tuple[float, float]] | None:
    """Returns the exact cost and orders of each policy in a period, on the lattice of single items; None if that is too
    large."""
    shape = shape_of(
        replace(
            scenario,
            costs=replace(scenario.costs, backlog=max(1, scenario.costs.backlog)),
        )
    )
    widest, step = max(it.S - it.s for it in scenario.policies), shape.base
    theory = theory_on(scenario, replace(shape, order=widest / 3), step, True)
    if shape.leads == 1 and widest > MOST_GAP * step:
        return None
    if shape.leads > 1 and shape.late_work(step, widest / step) > MOST_WORK:
        return None
    figures = (theory.figures(it.s, it.S) for it in scenario.policies)
    return [(it.cost, it.orders) for it in figures]


def outcome_of(item: Item, seed: int, program: Path) -> Outcome | None:
    """Returns what comes of an item; None if it has no two policies, or no exact target."""
    try:
        scenario = scenario_of(item, seed)
        if scenario is None:
            return None
        bias = start_bias(scenario)
        theory = bias.theory
        figures = (
            [theory.figures(it.s, it.S) for it in scenario.policies]
            if theory.exact
            else None
        )
        exact = (
            [(it.cost, it.orders) for it in figures]
            if figures
            else exact_costs(scenario)
        )
        if exact is None:
            return None
        begun = time.perf_counter()
        own = own_starts_of(scenario, program=program)
        seconds = time.perf_counter() - begun
        row = scenario.run(program=program).rows[1]
    except CrnplanError:
        return None
    saved = np.array([(its[0] - its[1]) / own.periods for its in own.costs])
    effect = (bias.biases[0] - bias.biases[1]) / scenario.periods
    mean, error = (
        -float(row.diff_mean) / scenario.periods,
        math.sqrt(row.diff_var or 0) / scenario.periods,
    )
    found = (
        (
            float(saved.mean()),
            float(saved.std(ddof=1)) / math.sqrt(len(saved)),
            len(saved) - 1,
        ),
        (mean - effect, error, REPLICATIONS - 1),
        (mean, error, REPLICATIONS - 1),
    )
    (today, many), (chosen, few) = exact
    return Outcome(
        today - chosen, today, min(many, few) * MOST_PERIODS, found, effect, seconds
    )


def share_text(hits: Sequence[bool]) -> str:
    """Returns a share in percent with its standard error."""
    share = float(np.mean(hits)) if hits else math.nan
    return (
        f"{100 * share:.1f} +- {100 * math.sqrt(share * (1 - share) / max(1, len(hits))):.1f}"
        if hits
        else "-"
    )


def rows_of(outcomes: Sequence[Outcome], name: str) -> list[list[str]]:
    """Returns a row of the table for each design."""
    rows = []
    for place, design in enumerate(DESIGNS):
        held: list[list[bool]] = [[] for _ in CLASSES[1:]]
        wrong, chance, widths = 0, 0.0, []
        for it in outcomes:
            mean, error, degrees = it.found[place]
            half = t_quantile(1 - LEVEL, degrees) * error
            number = next(
                number for number, most in enumerate(CLASSES[1:]) if it.orders < most
            )
            held[number].append(abs(mean - it.saving) <= half + 1e-9 * it.cost)
            wrong += mean * it.saving < 0 and abs(mean) > half
            chance += float(ndtr(-(half + abs(it.saving)) / error)) if error else 0.0
            widths.append(half / it.cost)
        rows.append(
            [
                name,
                design,
                str(len(outcomes)),
                share_text(sum(held, [])),
                *map(share_text, held),
                str(wrong),
                f"{chance:.1f}",
                f"{100 * float(np.median(widths)):.2f}",
            ]
        )
    return rows


def table_of(by_seed: dict[int, list[Outcome]]) -> str:
    """Returns the table of all seeds, and of each."""
    parts = [f"{low:g} to {high:g}" for low, high in zip(CLASSES, CLASSES[1:])]
    head = [
        "seed",
        "interval",
        "items",
        "held %",
        *parts,
        "wrong sign",
        "by chance",
        "half-width %",
    ]
    every = [it for its in by_seed.values() for it in its]
    rows = [row for seed, its in by_seed.items() for row in rows_of(its, str(seed))]
    seconds = [it.seconds for it in every]
    return (
        aligned([head, *rows, *rows_of(every, "all")], (0, 1))
        + "\nThe columns '0 to 5' and so on: held %, by the expected orders of the rarer policy in 1,024 periods.\n"
        f"own starts: {1000 * float(np.median(seconds)):.0f} ms an item in the median, "
        f"{1000 * float(np.quantile(seconds, .95)):.0f} ms at the 95% quantile\n"
    )


def outcomes_of(
    items: Iterable[Item], seed: int, program: Path, jobs: int
) -> list[Outcome]:
    """Returns the outcomes of items, in order, from several processes."""
    work = partial(outcome_of, seed=seed, program=program)
    if jobs == 1:
        return [it for it in map(work, items) if it]
    with ProcessPoolExecutor(jobs) as pool:
        return [it for it in pool.map(work, items, chunksize=4) if it]


def tables() -> dict[str, str]:
    """Returns the stored figures for the page."""
    return {"long-run": f"```text\n{STORED.read_text(encoding='utf-8')}```\n"}


@click.command()
@click.option(
    "--items",
    type=click.IntRange(1, 3000),
    default=600,
    show_default=True,
    help="Of each seed.",
)
@click.option(
    "--jobs", type=click.IntRange(1), default=2, show_default=True, help="Processes."
)
@click.option("--small", is_flag=True, help=f"A small part: {SMALL} items of one seed.")
@click.option("--program", metavar="PATH", help="The program crnsim.")
def command(items: int, jobs: int, small: bool, program: str | None) -> None:
    """Measure how often intervals of the long run hold the exact saving."""
    path, seeds = find_program(program), SEEDS[:1] if small else SEEDS
    count = SMALL if small else items
    found = {
        seed: outcomes_of(items_of(seed, count), seed, path, 1 if small else jobs)
        for seed in seeds
    }
    print(table_of(found), end="")


if __name__ == "__main__":
    command()
