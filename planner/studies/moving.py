"""Compares ways of planning a catalogue that moves, by the stock that each needs for the same realized fill.

    python -m planner.studies.moving --jobs 4 --out planner/studies/moving.csv    what is stored
    python -m planner.studies.moving cheese --jobs 4                             some sets alone
    python -m planner.studies.moving --small                                     a few items, in some seconds

Sets are real series, as far as packages of R are installed: cheese by chain and city and orange juice by store and
brand, in cases of 24 units, weekly cases of diseases, and homes by city and month; nothing was tuned on them. Beside them are made ones whose demand stands still, moves, or has promotions
(`made_moving.py`). `fair.py` says how ways are compared.

- `item`: each item by itself, at one fill rate for all, by the law of its last periods.
- `together`: all items by one price of what is not met at once, by the same laws.
- `smoothed`: exponential smoothing of mean and error with a normal safety stock, each item by itself.
- `mean`: the mean of the levels of `together` and `smoothed`, of a price and a fill rate at the same place.
- `followed`: as `together`, by the law of the last periods at their level, as `crnplan plan` has it. The
  weight of the smoothed level is that of the class by the records; `half` and `wholly` have a fixed one.
- `damped trend`: as `followed`, with a trend in the smoothed level that fades (Gardner and McKenzie, Forecasting trends
  in time series, 1985).
"""
from __future__ import annotations

from collections import defaultdict
from collections.abc import Iterator, Mapping, Sequence
from dataclasses import replace
from fractions import Fraction
from functools import partial
from pathlib import Path
from typing import Any

import click
import numpy as np
import pandas as pd

from crnplan.chances import Whole
from crnplan.theory.every_gap import best_policies
from crnplan.demand.learning import Prior, learn
from crnplan.demand.fitted import FittedLaw
from crnplan.demand.rate import at_rate
from crnplan.demand.level import (
    AHEAD,
    FIRST,
    LEAST_FACTOR,
    MOST_FACTOR,
    SMOOTHING,
    BlockSums,
    factor_of,
    weight_of,
)
from crnplan.plan.backtest.rules import normal_levels, smoothed_last
from crnplan.plan.how import ALL, Settings
from crnplan.plan.question import Levels, Question, question_of
from crnplan.read.item import Item
from planner.studies.fair import (
    LEAD,
    NOMINAL,
    Member,
    Moving,
    compared,
    real_sets,
    walked,
)
from planner.studies.made_moving import RECORD, made_set
from planner.studies.page import markdown

STORED = Path(__file__).with_name("moving.csv")
LEAST_LEARNED = 100  # items from which others learn, as a catalogue does
DAMPING, SLOPE = (
    0.95,
    0.1,
)  # of a trend: what is left of it a period later, and the share of errors that it takes
WIDE = 10  # Policies whose gap has so many cells keep it at all fill rates.
# What an item that is not met at once costs beside a period of it in stock: from low service to high.
PRICES = (1, 2, 4, 7, 12, 20, 35, 70, 150, 400, 1500)


def item_of(member: Member, setup: float) -> Item:
    """Returns an item that is known by some counts: an order takes 2 periods, stock costs 1."""
    return Item(
        member.name,
        tuple(member.counts.tolist()),
        (LEAD,),
        None,
        Fraction(max(setup, 0.01)).limit_denominator(100),
        Fraction(1),
        None,
        Fraction(19, 20),
    )


def question(member: Member, setup: float, prior: Prior | None) -> Question:
    """Returns what is asked for an item, which learns from others if there are enough."""
    borrow = None if prior is None else ALL
    return question_of(item_of(member, setup), Settings(borrow=borrow), prior)


def by_fill(asked: Question, shares: Sequence[float] = NOMINAL) -> list[Levels]:
    """Returns the cheapest policy for each fill rate."""
    theory, box = asked.theory.free, asked.item.box
    middle = theory.best(0.98)
    gap = theory.gap_of(*middle.levels)
    if gap >= WIDE:
        ((_, levels),) = theory.levels_with_fill([gap], shares)
        span = theory.items(gap)
        return [(box * max(1, int(level) - span), box * int(level)) for level in levels]
    best = [theory.best(fill) for fill in shares]
    return [(box * max(1, policy.point), box * max(1, policy.level)) for policy in best]


def by_price(asked: Question, prices: Sequence[float] = PRICES) -> list[Levels]:
    """Returns the best policy for each price."""
    theory, box, setup = asked.theory, asked.item.box, float(asked.item.setup)
    costs = np.array(
        [[setup] * len(prices), [box] * len(prices), np.multiply(box, prices)]
    )
    gaps, (levels, *_) = best_policies(theory, costs.astype(float))
    pairs = zip((levels - theory.items(gaps)).tolist(), levels.tolist())
    return [(box * int(s), box * int(S)) for s, S in pairs]


def by_smoothing(asked: Question) -> list[Levels]:
    """Returns what the rule of thumb has for each fill rate after the last period."""
    forecast = smoothed_last(asked.item.counts)
    levels = normal_levels(asked.item, NOMINAL, forecast, LEAD, 0)
    return [(max(1, s), S) for s, S in levels]


def damped(counts: Sequence[int]) -> float:
    """Returns the mean of the next periods by a damped trend: the level with a slope, which grows less and less."""
    level, slope = float(np.mean(counts[:FIRST])), 0.0
    for count in counts[FIRST:]:
        error = count - level - DAMPING * slope
        level += DAMPING * slope + SMOOTHING * error
        slope = DAMPING * slope + SMOOTHING * SLOPE * error
    powers = np.cumsum(DAMPING ** np.arange(1, AHEAD + 1))
    return max(0.0, level + slope * float(powers.mean()))


def by_level(asked: Question, factor: float) -> list[Levels]:
    """Returns the best policy for each price by the law of the record so many times."""
    law, known = at_rate(asked.demand.table, factor), asked.demand
    moved = FittedLaw.made(law, known.family, known.diagnostics, known.box)
    return by_price(replace(asked, demand=moved))


def by_all(
    member: Member, setup: float, prior: Prior | None, weights: Mapping[str, float]
) -> list[Levels]:
    """Returns the policies of all ways of `PLANNED`, one after the other, with the weight of each class."""
    asked = question(member, setup, prior)
    counts, weight = asked.item.counts, weights.get(member.group, weights.get("", 0.0))
    slope = weight * (damped(counts) / np.mean(counts) - 1)
    known = by_price(asked)
    policies = by_fill(asked) + known + by_smoothing(asked)
    for factor in (
        factor_of(counts, weight),
        factor_of(counts, 0.5),
        factor_of(counts, 1.0),
        min(max(1 + slope, LEAST_FACTOR), MOST_FACTOR),
    ):
        policies += known if factor == 1 else by_level(asked, factor)
    return policies


KINDS = (  # of made sets
    *("flat, steady", "flat, erratic", "promotions", "shifts", "mixed", "trend"),
    *("season, steady", "season, erratic"),
)
SMALL = "small"  # a set for a test, in no table
AIMING = ("item", "smoothed")  # at a fill rate
MOVED = ("followed", "followed by half", "followed wholly", "damped trend")
PLANNED = ("item", "together", "smoothed", *MOVED)
# Beside which way others are compared.
BESIDE = {"item": ("item", "together", "smoothed"), "together": ("mean", *MOVED)}


def weights_of(moving: Moving) -> dict[str, float]:
    """Returns what the records of a set say of the weight of each class, or under an empty name of all items."""
    groups = defaultdict[str, list[BlockSums]](list)
    for member in moving.members:
        name = member.group if moving.has_classes else ""
        groups[name].append(BlockSums.of(member.counts[: moving.record].tolist()))
    return {name: weight_of(moves) for name, moves in groups.items()}


def prior_of(moving: Moving) -> Prior | None:
    """Returns what the records of a set teach; None if it has fewer than 100 items."""
    if len(moving.members) < LEAST_LEARNED:
        return None
    return learn([member.counts[: moving.record] for member in moving.members])


def small_set() -> Moving:
    """Returns a few items of a made set, planned twice."""
    whole = made_set(KINDS[1])
    members = tuple(
        member._replace(counts=member.counts[: RECORD + 8])
        for member in whole.members[::12]
    )
    return Moving(SMALL, members, RECORD, 4, RECORD)


def all_sets() -> dict[str, Moving]:
    """Returns the real sets that are there, the made ones, and the small one."""
    made = {kind: made_set(kind) for kind in KINDS}
    return real_sets() | made | {SMALL: small_set()}


def study(moving: Moving, jobs: int) -> Iterator[dict[str, Any]]:
    """Yields the rows of a set."""
    weights = weights_of(moving)
    plan = partial(by_all, prior=prior_of(moving), weights=weights)
    every = walked(moving, plan, jobs)
    levels = dict[str, list[Whole]]()
    for place, name in enumerate(PLANNED):
        part = slice(place * len(NOMINAL), (place + 1) * len(NOMINAL))
        levels[name] = [own[:, part] for own in every]
    pairs = zip(levels["together"], levels["smoothed"])
    levels["mean"] = [np.rint((one + other) / 2).astype(int) for one, other in pairs]
    weight = float(np.mean([*weights.values()]))
    for base, names in BESIDE.items():
        ways = {name: levels[name] for name in (base, *names)}
        for row in compared(moving, ways, base, AIMING):
            if row["way"] in names:
                yield {**row, "beside": base, "weight": weight}


def shown(row: dict[str, Any]) -> str:
    """Returns by how much a way needs more stock than `item`, with its error."""
    if np.isnan(row["more"]):
        return "-"
    if np.isnan(row["more_error"]):
        return f"{row['more']:+.1f}"
    return f"{row['more']:+.1f} ± {row['more_error']:.1f}"


def aimed(row: dict[str, Any]) -> str:
    """Returns what was realized by plans that aim at a fill, with its error."""
    if np.isnan(row["realized"]):
        return "-"
    return f"{row['realized']:.1f} ± {row['realized_error']:.1f}"


def tables() -> dict[str, str]:
    """Returns the stored figures for the page: a line for each set and fill."""
    stored = pd.read_csv(STORED)
    lines, moved = list[dict[str, Any]](), list[dict[str, Any]]()
    for (name, fill), rows in stored.groupby(["set", "fill"], sort=False):
        by_way = {row["way"]: row for row in rows.to_dict("records")}
        own = by_way["item"]
        if name == SMALL:
            continue
        line = {"set": name, "items": own["items"], "fill": f"{fill:.0%}"}
        stock = {
            "aimed at, item": aimed(own),
            "stock, item": "-" if np.isnan(own["stock"]) else f"{own['stock']:.2f}",
        }
        ways = {f"{way}, %": shown(by_way[way]) for way in BESIDE["item"][1:]}
        lines.append(line | stock | ways)
        if BESIDE["together"][0] in by_way:
            known = {"weight": f"{own['weight']:.2f}"}
            ways = {f"{way}, %": shown(by_way[way]) for way in BESIDE["together"]}
            moved.append(line | known | ways)
    return {
        "moving": markdown(pd.DataFrame(lines)),
        "followed": markdown(pd.DataFrame(moved)),
    }


@click.command()
@click.argument("sets", nargs=-1)
@click.option("--jobs", type=click.IntRange(1), default=1, show_default=True)
@click.option("--small", is_flag=True, help="Only a set for a test.")
@click.option("--out", type=click.Path(dir_okay=False, path_type=Path))
def main(sets: Sequence[str], jobs: int, small: bool, out: Path | None) -> None:
    """Compare ways on the sets that are there, or on some of them."""
    taken = {SMALL: small_set()} if small else all_sets()
    rows = []
    for name, moving in taken.items():
        if not sets or name in sets:
            rows += study(moving, jobs)
    table = pd.DataFrame(rows)
    click.echo(table.to_string())
    if out:
        table.to_csv(out, index=False, float_format="%.6g")


if __name__ == "__main__":
    main()
