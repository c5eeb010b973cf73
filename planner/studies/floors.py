"""Measures what a floor for single items costs that are planned together, at one price of what is not met at once.

    python -m planner.studies.floors --out planner/studies/floors.csv    what is stored
    python -m planner.studies.floors dealers                            some kinds alone
    python -m planner.studies.floors --small                            a few items, in some seconds

Kinds are those of `open_kinds.py` that have no season. With a floor no item leaves unmet more than so many times the share
that all together do by theory at the same price. Levels are planned at the end of the record, and meet the year that comes
(`fair.py`). Floors are compared where all items together realize 95% of demand, those of spares 90%.
"""
from __future__ import annotations

from collections.abc import Iterator, Sequence
from pathlib import Path
from typing import Any

import click
import numpy as np
import pandas as pd

from crnplan.chances import Floats, Whole
from crnplan.errors import CrnplanError
from crnplan.plan.how import NONE, Settings
from crnplan.plan.question import Levels, Question, question_of
from planner.studies.fair import Member, Moving, all_met, rows_of
from planner.studies.moving import by_price
from planner.studies.open_kinds import ITEMS, Catalogue, catalogue_of
from planner.studies.open_ways import NO_LEVELS, PRICES, WEEK, item_of
from planner.studies.page import markdown

STORED = Path(__file__).with_name("floors.csv")
KINDS = "flat", "new", "dealers", "spares"
SEEDS = 1, 2
TIMES = (1.5, 2, 3, 4)
FREE = "no floor"
SMALL_ITEMS = 3


def asked_of(catalogue: Catalogue) -> Iterator[Question | None]:
    """Yields the question of each item at the end of the record; None without a law."""
    settings = Settings(borrow=NONE, every=WEEK)
    for one in catalogue.items:
        item = item_of(one, catalogue.record, catalogue.record)
        try:
            asked = question_of(item, settings)
            yield asked if asked.theory else None
        except CrnplanError:  # Nothing was asked for.
            yield None


def fills_of(asked: Question, pairs: Sequence[Levels]) -> Floats:
    """Returns what policies meet by theory."""
    box = asked.item.box
    return np.array([asked.theory.figures(s // box, S // box).fill for s, S in pairs])


def floored(asked: Question, pairs: Sequence[Levels], floors: Floats) -> list[Levels]:
    """Returns policies, and in place of those that meet less than a floor the cheapest that keep it."""
    kept, box = list[Levels](), asked.item.box
    for pair, fill, floor in zip(pairs, fills_of(asked, pairs), floors.tolist()):
        if fill < floor:
            policy = asked.theory.free.best(floor)
            pair = box * max(1, policy.point), box * max(1, policy.level)
        kept.append(pair)
    return kept


def levels_of(catalogue: Catalogue) -> dict[str, list[Whole]]:
    """Returns s and S of all items by each week after the record and price, without a floor and with each."""
    every = [*asked_of(catalogue)]
    pairs = [by_price(asked, PRICES) if asked else [] for asked in every]
    known = [fills_of(asked, own) for asked, own in zip(every, pairs) if asked]
    unmet = 1 - np.mean(known, axis=0)
    levels: dict[str, list[Whole]] = {}
    for times in (None, *TIMES):
        name = FREE if times is None else f"{times:g} times"
        for asked, own in zip(every, pairs):
            if asked and times is not None:
                own = floored(asked, own, 1 - times * unmet)
            table = np.array(own or [NO_LEVELS] * len(PRICES))
            levels.setdefault(name, []).append(np.array([table] * catalogue.weeks))
    return levels


def study(kind: str, seeds: Sequence[int], items: int) -> pd.DataFrame:
    """Returns the rows of a kind: a row for each floor."""
    members, levels = list[Member](), dict[str, list[Whole]]()
    for seed in seeds:
        catalogue = catalogue_of(kind, seed, items)
        members += [one.member for one in catalogue.items]
        for name, own in levels_of(catalogue).items():
            levels.setdefault(name, []).extend(own)
    moving = Moving(kind, tuple(members), catalogue.record, catalogue.weeks, 0)
    fills = [catalogue.wanted]
    return pd.DataFrame(rows_of(moving, all_met(moving, levels), FREE, (), fills))


def tables() -> dict[str, str]:
    """Returns the stored figures for the page: a line for each kind."""
    stored, lines = pd.read_csv(STORED), list[dict[str, Any]]()
    for kind, rows in stored.groupby("set", sort=False):
        own = rows.set_index("way")
        line = {"kind": kind, "fill": f"{own['fill'].iloc[0]:.0%}"}
        for name, row in own.drop(FREE).iterrows():
            line[f"{name}, %"] = f"{row['more']:+.1f} ± {row['more_error']:.1f}"
        lines.append(line)
    return {"floors": markdown(pd.DataFrame(lines))}


@click.command()
@click.argument("kinds", nargs=-1)
@click.option("--small", is_flag=True, help="Only a few items of one kind.")
@click.option("--out", type=click.Path(dir_okay=False, path_type=Path))
def main(kinds: Sequence[str], small: bool, out: Path | None) -> None:
    """Measure what floors cost on all kinds, or on some of them."""
    seeds, items = (SEEDS[:1], SMALL_ITEMS) if small else (SEEDS, ITEMS)
    named = kinds or (KINDS[:1] if small else KINDS)
    table = pd.concat([study(kind, seeds, items) for kind in named])
    click.echo(table.to_string(index=False))
    if out:
        table.to_csv(out, index=False, float_format="%.6g")


if __name__ == "__main__":
    main()
