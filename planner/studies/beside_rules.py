"""Compares crnplan with rules of thumb on many kinds of demand, by the stock that each needs for the same realized fill.

    python -m planner.studies.beside_rules --jobs 2 --out planner/studies/beside_rules.csv    what is stored
    python -m planner.studies.beside_rules season dealers                                  some kinds alone
    python -m planner.studies.beside_rules --small                                         a few items, in some seconds

`open_kinds.py` makes the kinds, `plain_rules.py` has the rules, `open_ways.py` the ways of crnplan. All plan at the end of
the record and again half a year later, and their levels meet the year that comes: `fair.py`. Two ways are compared where both
realize 95%, of spares 90%. Errors are from samples with replacement of classes of a seed, since their items move together.

A kind's rule is the one that needs least stock on half of the seeds, of real sales on half of the stores or cities; all ways
of crnplan are compared with it on the rest, where nothing was chosen.
"""
from __future__ import annotations

import itertools
from collections import defaultdict
from collections.abc import Iterator, Sequence
from concurrent.futures import ProcessPoolExecutor
from dataclasses import replace
from pathlib import Path
from typing import Any, NamedTuple

import click
import numpy as np
import pandas as pd

from crnplan.chances import Whole
from planner.studies.fair import (
    Curve,
    Member,
    Met,
    Moving,
    all_met,
    at_fill,
    rows_of,
    samples_of,
)
from planner.studies.moving import aimed, shown
from planner.studies.open_kinds import (
    ITEMS,
    SOLD,
    Catalogue,
    catalogue_of,
    kinds_there,
)
from planner.studies.open_ways import planned
from planner.studies.page import markdown
from planner.studies.plain_rules import AIMS, RULES, YEAR, Known, index_of

STORED = Path(__file__).with_name("beside_rules.csv")
EVERY = 26  # weeks until the next plan
SEEDS = 1, 2, 3, 4
BASE = "item"
RULE = "rule"  # that was chosen
SHOWN = BASE, "together", "item, follow", "together, follow"
FEW = "item, flat", "item, empirical", "together, borrow"  # of some kinds alone
# What the short run compares: kinds whose better rule is known.
SMALL, SMALL_ITEMS = ("flat", "season", "doubles"), 4
Levels = dict[str, list[Whole]]


class Case(NamedTuple):
    """A catalogue that is planned, of so many items a class."""

    kind: str
    seed: int
    items: int = ITEMS

    @property
    def catalogue(self) -> Catalogue:
        return catalogue_of(self.kind, self.seed, self.items)


def ruled(catalogue: Catalogue, period: int, weeks: int) -> Levels:
    """Returns s and S of all items by each coming week and aim, by rule."""
    groups = defaultdict[str, list[Whole]](list)
    for one in catalogue.items:
        if not one.begin:
            groups[one.member.group].append(one.seen[:period])
    indices = {name: index_of(np.array(seen)) for name, seen in groups.items()}
    levels = Levels({name: [] for name in RULES})
    for one in catalogue.items:
        index = indices.get(one.member.group, np.ones(YEAR))
        counts = one.seen[one.begin : period].astype(float)
        known = Known(counts, one.begin % YEAR, one.receipts, index)
        for name, rule in RULES.items():
            levels[name].append(rule(known, weeks))
    return levels


def levels_of(case: Case) -> Levels:
    """Returns s and S of all items by each week after the record and aim, by way and rule."""
    catalogue, parts = case.catalogue, defaultdict[str, list[list[Whole]]](list)
    for later in range(0, catalogue.weeks, EVERY):
        period, weeks = catalogue.record + later, min(EVERY, catalogue.weeks - later)
        every = planned(catalogue, period, weeks) | ruled(catalogue, period, weeks)
        for name, levels in every.items():
            parts[name].append(levels)
    return {
        name: [np.concatenate(own) for own in zip(*some)]
        for name, some in parts.items()
    }


def is_first(case: Case, members: Sequence[Member]) -> list[bool]:
    """Returns whether each item of a case is of the half by which a rule is chosen."""
    if case.kind not in SOLD:
        return [case.seed <= len(SEEDS) // 2] * len(members)
    clusters = sorted({member.cluster for member in members})
    return [clusters.index(member.cluster) % 2 == 0 for member in members]


class Judged(NamedTuple):
    """The items of a kind, of all seeds, with what their levels came to by way; and the fill rate at which ways are
    compared."""

    moving: Moving
    met: dict[str, list[Met]]
    wanted: float

    def part(self, is_kept: Sequence[bool]) -> Judged:
        """Returns some of the items."""
        members = tuple(itertools.compress(self.moving.members, is_kept))
        met = {
            name: [*itertools.compress(every, is_kept)]
            for name, every in self.met.items()
        }
        return Judged(replace(self.moving, members=members), met, self.wanted)

    def stock(self, way: str) -> float:
        """Returns the stock that a way needs for the wanted fill; infinite if it is not reached."""
        curve = Curve.of(self.moving, self.met[way], samples_of(self.moving)[:1])
        stock = float(at_fill(curve.fill, curve.stock, self.wanted)[0])
        return np.inf if np.isnan(stock) else stock

    def rows(self, ways: Sequence[str], base: str) -> Iterator[dict[str, Any]]:
        """Yields a row for each of some ways, beside another one."""
        met = {name: self.met[name] for name in (base, *ways)}
        aiming = [name for name in ways if not name.startswith("together")]
        fills = [self.wanted]
        for row in rows_of(self.moving, met, base, aiming, fills, AIMS):
            if row["way"] in ways:
                yield {**row, "beside": base}


def study(kind: str, seeds: Sequence[int], items: int, jobs: int) -> pd.DataFrame:
    """Returns the rows of a kind: each way and rule beside the default, on all seeds, and each way beside the rule that was
    chosen on half of them, on the rest."""
    cases = [Case(kind, seed, items) for seed in seeds]
    if jobs == 1:
        every = [*map(levels_of, cases)]
    else:
        with ProcessPoolExecutor(jobs) as pool:
            every = [*pool.map(levels_of, cases)]
    members, first, levels = list[Member](), list[bool](), Levels()
    for case, own in zip(cases, every):
        some = [one.member for one in case.catalogue.items]
        members, first = members + some, first + is_first(case, some)
        for name, planned_levels in own.items():
            levels.setdefault(name, []).extend(planned_levels)
    catalogue = cases[0].catalogue
    moving = Moving(kind, tuple(members), catalogue.record, EVERY, 0)
    whole = Judged(moving, all_met(moving, levels), catalogue.wanted)
    ways = [name for name in levels if name not in RULES]
    rows = [*whole.rows([*levels], BASE)]
    if any(first) and not all(first):
        chosen = min(RULES, key=whole.part(first).stock)
        rest = whole.part([not it for it in first])
        for row in rest.rows(ways, chosen):
            rows.append({**row, "half": True})
    return pd.DataFrame(rows)


def column(rows: pd.DataFrame, kinds: int) -> dict[str, str]:
    """Returns what a way needs beside another one by kind; and the mean over them with its error, that of independent ones,
    if it is known of all."""
    cells = {str(row["set"]): shown(row) for row in rows.to_dict("records")}
    if rows["more"].notna().sum() == kinds:
        error = np.sqrt(np.square(rows["more_error"]).sum()) / kinds
        cells["mean"] = f"{rows['more'].mean():+.1f} ± {error:.1f}"
    return cells


def tables() -> dict[str, str]:
    """Returns the stored figures for the page: ways of crnplan and rules beside the default, and beside the best rule."""
    stored = pd.read_csv(STORED)
    whole, rest = stored[stored["half"].isna()], stored[stored["half"].notna()]
    base = whole[whole["way"] == BASE].set_index("set")
    facts = {
        "fill": {kind: f"{fill:.0%}" for kind, fill in base["fill"].items()},
        "aimed at, item": base.apply(aimed, axis=1).to_dict(),
        "stock, item": {kind: f"{stock:.2f}" for kind, stock in base["stock"].items()},
    }

    def table(first: dict[str, dict[str, str]], *names: str) -> str:
        ways = {
            f"{name}, %": column(whole[whole["way"] == name], len(base))
            for name in names
        }
        frame = pd.DataFrame(first | ways).rename_axis("kind").reset_index()
        return markdown(frame.fillna(""))

    chosen = rest.drop_duplicates("set").set_index("set")["beside"]
    beside: dict[str, dict[str, str]] = {"rule": chosen.to_dict()}
    for name in SHOWN:
        beside[f"{name}, %"] = column(rest[rest["way"] == name], len(chosen))
    return {
        "beside-rules": table(facts, *SHOWN[1:], *FEW),
        "beside-rules-rules": table({}, *RULES),
        "beside-rules-best": markdown(
            pd.DataFrame(beside).rename_axis("kind").reset_index().fillna("")
        ),
    }


@click.command()
@click.argument("kinds", nargs=-1)
@click.option("--jobs", type=click.IntRange(1), default=1, show_default=True)
@click.option("--small", is_flag=True, help="Only a few items of some kinds.")
@click.option("--out", type=click.Path(dir_okay=False, path_type=Path))
def main(kinds: Sequence[str], jobs: int, small: bool, out: Path | None) -> None:
    """Compare crnplan with rules of thumb on all kinds that are there, or on some of them."""
    seeds, items = (SEEDS[:1], SMALL_ITEMS) if small else (SEEDS, ITEMS)
    named = kinds or (SMALL if small else [*kinds_there()])
    table = pd.concat([study(kind, seeds, items, jobs) for kind in named])
    click.echo(table.to_string(index=False))
    if out:
        table.to_csv(out, index=False, float_format="%.6g")


if __name__ == "__main__":
    main()
