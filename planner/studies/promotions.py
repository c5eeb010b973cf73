"""Measures what knowing promotions is worth: for the season of a class, and for the tail of an item's law.

    python -m planner.studies.promotions --jobs 2 --out planner/studies/promotions.csv    all, in half an hour
    python -m planner.studies.promotions --small                                          a small part, in some seconds

Made classes have 20 items of 104 or 156 weeks, without a season or with that of `made_moving.py`, whose peak comes in
another month for each of three. Means are lognormal, with 10 in the median and a deviation of 0.8 of the logarithm.
Demand is negative binomial: `steady` has a variance of 1.5 means, `erratic` a size of 1.2. A promoted week has three
times the level, with a chance of 6%: weeks of the `class`, or of each `item`. With a `feast` the same two weeks of each
year are so high. Seeds are fixed: [place of the season, of the promotions, of the demand, weeks, number, class].

- `index`: for 60 classes of a kind, by what is left out of the season (`nothing`, the weeks that are `marked`, those that
  are `found`), the share of classes that are seen to have one, and how far their indices are off. Of a thousand other
  weeks so many are found, and of promoted ones such a share.
- `stock`: three classes of 156 weeks, planned each four weeks from 104 on: the stock that a fill needs (`fair.py`),
  beside a season that is learned from all weeks.
- `tail`: cheese, juice and made sets, planned each four weeks: by laws of each item alone; by learned ones; and by laws of
  each item with a tail that is pooled, of high weeks of all items of the set (`PooledTail`).

`stock` and `tail` plan all items by one price of what is not met at once.
"""
from __future__ import annotations

import contextlib
import dataclasses
import itertools
import math
from collections.abc import Iterable, Iterator, Mapping, Sequence
from concurrent.futures import ProcessPoolExecutor
from dataclasses import dataclass, field
from pathlib import Path
from typing import Any, NamedTuple

import click
import numpy as np
import pandas as pd

from crnplan.chances import Floats, Whole
from crnplan.demand.fitted import FittedLaw
from crnplan.demand.learning import LEAST_ON_REQUEST, Prior, learn
from crnplan.demand.seasons import PARTS_OF_YEAR, months_of, parts_of
from crnplan.errors import Refused
from crnplan.law import Law
from crnplan.plan.how import ALL, NONE, Settings
from crnplan.plan.question import Levels, Question, question_of
from crnplan.plan.seasons import Seasons
from crnplan.read.cells import Flags
from crnplan.read.item import Item
from crnplan.theory.every_gap import best_policies
from planner.studies.fair import Member, Moving, compared, real_sets, walked
from planner.studies.made_moving import INDEX, ITEMS, LIFT, PROMOTED, RECORD, made_set
from planner.studies.moving import PRICES, item_of, shown
from planner.studies.page import markdown
from planner.studies.season_plans import FIRST
from planner.studies.warnings import percent

STORED = Path(__file__).with_name("promotions.csv")
SEASONS = SEASON, STANDING = "season", "none"
WHOSE = NOBODY, CLASS, ITEM, FEAST = "none", "class", "item", "feast"
DEMANDS = STEADY, ERRATIC = "steady", "erratic"
GROUPS, YEAR, MONTHS = 3, 52, 12
WEEKS, NUMBERS = (104, 156), 20
UNSEEN = 20  # The rule was designed on classes with lower numbers.
SIZE = 1.2  # of erratic demand
FEAST_WEEKS = 49, 50  # of 52, from January on
LEFT_OUT = NOTHING, MARKED, FOUND = "nothing", "marked", "found"
CASES = [*itertools.product(SEASONS, WHOSE, DEMANDS, WEEKS)]
SMALL = [(SEASON, CLASS, STEADY, 104)]
PLANNED = [*itertools.product((SEASON,), (NOBODY, CLASS, ITEM), DEMANDS)]
TAILS = "cheese", "juice", "promotions", "flat, steady", "flat, erratic"
TAIL_WINDOW = 52  # of made sets
ALONE, LEARNED, POOLED = "alone", "learned", "pooled"
HIGH = 2.5  # times the median of an item's demands: a high week
OWN_WEEKS = (
    26  # what the share of high weeks of all items counts for beside an item's own
)
LIFTS = (
    np.arange(8) + 0.5
) / 8  # the quantiles of high demands that the pooled tail has


class Class(NamedTuple):
    """A made class: the demand of its items by week, which weeks are promoted, and its true index by month."""

    counts: Whole
    promoted: Flags
    index: Floats

    def items(self, is_marked: bool = False) -> list[Item]:
        """Returns its items, perhaps with the marks of promoted weeks."""
        items = list[Item]()
        for place, (counts, own) in enumerate(zip(self.counts, self.promoted)):
            item = item_of(Member(str(place), "", "", counts), 1.0)
            marks = tuple(np.flatnonzero(own & is_marked).tolist())
            items.append(dataclasses.replace(item, first=FIRST, promoted=marks))
        return items


def drawn(
    season: str, whose: str, demand: str, weeks: int, number: int, group: int
) -> Class:
    """Draws a class."""
    kind = SEASONS.index(season), WHOSE.index(whose), DEMANDS.index(demand)
    random = np.random.default_rng([*kind, weeks, number, group])
    months = months_of("week", FIRST, weeks)
    level = np.ones(weeks)
    if season == SEASON:
        level *= np.roll(INDEX, group * MONTHS // GROUPS)[months]
    if whose == FEAST:
        level[np.isin(np.arange(weeks) % YEAR, FEAST_WEEKS)] *= LIFT
    parts = parts_of("week", FIRST, weeks)
    index = np.bincount(parts, level) / np.bincount(parts)
    promoted = np.zeros((ITEMS, weeks), bool)
    if whose in (CLASS, ITEM):
        rows = 1 if whose == CLASS else ITEMS
        promoted |= random.random((rows, weeks)) < PROMOTED
    means = random.lognormal(math.log(10), 0.8, (ITEMS, 1))
    means = means * level * np.where(promoted, LIFT, 1.0)
    size = 2 * means if demand == STEADY else np.full(means.shape, SIZE)
    counts = random.negative_binomial(size, size / (size + means))
    return Class(counts, promoted, index / index.mean())


def seasons_of(items: Sequence[Item], left_out: str) -> Seasons:
    """Returns the season of a class, without what is left out."""
    return Seasons.of("week", items, left_out != FOUND)


def index_rows(
    case: tuple[str, str, str, int], numbers: int = NUMBERS
) -> list[dict[str, Any]]:
    """Returns the figures of the classes of a kind, a row for each way to leave weeks out."""
    season, whose, demand, weeks = case
    classes = [
        drawn(*case, number, group)
        for number, group in itertools.product(
            range(UNSEEN, UNSEEN + numbers), range(GROUPS)
        )
    ]
    rows = list[dict[str, Any]]()
    for left_out in LEFT_OUT:
        seen, squares = list[bool](), list[float]()
        is_found = list[Flags]()
        for own in classes:
            seasons = seasons_of(own.items(left_out == MARKED), left_out)
            index = seasons.classes.get("")
            values = np.array(index.values) if index else np.ones(PARTS_OF_YEAR["week"])
            seen.append(index is not None)
            squares.append(float(((values - own.index) ** 2).mean()))
            weeks_found = np.array(seasons.promoted.get("", ()), int) - FIRST
            is_found.append(np.isin(np.arange(weeks), weeks_found))
        found = np.concatenate(is_found)
        promoted = np.concatenate([own.promoted.all(axis=0) for own in classes])
        off, size = math.sqrt(np.mean(squares)), len(classes)
        share = float(np.mean(seen))
        spread = float(np.std(squares)) / math.sqrt(size)
        rows.append(
            {
                "part": "index",
                "season": season,
                "promotions": whose,
                "demand": demand,
                "weeks": weeks,
                "left_out": left_out,
                "classes": size,
                "seen": share,
                "seen_error": math.sqrt(share * (1 - share) / size),
                "off": off,
                "off_error": spread / (2 * off) if off else 0.0,
                "false": found[~promoted].mean(),
                "true": found[promoted].mean() if promoted.any() else np.nan,
            }
        )
    return rows


def policies_of(asked: Question, setup: float) -> list[Levels]:
    """Returns the best policy for each price."""
    theory, box = asked.theory, asked.item.box
    costs = [[setup] * len(PRICES), [box] * len(PRICES), np.multiply(box, PRICES)]
    gaps, (levels, *_) = best_policies(theory, np.array(costs, float))
    pairs = zip((levels - theory.items(gaps)).tolist(), levels.tolist())
    return [(box * int(s), box * int(S)) for s, S in pairs]


@dataclass(frozen=True, eq=False)
class InSeason:
    """Plans the items of a set by the seasons of their classes as they are known at the end of each plan's record."""

    members: Sequence[Member]
    promoted: Mapping[str, Flags]
    left_out: str
    known: dict[int, Seasons] = field(default_factory=dict)

    def item(self, member: Member, setup: float = 1.0) -> Item:
        """Returns an item of some weeks."""
        weeks = slice(member.first, member.first + len(member.counts))
        own = self.promoted[member.name][weeks] & (self.left_out == MARKED)
        return dataclasses.replace(
            item_of(member, setup),
            group=member.group,
            first=FIRST + member.first,
            promoted=tuple(np.flatnonzero(own).tolist()),
        )

    def seasons(self, first: int, end: int) -> Seasons:
        """Returns the seasons of the weeks from one on before another."""
        if end not in self.known:
            items = list[Item]()
            for one in self.members:
                part = one._replace(counts=one.counts[first:end], first=first)
                items.append(self.item(part))
            self.known[end] = seasons_of(items, self.left_out)
        return self.known[end]

    def __call__(self, member: Member, setup: float) -> list[Levels]:
        """Returns the policies of an item for the month after its record."""
        seasons = self.seasons(member.first, member.first + len(member.counts))
        settings = Settings(borrow=NONE, every="week", seasons=seasons)
        return policies_of(question_of(self.item(member, setup), settings), setup)


def stock_rows(
    case: tuple[str, str, str], jobs: int, weeks: int = WEEKS[-1]
) -> Iterator[dict[str, Any]]:
    """Yields the rows of three classes together, by what is left out of their seasons."""
    season, whose, demand = case
    members, promoted = list[Member](), dict[str, Flags]()
    for group in range(GROUPS):
        own = drawn(*case, weeks, 0, group)
        for place, counts in enumerate(own.counts):
            name = f"{group}-{place}"
            members.append(Member(name, name, f"class {group}", counts))
            promoted[name] = own.promoted[place]
    moving = Moving(" ".join(case), tuple(members), RECORD, 4, RECORD)
    ways = {
        left_out: walked(moving, InSeason(members, promoted, left_out), jobs)
        for left_out in LEFT_OUT
    }
    kind = {"part": "stock", "season": season, "promotions": whose, "demand": demand}
    for row in compared(moving, ways, NOTHING, ()):
        yield {**kind, **row}


@dataclass(frozen=True, eq=False)
class Alone:
    """Plans each item by its own law, or by that which it learns."""

    prior: Prior | None = None

    def question(self, member: Member, setup: float) -> Question:
        """Returns what is asked for an item."""
        settings = Settings(borrow=NONE if self.prior is None else ALL)
        return question_of(item_of(member, setup), settings, self.prior)

    def __call__(self, member: Member, setup: float) -> list[Levels]:
        """Returns the policies of an item."""
        return policies_of(self.question(member, setup), setup)


def usual_of(counts: Whole) -> float:
    """Returns the median of the demands of an item, at least 1."""
    return max(1.0, float(np.median(counts[counts > 0]))) if counts.any() else 1.0


@dataclass(frozen=True, eq=False)
class PooledTail(Alone):
    """Plans each item by its law with high weeks of all items, as far as it has fewer of them than these have."""

    members: Sequence[Member] = ()
    known: dict[int, tuple[float, Floats]] = field(default_factory=dict)

    def tail(self, first: int, end: int) -> tuple[float, Floats]:
        """Returns which share of the weeks of all items is high in some weeks, and how high: quantiles of the demand
        beside the item's usual one."""
        if end not in self.known:
            every = [one.counts[first:end] for one in self.members]
            lifts = np.concatenate([own / usual_of(own) for own in every])
            high = lifts[lifts > HIGH]
            values = np.quantile(high, LIFTS) if len(high) else np.ones(0)
            self.known[end] = len(high) / len(lifts), values
        return self.known[end]

    def question(self, member: Member, setup: float) -> Question:
        """Returns what is asked for an item with the tail: its share of high weeks counts beside that of all."""
        asked, counts = super().question(member, setup), member.counts
        share, lifts = self.tail(member.first, member.first + len(counts))
        usual, law = usual_of(counts), asked.demand
        own = float((counts > HIGH * usual).mean())
        more = OWN_WEEKS * (share - own) / (OWN_WEEKS + len(counts))
        if more <= 0 or asked.item.box > 1:
            return asked
        high = np.rint(usual * lifts).astype(int)
        chances = np.zeros(max(law.values[-1], high.max()) + 1)
        np.add.at(chances, [*law.values], (1 - more) * np.array(law.weights) / law.size)
        np.add.at(chances, high, more / len(high))
        mixed = Law.of_chances(chances)
        fitted = FittedLaw.made(mixed, law.family, law.diagnostics, law.box)
        return dataclasses.replace(asked, demand=fitted)


def tail_rows(name: str, moving: Moving, jobs: int) -> Iterator[dict[str, Any]]:
    """Yields the rows of a set: laws of each item alone, learned ones, and those with a pooled tail."""
    records = [member.counts[: moving.record] for member in moving.members]
    plans = {ALONE: Alone(), POOLED: PooledTail(members=moving.members)}
    with contextlib.suppress(Refused):  # Most of cheese is too much to learn from.
        plans[LEARNED] = Alone(learn(records, least=LEAST_ON_REQUEST))
    ways = {way: walked(moving, plan, jobs) for way, plan in plans.items()}
    for row in compared(moving, ways, ALONE, ()):
        yield {"part": "tail", **row}


def tail_sets() -> dict[str, Moving]:
    """Returns the sets whose tails are pooled, as far as they are there."""
    sets = real_sets()
    for kind in TAILS[2:]:
        sets[kind] = dataclasses.replace(made_set(kind), window=TAIL_WINDOW)
    return {name: sets[name] for name in TAILS if name in sets}


def study(jobs: int) -> pd.DataFrame:
    """Returns the rows of all parts."""
    with ProcessPoolExecutor(jobs) as pool:
        rows = [row for own in pool.map(index_rows, CASES) for row in own]
    for case in PLANNED:
        rows += stock_rows(case, jobs)
    for name, moving in tail_sets().items():
        rows += tail_rows(name, moving, jobs)
    return pd.DataFrame(rows)


def index_table(stored: pd.DataFrame) -> pd.DataFrame:
    """Returns a line for each kind of classes."""
    lines, keys = list[dict[str, str]](), ["season", "promotions", "demand", "weeks"]
    for kind, rows in stored.groupby(keys, sort=False):
        line = dict(zip(keys, map(str, kind)))
        by_way = {row["left_out"]: row for row in rows.to_dict("records")}
        for way in LEFT_OUT:
            row = by_way[way]
            line[f"seen, {way}"] = percent(row["seen"], row["seen_error"])
        for way in LEFT_OUT:
            row = by_way[way]
            line[f"off, {way}"] = percent(row["off"], row["off_error"])
        line["others found, of 1,000"] = f"{1000 * by_way[FOUND]['false']:.1f}"
        true = by_way[FOUND]["true"]
        line["promoted found, %"] = "-" if np.isnan(true) else f"{100 * true:.0f}"
        lines.append(line)
    return pd.DataFrame(lines)


def beside_table(
    stored: pd.DataFrame, keys: Sequence[str], ways: Iterable[str]
) -> pd.DataFrame:
    """Returns a line for each kind and fill, with how much more stock ways need than the first one."""
    base, *others = ways
    lines = list[dict[str, str]]()
    for kind, rows in stored.groupby([*keys, "fill"], sort=False):
        by_way = {row["way"]: row for row in rows.to_dict("records")}
        line = dict(zip(keys, map(str, kind)))
        own = by_way[base]["stock"]
        line["fill"] = f"{100 * kind[-1]:g}%"
        line[f"stock, {base}"] = "-" if np.isnan(own) else f"{own:.2f}"
        for way in others:
            line[f"{way}, %"] = shown(by_way[way]) if way in by_way else "-"
        lines.append(line)
    return pd.DataFrame(lines)


def tables() -> dict[str, str]:
    """Returns the stored figures for the page."""
    stored = pd.read_csv(STORED)
    parts = {part: rows for part, rows in stored.groupby("part")}
    keys = ["season", "promotions", "demand"]
    index = parts["index"].astype({"weeks": int})
    return {
        "promotions-index": markdown(index_table(index)),
        "promotions-stock": markdown(beside_table(parts["stock"], keys[1:], LEFT_OUT)),
        "promotions-tail": markdown(
            beside_table(parts["tail"], ["set"], (ALONE, LEARNED, POOLED))
        ),
    }


@click.command()
@click.option("--jobs", type=click.IntRange(1), default=1, show_default=True)
@click.option("--small", is_flag=True, help="Run a small part.")
@click.option("--out", type=click.Path(dir_okay=False, path_type=Path))
def main(jobs: int, small: bool, out: Path | None) -> None:
    """Measure what knowing promotions is worth."""
    table = pd.DataFrame(index_rows(SMALL[0], 5)) if small else study(jobs)
    click.echo(table.to_string())
    if out:
        table.to_csv(out, index=False, float_format="%.6g")


if __name__ == "__main__":
    main()
