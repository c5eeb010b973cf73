"""Plans made shops by the commands alone, again each four weeks for a year, and has their levels meet what comes.

    python -m planner.studies.by_commands --jobs 2 --out planner/studies/by_commands.csv    what is stored, in some hours
    python -m planner.studies.by_commands garden --jobs 2                                  some makes alone
    python -m planner.studies.by_commands --small                                          a few items, in some seconds

`made_shops.py` says what shops there are, and `sold_shops.py` those of real sales; no rule or number of crnplan was
chosen by the made ones. Each has two tables, of
movements by day up to the day of the plan, and of masters. `crnplan plan` plans them, at first alone and then
`--after` the last plan. A simulator of this module applies the levels of the date: those of levels.csv, or of
decisions.csv for items that have none there. Order of events: docs/DEFINITIONS.md. An item begins with a stock halfway
from s to S in the first week that has a plan of it.

- `item`: each item meets the wanted share; `item, flat`: with `--set season=none`.
- `together, corrected`: all items by one price of what is not met, found on the past (`--together`, `correct`).
- `cost`: each item has a backlog cost of nine times its holding cost.

Sums are by value, as those of `--together` are. `peak` is of the 13 weeks in a row in which most is asked for of a class.
`low` is the share of demand that the worst tenth of items meets, by number, no more than. `beside` is the stock in money,
and `cost_beside` that of stock and orders, that a way needs beside `item` where both meet as much as the wanted share, or
as near as both get (`at`): between wanted shares by the logarithm of what is unmet. Errors are from 400 samples with
replacement of items and of blocks of four weeks of a class, since a class moves together.
"""
from __future__ import annotations

import io
import itertools
import math
import time
from collections.abc import Iterable, Iterator, Sequence
from concurrent.futures import ProcessPoolExecutor
from contextlib import redirect_stderr, redirect_stdout
from datetime import date, timedelta
from functools import cache
from pathlib import Path
from tempfile import TemporaryDirectory
from typing import Any, NamedTuple

import click
import numpy as np
import pandas as pd

from crnplan.chances import Floats
from crnplan.cli import Spelling, group
from planner.studies.made_shops import LATER, MAKES, START, WEEK, Shop, made_shop
from planner.studies.page import markdown
from planner.studies.sold_shops import SOLD, sold_shop

STORED = Path(__file__).with_name("by_commands.csv")
EVERY = 4  # weeks until the next plan
ITEMS, SMALL_ITEMS, SMALL_LATER = 30, 6, 8
PEAK = 13
TIMES = 9  # a backlog cost beside the holding cost
SAMPLES, SEED = 400, 1
WANTED = 0.95, 0.98
SETTINGS = "[catalogue]\nperiods = 64\nreplications = 4\n"
COST = "cost"


class Way(NamedTuple):
    """The words of a way before the wanted share and after it, and the shares that it wants."""

    before: tuple[str, ...]
    after: tuple[str, ...] = ()
    shares: tuple[str, ...] = ("95%", "98%")


CORRECT, FLAT = ("--set", "correct=true"), ("--set", "season=none")
WAYS = {
    "item": Way(("--fill",)),
    "item, flat": Way(("--fill",), FLAT, ("95%", "99%")),
    "together, corrected": Way(("--together",), CORRECT),
    COST: Way((), (), ("",)),
}
BASE = "item"
# Ways and makes of which the mean over several shops is taken, and the seeds of these; of the first all ways are run.
OF_ALL_SHOPS = BASE, "together, corrected"
SEVERAL = "flat", "lumpy", "promotions", "waves"
FIRST, SHOPS = 1, 5


class Case(NamedTuple):
    """What is run: a shop, by its make, its items and its seed, by a way that wants a share, for so many weeks."""

    make: str
    items: int
    seed: int
    way: str
    share: str
    later: int = LATER

    @property
    def words(self) -> list[str]:
        """Returns the words of the command for the way."""
        way = WAYS[self.way]
        return [*way.before, *filter(None, [self.share]), *way.after]

    @property
    def shop(self) -> Shop:
        return shop_of(self.make, self.items, self.seed)


@cache
def shop_of(make: str, items: int, seed: int) -> Shop:
    """Returns a shop: a made one, or one of real sales, which has no seed."""
    return sold_shop(make) if make in SOLD else made_shop(make, items, seed)


class Met(NamedTuple):
    """What levels came to, by item and later week: demand in items that count, what of it was not met at once, stock and
    what is owed at the end, orders, whether the week counts, and by item what plans promised to cost a week.
    """

    asked: Floats
    unmet: Floats
    stock: Floats
    owed: Floats
    orders: Floats
    promised: Floats
    seconds: float


def planned(room: Path, shop: Shop, case: Case, week: int, last: Path | None) -> Path:
    """Returns the folder of a plan of the weeks before one, perhaps after an earlier one."""
    day = START + timedelta(WEEK * week)
    sales, masters = shop.sales[shop.sales["date"] < day], shop.masters
    sales.to_csv(room / "sales.csv", index=False)
    if case.way == COST:
        masters = masters.assign(backlog=np.round(TIMES * shop.holding, 6))
    masters.to_csv(room / "articles.csv", index=False)
    (room / "settings.toml").write_text(SETTINGS)
    out = room / f"plan {week}"
    words = [
        *("plan", room / "sales.csv", room / "articles.csv", "--out", out),
        *(
            "--set",
            f"to={day - timedelta(1)}",
            "--set",
            "holding_rate=20%",
            "--jobs",
            1,
        ),
        *("--config", room / "settings.toml", *case.words),
        *(["--after", last] if last else []),
    ]
    with redirect_stdout(io.StringIO()), redirect_stderr(io.StringIO()):
        status = group.main([*map(str, words)], standalone_mode=False, obj=Spelling())
    if status:
        raise click.ClickException(f"{case}, week {week}: status {status}")
    return out


class Read(NamedTuple):
    """What a folder says of items: levels in the coming weeks, those without a policy below any position, and what they
    promise to cost a week."""

    levels: Floats
    costs: Floats


def read_levels(folder: Path, names: Sequence[str], first: date, weeks: int) -> Read:
    """Returns the levels of items in the weeks from a Monday on, as the planner's tables have them."""
    decisions = pd.read_csv(folder / "decisions.csv", index_col="item")
    own = decisions.reindex(names)
    pairs = own[["s_chosen", "S_chosen"]].to_numpy(float)
    levels = np.repeat(pairs[:, None], weeks, axis=1)
    if (folder / "levels.csv").exists():
        table = pd.read_csv(folder / "levels.csv", parse_dates=["from", "to"])
        for place, week in itertools.product(range(len(names)), range(weeks)):
            day = pd.Timestamp(first + timedelta(WEEK * week))
            is_own = table["item"] == names[place]
            rows = table[is_own & (table["from"] <= day) & (day <= table["to"])]
            if is_own.any():
                (levels[place, week],) = rows[["s", "S"]].to_numpy(float)
    levels[np.isnan(levels[..., 0])] = -math.inf
    return Read(levels, own["cost_chosen"].fillna(0).to_numpy(float))


def met_by(shop: Shop, levels: Floats) -> dict[str, Floats]:
    """Returns what levels by item and later week come to. In a week what is due arrives, the position is reviewed, what
    is given back comes, demand is met as far as stock reaches, and the rest is owed."""
    items, weeks = levels.shape[:2]
    record = shop.record
    due = np.zeros((items, weeks + int(shop.leads.max()) + 1))
    stock, position, every = np.zeros(items), np.zeros(items), np.arange(items)
    has_begun = np.zeros(items, bool)
    rows = {
        name: np.zeros((items, weeks))
        for name in ("asked", "unmet", "stock", "owed", "orders")
    }
    for week in range(weeks):
        s, S = levels[:, week].T
        begins = ~has_begun & np.isfinite(s)
        stock[begins] = position[begins] = np.round((s + S)[begins] / 2)
        has_begun |= begins
        stock += due[:, week]
        is_ordered = has_begun & (position < s)
        quantity = np.where(is_ordered, S - position, 0)
        due[every, week + shop.leads] += quantity
        asked = shop.counts[:, record + week] * has_begun
        back = shop.returned[:, record + week] * has_begun
        offered = stock + back
        rows["asked"][:, week] = asked
        rows["unmet"][:, week] = asked - np.minimum(asked, np.maximum(offered, 0))
        rows["orders"][:, week] = is_ordered
        stock = offered - asked
        position = position + quantity + back - asked
        rows["stock"][:, week] = np.maximum(stock, 0)
        rows["owed"][:, week] = np.maximum(-stock, 0)
    return rows


def run(case: Case) -> Met:
    """Plans a shop every four weeks and returns what its levels came to."""
    shop = case.shop
    names = shop.masters["article"].tolist()
    levels = np.empty((case.items, case.later, 2))
    promised, begun = np.zeros(case.items), time.perf_counter()
    with TemporaryDirectory(prefix="by-commands-") as folder:
        room, last = Path(folder), None
        for later in range(0, case.later, EVERY):
            week = shop.record + later
            last = planned(room, shop, case, week, last)
            monday = START + timedelta(WEEK * week)
            read = read_levels(last, names, monday, EVERY)
            levels[:, later : later + EVERY] = read.levels
            promised += read.costs * EVERY / case.later
    seconds = (time.perf_counter() - begun) * EVERY / case.later
    met = met_by(shop, levels)
    return Met(**met, promised=promised, seconds=seconds)


def peaks_of(shop: Shop, later: int) -> Floats:
    """Returns by item and later week whether it is in the quarter in which most is asked for of its class."""
    means = shop.means[:, shop.record : shop.record + later]
    peaks = np.zeros(means.shape)
    for group in {*shop.groups}:
        own = np.array(shop.groups) == group
        sums = np.convolve(means[own].sum(axis=0), np.ones(PEAK), "valid")
        first = int(sums.argmax()) if len(sums) else 0
        peaks[own, first : first + PEAK] = 1
    return peaks


class Samples:
    """Drawn items and blocks of weeks of classes: how often each item and week counts, in the first sample once."""

    def __init__(self, shop: Shop, later: int) -> None:
        random, items = np.random.default_rng(SEED), len(shop.groups)
        blocks = -(-later // EVERY)
        names, places = np.unique(shop.groups, return_inverse=True)
        draws = random.multinomial(items, [1 / items] * items, SAMPLES)
        self.items = np.vstack([np.ones(items), draws])
        times = random.multinomial(blocks, [1 / blocks] * blocks, (SAMPLES, len(names)))
        self.blocks = np.concatenate([np.ones((1, len(names), blocks)), times])
        self.places, self.later = places, later

    def sums(self, rows: Floats) -> Floats:
        """Returns the sums of rows by item and week, for each sample."""
        starts = np.arange(0, self.later, EVERY)
        parts = np.add.reduceat(rows, starts, axis=1)
        totals = np.zeros(len(self.items))
        for place in range(self.blocks.shape[1]):
            own = self.places == place
            by_block = self.items[:, own] @ parts[own]
            totals += (by_block * self.blocks[:, place]).sum(axis=1)
        return totals


class Curve(NamedTuple):
    """What a way comes to by wanted share and sample: what is left unmet, of all and in the peak, the stock in money,
    and what that and orders cost a week."""

    unmet: Floats
    peak: Floats
    stock: Floats
    cost: Floats

    @classmethod
    def of(
        cls, shop: Shop, met: Sequence[Met], samples: Samples, peaks: Floats
    ) -> Curve:
        """Adds up runs of rising shares."""
        rows, value = list[tuple[Floats, ...]](), shop.prices[:, None]
        for one in met:
            asked, unmet = value * one.asked, value * one.unmet
            stock = value * one.stock
            cost = shop.holding[:, None] * one.stock
            cost = cost + shop.setups[:, None] * one.orders
            weeks = asked.shape[1]
            rows.append(
                (
                    samples.sums(unmet) / samples.sums(asked),
                    samples.sums(unmet * peaks) / samples.sums(asked * peaks),
                    samples.sums(stock) / weeks,
                    samples.sums(cost) / weeks,
                )
            )
        return cls(*map(np.array, zip(*rows)))

    def at(self, amounts: Floats, unmet: float) -> Floats:
        """Returns an amount where so much is unmet, for each sample; beyond the shares that of the nearest."""
        found = np.empty(amounts.shape[1])
        for place in range(len(found)):
            rising = np.minimum.accumulate(np.maximum(self.unmet[:, place], 1e-6))
            logs, own = -np.log(rising), np.log(amounts[:, place])
            found[place] = np.exp(np.interp(-math.log(unmet), logs, own))
        return found

    def nearest(self, other: Curve, unmet: float) -> float:
        """Returns the share nearest to one that both leave unmet at some wanted share."""
        most = min(self.unmet[:, 0].max(), other.unmet[:, 0].max())
        least = max(self.unmet[:, 0].min(), other.unmet[:, 0].min())
        return min(max(unmet, least), most)


def low_of(met: Met) -> float:
    """Returns the share of demand that the worst tenth of items meets no more than."""
    asked = met.asked.sum(axis=1)
    some = asked > 0
    return float(np.quantile(1 - met.unmet.sum(axis=1)[some] / asked[some], 0.1))


def beside(own: Curve, base: Curve, wanted: float) -> dict[str, float]:
    """Returns what a way needs beside another one where both meet as much, in percent more."""
    unmet = own.nearest(base, 1 - wanted)
    row = {"at": 100 * (1 - unmet)}
    for name, mine, others in (
        ("beside", own.stock, base.stock),
        ("cost_beside", own.cost, base.cost),
    ):
        more = 100 * (own.at(mine, unmet) / base.at(others, unmet) - 1)
        row |= {name: float(more[0]), f"{name}_error": float(np.std(more[1:]))}
    return row


def rows_of(shop: Shop, runs: dict[Case, Met]) -> Iterator[dict[str, object]]:
    """Yields the rows of a shop: of each way and wanted share."""
    first = next(iter(runs))
    samples = Samples(shop, first.later)
    peaks = peaks_of(shop, first.later)
    curves, cases = dict[str, Curve](), dict[str, list[Case]]()
    for way in WAYS:
        cases[way] = [case for case in runs if case.way == way]
        if cases[way]:
            some = [runs[case] for case in cases[way]]
            curves[way] = Curve.of(shop, some, samples, peaks)
    for case, met in runs.items():
        curve, place = curves[case.way], cases[case.way].index(case)
        row: dict[str, object] = {"make": case.make, "items": case.items}
        row |= {"seed": case.seed, "weeks": shop.record}
        row |= {"way": case.way, "wanted": case.share}
        for name in ("unmet", "peak"):
            shares = 100 * (1 - getattr(curve, name)[place])
            label = "fill" if name == "unmet" else name
            row |= {label: shares[0], f"{label}_error": np.std(shares[1:])}
        row |= {"low": 100 * low_of(met), "seconds": met.seconds}
        row["stock"] = curve.stock[place, 0]
        if case.way == COST:
            paid = curve.cost[place]
            late = TIMES * shop.holding[:, None] * met.owed
            paid = paid + samples.sums(late) / case.later
            promise = samples.items @ met.promised
            over = 100 * (paid / promise - 1)
            row |= {"over": over[0], "over_error": np.std(over[1:])}
        elif BASE in curves and float(case.share[:-1]) / 100 in WANTED:
            wanted = float(case.share[:-1]) / 100
            row |= beside(curve, curves[BASE], wanted)
        yield row


def cases_of(make: str) -> Iterator[Case]:
    """Yields what is run of a make: all ways of a shop, and perhaps some ways of more shops."""
    items, later = ITEMS, LATER
    if make in SOLD:
        shop = shop_of(make, items, FIRST)
        items, weeks = shop.counts.shape
        later = (weeks - shop.record) // EVERY * EVERY
    shops = SHOPS if make in SEVERAL else 1
    for seed in range(FIRST, FIRST + shops):
        for name, way in WAYS.items():
            if seed == FIRST or name in OF_ALL_SHOPS:
                for share in way.shares:
                    yield Case(make, items, seed, name, share, later)


def small_cases() -> Iterator[Case]:
    """Yields a small part: one way of one shop, for two plans."""
    yield Case("flat", SMALL_ITEMS, FIRST, BASE, "95%", SMALL_LATER)


def study(cases: Iterable[Case], jobs: int) -> pd.DataFrame:
    """Returns the rows of all cases."""
    listed = [*cases]
    with ProcessPoolExecutor(jobs) as pool:
        met = dict(zip(listed, pool.map(run, listed)))
    rows = list[dict[str, object]]()
    for key, some in itertools.groupby(listed, lambda case: case[:3]):
        runs = {case: met[case] for case in some}
        rows += rows_of(shop_of(*key), runs)
    return pd.DataFrame(rows)


def said(row: dict[str, Any], name: str, form: str = "{:.1f}") -> str:
    """Returns a figure with its error, or nothing without one."""
    value, error = row[name], row[f"{name}_error"]
    return "" if math.isnan(value) else f"{form.format(value)} ± {error:.1f}"


def tables() -> dict[str, str]:
    """Returns the stored figures for the page: a line for each make, way and wanted share; and means over shops of a make,
    with the standard error between them."""
    lines, stored = [], pd.read_csv(STORED)
    for row in stored[stored["seed"] == FIRST].to_dict("records"):
        line = {name: row[name] for name in ("make", "weeks", "way")}
        line["wanted"] = "" if pd.isna(row["wanted"]) else row["wanted"]
        line["met"] = said(row, "fill")
        line["in the peak"] = said(row, "peak")
        line["worst tenth"] = f"{row['low']:.1f}"
        line["stock beside item, %"] = said(row, "beside", "{:+.1f}")
        line["cost over promise, %"] = said(row, "over", "{:+.1f}")
        line["seconds a plan"] = f"{row['seconds']:.0f}"
        lines.append(line)
    return {
        "by-commands": markdown(pd.DataFrame(lines)),
        "by-commands-shops": markdown(over_shops(stored)),
    }


def over_shops(stored: pd.DataFrame) -> pd.DataFrame:
    """Returns what each way met in the mean over the made shops of a make: a line for each make, in order."""
    some = stored[stored["way"].isin(OF_ALL_SHOPS) & stored["make"].isin(SEVERAL)]
    lines = []
    for make, own in some.groupby("make", sort=False):
        line: dict[str, object] = {"make": make, "shops": own["seed"].nunique()}
        for (way, wanted), rows in own.groupby(["way", "wanted"], sort=False):
            error = rows["fill"].sem()
            line[f"{way}, {wanted}"] = f"{rows['fill'].mean():.1f} ± {error:.1f}"
        lines.append(line)
    return pd.DataFrame(lines)


@click.command()
@click.argument("makes", nargs=-1, type=click.Choice([*MAKES, *SOLD]))
@click.option("--small", is_flag=True, help="Run a small part.")
@click.option("--jobs", type=click.IntRange(1), default=1, show_default=True)
@click.option("--ways", multiple=True, type=click.Choice([*WAYS]))
@click.option(
    "--out",
    type=click.Path(dir_okay=False, path_type=Path),
    help="Write the rows as CSV.",
)
def main(
    makes: Sequence[str],
    small: bool,
    jobs: int,
    ways: Sequence[str],
    out: Path | None,
) -> None:
    """Plan made shops by the commands alone, and have their levels meet what comes."""
    cases = [case for make in makes or [*MAKES, *SOLD] for case in cases_of(make)]
    if ways:
        cases = [case for case in cases if case.way in ways]
    rows = study(small_cases() if small else cases, jobs)
    if out:
        rows.to_csv(out, index=False, float_format="%.4g")
    click.echo(rows.round(2).to_string(index=False))


if __name__ == "__main__":
    main()
