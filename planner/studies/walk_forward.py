"""Tests plans on series that nobody here made, and on made ones whose past is known: what was promised, and what came.

    python -m planner.studies.walk_forward --jobs 2 --out planner/studies    all, in about an hour
    python -m planner.studies.walk_forward --small                           a small part, in some seconds

The real series are those of `real_series.py`: it needs packages of R, and refuses to go on without them. Each series is
an item of a catalogue, which `kept_plans.py` runs. An order comes after 2 periods and costs what is best for two
periods of demand. Four goals: fill rates of 95% and 98%, and backlog costs of 9 and 49 times holding. Of long sets
every fifth series is taken, in the order of the package.

`missed` is by how many points the kept plan missed the fill that it promised; `shuffled` what it missed in a random
order, and `time` the rest. Costs are in percent: `dearer` beside the promise, others beside the kept plan. `broken` is
the share of items that missed their promise by more than a point, `above` of those with a later period above the
largest before. A standard error follows each ±, of items and of blocks of periods as clusters.

The second table says whether an item's own test says something of its next periods: the share of items that miss their
promise by more than a point in the second half of the later periods, of those that did in the first half, and of those
that did not. The third how often each verdict is given on made catalogues: demand that is independent in time, or put
into a random order, has nothing that time could break.
"""
from __future__ import annotations

import datetime
import math
from collections.abc import Callable, Iterable, Mapping, Sequence
from concurrent.futures import ProcessPoolExecutor
from dataclasses import replace
from functools import partial
from pathlib import Path
from typing import Any

import click
import numpy as np
import pandas as pd

from crnplan.plan.backtest.one import Backtest
from crnplan.plan.backtest.estimates import Estimate
from crnplan.plan.backtest.methods import Walk
from crnplan.plan.backtest.sums import SLACK
from planner.studies.kept_plans import VERDICTS, Kept, KeptSums, each_kept
from planner.studies.page import markdown
from planner.studies.real_series import Series, real_series

HOLDING, LEAD, COVER = 1.0, 2, 2
GOALS: dict[str, dict[str, float]] = {
    "95%": {"fill": 0.95},
    "98%": {"fill": 0.98},
    "9 times": {"backlog": 9.0},
    "49 times": {"backlog": 49.0},
}
# The record of a set, what is refitted after, and the window; of all others 52, 13 and 52.
WALKS = {
    "cheese": (26, 4, 26),
    "monthly rotaBB": (52, 12, 52),
    "monthly meningo.age": (52, 12, 52),
}
MANY, STRIDE = 100, 5
SETS = (
    "cases",
    "flu",
    "measles",
    "monthly meningo.age",
    "monthly rotaBB",
    "juice",
    "cheese",
    "tuna",
)
START = datetime.date(2000, 1, 3)  # a Monday
CATALOGUES = {
    "steady": 100,
    "shuffled shift": 100,
    "shift": 20,
    "promotions": 20,
}  # made ones of each kind
ITEMS, MADE_GOAL = 20, "95%"  # of a made catalogue
FOLDER = Path(__file__).parent
REAL, SINGLE, MADE_ONES = (
    FOLDER / f"walk_forward{part}.csv" for part in ("", "_single", "_made")
)


def tables_of(
    series: Sequence[Series], goal: dict[str, float], record: int
) -> tuple[pd.DataFrame, pd.DataFrame]:
    """Returns the movements and the masters of a catalogue."""
    rows = [
        (it.name, START + datetime.timedelta(7 * week), count)
        for it in series
        for week, count in enumerate(it.counts)
    ]
    means = [max(sum(it.counts[:record]) / record, 0.01) for it in series]
    masters = pd.DataFrame(
        {
            "item": [it.name for it in series],
            "setup": [round(HOLDING * mean * COVER**2 / 2, 2) for mean in means],
            "holding": HOLDING,
            "lead (weeks)": LEAD,
            "s": [round((LEAD + 1) * mean) for mean in means],
            "S": [round((LEAD + 1 + COVER) * mean) + 1 for mean in means],
            **goal,
        }
    )
    return pd.DataFrame(rows, columns=["item", "date", "quantity"]), masters


def tested(
    series: Sequence[Series],
    goal: dict[str, float],
    walk: tuple[int, int, int] = (52, 13, 52),
) -> list[Kept]:
    """Returns the tests of series on their past."""
    sales, masters = tables_of(series, goal, walk[0])
    return [*each_kept(sales, masters, Walk(*walk))]


def figures(estimates: Mapping[str, Estimate]) -> dict[str, float]:
    """Returns estimates in percent, each with its error."""
    return {
        name + end: 100 * figure
        for name, its in estimates.items()
        for end, figure in (("", its.value), ("_error", its.error))
    }


def row_of(known: KeptSums) -> dict[str, float | str]:
    """Returns the figures of all items of a set, in percent."""
    sums, parts, above = known
    names = {"planned": "kept", "followed": "refitted", "smoothed": "smoothed"}
    fills = {
        name: replace(sums.unmet[code], value=1 - sums.unmet[code].value)
        for code, name in names.items()
    }
    figured = {
        "missed": parts.missed,
        "shuffled": parts.chance,
        "time": parts.time,
        "dearer": sums.dearer,
        "cost_refitted": sums.beside["followed"],
        "cost_smoothed": sums.beside["smoothed"],
    }
    return {
        "items": sums.items,
        "promised": 100 * sums.promised,
        **figures(fills),
        **figures(figured),
        "broken": 100 * sums.broken / sums.items,
        "above": 100 * above / sums.items,
        "verdict": known.verdict,
    }


def halves(tests: Iterable[Backtest]) -> tuple[list[bool], list[bool]]:
    """Returns whether each item missed its promise by more than a point: in the first half of the later periods, and
    in the second."""
    missed: tuple[list[bool], list[bool]] = [], []
    for test in tests:
        middle = len(test.demands) // 2
        parts = [
            (test.demands[part], test.planned.unmet[part])
            for part in (slice(middle), slice(middle, None))
        ]
        if all(sum(asked) for asked, _ in parts):
            for half, (asked, unmet) in zip(missed, parts):
                half.append(
                    (test.planned.promised_fill or 0) - 1 + sum(unmet) / sum(asked)
                    > SLACK
                )
    return missed


def single_row(tests: Iterable[Kept]) -> dict[str, float]:
    """Returns how often items miss their promise again, and for the first time, in percent."""
    first, second = map(np.array, halves(one.test for one in tests))
    row: dict[str, float] = {}
    for name, chosen in (("again", first), ("first", ~first)):
        count, share = (
            int(chosen.sum()),
            float(second[chosen].mean()) if chosen.any() else 0.0,
        )
        row |= {
            f"{name}_items": count,
            name: 100 * share,
            f"{name}_error": 100 * math.sqrt(share * (1 - share) / max(1, count)),
        }
    return row


def set_rows(job: tuple[str, str]) -> tuple[dict[str, Any], dict[str, Any]]:
    """Returns the rows of a set and a goal: of all items, and of single ones."""
    name, goal = job
    series = real_series()[name]
    taken = series[::STRIDE] if len(series) > MANY else series
    tests = tested(taken, GOALS[goal], WALKS.get(name, (52, 13, 52)))
    keys = {"set": name, "goal": goal}
    return {**keys, **row_of(KeptSums.of(tests))}, {**keys, **single_row(tests)}


def real_study(
    jobs: int, only: Sequence[str] = ()
) -> tuple[pd.DataFrame, pd.DataFrame]:
    """Returns for each set and goal the figures of all items, and what is known of single ones."""
    there = [name for name in real_series() if name in (only or SETS)]
    work = [(name, goal) for name in there for goal in GOALS]
    with ProcessPoolExecutor(jobs) as pool:
        rows, single = zip(*pool.map(set_rows, work))
    return pd.DataFrame(rows), pd.DataFrame(single)


Draw = Callable[[np.random.Generator, int], "np.ndarray[Any, Any]"]


def _steady(random: np.random.Generator, periods: int) -> np.ndarray[Any, Any]:
    """Draws independent demand of a negative binomial law."""
    mean = np.exp(random.uniform(np.log(1), np.log(30)))
    return random.negative_binomial(3, 3 / (3 + mean), periods)


def _shifted(random: np.random.Generator, periods: int) -> np.ndarray[Any, Any]:
    """Draws demand whose level grows by half, after two thirds of the periods."""
    counts = _steady(random, periods)
    last = periods // 3
    counts[-last:] += random.binomial(counts[-last:], 0.5)
    return counts


def _promoted(random: np.random.Generator, periods: int) -> np.ndarray[Any, Any]:
    """Draws demand that is ten times the usual in one period of fifty, by chance."""
    return _steady(random, periods) * np.where(random.random(periods) < 0.02, 10, 1)


def _shuffled(random: np.random.Generator, periods: int) -> np.ndarray[Any, Any]:
    """Draws shifted demand, and puts it into a random order."""
    return random.permutation(_shifted(random, periods))


MADE: dict[str, Draw] = {
    "steady": _steady,
    "shuffled shift": _shuffled,
    "shift": _shifted,
    "promotions": _promoted,
}


def made_verdict(
    kind: str, number: int, items: int = ITEMS, periods: int = 104, seed: int = 1
) -> str:
    """Returns the verdict on a made catalogue of a kind."""
    random = np.random.default_rng([[*MADE].index(kind), seed, number])
    series = [
        Series(f"{kind} {number} {place}", tuple(MADE[kind](random, periods).tolist()))
        for place in range(items)
    ]
    return KeptSums.of(tested(series, GOALS[MADE_GOAL])).verdict


def made_study(jobs: int, catalogues: Mapping[str, int]) -> pd.DataFrame:
    """Returns on how many made catalogues each verdict is given, by kind."""
    with ProcessPoolExecutor(jobs) as pool:
        given = {
            kind: [*pool.map(partial(made_verdict, kind), range(count))]
            for kind, count in catalogues.items()
        }
    counts = {
        kind: {word: verdicts.count(word) for word in VERDICTS}
        for kind, verdicts in given.items()
    }
    return pd.DataFrame(
        [
            {"kind": kind, "catalogues": catalogues[kind], **row}
            for kind, row in counts.items()
        ]
    )


def shown(
    row: Mapping[str, Any], names: Iterable[str], sign: str = ""
) -> dict[str, str]:
    """Returns figures of a row as texts, with their errors."""
    return {
        name.replace("_", " "): f"{row[name]:{sign}.1f} ± {row[f'{name}_error']:.1f}"
        for name in names
    }


def tables() -> dict[str, str]:
    """Returns the stored figures for the page: of real series, of single items, and of made catalogues."""
    rows, single, made = (
        pd.read_csv(stored).to_dict("records") for stored in (REAL, SINGLE, MADE_ONES)
    )
    fills = [
        {
            "set": row["set"],
            "goal": row["goal"],
            "items": row["items"],
            "promised": f"{row['promised']:.1f}",
            **shown(
                row, ("kept", "refitted", "smoothed", "missed", "shuffled", "time")
            ),
            "verdict": row["verdict"],
        }
        for row in rows
    ]
    costs = [
        {
            "set": row["set"],
            "goal": row["goal"],
            **shown(row, ("dearer", "cost_refitted", "cost_smoothed"), "+"),
            "broken": f"{row['broken']:.0f}",
            "above": f"{row['above']:.0f}",
        }
        for row in rows
    ]
    again = [
        {
            "set": row["set"],
            "goal": row["goal"],
            **{
                words: f"{row[name]:.0f} ± {row[f'{name}_error']:.0f} of {row[f'{name}_items']}"
                for name, words in (
                    ("again", "missed before"),
                    ("first", "kept before"),
                )
            },
        }
        for row in single
    ]
    verdicts = [
        {
            "kind": row["kind"],
            "catalogues": row["catalogues"],
            **{
                word: f"{100 * share:.1f} ± {100 * math.sqrt(share * (1 - share) / row['catalogues']):.1f}"
                for word in VERDICTS
                for share in [row[word] / row["catalogues"]]
            },
        }
        for row in made
    ]
    return {
        name: markdown(pd.DataFrame(lines))
        for name, lines in (
            ("real-fills", fills),
            ("real-costs", costs),
            ("real-single", again),
            ("made-verdicts", verdicts),
        )
    }


@click.command()
@click.argument("sets", nargs=-1)
@click.option(
    "--small", is_flag=True, help="Run a small part: one made catalogue of each kind."
)
@click.option(
    "--made/--no-made", default=True, help="With or without the made catalogues."
)
@click.option("--jobs", type=click.IntRange(1), default=1, show_default=True)
@click.option(
    "--out",
    type=click.Path(file_okay=False, path_type=Path),
    help="Write the tables as CSV to this folder.",
)
def main(
    sets: Sequence[str], small: bool, made: bool, jobs: int, out: Path | None
) -> None:
    """Test plans on real series, all or some SETS, and on made catalogues."""
    if not small and not real_series():
        raise click.ClickException(
            "the real series need R with the packages surveillance and bayesm"
        )
    found = {} if small else dict(zip((REAL.name, SINGLE.name), real_study(jobs, sets)))
    if made:
        found[MADE_ONES.name] = made_study(
            jobs, dict.fromkeys(MADE, 1) if small else CATALOGUES
        )
    for name, table in found.items():
        if out:
            table.to_csv(out / name, index=False, float_format="%.4f")
        click.echo(table.round(2).to_string(index=False))


if __name__ == "__main__":
    main()
