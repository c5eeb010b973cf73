"""Measures what items gain, and which lose, if they learn their law of demand from a catalogue.

    python -m planner.studies.borrowing --out planner/studies    all, in about half an hour
    python -m planner.studies.borrowing --small                  a small part, in some seconds

Of each kind, two catalogues of 600 items are made (`made_catalogues.py`), each item with its own law and a history of
26, 52 or 104 periods. All of a catalogue is learned from. Its first 100 items with at least two periods with demand are
judged (60 if there are 104 periods): each method fits a law, and for each of six settings (lead time 2 and 6; backlog
9, 19 and 99 times holding; an order for 8 periods of demand) the best policy under it is found. Its regret is its exact
long-run cost under the true law over the least possible, less 1, in the mean over settings. Figures are means over
items, in percent or in points of it. Standard errors are over items, paired for differences. They do not hold all of
the doubt about which catalogues were made.

The methods are `empirical`, `predictive` and `auto` of `fit_demand`, each for one item alone; `borrowed`, from the
whole catalogue; and `class`, from the item's class. An item is intermittent if there are more than 1.32 periods between
two demands in the mean (Syntetos, Boylan and Croston, On the categorization of demand patterns, 2005).

A second part puts one odd item into a catalogue of 600 that are all but alike. Seeds are fixed.
"""
from __future__ import annotations

import itertools
import math
from collections.abc import Callable, Iterable, Iterator
from concurrent.futures import ProcessPoolExecutor
from functools import partial
from pathlib import Path
from typing import Any, NamedTuple, TypeVar

import click
import numpy as np
import pandas as pd
from tqdm import tqdm

from crnplan.chances import Floats, in_items
from crnplan.demand.fitted import Borrowed, FittedLaw
from crnplan.demand.borrowing import fit_demand
from crnplan.demand.borrowing import law_of
from crnplan.demand.learning import Prior, learn
from crnplan.demand.families import predictive_of
from crnplan.demand.sample import Sample
from crnplan.law import Law
from planner.studies.laws import COVERS, Choice, LongRuns
from planner.studies.made_catalogues import (
    DESIGNED,
    UNSEEN,
    catalogue,
    drawn,
    hurdle,
    negative_binomial,
)
from planner.studies.page import markdown

Found = TypeVar("Found")

KINDS = (*DESIGNED, *UNSEEN)
SEEDS = (1, 2)  # of the catalogues of a kind
ITEMS, HISTORIES = 600, 40  # of a catalogue; of an odd item
JUDGED = {26: 100, 52: 100, 104: 60}  # items of a catalogue, by periods
MANY_COVERS = COVERS.index(8)
MOST_INTERVAL = 1.32  # periods between demands, beyond which demand is intermittent
METHODS = ("empirical", "predictive", "auto", "borrowed", "class")
BANDS = {
    "2 or 3": (2, 3),
    "4 to 7": (4, 7),
    "8 to 15": (8, 15),
    "16 or more": (16, 10**6),
}  # of periods with demand
FOLDER = Path(__file__).parent
STORED, STORED_ODD = FOLDER / "borrowing.csv", FOLDER / "borrowing_odd.csv"
FIGURES = "regret", "over"
# The small parts of `study` and `odd_study`.
SMALL: dict[str, Any] = {
    "kinds": ("intermittent", "shop"),
    "periods": (26,),
    "most": 6,
    "seeds": SEEDS[:1],
}
SMALL_ODD: dict[str, Any] = {
    "names": ("large sizes",),
    "periods": (52,),
    "histories": 4,
}
# The laws of an odd item in a catalogue of demand in 15% of periods with geometric sizes of mean 5.
ODD: dict[str, Floats] = {
    "one of them": hurdle(0.15, negative_binomial(4, 1)),
    "large sizes": hurdle(0.15, negative_binomial(29, 1)),
    "larger sizes": hurdle(0.15, negative_binomial(11, 1)),
    "small sizes": hurdle(0.15, negative_binomial(0.3, 1)),
    "always 2": np.array([0.85, 0.0, 0.15]),
    "in most periods": hurdle(0.7, negative_binomial(4, 1)),
}


class Judgement(NamedTuple):
    """What is found of an item: its regrets by method, and what is known of it."""

    regrets: dict[str, float]
    demands: int
    intermittent: bool
    cost: float
    known: Borrowed


class Truth:
    """A true law with its best policies, and the costs of all others."""

    def __init__(self, law: Floats) -> None:
        """Finds the best policies in a table that is large enough for them."""
        self.law, self.mean = law, float(law @ np.arange(len(law)))
        self.orders = self.mean * np.array(COVERS) ** 2 / 2
        size = int(12 * self.mean + 60), int(25 * self.mean + 2 * len(law) + 100)
        self.best = self.best_of(law, *size)
        self.gap, self.level = max(it.gap for it in self.best), max(
            it.level for it in self.best
        )
        self.runs = LongRuns(law, 8 * self.gap + 400, 4 * self.level + 600)

    def best_of(self, law: Floats, gaps: int, levels: int) -> list[Choice]:
        """Returns the best policy of each setting under a law. The table grows until none is at its end."""
        while True:
            choices = LongRuns(law, gaps, levels).best(self.orders)[
                MANY_COVERS :: len(COVERS)
            ]
            if all(it.gap < gaps - 1 and it.level < levels - 1 for it in choices):
                return choices
            gaps, levels = 2 * gaps, 2 * levels

    def regret(self, law: FittedLaw) -> float:
        """Returns the mean regret of the policies that are best under a law, in percent."""
        chances = np.zeros(law.values[-1] + 1)
        chances[[*law.values]] = law.weights
        choices = self.best_of(
            chances / chances.sum(), 2 * self.gap + 60, 3 * self.level + 120
        )
        gap, level = max(it.gap for it in choices), max(it.level for it in choices)
        if gap >= len(self.runs.lows) or level >= self.runs.costs.shape[1]:
            self.runs = LongRuns(self.law, 2 * gap, 2 * level)
        costs = (
            self.runs.cost(
                MANY_COVERS + at * len(COVERS),
                self.orders[MANY_COVERS],
                it.gap,
                it.level,
            )
            for at, it in enumerate(choices)
        )
        return 100 * float(
            np.mean([cost / it.cost - 1 for cost, it in zip(costs, self.best)])
        )


def predictive_law(single: FittedLaw, history: list[int]) -> FittedLaw:
    """Returns the law of `fit_demand(method="predictive")`, from that of `auto`, which looks at the same families."""
    if single.family == "empirical":
        return single
    sample = Sample.of(history)
    law = in_items(predictive_of(single.family, sample.packs), sample.pack)
    return FittedLaw.made(Law.of_chances(law), single.family, single.diagnostics)


def judged(
    law: Floats,
    history: list[int],
    prior: Prior,
    by_class: Prior | None,
    item_class: str,
) -> Judgement:
    """Returns the regrets of all methods for an item."""
    truth, borrowed = Truth(law), law_of(prior, history)
    known: Borrowed = borrowed.diagnostics.borrowed
    single = fit_demand(history)
    laws = {
        "empirical": fit_demand(history, method="empirical"),
        "predictive": predictive_law(single, history),
        "auto": single,
        "borrowed": borrowed,
    }
    if by_class:
        laws["class"] = law_of(by_class, history, item_class)
    return Judgement(
        {name: truth.regret(it) for name, it in laws.items()},
        known.demands,
        1 / (1 - float(law[0])) > MOST_INTERVAL,
        truth.best[1].cost,
        known,
    )


def judgements(kind: str, periods: int, most: int, seed: int) -> list[Judgement]:
    """Returns what is found of the first items of a catalogue that have two demands. Classes are used if there are
    some."""
    made = catalogue(kind, ITEMS, periods, seed)
    prior, classes = learn(made.histories), [it.item_class for it in made.items]
    by_class = learn(made.histories, classes, "class") if len({*classes}) > 1 else None
    several = (
        place for place, it in enumerate(made.histories) if np.count_nonzero(it) > 1
    )
    return [
        judged(
            made.items[place].law,
            made.histories[place],
            prior,
            by_class,
            made.items[place].item_class,
        )
        for place, _ in zip(several, range(most))
    ]


def paired(regrets: Floats, others: Floats) -> tuple[float, float, float, float]:
    """Returns the mean difference of regrets and that of their ratio of means, each with its standard error.

    The error of the ratio is that of Cochran, Sampling Techniques, third edition, section 2.11.
    """
    count, difference = math.sqrt(len(regrets)), regrets - others
    ratio = regrets.mean() / others.mean()
    return (
        float(difference.mean()),
        float(difference.std(ddof=1) / count),
        float(ratio),
        float((regrets - ratio * others).std(ddof=1) / others.mean() / count),
    )


def rows_of(
    found: list[Judgement], chosen: Iterable[bool], **keys: Any
) -> Iterator[dict[str, Any]]:
    """Yields a row for each method with its figures over the chosen items; none if these are fewer than two."""
    its = [it for it, is_chosen in zip(found, chosen) if is_chosen]
    for method in its[0].regrets if len(its) > 1 else ():
        regrets, auto, predictive = (
            np.array([it.regrets[name] for it in its])
            for name in (method, "auto", "predictive")
        )
        over, over_error, _, _ = paired(regrets, auto)
        _, _, ratio, ratio_error = paired(regrets, predictive)
        yield {
            **keys,
            "method": method,
            "count": len(its),
            "regret": regrets.mean(),
            "regret_error": regrets.std(ddof=1) / math.sqrt(len(its)),
            "over": over,
            "over_error": over_error,
            "ratio": ratio,
            "ratio_error": ratio_error,
            "worse": 100 * np.mean(regrets - auto > 10),
            "alone": 100 * np.mean([bool(it.known.alone) for it in its]),
            "unlike": 100 * np.mean([it.known.unlike for it in its]),
        }


def parts(found: list[Judgement]) -> dict[str, list[bool]]:
    """Returns which items are in each part of a catalogue."""
    cheap = np.quantile([it.cost for it in found], 0.1)
    bands = {
        name: [low <= it.demands <= high for it in found]
        for name, (low, high) in BANDS.items()
    }
    return {
        "all": [True] * len(found),
        "intermittent": [it.intermittent for it in found],
        "cheapest tenth": [bool(it.cost <= cheap) for it in found],
        **bands,
    }


def without_class(found: Judgement) -> Judgement:
    """Returns a judgement of the methods that all kinds of catalogues have."""
    return found._replace(
        regrets={name: its for name, its in found.regrets.items() if name != "class"}
    )


def mapped(
    work: Callable[..., Found], cells: list[tuple[Any, ...]], jobs: int
) -> list[Found]:
    """Returns what a function finds of each cell, in their order whatever the number of jobs."""
    with ProcessPoolExecutor(jobs) as pool:
        return [*tqdm(pool.map(work, *zip(*cells)), total=len(cells), disable=None)]


def study(
    kinds: Iterable[str],
    periods: Iterable[int],
    most: int | None = None,
    seeds: Iterable[int] = SEEDS,
    jobs: int = 1,
) -> pd.DataFrame:
    """Returns the figures of each kind of catalogue, and of parts of all designed and of all unseen ones."""
    rows: list[dict[str, Any]] = []
    groups: dict[tuple[str, int], list[Judgement]] = {}
    cells = [
        (kind, count, most or JUDGED[count], seed)
        for kind, count, seed in itertools.product(kinds, periods, seeds)
    ]
    its: dict[tuple[str, int], list[Judgement]] = {}
    for (kind, count, *_), found in zip(cells, mapped(judgements, cells, jobs)):
        its.setdefault((kind, count), []).extend(found)
    for (kind, count), found in its.items():
        groups.setdefault(
            ("all designed" if kind in DESIGNED else "all unseen", count), []
        ).extend(map(without_class, found))
        for part in ("all", "intermittent"):
            rows.extend(
                rows_of(found, parts(found)[part], kind=kind, periods=count, part=part)
            )
    for (group, count), found in groups.items():
        for part, chosen in parts(found).items():
            rows.extend(rows_of(found, chosen, kind=group, periods=count, part=part))
    return pd.DataFrame(rows)


def odd_judgement(
    law: Floats, others: list[list[int]], random: np.random.Generator
) -> Judgement:
    """Returns what is found of an item of a law that is learned from with others."""
    while True:
        history = drawn(law, len(others[0]), random)
        if np.count_nonzero(history) > 1:
            return judged(law, history, learn([*others, history]), None, "")


def odd_judgements(name: str, periods: int, histories: int) -> list[Judgement]:
    """Returns what is found of an odd item, for so many of its histories."""
    others = catalogue("alike", ITEMS, periods, SEEDS[0]).histories
    random = np.random.default_rng([[*ODD].index(name), periods])
    return [odd_judgement(ODD[name], others, random) for _ in range(histories)]


def odd_study(
    names: Iterable[str],
    periods: Iterable[int],
    histories: int = HISTORIES,
    jobs: int = 1,
) -> pd.DataFrame:
    """Returns the figures of odd items in a catalogue of items that are all but alike."""
    cells = [
        (name, count, histories) for name, count in itertools.product(names, periods)
    ]
    found = zip(cells, mapped(odd_judgements, cells, jobs))
    return pd.DataFrame(
        [
            row
            for (name, count, _), its in found
            for row in rows_of(its, [True] * histories, item=name, periods=count)
        ]
    )


def with_error(row: pd.Series, name: str, form: str = ".1f") -> str:
    """Returns a figure with its standard error."""
    return f"{row[name]:{form}} ± {row[f'{name}_error']:{form.removeprefix('+')}}"


def figures(its: pd.DataFrame, methods: Iterable[str]) -> dict[str, str]:
    """Returns the figures of a line: regrets by method, and what the borrowed law has over others."""
    by_method = its.set_index("method")
    ours = by_method.loc["borrowed"]
    regrets = {
        name: with_error(by_method.loc[name], "regret")
        if name in by_method.index
        else "-"
        for name in methods
    }
    return {
        "items": str(ours["count"]),
        **regrets,
        "borrowed less auto, points": with_error(ours, "over", "+.1f"),
        "borrowed over predictive": with_error(ours, "ratio", ".2f"),
        "10 points worse than auto, %": f"{ours['worse']:.0f}",
        "alone, %": f"{ours['alone']:.0f}",
        "flagged unlike, %": f"{ours['unlike']:.0f}",
    }


def lines_of(rows: pd.DataFrame, keys: list[str], methods: Iterable[str]) -> str:
    """Returns a table with a line for each of the keys."""
    groups = rows.groupby(keys, sort=False)
    lines = [{**dict(zip(keys, key)), **figures(its, methods)} for key, its in groups]
    return markdown(pd.DataFrame(lines))


def tables() -> dict[str, str]:
    """Returns the stored figures for the page: by kind of catalogue, by part, and of odd items."""
    rows, odd = pd.read_csv(STORED), pd.read_csv(STORED_ODD)
    of_group, whole = (
        rows["kind"].isin(["all designed", "all unseen"]),
        rows["part"] == "all",
    )
    return {
        "borrowing": lines_of(rows[whole & ~of_group], ["kind", "periods"], METHODS),
        "borrowing-parts": lines_of(
            rows[~whole & (rows["periods"] == 52)], ["kind", "part"], METHODS[:-1]
        ),
        "borrowing-odd": lines_of(odd, ["item", "periods"], METHODS[:-1]),
    }


@click.command()
@click.option("--small", is_flag=True, help="Run a small part.")
@click.option("--jobs", type=click.IntRange(1), default=1, show_default=True)
@click.option(
    "--kind",
    "kinds",
    type=click.Choice(KINDS),
    multiple=True,
    help="A kind of catalogue; without it all.",
)
@click.option("--odd/--no-odd", default=True, help="With or without the odd items.")
@click.option(
    "--out",
    type=click.Path(file_okay=False, path_type=Path),
    help="Write the rows as CSV to this folder.",
)
def main(
    small: bool, jobs: int, kinds: tuple[str, ...], odd: bool, out: Path | None
) -> None:
    """Measure what items gain and lose that learn from a catalogue."""
    parts: dict[str, Callable[..., pd.DataFrame]] = {
        STORED.name: partial(
            study, **(SMALL if small else {"kinds": kinds or KINDS, "periods": JUDGED})
        )
    }
    if odd:
        parts[STORED_ODD.name] = (
            partial(odd_study, **SMALL_ODD) if small else partial(odd_study, ODD, [52])
        )
    for name, part in parts.items():
        rows = part(jobs=jobs)
        if out:
            rows.to_csv(out / name, index=False, float_format="%.3f")
        click.echo(rows.round(2).to_string(index=False) + "\n")


if __name__ == "__main__":
    main()
