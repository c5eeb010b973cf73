"""Measures the search of crnplan beside the algorithm of Zheng and Federgruen, on the items of a made catalogue.

Compared are the items with one lead time, a backlog cost and no returns; the published algorithm can't plan others.
Both get the same whole law of demand, that of the plan. If crnplan counts demand in steps, its policy may be dearer.
The inner loops of both are compiled.
"""
from __future__ import annotations

import contextlib
import dataclasses
import time
from collections.abc import Callable, Iterator, Sequence
from pathlib import Path
from typing import Any, NamedTuple, TypeVar

import numpy as np
import pandas as pd

from crnplan.plan.catalogue import ANSWERS
from crnplan.plan.learned import learned_of
from crnplan.plan.how import ALL, Settings
from crnplan.plan.question import Question, question_of
from crnplan.read.items import Reading
from crnplan.read.catalogue_reading import CATALOGUE, Catalogued, read_alone
from crnplan.read.item import Item
from crnplan.plan.answer import Answer
from crnplan.store.stored import Store
from crnplan.store.jobs import processes
from crnplan.demand.learning import Prior
from crnplan.store.files import own_folder
from crnplan.law import Law
from planner.bench.made import make
from planner.bench.zheng_federgruen import Floats, Search

BATCH = 8
WARM = list[int]()  # has an entry for each call of this process that was not timed
SETTINGS = Settings(borrow=ALL)
SEARCHES = ("crnplan", "published")
Result = TypeVar("Result")


class Compared(NamedTuple):
    """An item that both have planned: its kind, the step in which demand is counted, milliseconds of processor time,
    by which share crnplan's policy is dearer, whether the published s is below 0, and whether the policies differ.
    """

    kind: str
    step: int
    crnplan: float
    published: float
    dearer: float
    is_below: bool
    is_other: bool


def timed(function: Callable[[], Result]) -> tuple[float, Result]:
    """Returns the milliseconds of processor time that a function takes, and what it returns."""
    start = time.process_time()
    result = function()
    return 1000 * (time.process_time() - start), result


def chances_of(table: Law) -> Floats:
    """Returns the chances of 0, 1, 2 and so on."""
    chances = np.zeros(max(table.values) + 1)
    chances[list(table.values)] = table.weights
    total: Floats = chances / chances.sum()
    return total


def compared(question: Question, kind: str) -> Compared:
    """Plans an item by both."""
    rates, lead = question.rates, max(question.lead.table.values)

    def search() -> tuple[Search, tuple[int, int]]:
        """Returns the published search and its best policy, with crnsim's s."""
        its = Search(
            chances_of(question.demand.table),
            lead,
            rates["setup"],
            rates["holding"],
            rates["backlog"],
        )
        best = its.best()
        return its, (best.reorder + 1, best.level)

    def plan() -> tuple[int, tuple[int, int]]:
        """Returns the step of crnplan's theory, and its best policy."""
        theory = question.theory
        best = theory.best()
        return theory.step, (best.point, best.level)

    ours, (step, policy) = timed(plan)
    theirs, (published, other) = timed(search)
    costs = [published.cost(point - 1, level) for point, level in (policy, other)]
    return Compared(
        kind, step, ours, theirs, costs[0] / costs[1] - 1, other[0] < 0, policy != other
    )


def is_comparable(question: Question) -> bool:
    """Returns whether the published algorithm can plan an item."""
    leads = [
        value
        for value, weight in zip(
            question.lead.table.values, question.lead.table.weights
        )
        if weight
    ]
    return question.has_backlog and question.returns is None and len(leads) == 1


def compared_batch(batch: Sequence[Item], prior: Prior) -> list[Compared]:
    """Compares both on those of some items that both can plan. Before the first item of a process the loops of both are
    loaded, or compiled."""
    questions = [question_of(item, SETTINGS, prior) for item in batch]
    asked = [question for question in questions if is_comparable(question)]
    if asked and not WARM:
        compared(dataclasses.replace(asked[0]), "")
        WARM.append(1)
    return [compared(question, question.item.group) for question in asked]


def batches_of(
    read: Catalogued, prior: Prior
) -> Iterator[tuple[int, tuple[list[Item], Prior]]]:
    """Yields items, some at a time, with the place of the first."""
    items = [*read.items()]
    for start in range(0, len(items), BATCH):
        yield start, (items[start : start + BATCH], prior)


def compare(folder: Path, items: int, jobs: int) -> list[Compared]:
    """Makes a catalogue in a folder, and compares both on all items that can be compared."""
    made, plan = make(folder / "files", items), folder / "plan"
    path = read_alone(plan, made.paths, Reading(), jobs)
    with (
        own_folder(plan, CATALOGUE) as own,
        contextlib.closing(Catalogued(path)) as read,
        contextlib.closing(Store(own.store(ANSWERS), Answer)) as answers,
        processes(jobs) as workers,
    ):
        prior = learned_of(answers, read, SETTINGS, False).prior
        return [
            it
            for _, its in workers.answers(compared_batch, batches_of(read, prior))
            for it in its
        ]


def figures_of(name: str, its: pd.DataFrame) -> dict[str, Any]:
    """Returns the figures of some items. Costs are compared if both may choose any s, which crnplan's is at least 0."""
    inside = its[~its["is_below"]]
    figures = {
        "which": name,
        "items": len(its),
        "below": int(its["is_below"].sum()),
        "other": int(inside["is_other"].sum()),
        "most_dearer": float(inside["dearer"].abs().max()),
    }
    for search in SEARCHES:
        times = its[search]
        figures |= {
            f"{search}_mean": float(times.mean()),
            f"{search}_50": float(times.quantile(0.5)),
            f"{search}_99": float(times.quantile(0.99)),
        }
    return {
        key: float(f"{value:.4g}") if isinstance(value, float) else value
        for key, value in figures.items()
    }


def all_figures(rows: Sequence[Compared]) -> list[dict[str, Any]]:
    """Returns the figures of all items: by kind, by how demand is counted, and of all."""
    its = pd.DataFrame(rows)
    parts = {
        **{f"{kind}": part for kind, part in its.groupby("kind")},
        "counted one by one": its[its["step"] == 1],
        "counted in steps": its[its["step"] > 1],
        "all": its,
    }
    return [figures_of(name, part) for name, part in parts.items() if len(part)]
