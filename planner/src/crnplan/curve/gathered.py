"""Keeps the candidates of a planned folder, and sends questions on the exchange curve to parts of these.

Workers compute candidates, perhaps on a cluster. Questions are answered where the folder is: in this process if there
are few items, else in others of this machine.
"""
from __future__ import annotations

import contextlib
import functools
import itertools
from collections.abc import Callable, Iterable, Iterator
from dataclasses import dataclass
from pathlib import Path
from typing import Any, NamedTuple

import numpy as np

from ..chances import Floats
from ..compiled import load_compiler
from ..store.digests import digest_of
from ..errors import Refused
from ..store.files import IN_KEPT, Folder
from ..store.jobs import Workers, batched
from ..store.means import Means
from ..plan.answer import CHOSEN, TODAY, Answer
from ..plan.catalogue import PlannedFolder
from ..plan.one import or_fault
from ..plan.how import Settings
from ..plan.question import terms_of
from ..read.item import Item
from ..remarks import Remark
from ..store.stored import NamedDigest, Store
from ..sentences import advice, sentence
from ..store.work import Known, Work
from .candidates import VERSION, Candidates, candidates_of
from .exchange import Items
from .parts import AS_IS, Dearer, Hulls, CurvePart, Point

# The candidates, and what is made of those of a part.
CANDIDATES, HULLS = f"{IN_KEPT}curve.sqlite", f"{IN_KEPT}hulls.sqlite"
# Codes of remarks on items that are not on the curve.
NO_PRICE, NO_PLAN = "no price", "not planned"
# Items of a part, and parts that a process keeps in memory. So many are looked at in this process alone.
MOST_ITEMS, MOST_PARTS = 256, 16
AHEAD = 4  # parts that are sent to a worker at a time


@dataclass(frozen=True)
class OnCurve:
    """An item on the curve: its price, whether it has a policy today, its candidates, and of a period stock, demand
    that is not met at once, and orders, of today's policy (or the chosen one if it has none) and of the chosen one.
    """

    price: float
    has_today: bool
    now: tuple[tuple[float, ...], ...]
    candidates: Candidates


def on_curve(item: Item, answer: Answer, settings: Settings) -> OnCurve:
    """Returns an item on the curve. Raises Refused if it has no theory."""
    candidates = candidates_of(terms_of(item, answer.laws, settings))
    now = tuple(
        (figures.stock, candidates.demand * (1 - figures.fill), figures.orders)
        for figures in (answer.today or answer.chosen, answer.chosen)
    )
    return OnCurve(float(item.price or 0), item.levels is not None, now, candidates)


def questions_of(planned: PlannedFolder) -> Iterator[NamedDigest]:
    """Yields the items of a planned folder, each with the digest of all that its candidates depend on."""
    prices = planned.read.cells("price")
    for (name, digest), (price,) in zip(
        planned.read.digests(planned.planned.common), prices, strict=True
    ):
        is_planned = planned.store.digest_for(name) == digest
        yield name, digest_of(digest if is_planned else NO_PLAN, VERSION, price)


def asked_of(planned: PlannedFolder, name: str) -> tuple[Item, Answer] | Known:
    """Returns an item with its answer, or why it can't be on the curve."""
    item = planned.read.item(name)
    assert item is not None
    answer = planned.store.found(
        name, planned.read.digest(name, planned.planned.common)
    )
    if answer is None:
        return Known(Remark(NO_PLAN))
    if isinstance(answer, Remark):
        return Known(answer)
    if item.price and item.price > 0:
        return item, answer
    return Known(Remark(NO_PRICE))


class Names(NamedTuple):
    """The items of a part: from one name to another, and the digest of all that they depend on."""

    first: str
    last: str
    digest: str


@dataclass(frozen=True)
class Held:
    """What is needed of a part in each round: its names, its demand, the figures of now, and its hulls."""

    names: tuple[str, ...]
    demand: Floats
    now: Floats
    hulls: Hulls


class KeptPart(CurvePart):
    """The part of the items of some names. What is needed in each round is kept."""

    def __init__(self, folder: Path, names: Names) -> None:
        self._folder, self._part = folder, names
        held = self._held(AS_IS)
        super().__init__(held.names, held.demand, held.now, lambda: self._whole.rows)
        self._known[AS_IS] = held.hulls

    @functools.cached_property
    def _whole(self) -> CurvePart:
        """Returns the part with its candidates. Raises Damaged."""
        items, (first, last, _) = (
            list[tuple[str, float, Candidates, Floats]](),
            self._part,
        )
        with Store(self._folder / CANDIDATES, OnCurve, is_known=True) as kept:
            for name, _, answer in kept.answers(first, last):
                if isinstance(answer, OnCurve):
                    now = np.array(answer.now)
                    items.append((name, answer.price, answer.candidates, now))
        return CurvePart.of(items)

    def _hulls(self, dearer: Dearer) -> Hulls:
        return self._held(dearer).hulls

    def _held(self, dearer: Dearer) -> Held:
        """Returns what is kept of the part at some costs. If there is nothing, it is made and kept."""
        name, digest = held_as(self._part, dearer)
        with Store(self._folder / HULLS, Held, is_known=True) as kept:
            held = kept.found(name, digest)
            if not isinstance(held, Held):
                part = self._whole
                held = Held(
                    part.names, part.demand, part.now, Hulls.of(part.rows, dearer)
                )
                kept.replace(name, digest, held)
        return held


def held_as(names: Names, dearer: Dearer = AS_IS) -> NamedDigest:
    """Returns under which name, and with which digest, it is kept what is needed of a part: at costs as they are, or at
    the last other ones."""
    return f"{names.first} {dearer == AS_IS}", digest_of(*names, *dearer)


part_of = functools.lru_cache(MOST_PARTS)(KeptPart)


def ask_part(
    folder: Path, names: Names, function: Callable[..., Any], *words: Any
) -> Any:
    """Returns what a function returns for the part of some names, and further words."""
    return function(part_of(folder, names), *words)


class CurveParts:
    """The items of a folder in parts. Workers are asked while there are any, else this process."""

    def __init__(self, folder: Path, kept: Store[OnCurve]) -> None:
        self.folder, self.workers = folder, Workers()
        self.out = self.without_today = 0
        self.parts = list[Names]()
        for some in batched(self._on_curve(kept), MOST_ITEMS):
            self.parts.append(Names(some[0][0], some[-1][0], digest_of(*some)))

    def _on_curve(self, kept: Store[OnCurve]) -> Iterator[NamedDigest]:
        """Yields the items on the curve, each with what it depends on, and counts others and those without a policy
        today."""
        states = zip(kept.digests(), kept.cells("has_today"), strict=True)
        for question, (_, fault, has_today) in states:
            if fault:
                self.out += 1
                continue
            self.without_today += not has_today
            yield question

    def __call__(
        self, function: Callable[..., Any], *columns: Iterable[Any]
    ) -> Iterator[Any]:
        """Yields what a function returns for each part, with words from further columns, in order."""
        words = zip(
            itertools.repeat(self.folder),
            self.parts,
            itertools.repeat(function),
            *columns,
        )
        return self.workers.in_order(ask_part, words, AHEAD)

    def left_out(self) -> Iterator[tuple[str, Remark]]:
        """Yields the items that are left out, and why, in order."""
        with Store(self.folder / CANDIDATES, OnCurve, is_known=True) as kept:
            for name, fault, _ in kept.cells("fault"):
                if fault:
                    yield name, fault


@dataclass
class Gathered:
    """The items of a planned folder that are on the curve, and those that are left out.

    `points` has today's policies, or the chosen one of an item that has none, and those chosen item by item. `new`
    counts the items whose candidates were computed now.
    """

    folder: PlannedFolder
    parts: CurveParts
    items: Items
    points: dict[str, Point]
    new: int


@contextlib.contextmanager
def gather(own: Folder, folder: PlannedFolder, means: Means) -> Iterator[Gathered]:
    """Computes the candidates of a planned folder that are not kept yet, and gives all. Raises Refused if no item can
    be on the curve."""
    with (
        Store(own.store(CANDIDATES), OnCurve) as kept,
        Store(own.store(HULLS), Held) as hulls,
    ):
        work = Work(
            kept,
            lambda: questions_of(folder),
            lambda name: asked_of(folder, name),
            or_fault,
            (on_curve, folder.settings),
            load=load_compiler,
        )
        work.finish(means.workers(), shown=means.shown)
        parts = CurveParts(folder.path.resolve(), kept)
        if not parts.parts:
            raise no_item(folder, parts)
        hulls.renew()
        hulls.finish(map(held_as, parts.parts), {})
        # Both stay open: whoever closes a file of SQLite last tidies it up, which takes as long as many questions.
        jobs = means.jobs if len(parts.parts) > MOST_PARTS else 1
        with Means(jobs).workers() as workers:
            parts.workers = workers
            items = Items(parts)
            yield Gathered(
                folder, parts, items, dict(zip((TODAY, CHOSEN), items.now)), work.now
            )
            parts.workers = Workers()


def no_item(folder: PlannedFolder, parts: CurveParts) -> Refused:
    """Returns why no item is on the curve."""
    if not parts.out:
        return Refused(
            f"{folder.path}: no item can be on the curve: no item is in the plan"
        )
    name, remark = next(parts.left_out())
    return Refused(
        f"{folder.path}: no item can be on the curve: {parts.out:,} items are left out; the first, {name}: "
        f"{sentence(remark)}",
        advice(remark),
    )
