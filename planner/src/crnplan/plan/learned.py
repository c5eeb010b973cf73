"""Draws the histories of a catalogue by which its items learn from one another, and keeps what was learned."""
from __future__ import annotations

import json
from collections import Counter, defaultdict
from collections.abc import Callable, Iterable, Iterator
from dataclasses import asdict
from typing import Any, NamedTuple, TypeVar, cast

import numpy as np

from ..demand import AUTO
from ..demand.seasons import PARTS_OF_YEAR, YEARS, Calendar
from ..demand.learning import LEAST_ITEMS, LEAST_ON_REQUEST, MOST_PULLED, Prior, learn
from ..store.digests import sha256
from ..errors import Refused
from ..read.catalogue_reading import Catalogued
from ..read.item import NO_DEMAND, STATED, TEACHING, Item
from ..remarks import Remark
from ..store.stored import Store
from ..store.trees import value_of
from .drawn import keep_greatest
from .following import Following
from .how import ALL, CLASS, NONE, Settings, without_season
from .seasons import Seasons, whole_years

# Facts beside answers: what was learned, and without which seasons laws were.
PRIOR, PRIOR_SEASONS, SEASONS = "prior", "seasons of prior", "seasons"
FOLLOWING = "following"
# Items whose histories are looked at for the law of a whole catalogue (it is estimated on 3,000 of them), and for those
# of all classes together, unless these are so many that few items of each are left.
MOST_READ, MOST_OF_CLASSES = 10_000, 30_000
Thing = TypeVar("Thing")  # that is learned


class Learned(NamedTuple):
    """What items learn from one another, from whom an item learns if its master does not say that, remarks, and whether
    it was learned in an earlier run."""

    prior: Prior
    usual: str
    remarks: tuple[Remark, ...]
    is_kept: bool = False


def own_laws(reason: str) -> Learned:
    """Returns that no item learns from another one, and why."""
    return Learned(Prior(NONE), NONE, (Remark("own laws", {"reason": reason}),))


def drawn_of_groups(pairs: Iterable[tuple[str, str]], most: int) -> list[str]:
    """Returns in order so many names of each group, or all if there are fewer: those with the least digests, which is as
    good as at random. Pairs have a name and its group."""
    drawn = defaultdict[str, list[tuple[int, str]]](list)
    for name, group in pairs:
        # With its sign turned, the least digest is the greatest.
        keep_greatest(drawn[group], (-int(sha256(name), 16), name), most)
    return sorted(name for entries in drawn.values() for _, name in entries)


def teaching(read: Catalogued, by_class: bool) -> Iterator[tuple[str, str]]:
    """Yields the name and the class of each item with a past from which others learn; no class unless it counts."""
    for name, past, group in read.cells("name", "past", "group"):
        if past in TEACHING:
            yield name, group if by_class else ""


def learners(read: Catalogued, by_class: bool) -> Iterator[Item]:
    """Yields in order of their names the items with a past from which others learn, but for those counted in boxes, and
    those of whose periods none is known: of many so many are drawn, or as many of each class.
    """
    most = MOST_READ
    if by_class:
        groups = Counter(group for _, group in teaching(read, by_class))
        most = MOST_OF_CLASSES
        if groups.total() > MOST_OF_CLASSES:
            # A class of more than MOST_PULLED items has its own prior and keeps it.
            most = max(MOST_PULLED + 1, MOST_OF_CLASSES // len(groups))
    for item in map(read.item, drawn_of_groups(teaching(read, by_class), most)):
        if item and item.box == 1 and item.known.counts:
            yield item


def learned_of(
    answers: Store[Any], read: Catalogued, settings: Settings, again: bool
) -> Learned:
    """Returns what the items of a catalogue learn from one another.

    With `settings.borrow` None an item learns from all if there are 100 items. What was learned before in this way is
    used again as it is, also if items change, unless it is to be learned `again`: otherwise each new row would change the
    plan of every item. Raises Refused if fewer than 30 items are to learn.
    """
    if settings.fit != "auto":
        return own_laws(f"fit = {settings.fit}")
    said = Counter[str]()
    for borrow, past in read.cells("borrow", "past"):
        if past not in (NO_DEMAND, STATED):
            said[borrow] += 1
    asked = {settings.borrow, *said} & {ALL, CLASS}
    if settings.borrow == NONE and not asked:
        return own_laws(f"borrow = {NONE}")
    way = CLASS if CLASS in asked else ALL
    least = LEAST_ON_REQUEST if asked else LEAST_ITEMS
    try:
        earlier = None if again else kept_prior(answers, settings, way, least)
        prior = earlier or learned_now(answers, read, settings, way, least)
    except Refused as few:
        if asked:
            raise
        return own_laws(few.what)
    usual = settings.borrow or (ALL if learners_of(prior) >= LEAST_ITEMS else NONE)
    return Learned(
        prior, usual, tuple(remarks_of(prior, usual, said)), prior is earlier
    )


def learners_of(prior: Prior) -> int:
    """Returns from how many items was learned."""
    return prior.items - prior.outside


def remarks_of(prior: Prior, usual: str, said: Counter[str]) -> Iterator[Remark]:
    """Yields remarks on what was learned, if an item usually learns in a way, and so many masters say another one."""
    if usual == NONE:
        yield Remark("own laws", {"reason": ""})
    yield Remark(
        "learned", {"items": learners_of(prior), "classes": len(prior.classes)}
    )
    others = said.total() - said[""] - said[usual]
    if others:
        yield Remark("masters say otherwise", {"items": others})


def has_marks(read: Catalogued) -> bool:
    """Returns whether rows of demand say which of them are of a promotion."""
    tables = read.fact("found")["tables"]
    return any(table["columns"].get("promotion") for table in tables)


def seasons_of(
    answers: Store[Any], read: Catalogued, settings: Settings, again: bool
) -> Seasons | None:
    """Returns the seasons of the classes of a catalogue; None if none are to be planned. What was learned before is used
    again as it is, also if items change, unless it is to be learned `again`, of another number of whole years, or first
    with marks of promotions or without.
    """
    if settings.season != AUTO:
        return None
    every, is_marked = read.fact("every"), has_marks(read)
    years = whole_years(every, read.length)

    def learned() -> Seasons:
        items = learners(read, True) if years >= YEARS else ()
        return Seasons.of(every, items, is_marked)

    basis = [every, PARTS_OF_YEAR.get(every), [*Calendar._fields], years, is_marked]
    return learned_once(answers, SEASONS, Seasons, basis, again, learned)


def following_of(
    answers: Store[Any], read: Catalogued, settings: Settings, again: bool
) -> Following | None:
    """Returns how far the classes of a catalogue follow their level, without their seasons; None if none is to be
    followed. What was learned before is used again as seasons are, unless these are others.
    """
    if settings.follow != AUTO:
        return None

    def learned() -> Following:
        items = learners(read, True)
        return Following.of(without_season(item, settings)[0] for item in items)

    basis = basis_of(settings)
    return learned_once(answers, FOLLOWING, Following, basis, again, learned)


def learned_once(
    answers: Store[Any],
    name: str,
    kind: type[Thing],
    basis: object,
    again: bool,
    learned: Callable[[], Thing],
) -> Thing:
    """Returns what was learned of a catalogue in an earlier run, if that is kept under a name, was learned on the same
    basis, and is not to be learned `again`; else what is learned now, and keeps it."""
    kept = json.loads(answers.fact(name) or "{}")
    if kept.get("basis") == basis and not again:
        return cast(Thing, value_of(kind, kept[name]))
    thing = learned()
    tree = asdict(cast(Any, thing))
    fact = {"basis": basis, name: tree}
    answers.keep_facts({name: json.dumps(fact)})
    return thing


def basis_of(settings: Settings) -> str:
    """Returns without which seasons items learn, as a text."""
    seasons = settings.seasons
    return json.dumps(seasons and asdict(seasons))


def kept_prior(
    answers: Store[Any], settings: Settings, way: str, least: int
) -> Prior | None:
    """Returns what at least so many items have learned in this way and without these seasons in an earlier run; None if
    that is not kept."""
    text = answers.fact(PRIOR)
    if text is None or answers.fact(PRIOR_SEASONS) != basis_of(settings):
        return None
    prior = Prior.parse(text, str(answers.named))
    return prior if prior.borrow == way and learners_of(prior) >= least else None


def learned_now(
    answers: Store[Any], read: Catalogued, settings: Settings, way: str, least: int
) -> Prior:
    """Returns what items learn now, without their seasons, and keeps it. Raises Refused if there are fewer than `least`
    items."""
    histories, groups = list[Any](), list[str]()
    for as_read in learners(read, way == CLASS):
        item, _ = without_season(as_read, settings)
        histories.append(np.array(item.known.counts, np.uint32))
        groups.append(item.group)
    prior = learn(histories, groups if way == CLASS else None, way, least=least)
    answers.keep_facts({PRIOR: prior.text, PRIOR_SEASONS: basis_of(settings)})
    return prior
