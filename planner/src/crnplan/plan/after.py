"""Plans a catalogue after an earlier plan: takes over what has not changed, and keeps what has."""
from __future__ import annotations

import heapq
import itertools
import json
from collections.abc import Iterable, Iterator
from dataclasses import asdict, replace
from pathlib import Path
from typing import TYPE_CHECKING

from ..errors import Refused
from ..demand.seasons import CALENDAR
from ..store.files import IN_KEPT, Folder
from ..store.jobs import batched
from ..read.catalogue_reading import Catalogued
from ..read.item import Item
from ..remarks import Remark, Value
from ..store.stored import Store, sealed
from ..store.work import Known
from .answer import Answer
from .changes import Change, PlannedTwice, change_of
from .how import LEARNED, Settings
from .question import Levels

if TYPE_CHECKING:
    from .catalogue import Planned, PlannedFolder

CHANGES = f"{IN_KEPT}changes.sqlite"
PLAN = "plan"  # a fact of the store: of which plan its changes are
AT_ONCE = 1_000  # answers that are kept together


def check_records(path: Path, earlier: Catalogued, read: Catalogued) -> None:
    """Raises Refused if a catalogue that was read is not a later state of an earlier one, which is in a folder."""
    before, every = earlier.fact("every"), read.fact("every")
    if before != every:
        raise Refused(
            f"{path}: its periods are {before}s, and these are {every}s",
            "read the files by the same periods",
        )
    names = heapq.merge(earlier.names(), read.names())
    if not any(name == following for name, following in itertools.pairwise(names)):
        raise Refused(
            f"{path}: none of its items is in these tables",
            "name a folder of this catalogue",
        )
    missing = earlier.fact("periods")[1] - read.fact("periods")[1]
    if missing > 0:
        raise Refused(
            f"{path}: its record ends {missing:,} {every}s after this one",
            "name the later files as DEMAND.csv, and a folder of earlier ones",
        )


def asked_after(
    read: Catalogued, planned: Planned, earlier: PlannedFolder | None, name: str
) -> tuple[Item, tuple[Levels, ...] | None] | Known:
    """Returns what is asked of an item that was read: its facts, with its s and S in an earlier plan, if it has any
    there. The answer of that plan to the same question is known, but for a policy that stayed by another least gain.
    """
    item = read.item(name)
    assert item is not None
    answer = earlier.store.answer(name) if earlier else None
    if earlier is None or answer is None:
        return item, None
    before = None if isinstance(answer, Remark) else answer
    is_same = read.digest(name, planned.base) == earlier.read.digest(
        name, earlier.planned.base
    )
    if before and before.undamped:
        is_same &= planned.settings.least_gain == earlier.settings.least_gain
    if is_same and before:  # The policy before is its own.
        answer = replace(before, before=before.chosen)
    if is_same:
        return Known(answer)
    return item, levels_in(before, read.fact("every"), item) if before else None


def levels_in(before: Answer, every: str, item: Item) -> tuple[Levels, ...]:
    """Returns the levels that an earlier plan has in each period of the year after the record of an item: one pair if they
    are always the same."""
    if not before.calendar:
        return (before.chosen.levels,)
    first = item.first + len(item.counts)
    year = range(first, first + CALENDAR[every]["season"])
    return tuple(before.chosen_in(period).levels for period in year)


def stated(settings: Settings) -> dict[str, Value]:
    """Returns what is stated of how items are planned, but for the least gain: by class if it is, under both names."""
    tree, shares = asdict(settings), settings.shares
    for name in ("least_gain", "together", "fill", "service", *LEARNED):
        del tree[name]
    return tree | {f"together {name}".strip(): shares[name] for name in shares}


def learned_by(planned: Planned) -> tuple[object, ...]:
    """Returns what was learned of the catalogue."""
    settings = planned.settings
    return planned.prior.text, *(getattr(settings, name) for name in LEARNED)


def common_changes(earlier: Planned, planned: Planned) -> Iterator[Remark]:
    """Yields what has changed for all items: settings, what was learned, and what computes."""
    before, after = stated(earlier.settings), stated(planned.settings)
    facts = dict[str, Value]()
    for name in {**before, **after}:
        old, new = before.get(name), after.get(name)
        if old != new:
            facts |= {f"{name} before": old, f"{name} after": new}
    if facts:
        yield Remark("other settings", facts)
    if learned_by(earlier) != learned_by(planned):
        yield Remark("other learning")
    if json.loads(earlier.base)[:3] != json.loads(planned.base)[:3]:
        yield Remark("other program")


def decided(plan: PlannedFolder, name: str) -> tuple[Item, Answer] | None:
    """Returns an item of a plan with its answer; None without a policy."""
    item, answer = plan.read.item(name), plan.store.answer(name)
    return (item, answer) if item and isinstance(answer, Answer) else None


def changes_since(earlier: PlannedFolder, now: PlannedFolder) -> Iterator[Change]:
    """Yields what has changed since an earlier plan, by item in order of their names, with all their periods. An item
    without a policy in either has not changed."""
    common = [*common_changes(earlier.planned, now.planned)]
    _, stop = earlier.read.fact("periods")
    left = dict[str, Remark]()
    for reject in now.read.rejects():
        if reject.kind == "item":
            left[reject.item] = reject.remark
    names = heapq.merge(earlier.read.names(), now.read.names())
    for name, _ in itertools.groupby(names):
        answer = now.store.answer(name)
        fault = answer if isinstance(answer, Remark) else left.get(name)
        pair = PlannedTwice(decided(earlier, name), decided(now, name), fault)
        if pair.old or pair.new:
            yield change_of(pair, earlier.settings, stop, common)


def keep_changes(folder: Folder, plan: str, changes: Iterable[Change]) -> None:
    """Keeps the changes of a plan in its folder, in place of others."""
    names = list[str]()
    with Store(folder.store(CHANGES), Change) as store:
        store.renew()
        for some in batched(changes, AT_ONCE):
            store.keep(sealed(Change, change.name, plan, change) for change in some)
            names += [change.name for change in some]
        store.finish(((name, plan) for name in names), {PLAN: plan})
