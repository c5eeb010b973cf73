"""Says what has changed since an earlier plan: the policy of each item, why, and how the earlier one did since."""
from __future__ import annotations

import statistics
from collections import Counter, defaultdict
from collections.abc import Iterable, Iterator, Sequence
from dataclasses import dataclass, fields, replace
from fractions import Fraction
from operator import attrgetter
from typing import NamedTuple

from ..demand.fitting import fit_lead
from ..demand.seasons import CALENDAR
from ..read.bounds import OrderBounds
from ..policies import Levels
from ..read.item import Item
from ..remarks import Remark, Value
from .answer import Answer, Figures, LawFacts
from .backtest.outcomes import Happened, Outcome
from .backtest.estimates import Estimate
from .backtest.sums import TestGroup
from .how import Settings

# What an item's policy is beside the earlier one: the same, moved, the same though another costs less, new, or gone.
KINDS = SAME, MOVED, DAMPED, NEW, GONE = ("same", "moved", "damped", "new", "gone")
# The facts of a master, but for lead times and levels, by the names of their columns.
COLUMNS = (
    {
        name: name
        for name in "setup holding backlog fill no_shortage review borrow".split()
    }
    | {"class": "group"}
    | {bound.name: f"bounds.{bound.name}" for bound in fields(OrderBounds)}
)
ItemAnswer = tuple[Item, Answer]


@dataclass(frozen=True)
class Since:
    """What the policy of the earlier plan came to in the periods after that plan: the number of the first, the mean
    demand of all periods of the item, the demand of these, and what was promised and came, at the costs of then.
    """

    first: int
    mean: float
    demands: tuple[int, ...]
    planned: Outcome

    @property
    def value(self) -> None:
        """Returns nothing: demand counts in units of the mean of its item."""


@dataclass(frozen=True)
class Change:
    """What has changed of an item. `earlier` is the policy of the earlier plan as that saw it, `before` the same by the
    law that the item has now, `after` the policy that it has now, and `undamped` what it would have if the earlier one
    did not stay. `law` is the one that it has now. `reasons` say why. `price` is what an item costs that is not met at once, of one that is planned
    together with others: in money."""

    name: str
    kind: str
    earlier: Figures | None = None
    before: Figures | None = None
    after: Figures | None = None
    undamped: Figures | None = None
    law: LawFacts | None = None
    reasons: tuple[Remark, ...] = ()
    since: Since | None = None
    price: float = 0.0

    @property
    def gain(self) -> float | None:
        """Returns what the change gains, or would gain, in money of a period by the law that the item has now: of its
        cost, and of what is not met at once by its price."""
        best = self.undamped or self.after
        if self.before is None or best is None or self.law is None:
            return None
        met = self.law.mean * (best.fill - self.before.fill)
        return self.before.cost - best.cost + self.price * met


class PlannedTwice(NamedTuple):
    """An item with its answer in the earlier plan and in this one, of all its periods. If this one has none, `left`
    says why."""

    old: ItemAnswer | None
    new: ItemAnswer | None
    left: Remark | None


def periods_of(item: Item, start: int, stop: int) -> list[tuple[int, int, bool]]:
    """Returns what was asked for and what came back of an item in each period from one on before another, by their
    numbers, and whether that is all that is known of it."""
    size, unknown = len(item.counts), {*item.unknown}
    gaps = (place in unknown for place in range(size))
    periods = [*zip(item.counts, item.returns or (0,) * size, gaps)]
    return periods[max(0, start - item.first) : max(0, stop - item.first)]


def rows_of(old: Item, new: Item, stop: int) -> Iterator[Remark]:
    """Yields what is new in the rows of an item: periods from `stop` on, others that have changed, or are gone."""
    first = max(old.first, new.first)
    then, now = (periods_of(item, first, stop) for item in (old, new))
    changed = sum(before != after for before, after in zip(then, now))
    added = periods_of(new, max(stop, new.first), new.first + len(new.counts))
    if added:
        rows = None
        if not changed and old.first == new.first:
            rows = new.rows - old.rows
        items = sum(asked for asked, *_ in added)
        yield Remark("new rows", {"periods": len(added), "rows": rows, "items": items})
    if changed:
        items = sum(after[0] - before[0] for before, after in zip(then, now))
        yield Remark("changed rows", {"periods": changed, "items": items})
    if new.first != old.first:
        yield Remark("other first period", {"periods": new.first - old.first})


def plain(fact: Fraction | Value) -> Value:
    """Returns a fact of a master as that of a remark."""
    return float(fact) if isinstance(fact, Fraction) else fact


def masters_of(old: Item, new: Item, earlier: Levels) -> Iterator[Remark]:
    """Yields what has changed in the master of an item: costs, bounds and the like, lead times, and today's policy."""
    facts: dict[str, Value] = {}
    for name, field in COLUMNS.items():
        fact = attrgetter(field)
        before, after = fact(old), fact(new)
        if before != after:
            facts[f"{name} before"] = plain(before)
            facts[f"{name} after"] = plain(after)
    if facts:
        yield Remark("other master", facts)
    if old.leads != new.leads:
        mean = statistics.fmean
        leads = {"before": mean(old.leads), "after": mean(new.leads)}
        yield Remark("other lead times", leads | {"seen": len(new.leads)})
    if old.levels != new.levels:
        s, S = new.levels or (None, None)
        today = {"s": s, "S": S, "earlier": int(new.levels == earlier)}
        yield Remark("other policy today", today)


def reasons_of(
    old: ItemAnswer, new: ItemAnswer, stop: int, common: Sequence[Remark]
) -> Iterator[Remark]:
    """Yields what may have moved the policy of an item, `common` being what all items have."""
    (old_item, old_answer), (new_item, new_answer) = old, new
    yield from rows_of(old_item, new_item, stop)
    yield from masters_of(old_item, new_item, old_answer.chosen.levels)
    before, after = old_answer.law, new_answer.law
    if (before.mean, before.spread) != (after.mean, after.spread):
        yield Remark(
            "other law",
            {
                "mean before": before.mean,
                "mean after": after.mean,
                "spread before": before.spread,
                "spread after": after.spread,
            },
        )
    yield from common


def since_of(old: ItemAnswer, now: Item, settings: Settings, stop: int) -> Since | None:
    """Returns what the policy of the earlier plan came to in the periods from `stop` on, by the settings of that plan;
    None if there are no such periods. It is in use from the first period of the record on: in each month of a season with
    the levels of that month.
    """
    item, answer = old
    places, now = now.known_places, now.known
    record = sum(now.first + place < stop for place in places)
    demands = now.counts[record:]
    if not demands:
        return None
    happened_to = {"counts": now.counts, "returns": now.returns}
    past = replace(item, **happened_to, unknown=(), cut=(), promoted=())
    lead = fit_lead(item.leads)
    lot, seed = settings.bounds_of(item).lot, settings.seed_of("since", item.name)
    happened = Happened(past, lot, lead, seed, record)
    numbers = [now.first + place for place in places]
    later, before = numbers[record:], list[Levels]()
    if answer.calendar:
        year = CALENDAR[settings.every]["season"]
        for number in numbers[:record]:
            coming = stop + (number - stop) % year
            before.append(answer.chosen_in(coming).levels)
    chosen = [answer.chosen_in(period) for period in later]
    planned = happened.of_figures(chosen, before)
    return Since(later[0], sum(now.counts) / len(now.counts), demands, planned)


def change_of(
    pair: PlannedTwice, settings: Settings, stop: int, common: Sequence[Remark]
) -> Change:
    """Returns what has changed of an item. `settings` are those of the earlier plan, whose record ends before period
    `stop`, and `common` is what has changed for all items."""
    old, new, left = pair
    if new is None:
        assert old is not None
        (item, earlier), gone = old, left or Remark("not in the files")
        return Change(item.name, GONE, earlier.chosen, reasons=(gone,))
    item, answer = new
    if old is None:
        reasons = (Remark("new item", {"periods": len(item.counts)}),)
        after, law = answer.chosen, answer.law
        return Change(item.name, NEW, after=after, law=law, reasons=reasons)
    earlier, kind, period = old[1], MOVED, item.first + len(item.counts)
    if answer.undamped:
        kind = DAMPED
    elif answer.chosen.levels == earlier.chosen_in(period).levels:
        kind = SAME
    return Change(
        item.name,
        kind,
        earlier.chosen,
        answer.before,
        answer.chosen,
        answer.undamped,
        answer.law,
        tuple(reasons_of(old, new, stop, common)),
        since_of(old, item, settings, stop),
        answer.share.price if answer.share else 0.0,
    )


@dataclass(frozen=True)
class SinceSums:
    """What the policies of the earlier plan came to in the periods since, all items together: how many items and
    periods, the share of demand that was promised and met at once, and what the cost was above the promise. All items
    weigh alike but for the cost."""

    items: int
    periods: int
    promised: float
    unmet: Estimate
    missed: Estimate
    dearer: Estimate

    @classmethod
    def of(cls, known: Sequence[Since]) -> SinceSums | None:
        """Adds up what is known of items; None if nothing was asked for."""
        known = [since for since in known if since.mean > 0]
        if not any(any(since.demands) for since in known):
            return None
        group = TestGroup(known)
        return cls(
            len(known),
            max(len(since.demands) for since in known),
            1 - group.promised().value,
            group.unmet("planned").estimate,
            group.missed().estimate,
            group.dearer().estimate,
        )


@dataclass
class ChangeSums:
    """What the changes of all items add up to: how many there are of each kind, and for which reasons; what is gained
    by those that move, and what is given up by those that are damped, in money of a period by the laws of now.
    """

    kinds: Counter[str]
    reasons: Counter[str]
    gained: float
    given_up: float
    since: SinceSums | None

    @classmethod
    def of(cls, changes: Iterable[Change]) -> ChangeSums:
        """Adds up changes."""
        kinds, reasons, known = Counter[str](), Counter[str](), list[Since]()
        gains = defaultdict[str, Fraction](Fraction)
        for change in changes:
            kinds[change.kind] += 1
            reasons.update({reason.code for reason in change.reasons})
            gains[change.kind] += Fraction(change.gain or 0)
            if change.since:
                known.append(change.since)
        gained, given_up = float(gains[MOVED]), float(gains[DAMPED])
        return cls(kinds, reasons, gained, given_up, SinceSums.of(known))
