"""Says what the bounds of an item cost, each beside the best policy without it."""
from __future__ import annotations

import math
from collections.abc import Iterator, Mapping, Sequence
from dataclasses import replace
from typing import Any, NamedTuple

from ..read.bounds import OrderBounds
from ..remarks import Remark, Value
from ..theory.feasible import ALL
from .answer import BOUNDED
from .bounds import COVERAGE, ORDER_COVERAGE, SHELF_LIFE, feasible_of
from .choice import Choice, best_in
from .question import Levels, Question

OF_LEVELS = COVERAGE, ORDER_COVERAGE, SHELF_LIFE, "s_min"  # the bounds of levels


class Bound(NamedTuple):
    """A bound of an item that binds: its name, the best policy without it in boxes, and what it costs a period."""

    name: str
    without: Levels
    cost: float


def bounds_of(question: Question, choice: Choice) -> Iterator[Bound]:
    """Yields the bounds that bind: those that the best policy would leave if it could. If no policy within them meets the
    wanted share, none is looked for, and a least s that nobody has stated is none.

    Nothing binds if the best of all policies is feasible. S, or S - s, that a bound lets cover more may do so without it
    too: else a policy without that bound could be dearer.
    """
    theory, bounded = question.theory, question.bounds
    if choice.is_bounded or theory.has(best_in(question, theory.free)):
        return
    is_stated = (question.item.bounds.s_min, question.settings.s_min) != (None, None)
    own, plain = theory.feasible, question.figures(choice.plain)
    for name in OF_LEVELS:
        other: dict[str, Any] = {name: None}
        bounds = replace(bounded, **other)
        feasible = feasible_of(bounds, question.item.box, question.demand)
        feasible = replace(
            feasible,
            most_level=max(own.most_level, feasible.most_level),
            most_gap=max(own.most_gap, feasible.most_gap),
        )
        if feasible == own or name == "s_min" and not is_stated:
            continue
        free = theory.free if feasible == ALL else theory.within(feasible)
        best = best_in(question, free)
        if best.cost < math.inf and not theory.has(best):
            cost = question.whole_cost(question.figures(best.levels))
            yield Bound(name, best.levels, question.whole_cost(plain) - cost)


def shortest(bounds: OrderBounds) -> Mapping[str, Value]:
    """Returns the name of the bound of S that is stated, of two the shorter one, with its periods, as facts."""
    stated = (bounds.coverage, COVERAGE), (bounds.shelf_life, SHELF_LIFE)
    periods, name = min((span, name) for span, name in stated if span is not None)
    return {"bound": name, "periods": float(periods)}


def remarks_of_today(question: Question, choice: Choice) -> Iterator[Remark]:
    """Yields what must be said of today's policy: that it is out of bounds, or stays."""
    if question.levels and not question.theory.feasible.allows(*question.levels):
        yield Remark("today out of bounds", question.items(question.levels))
    if choice.worse:
        today, worse = question.figures(choice.levels), question.figures(choice.worse)
        more = choice.more_by_run
        facts = {
            "cost": worse.cost - today.cost if more is None else more,
            "fill": question.met(worse),
            "today": question.met(today),
            "of_periods": question.counts_periods,
        }
        yield Remark("today stays", question.items(choice.worse) | facts)


def remarks_of_lot(question: Question) -> Iterator[Remark]:
    """Yields to what orders are rounded up, as those of crnsim are not, unless all have such sizes by themselves."""
    if question.theory.spare:
        lot = question.bounds.lot
        yield Remark("rounded orders", {"pack": lot.pack, "least": lot.order(1)})


def remarks_of_bounds(
    question: Question, choice: Choice, bounds: Sequence[Bound]
) -> Iterator[Remark]:
    """Yields what must be said of the bounds of an item: what each costs that binds, in money of a period."""
    theory, plain = question.theory, choice.plain
    if choice.is_bounded:
        free = best_in(question, theory.free).levels
        facts = {
            "cost": question.figures(free).cost,
            "wanted": question.aim or 0.0,
            "fill": question.met(question.figures(plain)),
            "of_periods": question.counts_periods,
        }
        known = facts | shortest(question.bounds)
        yield Remark(BOUNDED, question.items(free) | known)
        return
    for name, without, cost in bounds:
        facts = {"cost": cost, "bound": float(getattr(question.bounds, name))}
        yield Remark(f"bound of {name}", question.items(without) | facts)
    if plain[0] == 0:
        later = theory.within(replace(theory.feasible, least_point=1))
        best = best_in(question, later)
        if best.cost < math.inf:
            cost = question.figures(best.levels).cost - question.figures(plain).cost
            yield Remark("s of 0", {"cost": cost})
