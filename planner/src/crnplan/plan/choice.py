"""Chooses the policy of an item by theory, beside today's and that of an earlier plan."""
from __future__ import annotations

import itertools
import math
from collections.abc import Iterable, Sequence
from dataclasses import dataclass, replace

import numpy as np

from ..chances import Floats, Whole
from ..demand.borrowing import borrowed_laws
from ..demand.posterior import allowed_leads
from ..errors import Refused
from ..law import Law
from ..remarks import Remark
from ..theory.every_gap import best_policies
from ..theory.long_run import NO_POLICY, Candidate, LongRun
from ..theory.many_laws import LawPair, Promises
from .answer import ALONE, BEFORE, CHOSEN, OVERRIDE, TODAY, UNDAMPED
from .question import Levels, NoPolicy, Question, Terms

LAWS = 100  # that are drawn
CLOSE = 1e-9  # Costs whose ratio differs from 1 by less are equal but for rounding.
# Gaps of policies, and rows with their levels, stock, unmet demand and orders.
PricedPolicies = tuple[Whole, Floats]


@dataclass(frozen=True)
class Choice:
    """The policy of an item in boxes, and the one without a confidence in its wanted share, which is mostly the same.

    `is_promised` says whether that confidence is kept, if there is one. `undamped` would be chosen if that of an
    earlier plan did not stay. `is_bounded` says that no policy within the bounds of the item meets the wanted share:
    the plain one comes nearest. `worse` would be chosen if it did not cost more than today's and serve less: by a
    run so much a period, if that is not None, else by theory.
    """

    levels: Levels
    plain: Levels
    is_promised: bool = True
    undamped: Levels | None = None
    is_bounded: bool = False
    worse: Levels | None = None
    more_by_run: float | None = None

    @property
    def best(self) -> Levels:
        """Returns the policy that is best, whatever an earlier plan has, and today's is."""
        return self.worse or self.undamped or self.levels

    def beside(self, today: Levels, more_by_run: float | None = None) -> Choice:
        """Returns that today's policy stays, since this one costs more and serves less."""
        return replace(
            self,
            levels=today,
            undamped=None,
            worse=self.levels,
            more_by_run=more_by_run,
        )


def allowed_by(question: Question, laws: int = LAWS) -> list[LawPair]:
    """Returns so many laws of demand, and perhaps of lead times, that an item's history allows. They follow from its
    name and the seed."""
    item, seed = question.item, question.seed("allowed")
    drawn = borrowed_laws(
        question.prior,
        question.counts,
        question.group,
        times=laws,
        box=item.box,
        seed=seed,
        is_new=question.is_new,
    )
    leads: Iterable[Law] = itertools.repeat(question.lead.table)
    if len(item.leads) > 1:
        leads = allowed_leads(item.leads, times=laws, seed=seed)
    return [*zip(map(question.coming, drawn), leads)]


def by_prices(terms: Terms, theory: LongRun, prices: Sequence[float]) -> PricedPolicies:
    """Returns the best policies of a theory of an item for prices of a box that is not met at once, in money: their gaps;
    and their levels, stock, unmet demand and orders, in boxes. There is none if no policy is feasible.
    """
    if not len(theory.every_gap(0, theory.most)):
        return np.empty(0, int), np.empty((4, 0))
    setup, holding = (terms.money(terms.rates[name]) for name in ("setup", "holding"))
    costs = np.empty((3, len(prices)))
    costs[0], costs[1], costs[2] = setup, holding, prices
    return best_policies(theory, costs)


def best_by_price(terms: Terms, theory: LongRun, price: float) -> Candidate:
    """Returns the best policy of a theory of an item for a price; none if no policy is feasible."""
    gaps, (levels, *_) = by_prices(terms, theory, [price])
    if not len(gaps):
        return NO_POLICY
    return theory.policy(int(gaps[0]), int(levels[0]))


def best_in(terms: Terms, theory: LongRun) -> Candidate:
    """Returns the best policy of a theory of an item: by the price of what is not met at once, if there is one and that
    policy meets what the item meets at least; else the cheapest that meets the share at which it aims.
    """
    price, share = terms.price, terms.aim or 0.0
    if price is not None:
        best = best_by_price(terms, theory, price)
        if best.cost == math.inf or theory.figures(*best.levels).fill >= share:
            return best
    return theory.best(share)


def best_of(terms: Terms) -> tuple[Candidate, bool]:
    """Returns the best policy within the bounds of an item: see `best_in`; and whether the bounds leave none, and this
    one meets most. Raises NoPolicy if there is none."""
    theory = terms.theory
    best = best_in(terms, theory)
    is_bounded = best.cost == math.inf and best_in(terms, theory.free).cost < math.inf
    if is_bounded:
        best = theory.fullest()
    if best.cost == math.inf:
        facts = {"fill": terms.aim, "of_periods": terms.counts_periods}
        raise NoPolicy(Remark("no policy", facts))
    return best, is_bounded


def choice_of(question: Question, beside_today: bool = False) -> Choice:
    """Returns the policy of `best_of`; with a confidence, the cheapest that meets the share under so many of the laws
    that the history allows. That of an earlier plan may stay: see `damped`; and if the policy stands beside today's,
    that one: see `unless_worse`. Raises NoPolicy if there is none."""
    choice, promises = promised(question)
    if not choice.is_bounded:
        choice = damped(choice, question, promises)
    return unless_worse(choice, question, promises) if beside_today else choice


def promised(question: Question) -> tuple[Choice, Promises | None]:
    """Returns the policy of a question as if there were no other, and what it promises, if it does. Raises NoPolicy."""
    confidence, share = question.settings.confidence, question.aim
    best, is_bounded = best_of(question)
    plain = best.levels
    is_free = share is None or confidence is None or question.is_stated
    if is_bounded or is_free:
        return Choice(plain, plain, is_bounded=is_bounded), None
    assert share is not None and confidence is not None
    theory, allowed = question.theory, allowed_by(question)
    gap = theory.gap_of(*plain)
    promises = Promises(question.scenario(), theory, gap, allowed, [share], confidence)
    sure = promises.cheapest(best, share)
    if sure.cost == math.inf:
        return Choice(plain, plain, False), None
    return Choice(sure.levels, plain), promises


def breaks(promises: Promises | None, levels: Levels) -> bool:
    """Returns whether a policy breaks what is promised, if anything is."""
    return promises is not None and not promises.keeps(*levels, promises.shares[0])


def unless_worse(
    choice: Choice, question: Question, promises: Promises | None
) -> Choice:
    """Returns the choice; or today's policy if that costs less and meets more by the law of the item, and keeps
    what is promised, if anything is. Its levels may be out of bounds, or finer than a lattice that is not exact.
    """
    levels = question.levels
    if levels is None or levels == choice.levels:
        return choice
    today, new = question.figures(levels), question.figures(choice.levels)
    is_worse = question.met(new) < question.met(today)
    if not is_worse or new.cost <= today.cost * (1 + CLOSE) or breaks(promises, levels):
        return choice
    return choice.beside(levels)


def damped(choice: Choice, question: Question, promises: Promises | None) -> Choice:
    """Returns the choice; or the policy of an earlier plan, if a change gains less than the least share of its cost,
    and it is within the bounds and still keeps the share at which plans aim: by the law of the item, and under enough laws if that is promised.
    """
    before, least = question.before, question.settings.least_gain
    if before is None or least is None or before == choice.levels:
        return choice
    if not question.theory.feasible.allows(*before):
        return choice
    earlier, new = question.figures(before), question.figures(choice.levels)
    if question.met(earlier) < (question.aim or 0.0) or breaks(promises, before):
        return choice
    cost = question.whole_cost(earlier)
    if cost - question.whole_cost(new) >= least * cost:
        return choice
    return replace(choice, levels=before, undamped=choice.levels)


def levels_of(question: Question, choice: Choice) -> dict[str, Levels]:
    """Returns s and S of each policy that there is, in boxes. There is none of the item alone if its own law has no
    best policy, if it is new, or if its law is stated."""
    known = {
        CHOSEN: choice.levels,
        ALONE: alone_of(question, choice),
        TODAY: question.levels,
        BEFORE: question.before,
        UNDAMPED: choice.undamped,
        OVERRIDE: question.override,
    }
    return {name: levels for name, levels in known.items() if levels}


def alone_of(question: Question, choice: Choice) -> Levels | None:
    """Returns the policy that the item would have by its own history alone."""
    if question.is_new or question.is_stated:
        return None
    if not question.learned:
        return choice.best
    try:
        return choice_of(question.alone()).best
    except Refused:
        return None
