"""Plans one item: from a question to an answer. There is no other way from facts to a decision.

Theory chooses the policy, and says what it costs and saves where it is exact. crnsim runs it beside today's policy, as
a check that is proved for its random numbers. Their key follows from the seed and the item's name alone. So the plan of
an item does not depend on what else is planned, nor on how many processes work on it.
"""
from __future__ import annotations

import math
from collections.abc import Callable, Iterable, Iterator, Mapping, Sequence
from dataclasses import replace
from pathlib import Path
from typing import Any, TypeVar

import numpy as np

from ..compiled import load_compiler
from ..demand import EMPIRICAL
from ..demand.checks import checks_of
from ..demand.fitted import FittedLaw
from ..demand.learning import Prior
from ..errors import Refused
from ..spelling import worded
from ..read.item import ENDED, NEW, NO_DEMAND, Item
from ..remarks import Remark, Value
from ..policies import Policy
from ..store.means import Means
from ..store.stored import Store
from ..store.work import Work
from ..theory.lattice import NoTheory
from ..theory.many_laws import figures_of_laws
from .answer import (
    ALONE,
    BEFORE,
    BOUNDED,
    BY_ITSELF,
    CHOSEN,
    DAMPED,
    IDLE,
    NO_RUN,
    OVERRIDE,
    RUN,
    SAME,
    THEORY,
    TODAY,
    UNCOMPARED,
    UNDAMPED,
    Answer,
    Correction,
    Figures,
    LawFacts,
    CheckRun,
    Share,
)
from .binding import bounds_of, remarks_of_bounds, remarks_of_lot, remarks_of_today
from .bounds import COVERAGES
from .checked_run import RunSample, checked_run
from .choice import CLOSE, Choice, allowed_by, best_by_price, choice_of, levels_of
from .how import Settings
from .prices import weight_of
from .question import Levels, NoPolicy, Question, Unplanned, question_of
from .yearly import over_year, verdict_of

Result = TypeVar("Result")
TENTHS = 0.1, 0.9  # the ends of what 80% of the allowed laws say
LEAST_DEMANDS = 10  # With fewer it is said that the law is hardly known.
ROUGH_RATES = 0.001  # by this share whole numbers may differ from costs unsaid


def beside_today(
    question: Question, figures: Mapping[str, Figures], run: CheckRun | None
) -> tuple[str, float | None, float | None]:
    """Compares the chosen policy with today's, by the run if its figures count. Returns the verdict, what today's costs,
    and the saving; both are None without a policy today."""
    today, chosen = figures.get(TODAY), figures[CHOSEN]
    if today is None:
        return NEW if question.is_new else UNCOMPARED, None, None
    cost, saving = today.cost, today.cost - chosen.cost
    if run:
        cost, saving = run.cost_today or 0.0, run.saving or 0.0
    if question.is_new:
        verdict = NEW
    elif chosen.levels == today.levels:
        verdict = SAME
    else:
        verdict = verdict_of(question, today, saving, run)
    return verdict, cost, saving


def law_facts(law: FittedLaw, box: int) -> LawFacts:
    """Returns what is said of a law of demand, which is in boxes."""
    borrowed = law.diagnostics.borrowed
    share = 0.0 if law.family == EMPIRICAL else law.diagnostics.share
    if borrowed and not borrowed.alone:
        share = borrowed.share
    bayes = borrowed.log10_bayes if borrowed else None
    spread = math.sqrt(law.figures.variance or 0)
    return LawFacts(law.family, share, bayes, float(law.mean) * box, spread * box)


def allowed_of(question: Question, levels: Levels) -> dict[str, Value]:
    """Returns what the chosen policy of a new item meets at once under the laws that what it has learned allows: a tenth
    of them gives less than the `low` end, a tenth more than the `high` one. Nothing if no such law has a long run.
    """
    laws, policies = allowed_by(question), [Policy(CHOSEN, *levels)]
    try:
        figures = figures_of_laws(question.for_theory(), laws, policies)
    except NoTheory:
        return {"low": None, "high": None}
    low, high = np.quantile(figures.fill, TENTHS).tolist()
    return {"low": low, "high": high}


def correction_of(question: Question) -> Correction | None:
    """Returns where the plan of an item aims by the past of its catalogue; None if nothing is corrected."""
    aim, wanted, aims = question.aim, question.item.fill, question.settings.aims
    if aim is None or wanted is None or aims is None or question.together is not None:
        return None
    plain = question.theory.nearest(float(wanted))
    met = aims.of_item(question.usual).met(aim)
    return Correction(aim, question.figures(plain.levels).stock, met)


def promised_by(question: Question, cost: float) -> float | None:
    """Returns what a cost by theory comes to by the past of the catalogue; None if that was not tried."""
    overruns = question.settings.overruns
    if overruns is None or not question.has_backlog:
        return None
    return cost * overruns.of_item(question.usual).times


def share_of(question: Question) -> Share | None:
    """Returns what an item adds to the share that its group meets; None if it is planned by itself."""
    group, price, least = question.together, question.price, question.aim
    if group is None or price is None:
        return None
    is_least = False
    if least is not None:
        theory = question.theory
        best = best_by_price(question, theory, price)
        is_least = theory.figures(*best.levels).fill < least
    wanted, weight = question.settings.shares[group], weight_of(question.item)
    price /= question.item.box
    return Share(group, wanted, weight, is_least, price)


def remarks_of_cut(question: Question) -> Iterator[Remark]:
    """Yields what the law of an item takes for the demand of its cut periods, if there are some."""
    item, expected = question.item, question.expected
    if not item.cut:
        return
    sold = sum(question.as_read.least)
    asked = round(sum(expected) * sold / sum(item.least)) if expected else 0
    yield Remark(
        "cut periods" if expected else "cut periods left out",
        {
            "periods": len(item.cut),
            "used": len(expected),
            "sales": sold,
            "expected": asked,
        },
    )


def remarks_of_stated(question: Question) -> Iterator[Remark]:
    """Yields what must be said of an item whose law is stated: how sure that is nobody knows, and it has no season."""
    settings, item = question.settings, question.item
    yield Remark("stated law")
    if settings.confidence is not None and item.fill is not None:
        yield Remark("stated without confidence", {"confidence": settings.confidence})
    if settings.seasons and item.group in settings.seasons.classes:
        yield Remark("stated without season")


def remarks_of_past(question: Question, levels: Levels) -> Iterator[Remark]:
    """Yields what must be said of the history of an item, whose chosen policy has these levels."""
    item, settings, learned = question.item, question.settings, question.learned
    if question.is_stated:
        yield from remarks_of_stated(question)
        return
    if question.season:
        yield from question.season.remarks
    if question.level:
        yield question.level.remark
    yield from remarks_of_cut(question)
    if question.is_new:
        yield Remark(
            "new",
            {
                "periods": len(item.known.counts),
                "prior": learned.prior if learned else "",
                **allowed_of(question, levels),
            },
        )
        return
    places, season = item.known_places, question.season
    checks = checks_of(
        item.known.counts,
        settings.every,
        item.first,
        False,
        places,
        season.item.known.counts if season else None,
        season.by_period[places] if season else None,
    )
    yield from (*checks.warnings, *checks.notes)
    if question.of_record.lower:
        yield question.of_record.lower
    if item.demands < LEAST_DEMANDS:
        has_learned = bool(learned and learned.few)
        yield Remark("few demands", {"demands": item.demands, "learned": has_learned})


def remarks_of(
    question: Question, sample: RunSample | None, choice: Choice
) -> Iterator[Remark]:
    """Yields what must be said of the law and of the figures of an item."""
    theory, settings = question.theory, question.settings
    borrowed, learned = question.demand.diagnostics.borrowed, question.learned
    if borrowed and borrowed.alone:
        yield borrowed.alone
    elif learned and learned.unlike and not question.is_new:
        yield Remark("unlike the catalogue")
    if sample is None:
        yield Remark(NO_RUN, {"periods": question.item.review})
    if not theory.exact:
        yield Remark("steps", {"items": theory.step * question.item.box})
    if question.rate_error > ROUGH_RATES:
        yield Remark("rounded costs", {"error": question.rate_error})
    group = settings.named_group(question.item)
    if question.together is None and group in settings.together:
        yield Remark(BY_ITSELF)
    if not choice.is_promised:
        of_periods = question.counts_periods
        confidence = settings.confidence
        yield Remark("no promise", {"confidence": confidence, "of_periods": of_periods})
    is_compared = question.levels not in (None, choice.levels)
    if sample and is_compared and sample.policies[-1].error is None:
        orders = min(estimate.orders for estimate in sample.policies)
        yield Remark("no interval", {"orders": orders})


def remarks_of_damping(
    question: Question, figures: Mapping[str, Figures]
) -> Iterator[Remark]:
    """Yields that the policy of an earlier plan stays, with what the change would gain, if that is so."""
    before, best = figures.get(BEFORE), figures.get(UNDAMPED)
    if before and best:
        cost = question.whole_cost(before)
        gain = cost - question.whole_cost(best)
        share = gain / cost
        s, S = best.levels
        yield Remark(DAMPED, {"s": s, "S": S, "gain": gain, "share": share})


def plan_one(question: Question, program: str) -> Answer:
    """Returns the answer to a question, with a run of the program at a path, if that can run its policies.

    Raises Refused if the item can't be planned, Disagreement if the run is further from theory than chance allows, and
    ProgramError.
    """
    periods = len(question.item.known.counts)
    if not any(question.demand.values):
        raise NoPolicy(Remark("no demand by law"))
    if question.is_new and not question.learned:
        raise NoPolicy(Remark("new and unlike", {"periods": periods}))
    choice = choice_of(question, True)
    answer = answer_of(question, choice, program)
    today, levels = answer.today, question.levels
    if answer.source == THEORY or question.settings.confidence is not None:
        return answer
    more = -(answer.saving or 0.0)  # by the run, since theory is rounded
    if (
        today
        and levels
        and more > CLOSE * today.cost
        and question.met(answer.chosen) < question.met(today)
    ):
        return answer_of(question, choice.beside(levels, more), program)
    return answer


def confidence_cost_of(question: Question, choice: Choice) -> float | None:
    """Returns what a confidence in a wanted share costs a period; None without one."""
    is_free = question.settings.confidence is None or question.is_stated
    if is_free or question.item.wanted is None:
        return None
    best, plain = question.figures(choice.best), question.figures(choice.plain)
    return best.cost - plain.cost


def figures_by_policy(question: Question, choice: Choice) -> dict[str, Figures]:
    """Returns theory's figures of each policy that there is. That of the planner has its levels as they are set."""
    figures = dict[str, Figures]()
    for name, levels in levels_of(question, choice).items():
        figures[name] = question.figures(levels)
    override = question.item.override
    if override and override.levels:
        s, S = override.levels
        figures[OVERRIDE] = replace(figures[OVERRIDE], point=s, level=S)
    return figures


def answer_of(question: Question, choice: Choice, program: str) -> Answer:
    """Returns the answer with a choice, beside which stands a run, if there can be one. Raises as `plan_one` does."""
    theory, figures = question.theory, figures_by_policy(question, choice)
    run, sample = checked_run(question, choice.levels, figures, program) or (None, None)
    chosen, source = figures[CHOSEN], THEORY
    cost, used = chosen.cost, run if question.by_run else None
    if used:
        cost, source = used.cost_chosen, RUN
    verdict, cost_today, saving = beside_today(question, figures, used)
    if choice.is_bounded and verdict not in (UNCOMPARED, NEW) and not choice.worse:
        verdict = BOUNDED
    bounds = [*bounds_of(question, choice)]
    return Answer(
        verdict,
        source,
        cost_today,
        cost,
        saving,
        figures.get(TODAY),
        chosen,
        figures.get(ALONE),
        figures.get(BEFORE),
        figures.get(UNDAMPED),
        theory.step,
        confidence_cost_of(question, choice),
        next((cost for name, _, cost in bounds if name in COVERAGES), None),
        correction_of(question),
        law_facts(question.all_year, question.item.box),
        question.laws,
        run,
        (
            *remarks_of_past(question, choice.levels),
            *remarks_of(question, sample, choice),
            *remarks_of_today(question, choice),
            *remarks_of_bounds(question, choice, bounds),
            *remarks_of_lot(question),
            *remarks_of_damping(question, figures),
        ),
        figures.get(OVERRIDE),
        share_of(question),
        cost_promised=promised_by(question, cost),
    )


def or_fault(
    asked: Item | tuple[Item, Any], answer: Callable[..., Result], *words: Any
) -> Result | Remark:
    """Returns what a function of an item and further words returns, or as a code and facts why there is no such answer.
    Raises ProgramError, since then no item has one."""
    item, *more = asked if isinstance(asked, tuple) else (asked,)
    if item.past == NO_DEMAND:
        return Remark(IDLE, {"periods": len(item.known.counts)})
    try:
        return answer(item, *more, *words)
    except Unplanned as why:
        return why.fault
    except Refused as why:
        what, advice = worded(why.what), worded(why.advice)
        return Remark("refused", {"what": what, "advice": advice})
    # What fails with one item does not keep the others from their plans.
    except (ArithmeticError, ValueError, LookupError, MemoryError) as why:
        return Remark("failed", {"kind": type(why).__name__, "what": str(why)})


def each_answer(
    store: Path,
    kind: type[Result],
    questions: Callable[[], Iterable[tuple[str, str]]],
    ask: Callable[[str], Any],
    words: Sequence[Any],
    unit: str,
    means: Means,
) -> Iterator[tuple[str, Result]]:
    """Yields by name in order the answers of a kind to questions on items, which are kept in a store. A function of what
    is asked gives them, the first of some `words`, with the others."""
    with Store(store, kind) as kept:
        work = Work(kept, questions, ask, or_fault, words, unit, load=load_compiler)
        work.finish(means.workers(), shown=means.shown)
        for name, _, answer in kept.answers():
            if isinstance(answer, kind):
                yield name, answer


def planned(
    item: Item,
    before: Sequence[Levels],
    settings: Settings,
    prior: Prior,
    program: str,
) -> Answer:
    """Returns the answer to an item, with its levels in an earlier plan: perhaps those of each period of a year."""
    first = before[0] if before else None
    question = question_of(item, settings, prior, first)
    if question.season is None:
        return plan_one(question, program)
    year, parts = question.season.year, list[tuple[Question, Answer]]()
    for stretch in year:
        asked = question
        if parts:
            place = stretch.first - year[0].first
            earlier = before[place % len(before)] if before else None
            asked = question.during(stretch, earlier)
        parts.append((asked, plan_one(asked, program)))
    return over_year(parts)


def plan_asked(
    asked: tuple[Item, Sequence[Levels] | None],
    settings: Settings,
    prior: Prior,
    program: str,
) -> Answer | Remark:
    """Returns the answer to an item, with its policy in an earlier plan, or why it can't be planned. Raises
    ProgramError."""
    item, before = asked
    if item.past in ENDED:
        return Remark(item.past)
    return or_fault(item, planned, before or (), settings, prior, program)
