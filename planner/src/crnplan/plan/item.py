"""Plans one item from a history and settings, as in a catalogue, and looks deeper than the answer.

The facts, the question and the answer are those of a catalogue. Beside them are other policies, the doubt about the
item's laws, and the coming periods from today's stock, on the same random numbers as the answer's own run.
"""
from __future__ import annotations

from collections.abc import Mapping
from dataclasses import replace
from functools import cached_property
from operator import attrgetter
from typing import NamedTuple

from ..decide.doubt import Doubt
from ..decide.verdicts import Compared, RunEstimate, ends_of, t_quantile, verdict_of
from ..demand.checks import largest_periods, largest_places
from ..demand.fitted import FittedLaw
from ..errors import Refused
from ..formats import POLICIES
from ..policies import Policy
from ..runs import Report, Scenario
from ..theory.lattice import NoTheory
from ..theory.long_run import Candidate, LongRun
from ..theory.many_laws import CONFIDENCE, LawPair, Promises, figures_of_laws
from ..theory.suggestions import FILLS, SuggestedPolicies, add_fills, chosen_policies
from ..sentences import sentence
from .answer import ALONE, CHOSEN, THEORY, TODAY, Answer, Figures
from .checked_run import RunSample
from .choice import LAWS, allowed_by, choice_of
from .one import plan_one
from .question import Levels, Question, question_of, rounded


class ShownPolicy(NamedTuple):
    """A policy beside the base in the long run, in money of a period: today's policy, or else the chosen one.

    `cost` and `difference`, which is the cost less the base's, are theory's where that is exact, else the run's. `run` has
    the run's figures with intervals that hold each by itself, and the verdict by theory where that is exact, else by the
    interval of the difference. `reasons` say why the policy is looked at.
    """

    name: str
    figures: Figures
    cost: float
    difference: float
    run: Compared
    reasons: tuple[str, ...]

    @property
    def policy(self) -> Policy:
        return Policy(self.name, *self.figures.levels)

    @property
    def verdict(self) -> str:
        """Returns base, better, worse or undecided."""
        return self.run.verdict


class Without(NamedTuple):
    """The decision without the largest periods: what it comes to if no such period comes again, and if they do."""

    rare: Figures
    again: Figures


class Depth:
    """What is computed of an item beside its answer, as it is asked for. `laws` is how many are drawn that its history
    allows. Of an item that is planned by its season all is of the first part of the year, but for `whole`, the answer to the year.
    """

    def __init__(
        self,
        question: Question,
        answer: Answer,
        program: str,
        laws: int = LAWS,
        whole: Answer | None = None,
    ) -> None:
        if answer.run is None:
            raise Refused(
                f"item {question.item.name!r} is reviewed once in {question.item.review} periods, which crnsim can't run",
                "its figures by theory are in decisions.csv, and it has no page",
            )
        self.question, self.answer, self.run = question, answer, answer.run
        self.whole = whole or answer
        self.program, self.laws = program, laws
        self.confidence = question.settings.confidence or CONFIDENCE

    @cached_property
    def levels(self) -> dict[str, Levels]:
        """Returns s and S of the answer's policies in boxes, the base first."""
        levels = dict[str, Levels]()
        for name in (TODAY, CHOSEN, ALONE):
            policy = getattr(self.answer, name)
            boxes = rounded(policy and policy.levels, self.question.item.box)
            if boxes:
                levels[name] = boxes
        return levels

    @property
    def base(self) -> str:
        """Returns the name of the policy with which others are compared: today's, or the chosen one without that."""
        return next(iter(self.levels))

    @property
    def chosen(self) -> str:
        """Returns the name under which the chosen policy is shown: today's if it is that."""
        return TODAY if self.levels[CHOSEN] == self.levels.get(TODAY) else CHOSEN

    @cached_property
    def single(self) -> FittedLaw | None:
        """Returns the law of the item's own history alone, if another one was learned: with a season, that of the
        month."""
        if not self.question.learned or self.question.is_new:
            return None
        return self.question.alone().as_sold

    @cached_property
    def allowed(self) -> list[LawPair]:
        return allowed_by(self.question, self.laws)

    @cached_property
    def theory(self) -> LongRun:
        """Returns the theory of the item, with shares of demand."""
        return self.question.theory.counting(False)

    @cached_property
    def promises(self) -> Promises | None:
        """Returns what policies promise under the laws that the history allows; None if the law is stated, of which
        nothing says how sure it is."""
        if self.question.is_stated:
            return None
        question, fills = self.question, [*FILLS.values()]
        gap = self.theory.gap_of(*self.levels[CHOSEN])
        return Promises(
            question.scenario(),
            self.theory,
            gap,
            self.allowed,
            fills,
            self.confidence,
        )

    @cached_property
    def suggested(self) -> SuggestedPolicies:
        """Returns further policies with the reasons for each: those that keep fill rates, by the law of the item and
        under most of the allowed ones, and with a backlog cost the neighbours of the best.
        """
        question, levels = self.question, self.levels[CHOSEN]
        scenario, theory = question.scenario(), self.theory
        if question.has_backlog and question.item.wanted is None:
            best = Candidate(theory.figures(*levels).cost, *levels)
            return chosen_policies(scenario, theory, best, self.promises)
        chosen = SuggestedPolicies(scenario)
        add_fills(chosen, theory, self.promises)
        return chosen

    @cached_property
    def policies(self) -> dict[Policy, tuple[str, ...]]:
        """Returns today's policy, the chosen one, that of the item alone, and further ones, each in boxes with the
        reasons for it."""
        names, reasons = dict[Levels, str](), dict[Levels, tuple[str, ...]]()
        for name, levels in self.levels.items():
            names.setdefault(levels, name)
        for policy, remarks in self.suggested.policies.values():
            levels = policy.s, policy.S
            names.setdefault(levels, policy.name)
            reasons[levels] = tuple(map(sentence, remarks))
        policies = dict[Policy, tuple[str, ...]]()
        for levels, name in [*names.items()][: POLICIES[1]]:
            policies[Policy(name, *levels)] = reasons.get(levels, ())
        return policies

    @cached_property
    def report(self) -> Report:
        """Runs all policies as the answer's run did. Raises Refused if a total is not that of the answer."""
        run = self.run
        report = self.scenario.run(program=self.program)
        totals = {row.policy: row.total for row in report.rows}
        own = totals.get(TODAY), totals[self.chosen]
        if own != (run.total_today, run.total_chosen):
            raise Refused(
                f"item {self.question.item.name!r}: {self.program} gives other totals than the plan has",
                "plan it again with this program",
            )
        return report

    @property
    def scenario(self) -> Scenario:
        backlog = self.question.rates.get("backlog", 0)
        return self.question.scenario(backlog, self.run.initial).with_policies(
            self.policies
        )

    def _sampled(self, sampled: RunEstimate) -> RunEstimate:
        """Returns a policy of the run. The answer's own policies are as there: theory counts the start on a coarser
        lattice if another policy has a wide gap."""
        run = self.run
        if sampled.policy == TODAY and run.cost_today is not None:
            return sampled._replace(cost=run.cost_today)
        if sampled.policy == CHOSEN:
            return sampled._replace(
                cost=run.cost_chosen, difference=-(run.saving or 0.0), error=run.error
            )
        return sampled

    @cached_property
    def compared(self) -> list[ShownPolicy]:
        """Returns all policies, the cheapest first."""
        settings, rows = self.question.settings, list[ShownPolicy]()
        base = self.answer.today or self.answer.chosen
        errors = t_quantile(1 - settings.level, settings.replications - 1)
        runs = map(self._sampled, RunSample(self.question, self.report).policies)
        for (policy, reasons), run in zip(self.policies.items(), runs):
            figures = self.question.figures((policy.s, policy.S))
            own_low, own_high = ends_of(run.cost, run.own_error, errors)
            low, high = ends_of(run.difference, run.error, errors)
            cost, difference, verdict = run.cost, run.difference, verdict_of(low, high)
            if self.answer.source == THEORY:
                cost, difference = figures.cost, figures.cost - base.cost
                verdict = verdict_of(difference, difference)
            if policy.name == self.base:
                verdict = "base"
            beside = Compared(
                policy.name,
                figures.point,
                figures.level,
                run.cost,
                own_low,
                own_high,
                run.difference,
                None,
                run.error,
                low,
                high,
                verdict,
            )
            rows.append(
                ShownPolicy(policy.name, figures, cost, difference, beside, reasons)
            )
        return sorted(rows, key=attrgetter("difference"))

    @cached_property
    def doubt(self) -> Doubt | None:
        """Returns what the policies cost, and how well they fill, under the laws that the item's history allows, and
        what it has learned. None if no such law has a long run, or if the law is stated. Without a backlog cost only fill
        rates mean something.
        """
        if self.promises is None:
            return None
        policies = tuple(self.policies)
        # Without a backlog cost it is that by which a newsvendor would meet the wanted share.
        scenario = replace(self.scenario, costs=self.question.for_theory().costs)
        made = self.promises.made
        try:
            figures = figures_of_laws(scenario, self.allowed, policies, made)
        except NoTheory:
            return None
        return Doubt(policies, figures)

    @cached_property
    def without(self) -> Without | None:
        """Returns the decision without the periods that `largest_periods` names. None if it names none, or if there is
        no plan without them, or if the law is stated."""
        question, item = self.question, self.question.item
        as_read = question.as_read
        known, places = as_read.known, as_read.known_places
        if question.is_stated or not largest_periods(known.counts):
            return None
        largest = {places[rank] for rank in largest_places(known.counts)}
        left = replace(as_read, unknown=tuple(sorted({*as_read.unknown} | largest)))
        try:
            asked = question_of(left, question.settings, question.prior)
            rare = asked.figures(choice_of(asked).levels)
        except Refused:
            return None
        boxes = round(rare.point / item.box), round(rare.level / item.box)
        return Without(rare, question.figures(boxes))


def depth_of(question: Question, answer: Answer, program: str) -> Depth:
    """Returns the deeper look at an item of a plan, by the answer that the plan has. Raises as `plan_one` does."""
    month = plan_one(question, program) if answer.calendar else answer
    return Depth(question, month, program, whole=answer)
