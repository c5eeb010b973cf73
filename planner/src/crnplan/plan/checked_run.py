"""Runs the policies of an item by crnsim, and checks theory by that: figures must not differ by more than chance allows.

All policies of a run start with the same stock and meet the same random numbers. What that start adds to the costs is
taken out, by theory. The interval of a difference is the paired-t interval (Law, Simulation Modeling and Analysis,
chapter 10).
"""
from __future__ import annotations

import math
from collections.abc import Mapping
from dataclasses import replace

import numpy as np

from ..decide.long_run import LongRunReport
from ..decide.verdicts import RunEstimate, ends_of, far_from, t_quantile
from ..errors import Failed
from ..formats import MOST_ITEMS, MOST_REPLICATIONS
from ..remarks import Remark
from ..policies import Policy
from ..read.bounds import OrderBounds
from ..changing import key_words
from ..runs import Report, Scenario
from .answer import CHOSEN, TODAY, Figures, CheckRun
from .question import Levels, Question, Unplanned

# A figure of a run is looked at again, by a larger run under another key, if chance alone puts so few so far from
# theory. That run must agree: in a sound catalogue of a million items, the chance that one of its three million figures
# does not is 3 in 1,000.
SUSPECT, CHANCE = 1e-4, 1e-9


class Disagreement(Unplanned, Failed):
    """A run whose figure is further from exact theory than chance allows: one of both is wrong, a fault of ours."""


def scenario_of(question: Question, levels: Levels) -> Scenario:
    """Returns the scenario of a run of today's policy, the base, if there is one, and of the chosen one with some
    levels, unless it is the same. The run starts from the mean position of the chosen one.
    """
    position = round(question.theory.mean_position(*levels))
    initial = min(max(position, 0), MOST_ITEMS)
    scenario = question.scenario(question.rates.get("backlog", 0), initial)
    if levels == question.levels:
        return scenario
    return scenario.with_policies([*scenario.policies, Policy(CHOSEN, *levels)])


class RunSample:
    """What a run of a question's scenario says of the long run. Raises Refused if the bias of the start is not known.

    `policies` are the estimates in money, the first one being the base. `is_exact` says whether theory and the bias of
    the start are.
    """

    def __init__(self, question: Question, report: Report) -> None:
        """Takes the bias of the start out of a report."""
        scenario = report.scenario
        known = LongRunReport.of(
            report.rows, scenario, scenario.replications, question.theory
        )
        self.policies = list[RunEstimate]()
        for estimate in known.estimates:
            self.policies.append(estimate.in_money(question.scale))
        self.is_exact = known.is_exact

    def disagreement(
        self, figures: Mapping[str, Figures], errors: float, spare: Mapping[str, float]
    ) -> Remark | None:
        """Returns the first figure that is further from theory than so many standard errors and what is to spare for its
        policy, by default nothing; None if there is none."""
        names = [estimate.policy for estimate in self.policies]
        costs = [figures[name].cost for name in names]
        spared = [spare.get(name, 0.0) for name in names]
        gap = next(far_from(self.policies, costs, errors, spared), None)
        return gap and Remark(
            "disagrees",
            {
                "figure": f"{gap.figure} of {gap.policy}",
                "theory": gap.theory,
                "run": gap.run,
                "error": gap.error,
            },
        )


def rare_cost(question: Question, levels: Levels, scenario: Scenario) -> float:
    """Returns the mean cost a period, in money, of the rarest events: of so few that a run may have none of them.

    These are orders, and the periods with the most items owed. A run without them shows no spread for them either. It
    has none of n events that are expected with the chance exp(-n). Items owed come in runs of up to the longest lead
    time and a period.
    """
    theory, (_, level) = question.theory, levels
    few = -math.log(CHANCE) / (scenario.periods * scenario.replications)
    orders = min(theory.figures(*levels).orders, few)
    rare, owed = few * (max(scenario.lead.values) + 1), 0.0
    for gap, share in theory.gaps_of(*levels):
        law = theory.below(gap)
        chances, cells = law.chances[::-1], law.cells[::-1]
        above = np.cumsum(chances) - chances
        part = np.clip(rare - above, 0, chances)
        owed += share * float(part @ np.maximum(cells * theory.step - level, 0))
    return question.money(scenario.costs.setup * orders + scenario.costs.backlog * owed)


def check_run(
    question: Question,
    report: Report,
    sample: RunSample,
    figures: Mapping[str, Figures],
    program: str,
) -> None:
    """Raises Disagreement if a run is further from theory than chance allows, and so is a larger one under another key.
    Nothing is compared if theory or the bias of the start is rounded."""
    if not (question.theory.exact and sample.is_exact):
        return
    scenario = report.scenario
    most = t_quantile(SUSPECT, scenario.replications - 1)
    if not sample.disagreement(figures, most, {}):
        return
    key = key_words(f"{question.settings.seed}\nagain\n{question.item.name}")
    larger = replace(scenario, key=tuple(key), replications=MOST_REPLICATIONS)
    again = RunSample(question, larger.run(program=program))
    rare = {
        row.policy: rare_cost(question, (row.s, row.S), larger) for row in report.rows
    }
    of_base = rare[report.rows[0].policy]
    spare = {name: cost + of_base for name, cost in rare.items()}
    most = t_quantile(CHANCE, MOST_REPLICATIONS - 1)
    fault = again.disagreement(figures, most, spare)
    if fault:
        raise Disagreement(fault)


def as_run(question: Question, levels: Levels) -> tuple[Question, dict[str, Figures]]:
    """Returns a question whose orders go up to S exactly, as those of crnsim do, and figures of the policies of a run."""
    item = replace(question.item, bounds=OrderBounds())
    settings = replace(question.settings, order_min=None)
    exact = replace(question, item=item, settings=settings)
    asked = {TODAY: question.levels, CHOSEN: levels}
    return exact, {name: exact.figures(it) for name, it in asked.items() if it}


def checked_run(
    question: Question,
    levels: Levels,
    figures: Mapping[str, Figures],
    program: str,
) -> tuple[CheckRun, RunSample] | None:
    """Returns the run of today's policy and of the chosen one with some levels; None if crnsim can't run them. Raises
    Refused if the bias of the start is not known, Disagreement and ProgramError."""
    if question.item.review > 1:
        return None
    if question.theory.spare:
        question, figures = as_run(question, levels)
    report = scenario_of(question, levels).run(program=program)
    sample = RunSample(question, report)
    check_run(question, report, sample, figures, program)
    return run_of(question, report, sample), sample


def run_of(question: Question, report: Report, sample: RunSample) -> CheckRun:
    """Returns the run of today's policy, if there is one, and of the last one of a report, which may be the same."""
    rows, scenario, costs = report.rows, report.scenario, report.scenario.costs
    base, chosen = sample.policies[0], sample.policies[-1]
    run = CheckRun(
        " ".join(scenario.key),
        scenario.periods,
        scenario.replications,
        scenario.initial,
        question.scale,
        costs.setup,
        costs.holding,
        costs.backlog,
        int(rows[-1].total),
        chosen.cost,
    )
    if question.levels is None:
        return run
    saving = 0.0 - chosen.difference  # which is never -0.0
    error = 0.0 if len(rows) == 1 else chosen.error
    quantile = t_quantile(1 - question.settings.level, scenario.replications - 1)
    low, high = ends_of(saving, error, quantile)
    return replace(
        run,
        total_today=rows[0].total,
        difference=rows[-1].diff_mean,
        variance=rows[-1].diff_var or rows[0].diff_mean,
        cost_today=base.cost,
        saving=saving,
        error=error,
        low=low,
        high=high,
    )
