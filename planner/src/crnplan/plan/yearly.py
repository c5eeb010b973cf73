"""Says what the plan of an item by its season comes to over a year: the mean of its parts, each as if it lasted.

That is an approximation: what a part leaves on hand, or on order, the next one begins with.
"""
from __future__ import annotations

from collections.abc import Iterable, Sequence
from dataclasses import replace
from typing import Any

import numpy as np

from ..chances import Floats
from ..read.item import NEW
from .answer import (
    ALONE,
    BEFORE,
    BOUNDED,
    CHEAPER,
    CHOSEN,
    DEARER,
    OVERRIDE,
    RUN,
    SAME,
    SERVICE,
    THEORY,
    TODAY,
    UNCOMPARED,
    UNDAMPED,
    UNDECIDED,
    Answer,
    Figures,
    YearPart,
    CheckRun,
)
from .choice import CLOSE
from .question import Question

# The figures of an answer, and of its run, that are means over a year.
COSTS = "cost_today cost_chosen saving confidence_cost cost_promised".split()
OF_RUN = "cost_chosen cost_today saving error low high".split()


def verdict_of(
    question: Question, today: Figures, saving: float, run: CheckRun | None
) -> str:
    """Returns the verdict on a policy that is not today's, by its saving: by the interval of a run if there is one, else
    by theory."""
    share, near = question.aim, CLOSE * today.cost
    low: float | None = saving - near
    high: float | None = saving + near
    if run:
        low, high = run.low, run.high
    has_goal = share is not None or question.together is not None
    if low is not None and low > 0:
        return CHEAPER
    if (
        has_goal
        and not question.has_backlog
        and (question.met(today) < (share or 0.0) or saving < 0)
    ):
        return SERVICE
    return DEARER if high is not None and high < 0 else UNDECIDED


def part_of(question: Question, answer: Answer) -> YearPart:
    """Returns a part of the coming year as a calendar has it."""
    season = question.season
    assert season is not None
    return YearPart(*season.stretch, *answer.chosen.levels, season.factor)


def mean_of(figures: Sequence[Figures], periods: Floats, asked: Floats) -> Figures:
    """Returns the mean of the figures of some parts of a year, with the levels of the first: of the share that is met at
    once by what is asked for in each, else by its periods."""
    means = dict[str, float]()
    for part in ("cost", "short", "stock", "orders", "fill"):
        weights = asked if part == "fill" else periods
        values = [getattr(one, part) for one in figures]
        means[part] = float(weights @ values / weights.sum())
    return replace(figures[0], **means)


class Year:
    """The parts of a year, each with its question and the answer to that, and means over them."""

    def __init__(self, parts: Sequence[tuple[Question, Answer]]) -> None:
        self.question, _ = parts[0]
        self.answers = [answer for _, answer in parts]
        self.rows = [part_of(*part) for part in parts]
        self.periods = np.array([row.end - row.first for row in self.rows], float)
        means = [float(question.demand.mean) for question, _ in parts]
        self.asked = self.periods * means

    def mean(self, values: Sequence[float | None]) -> float | None:
        """Returns the mean of a value by part; None if it is None in one."""
        if None in values:
            return None
        return float(self.periods @ values / self.periods.sum())

    def means(self, things: Sequence[object], names: Iterable[str]) -> dict[str, Any]:
        """Returns the means of some figures of what each part has, by name."""
        return {name: self.mean([getattr(it, name) for it in things]) for name in names}

    def mean_figures(self, name: str) -> Figures | None:
        """Returns the mean of the figures of a policy: see `mean_of`. None without the policy in the first part; in
        others another one takes its place."""
        if getattr(self.answers[0], name) is None:
            return None
        figures = list[Figures]()
        for answer in self.answers:
            figures.append(getattr(answer, name) or answer.chosen)
        return mean_of(figures, self.periods, self.asked)

    @property
    def run(self) -> CheckRun | None:
        """Returns the run of the first part with the mean costs and savings of the year; None without runs. The runs of all parts are on
        the same random numbers, so their errors and intervals are added as if they were one.
        """
        runs = [answer.run for answer in self.answers if answer.run]
        if not runs:
            return None
        return replace(runs[0], **self.means(runs, OF_RUN))

    def verdict(self, answer: Answer) -> str:
        """Returns the verdict on a year with such means."""
        verdicts = {answer.verdict for answer in self.answers}
        for verdict in (UNCOMPARED, NEW, BOUNDED):
            if verdict in verdicts:
                return verdict
        if verdicts == {SAME}:
            return SAME
        assert answer.today and answer.saving is not None
        run = answer.run if answer.source == RUN else None
        return verdict_of(self.question, answer.today, answer.saving, run)


def over_year(parts: Sequence[tuple[Question, Answer]]) -> Answer:
    """Returns the answer to the first part of the year of an item that is planned by its season, with means of the year in
    place of the figures of that part, and with the calendar of levels."""
    year = Year(parts)
    answers, first = year.answers, year.answers[0]
    changed = year.means(answers, COSTS)
    for name in (TODAY, CHOSEN, ALONE, BEFORE, UNDAMPED, OVERRIDE):
        changed[name] = year.mean_figures(name)
    coverage = [answer.coverage_cost for answer in answers]
    if any(coverage):
        changed["coverage_cost"] = year.mean([cost or 0.0 for cost in coverage])
    correction = first.correction
    if correction:
        own = [answer.correction or correction for answer in answers]
        stock = year.means(own, ["plain_stock"])
        changed["correction"] = replace(correction, **stock)
    answer = replace(
        first,
        source=RUN if any(one.source == RUN for one in answers) else THEORY,
        laws=replace(first.laws, demand=year.question.all_year.table),
        run=year.run,
        calendar=tuple(year.rows),
        **changed,
    )
    return replace(answer, verdict=year.verdict(answer))
