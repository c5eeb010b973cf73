"""Compares policies in the long run, without the effect of the start, beside the figures of theory.

All policies of a run start with the same stock. What that adds to the expected cost of each is exact by theory
(`theory/run_effects.py`). It is taken out, which moves the intervals and leaves their widths.

Costs leave `unit` out, which adds unit times the mean net demand to every policy. Intervals are those of `verdicts`.
There is none if the rarer policy of a comparison places fewer than two orders in all replications, or if the
difference is the same in all. Theory and all decimals are rounded and unproved; crnsim's costs are exact.
"""
from __future__ import annotations

import math
from collections.abc import Iterator, Sequence
from dataclasses import dataclass, replace
from functools import cached_property
from pathlib import Path

from .. import formats
from ..arguments import judged
from ..crnsim.report import ReportRow, policies_in, rows_of_run
from ..errors import Refused, argument
from ..remarks import Remark, Value
from ..scenario import ScenarioData
from ..table import DataTable, Result, names_of
from ..theory.lattice import NoTheory
from ..theory.long_run import LongRun
from ..theory.run_effects import StartBias, end_effects, start_bias, theory_of
from ..toml.scenarios import MANY, check_tree
from .verdicts import (
    FEWEST_ORDERS,
    MOST_ROWS,
    Decision,
    RunEstimate,
    decided,
    estimates_of,
    far_from,
    ranked,
    t_quantile,
)

# In standard errors of a difference. Measured: with smaller effects 94% of uncorrected 95% intervals hold.
MOST_EFFECT = 0.25
# Runs and theory are said to differ if chance alone lets them differ so much in this share of tables.
CHANCE_OF_ALARM = 0.001
KEYS = 48
LEAST_KEYS, MOST_KEYS = 2, formats.MOST_REPLICATIONS  # one has no variance


@dataclass(frozen=True, eq=False, repr=False)
class LongRunReport(Result):
    """A run of a scenario, whose first policy is the base, and what its start adds by theory.

    The `rows` are exact, of so many `replications`: those of the scenario, or of several keys together.
    """

    scenario: ScenarioData
    rows: tuple[ReportRow, ...]
    replications: int
    bias: StartBias

    @classmethod
    def of(
        cls,
        rows: Sequence[ReportRow],
        scenario: ScenarioData,
        replications: int,
        known: LongRun | None = None,
    ) -> LongRunReport:
        """Makes the report of rows on a scenario, perhaps with other policies.

        Parameters
        ----------
        rows : sequence of Row
            Exact rows of a run, the base first.
        scenario : Scenario
            What was run.
        replications : int
            Those of all rows together.
        known : LongRun, optional
            Its theory, if it is known.

        :meta private:

        Raises
        ------
        NoTheory
            If there is no long run.
        """
        asked = scenario.with_policies(policies_in(rows))
        return cls(asked, tuple(rows), replications, start_bias(asked, known))

    @property
    def is_exact(self) -> bool:
        """Returns whether theory, and the bias of the start, are exact but for rounding."""
        return self.bias.theory.exact and self.bias.on_lattice

    @cached_property
    def shifts(self) -> list[float]:
        """Returns what is taken from the cost of a period of each policy."""
        scenario = self.scenario
        net = scenario.demand.mean - (scenario.returns.mean if scenario.returns else 0)
        usual = scenario.money(scenario.costs.unit) * float(net)
        return [total / scenario.periods + usual for total in self.bias.biases]

    @cached_property
    def estimates(self) -> list[RunEstimate]:
        """Returns what the run says of each policy, in money of a period."""
        periods = self.scenario.periods
        orders = list[float]()
        for row in self.rows:
            rate = self.bias.theory.figures(row.s, row.S).orders
            orders.append(rate * periods * self.replications)
        return estimates_of(self.rows, self.replications, periods, self.shifts, orders)

    @property
    def strong(self) -> list[str]:
        """Returns the policies to whose difference the start adds too much for intervals of the long run."""
        names = []
        for row, shift in zip(self.rows, self.shifts):
            error = math.sqrt(row.diff_var or 0) / self.scenario.periods
            if abs(shift - self.shifts[0]) > MOST_EFFECT * error > 0:
                names.append(row.policy)
        return names

    @property
    def table(self) -> DataTable:
        """Returns the figures of a period, indexed by `policy`, the cheapest first, with intervals at a level of 0.95."""
        return self.decide().table

    @judged("run")
    def decide(self, level: float = 0.95) -> Decision:
        """Returns all policies, the cheapest first, with paired-t intervals of a period, verdicts, and theory's figures beside.

        Parameters
        ----------
        level : float, above 0 and below 1, default 0.95
            The joint level of the intervals.

        Returns
        -------
        Decision
            `frame` has a row for each policy.
        """
        base, costs = self.estimates[0].cost, self.bias.costs
        percents = list[float | None]()
        for own in self.estimates:
            percents.append(100 * own.difference / base if base else None)
        policies = ranked(
            self.rows, self.estimates, percents, level, self.replications, costs
        )
        scenario = self.scenario
        runs = Remark(
            "common start", {"initial": scenario.initial, "periods": scenario.periods}
        )
        return Decision(
            policies,
            self.rows[0].policy,
            self.replications,
            level,
            Remark("long run"),
            runs,
            self._exactness(),
            (*_without_interval(self.estimates), *self._warnings()),
        )

    def _exactness(self) -> Remark:
        code = "rounded bias"
        if self.bias.theory.exact:
            code = "exact theory" if self.is_exact else "start beside the lattice"
        return Remark(code, {"step": self.bias.theory.step})

    def _warnings(self) -> Iterator[Remark]:
        """Yields that the run is far from theory that is exact, if it is."""
        if not self.is_exact:
            return
        quantile = t_quantile(
            CHANCE_OF_ALARM / (2 * len(self.rows)), self.replications - 1
        )
        gaps = far_from(
            self.estimates, self.bias.costs, quantile, [0.0] * len(self.rows)
        )
        far = dict.fromkeys(gap.policy for gap in gaps if gap.error > 0)
        if far:
            yield Remark("far from theory", {"policies": names_of([*far], MOST_ROWS)})


def _without_interval(estimates: Sequence[RunEstimate]) -> Iterator[Remark]:
    few, same = list[str](), list[str]()
    for own in estimates[1:]:
        if own.error is None:
            is_rare = min(own.orders, estimates[0].orders) < FEWEST_ORDERS
            (few if is_rare else same).append(own.policy)
    if few:
        facts: dict[str, Value] = {"policies": names_of(few, MOST_ROWS)}
        yield Remark("few orders", facts | {"least": FEWEST_ORDERS})
    if same:
        yield Remark("no spread", {"policies": names_of(same, MOST_ROWS)})


def long_scenario(scenario: ScenarioData, keys: int) -> ScenarioData:
    """Returns the scenario of a long run with so many replications, without `unit`.

    It has the most periods, and starts with the mean position of the first policy: a run that starts near the long run
    is biased least. Raises Refused for a number that is not 2 to 256, ScenarioError with all faults, and NoTheory.
    """
    if not LEAST_KEYS <= keys <= MOST_KEYS:
        raise Refused(
            f"{argument('keys', str(keys))}: the long run takes {LEAST_KEYS} to {MOST_KEYS} keys"
        )
    check_tree(scenario.tree, MANY)
    base = scenario.base
    position = theory_of(scenario.with_policies([base])).mean_position(base.s, base.S)
    initial = min(max(round(position), 0), formats.MOST_ITEMS)
    return replace(
        scenario,
        periods=formats.MOST_PERIODS,
        replications=keys,
        initial=initial,
        ring=formats.RING_SIZES[-1],
        costs=replace(scenario.costs, unit=0),
        source=None,
    )


def long_run_of(
    scenario: ScenarioData, keys: int = KEYS, program: str | Path | None = None
) -> LongRunReport:
    """Runs the policies of a scenario, whose first one is the base, in the long run: see `Scenario.long_run`."""
    asked = long_scenario(scenario, keys)
    return LongRunReport.of(rows_of_run(asked, program), asked, keys)


def end_warning(scenario: ScenarioData, rows: Sequence[ReportRow]) -> list[Remark]:
    """Returns the warning that `unit` charges what is left at the end, if policies are compared: in long-run means."""
    unit, base = scenario.money(scenario.costs.unit), rows[0].policy
    if unit == 0 or len(rows) < 2:
        return []
    effects = end_effects(scenario, rows)
    if effects is None:
        return [Remark("unit at an unknown end", {"unit": unit})]
    names = [row.policy for row in rows]
    (least, low), (most, high) = min(zip(effects, names)), max(zip(effects, names))
    differences = [row.diff_total for row in rows]
    place = differences.index(min(differences))
    facts: dict[str, Value] = {
        "unit": unit,
        "base": base,
        "least": least,
        "low": low,
        "most": most,
        "high": high,
        "cheapest": names[place],
        "effect": effects[place],
        "mean": float(rows[place].diff_mean),
    }
    return [Remark("unit of the cheapest" if place else "unit at the end", facts)]


def start_warning(rows: Sequence[ReportRow], scenario: ScenarioData) -> list[Remark]:
    """Returns the warning that a report on the coming periods says little of the long run, if theory tells so exactly.
    `unit` is left out, since `end_warning` is about that."""
    if scenario.replications < 2 or len(rows) < 2:
        return []
    free = replace(scenario, costs=replace(scenario.costs, unit=0))
    try:
        report = LongRunReport.of(rows, free, scenario.replications)
    except NoTheory:
        return []
    if not report.strong or not report.bias.theory.exact:
        return []
    facts: dict[str, Value] = {
        "periods": scenario.periods,
        "initial": scenario.initial,
        "most": MOST_EFFECT,
        "policies": names_of(report.strong, MOST_ROWS),
    }
    return [Remark("start of coming periods", facts)]


def coming_decision(
    given: Sequence[ReportRow], scenario: ScenarioData, level: float = 0.95
) -> Decision:
    """Compares the policies of a report on the coming periods of a scenario. Warnings say what the end and the start of
    a replication do to the verdicts on the listed ones."""
    decision = decided(given, scenario.replications, level)
    listed = {row.policy for row in decision.listed}
    shown = [row for row in given if row.policy in listed]
    horizon = {"periods": scenario.periods, "initial": scenario.initial}
    return replace(
        decision,
        horizon=Remark("coming periods", horizon),
        warnings=(*end_warning(scenario, given), *start_warning(shown, scenario)),
    )
