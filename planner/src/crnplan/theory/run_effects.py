"""Computes what the start and the end of a run add to its expected cost, beside the same periods of the long run.

A run starts with the stock `initial` and nothing on order. The expected cost of its periods less that of as many of the
long run is the bias of the start, exact on the lattice of the theory. A start between two cells is shared by both. The
bias has three parts:

- The position after each review gives the expected orders: see `reviews.py`.
- It gives the expected costs of stock and backlog too. Let l be the shortest and L the longest lead time. In the first
  l periods no order of the run arrives, so their costs are the same for all policies. The stock in period t + l follows
  from the position after review t, from the orders of this and the reviews before that are late, and from the net
  demand since then (`shortfalls.py`). From review L - l on, its expected cost is linear in the law of the position
  L - l reviews before, so the mean law of all these suffices.
- With `unit`, what the position has risen by since the start is paid for.

The end adds to the cost too: `unit` is also paid for items that are left when a replication ends. The items ordered are
the net demand and what the position has risen by, so the unit costs of two policies differ by `unit` times the
difference of their final positions. `end_effects` replaces these by means over the long run.
"""
from __future__ import annotations

from collections.abc import Sequence
from dataclasses import replace
from typing import TYPE_CHECKING, NamedTuple

import numpy as np
from scipy import fft

from ..chances import Floats
from ..policies import Lot, Policy
from ..scenario import ScenarioData
from .feasible import ALL
from .lattice import MOST_GAPS, NoTheory, lattice_of, shape_of, theory_on
from .long_run import LongRun
from .reviews import (
    MOST_SUMS,
    Reviews,
    Start,
    NetDemandLaws,
    falling,
    most_sums,
    moving,
)
from .shortfalls import renewed, transforms_of, waiting
from .walk import NOTHING, LatticeLaw, Surplus, room_for, sum_of

if TYPE_CHECKING:
    from ..crnsim.report import ReportRow

MOST_WORK = 40_000_000  # for late orders of all policies, by `work_of`
MOST_BIAS_GAPS = (
    17_000  # with one lead time: the reviews of a run take longer than figures
)


def theory_of(scenario: ScenarioData, most_gaps: int = MOST_GAPS) -> LongRun:
    """Returns the theory of a scenario, fine enough for its own policies, also with costs of 0. With one lead time the
    lattice has at most so many gaps.

    Its orders go up to S exactly, as those of a run do. Raises NoTheory if there is no long run, or if the numbers of the
    scenario are too far apart.
    """
    scenario = replace(scenario, lot=Lot())
    costs = scenario.costs
    gaps = [policy.S - policy.s for policy in scenario.policies]
    positive = replace(
        costs, holding=max(1, costs.holding), backlog=max(1, costs.backlog)
    )
    # A search needs wider tables, and more passes over late orders: here the gaps are known.
    shape = replace(shape_of(replace(scenario, costs=positive)), order=max(gaps) / 3)
    work = sum(shape.late_work(shape.base, gap / shape.base) for gap in gaps)
    if shape.leads > 1 and shape.has_room(shape.base) and work <= MOST_WORK:
        return theory_on(scenario, shape, shape.base, True)
    return theory_on(
        scenario, shape, *lattice_of(scenario, shape, max(gaps), most_gaps)
    )


def start_of(theory: LongRun, initial: int, policy: Policy, gap: int) -> Start:
    """Returns the start of a policy. The law has room for what may come back."""
    highs = theory.above_low.low
    if initial < policy.s:
        return Start(LatticeLaw(highs, NOTHING.between(highs, gap)), True)
    cell, rest = divmod(policy.S - initial, theory.step)
    low = min(cell, 0) + highs
    chances = np.zeros(gap - low + 1)
    shares = np.array([theory.step - rest, rest]) / theory.step
    np.add.at(chances, np.minimum([cell, cell + 1], gap) - low, shares)
    return Start(LatticeLaw(low, chances), False)


class PolicyRuns:
    """Runs of a scenario's policies from their common start. The orders of `counted` reviews all arrive within a run."""

    def __init__(self, theory: LongRun, scenario: ScenarioData) -> None:
        """Computes what the policies share, as the costs of the periods before the shortest lead time has passed."""
        self.theory = theory
        self.scenario = scenario
        self.periods = scenario.periods
        leads = scenario.lead.chances
        least = min(leads)
        self.late = theory.late
        self.counted = max(self.periods - max(leads), 0)
        # Periods before the shortest lead time has passed, and what they cost; then those before the longest one has.
        self.before = min(least, self.periods)
        self.first = 0.0
        amount = theory.net
        for _ in range(self.before):
            level = np.array([scenario.initial])
            self.first += float(
                Surplus(amount, theory.step).costs(
                    level, theory.holding, theory.backlog
                )[0]
            )
            amount = sum_of(amount, theory.net)
        self.between = self.periods - self.counted - self.before
        self.amount = Surplus(amount, theory.step)
        self.starts = {
            (policy, gap): start_of(theory, scenario.initial, policy, gap)
            for policy in scenario.policies
            for gap, _ in theory.gaps_of(policy.s, policy.S)
        }
        widest = max(
            gap - min(start.law.low, 0) for (_, gap), start in self.starts.items()
        )
        self.sums: NetDemandLaws | None = None
        if (
            theory.net.low >= 0
            and widest * min(self.periods, most_sums(theory.net, widest)) <= MOST_SUMS
        ):
            self.sums = NetDemandLaws.of(theory.net, widest, self.periods)

    def reviews(self, start: Start, gap: int) -> Reviews:
        """Returns the reviews from a start."""
        if self.sums is not None:
            return falling(self.sums, start, gap, self.counted)
        usual = self.theory.positions(gap), 1 / self.theory.periods(gap)
        return moving(self.theory.net, start, *usual, self.periods, self.counted)

    def bias(self, policy: Policy, gap: int) -> float:
        """Returns the bias of the start of a policy, counted with this gap."""
        theory = self.theory
        start = self.starts[policy, gap]
        unit = self.scenario.costs.unit
        reviews = self.reviews(start, gap)
        orders = 1 / theory.periods(gap)
        usual = theory.figures_of_gap(gap, policy.S).cost - theory.setup * orders
        bias = theory.setup * (reviews.orders - self.periods * orders)
        bias += self._stock_bias(policy, gap, start, reviews, usual)
        depth = reviews.last + theory.net.mean
        return bias + unit * (policy.S - theory.step * depth - self.scenario.initial)

    def _stock_bias(
        self, policy: Policy, gap: int, start: Start, reviews: Reviews, usual: float
    ) -> float:
        """Returns the bias of stock and backlog of a policy, which usually cost so much in a period."""
        low, laws = self._shortfalls(start.law, reviews.first, gap)

        def excess(level: int) -> Floats:
            """Returns what a period costs more than usual if the stock a shortest lead time before is so far below a
            level as each cell of these laws."""
            levels = level - self.theory.step * (low + np.arange(laws.shape[1]))
            return (
                self.amount.costs(levels, self.theory.holding, self.theory.backlog)
                - usual
            )

        late = self.late[: self.between] * start.ordered
        costs = laws @ excess(policy.S)
        total = (
            self.first
            - self.before * usual
            + costs[-1]
            + (1 - late) @ costs[: len(late)]
        )
        if late.any():
            total += late @ (laws[: len(late)] @ excess(self.scenario.initial))
        return float(total)

    def _shortfalls(
        self, start: LatticeLaw, first: LatticeLaw, gap: int
    ) -> tuple[int, Floats]:
        """Returns laws of how far the stock is below S when all but late orders have arrived, a row each, and their
        first cell: 0, 1, .. reviews after the start, and at last what a law of the position makes of it, after as many
        as orders may be late."""
        net = self.theory.net
        last = len(self.late)
        if not last:
            return first.low, first.chances[None]
        above = max(0, -start.low, -first.low) + last * max(0, -net.low)
        room = room_for(above + gap + self.theory.beside - self.theory.above + 1)
        begun = transforms_of([NOTHING, start, first], room)[:, None]
        (move,) = transforms_of([net], room)
        kept = waiting(begun, np.array([gap]), move, last, room, above)
        transforms = [laws[-1, 0] for laws in renewed(kept, move, self.late)]
        rows = np.roll(fft.irfft(transforms, room), above, axis=1)
        return -above, np.vstack([start.between(-above, room - above - 1), rows])


class StartBias(NamedTuple):
    """What the start adds to the expected cost of a replication of each policy, and what a period of the long run
    costs; both in the scenario's money. `theory` says on which lattice, and `on_lattice` whether each start is on it.
    """

    biases: tuple[float, ...]
    costs: tuple[float, ...]
    theory: LongRun
    on_lattice: bool


def is_fine(theory: LongRun, scenario: ScenarioData) -> bool:
    """Returns whether a theory of a scenario counts it as `theory_of` does for the bias: item by item, if gaps are not
    too wide."""
    widest = max(policy.S - policy.s for policy in scenario.policies)
    high = max(*scenario.demand.values, *(scenario.returns or scenario.demand).values)
    is_exact = theory.exact and not theory.spare
    return is_exact and widest + 3 * high <= MOST_BIAS_GAPS * theory.step


def start_bias(scenario: ScenarioData, known: LongRun | None = None) -> StartBias:
    """Returns the bias of the start of a scenario's policies, over its periods from its `initial`. `known` is a theory
    of the scenario, perhaps with other costs, which is taken if it is fine enough.

    Costs of the long run leave `unit` out, which adds unit times the mean net demand to each; the biases have it.
    Raises NoTheory if there is no long run, or if the numbers of the scenario are too far apart.
    """
    costs = scenario.costs
    policies = scenario.policies
    theory = (
        known
        if known and is_fine(known, scenario)
        else theory_of(scenario, MOST_BIAS_GAPS)
    )
    if (theory.setup, theory.holding, theory.backlog) != (
        costs.setup,
        costs.holding,
        costs.backlog,
    ):
        theory = theory.priced(costs, theory.most, ALL)
    runs = PolicyRuns(theory, scenario)
    biases = (
        sum(
            share * runs.bias(policy, gap)
            for gap, share in theory.gaps_of(policy.s, policy.S)
        )
        for policy in policies
    )
    on_lattice = all(
        scenario.initial < policy.s or (policy.S - scenario.initial) % theory.step == 0
        for policy in policies
    )
    usual = (theory.figures(policy.s, policy.S).cost for policy in policies)
    return StartBias(
        tuple(map(scenario.money, biases)),
        tuple(map(scenario.money, usual)),
        theory,
        on_lattice,
    )


def end_effects(
    scenario: ScenarioData, policies: Sequence[Policy | ReportRow]
) -> list[float] | None:
    """Returns what `unit` adds per replication to each policy's cost by its final stock, less that of the first one;
    None if there is no long-run mean, or if its tables are too large."""
    try:
        theory = theory_of(
            scenario.with_policies(
                Policy.of_levels(policy.s, policy.S) for policy in policies
            )
        )
    except NoTheory:
        return None
    positions = [theory.mean_position(policy.s, policy.S) for policy in policies]
    unit = scenario.money(scenario.costs.unit)
    return [unit * (position - positions[0]) for position in positions]
