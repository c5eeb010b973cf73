"""Chooses the lattice on which a scenario is counted: as fine as its time allows.

If all demands and returns are multiples of a step, and the tables of that step are small enough, the lattice is exact.
Else values are shared between the two cells beside them, such that means stay. The same scenario on a lattice twice as
coarse then shows how much that matters.
"""
from __future__ import annotations

import math
from collections.abc import Callable
from dataclasses import dataclass

import numpy as np

from ..chances import Whole
from ..errors import Refused
from ..formats import MOST_ITEMS
from ..law import Law
from ..policies import Lot
from ..scenario import ScenarioData
from .feasible import ALL, Feasible
from .grid import gap_grid
from .long_run import LongRun
from .shortfalls import work_of
from .walk import DIGITS, LatticeLaw, chances_in, decay_of, net_tables, sum_of

# Tables of this size are searched in at most half a second: gaps with one lead time, and work for late orders with
# several, by `work_of`.
MOST_GAPS = 60_000
MOST_WORK = 60_000_000
MOST_CELLS = 150_000  # of a law, or of levels
MOST_STARTS = 400  # cells above S at which a cycle may begin
MOST_TRANSFORM = 1 << 20  # cells of a transform
CELLS_OF_SHAPE = 400  # in which a scenario's shape is looked at
LEAST_CELLS = 8  # of the largest net demand or order
GROWTH = 1.1  # of a step that is too fine
COARSER = 1.2  # by how much a step may grow if more values then lie on the lattice


class NoTheory(Refused):
    """A scenario without a best policy, or with numbers too far apart. `path` leads to the key that says so."""

    def __init__(self, what: str, *path: str) -> None:
        """Keeps the path. It is empty if there is no single key."""
        super().__init__(what)
        self.path = path


@dataclass(frozen=True)
class Shape:
    """How large the numbers of a scenario are, in items and periods. `base` divides all of them. `high` is that of the
    periods from one review to the next, and `lead` has those until the next review too.
    """

    base: int
    mean: float
    deviation: float
    high: int
    lead: int
    leads: int
    order: float
    height: float
    rise: float  # the largest net number that comes back in a period
    spare: int  # of what is ordered beyond what is wanted, at most

    @property
    def gap(self) -> int:
        """Returns the largest gap that is looked at."""
        return min(MOST_ITEMS, int(3 * self.order + 3 * self.high))

    @property
    def spread(self) -> float:
        """Returns how wide the law of the stock is, about."""
        return 18 * self.deviation * math.sqrt(self.lead + 1) + self.height

    @property
    def level(self) -> float:
        """Returns the largest level that is looked at, about."""
        reach = (self.lead + 1) * self.mean + self.spread / 2
        return min(MOST_ITEMS, reach + self.gap + self.spare)

    def has_room(self, step: int) -> bool:
        """Returns whether the laws of the scenario on this lattice have room."""
        return (
            self.height * 4 / step <= MOST_TRANSFORM
            and (self.spread + self.gap + self.spare) / step <= MOST_CELLS
            and min(self.spare, self.high) / step <= MOST_STARTS
        )

    def late_work(self, step: int, gap: float) -> float:
        """Returns how much work a gap has, in cells, if orders may overtake one another: see `work_of`."""
        under_way = (
            self.lead * (self.mean + self.rise)
            + 9 * math.sqrt(self.lead) * self.deviation
            + 2 * self.high
        )
        return work_of(gap + (under_way + self.height) / step, self.lead)

    def is_small(self, step: int, widest: int, most_gaps: int) -> bool:
        """Returns whether the tables of the scenario on this lattice can be made in time."""
        if not self.has_room(step):
            return False
        gap = self.gap / step
        if self.leads == 1:
            return gap <= most_gaps and self.level / step <= MOST_CELLS
        work = self.late_work(step, widest / step)
        for narrower in gap_grid(int(gap)):
            work += self.late_work(step, narrower)
        return work <= MOST_WORK


def check_net(demand: float, back: float) -> None:
    """Raises NoTheory if there is nothing to order in the long run, by the mean demand and the mean returns."""
    if demand == 0:
        raise NoTheory(
            "no item is ever asked for; give a demand above 0 a weight", "demand"
        )
    # By rounding, means that are equal may differ a little.
    if demand - back <= 1e-9 * demand:
        raise NoTheory(
            f"on average {back:g} items come back and {demand:g} are asked for in a period, so there is "
            "nothing to order in the long run; look at the tables demand and returns",
            "demand",
        )


def height_of(demand: Law, returns: Law, step: int) -> float:
    """Returns how far returns may lift the stock above S, in items: beyond, the chance is below any rounding."""
    back = LatticeLaw.of(returns, step)
    net = sum_of(LatticeLaw.of(demand, step), back.reflected)
    return step * DIGITS / decay_of(net) if net.low < 0 else 0.0


def base_of(occurring: Whole, lot: Lot) -> int:
    """Returns what divides all orders, and all numbers that occur in a scenario."""
    base = int(np.gcd.reduce(occurring))
    if lot.order(base) == base:
        return base
    return math.gcd(base, lot.pack if lot.pack > 1 else lot.least)


def shape_of(scenario: ScenarioData) -> Shape:
    """Returns the shape of a scenario. Raises NoTheory if it has no best policy."""
    costs = scenario.costs
    for name, cost in (("holding", costs.holding), ("backlog", costs.backlog)):
        if cost == 0:
            raise NoTheory(
                f"the cost {name} is 0, so there is no best policy: stock, or being short, costs nothing; "
                "give it a cost above 0",
                "costs",
                name,
            )
    laws = [chances_in(table) for table in net_tables(scenario)]
    demand, *others = [float(chances @ values) for values, chances in laws]
    back = sum(others)
    check_net(demand, back)
    squares = float(sum(chances @ values**2 for values, chances in laws))
    variance = squares - demand**2 - back**2
    review = scenario.review
    both = costs.holding + costs.backlog
    rate = 2 * costs.setup * both / (costs.holding * costs.backlog)
    order = math.sqrt(rate * (demand - back)) + (rate * review * variance) ** (1 / 3)
    occurring = np.concatenate([values for values, _ in laws])
    high = review * int(occurring.max())
    leads = [*scenario.lead.chances]
    height = rise = 0.0
    if scenario.returns:
        rise = max(0, max(scenario.returns.values) - min(scenario.demand.values))
        if back:
            step = max(1, high // (review * CELLS_OF_SHAPE))
            height = height_of(scenario.demand, scenario.returns, step)
    return Shape(
        base_of(occurring, scenario.lot),
        demand - back,
        math.sqrt(variance),
        high,
        leads[-1] + review - 1,
        len(leads),
        order,
        height,
        rise,
        scenario.lot.order(1) - 1,
    )


def finest(
    base: int,
    largest: float,
    excess: Callable[[int], float],
    growth: Callable[[float], float] = lambda excess: GROWTH,
) -> int | None:
    """Returns the finest step, a multiple of the base, of a lattice whose tables are small enough; None if it had fewer
    than `LEAST_CELLS` in the largest number. `excess` says how many times too large the tables of a step are, and
    `growth` by how much the next step is then coarser."""
    times = 1
    while (size := excess(base * times)) > 1:
        times = max(times + 1, int(times * growth(size)))
        if base * times * LEAST_CELLS > largest:
            return None
    return base * times


def lattice_of(
    scenario: ScenarioData, shape: Shape, widest: int, most_gaps: int = MOST_GAPS
) -> tuple[int, bool]:
    """Returns the step of the lattice, and whether it is exact. With one lead time it has at most so many gaps. If it
    is not exact, that of some coarser steps is taken that adds the least variance."""
    base = shape.base
    least = finest(
        base,
        max(shape.high, shape.order, shape.spare),
        lambda step: 1 if shape.is_small(step, widest, most_gaps) else math.inf,
    )
    if least is None:
        raise NoTheory(
            "the numbers of this scenario are too far apart for the theory's tables: what comes back is "
            "nearly what is asked for, or one order lasts for far too long; compare policies of your own by "
            "runs"
        )
    if least == base:
        return base, True
    laws = [chances_in(table) for table in net_tables(scenario)]

    def blur(step: int) -> float:
        """Returns the variance that a lattice adds to the demand and the returns of a period."""
        return sum(
            float(chances @ (values % step * (step - values % step)))
            for values, chances in laws
        )

    return min(range(least, int(COARSER * least) + 1, base), key=blur), False


def theory_on(
    scenario: ScenarioData,
    shape: Shape,
    step: int,
    exact: bool,
    feasible: Feasible = ALL,
    known: LongRun | None = None,
) -> LongRun:
    """Returns the theory of a scenario on a lattice. It has the tables of a known one of the same laws, whatever that
    costs, if both are on one lattice."""
    most = -(-shape.gap // step)
    if known and (known.step, known.exact) == (step, exact):
        return known.priced(scenario.costs, most, feasible)
    return LongRun(scenario, step, exact, most, feasible)


def theories_of(
    scenario: ScenarioData, widest: int | None = None
) -> tuple[LongRun, LongRun | None]:
    """Returns the theory of a scenario, and the one on a lattice twice as coarse, or None if the lattice is exact.

    `widest` is the greatest S - s, in items, that is looked at beside the best: by default that of the first policy.
    Raises NoTheory if the scenario has no best policy, or if its numbers are too far apart.
    """
    if widest is None:
        gaps = [policy.S - policy.s for policy in scenario.policies[:1]]
        widest = max(gaps, default=0)
    shape = shape_of(scenario)
    step, exact = lattice_of(scenario, shape, widest)
    theory = theory_on(scenario, shape, step, exact)
    return theory, None if exact else theory_on(scenario, shape, 2 * step, False)
