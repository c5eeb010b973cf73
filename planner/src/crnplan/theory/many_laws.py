"""Computes policies under many laws of demand and of lead times, on lattices that are coarser than those of a search.

`figures_of_laws` compares the same policies under each law. `Promises` finds policies that keep a fill rate under most
laws that a history allows: S is raised until the share of demand is met under enough of them. Costs are those of the
scenario's own law, by which the share is met too.

For each gap S - s the laws are ranked by the least S that meets the share. The S of a promise is that of the law at the
confidence's place in this order: no smaller one keeps the promise with this gap. The gap is the cheapest of a few
around that of the policy without a promise. For these, only laws near that place are looked at.
"""
from __future__ import annotations

import contextlib
import math
from collections.abc import Iterable, Iterator, Mapping, Sequence
from dataclasses import dataclass, replace

import numpy as np

from ..chances import Floats
from ..law import Law
from ..policies import Policy
from ..scenario import ScenarioData
from .feasible import ALL
from .figures import PolicyFigures
from .lattice import NoTheory, Shape, finest, shape_of, theory_on
from .long_run import NO_POLICY, Candidate, LongRun
from .walk import PositionWalk, room_for

DEVIATIONS = 8  # of the net demand of the lead time, which have room
# What a law may take: cells, times what each takes (a constant, for each period of the lead time, for each pair of
# them). With fewer cells than the least, no time is worth it.
MOST_WORK = 250_000
OF_CELL = 50
OF_PERIOD = 42
OF_PAIR = 5
LEAST_ROOM = 512

LawPair = tuple[Law, Law]  # of demand and of lead times
CONFIDENCE = 0.8  # by default, of the laws that a history allows
FACTORS = tuple(1.1**power for power in range(-5, 7))  # of the gap without a promise
FEWER = (0.0, 0.125, 0.25, 0.5)  # further factors if S has a bound
BESIDE = (
    8  # laws on each side of the confidence's place that are looked at for other gaps
)
MOST_LEVELS = 1_500  # cells, with one lead time, in the mean of the laws
MOST_LATE_WORK = 60_000  # for late orders with a gap, by `work_of`, in the mean


@dataclass(frozen=True)
class LawFigures:
    """The long run of policies under laws: a row for each law, a column for each policy.

    `cost` is that of a period, without `unit`; `fill` the share of demand met at once. Laws without a long run have none.
    """

    cost: Floats
    fill: Floats


def under_laws(
    scenario: ScenarioData, laws: Iterable[LawPair]
) -> Iterator[tuple[ScenarioData, Shape | None]]:
    """Yields the scenario under each law of demand and of lead times, with its shape: None if there is nothing to order
    in the long run."""
    for demand, lead in laws:
        own = replace(scenario, demand=demand, lead=lead)
        shape = None
        with contextlib.suppress(NoTheory):
            shape = shape_of(own)
        yield own, shape


def run_of(
    scenario: ScenarioData,
    shape: Shape,
    widest: int,
    made: LongRun | None = None,
) -> LongRun | None:
    """Returns the long run of a scenario on the finest lattice that is computed in time for gaps up to so many items,
    and wide ones; None if its numbers are too far apart for that. It is the one `made` with other costs if that has this lattice.
    """
    periods = shape.lead + 1
    last = shape.lead if shape.leads > 1 else 0
    of_cell = OF_CELL + OF_PERIOD * last + OF_PAIR * last * periods / 2
    allowed = max(LEAST_ROOM, int(MOST_WORK / of_cell))

    def excess(step: int) -> float:
        """Returns how many times too large the laws of the stock are, but for what is all but impossible."""
        exact = step == shape.base
        is_made = made is not None and (made.step, made.exact) == (step, exact)
        walk = made if made and is_made else PositionWalk(scenario, step, exact)
        net = walk.net
        above = -walk.above_low.low + shape.lead * max(0, -net.low) + walk.back.high
        likely = (
            periods * walk.one.mean
            + DEVIATIONS * math.sqrt(periods * walk.one.variance)
            + net.high
        )
        gap = -(-max(widest, math.ceil(2 * shape.order)) // step)
        return (
            room_for(above + gap + int(min(periods * net.high, likely)) + 3) / allowed
        )

    step = finest(
        shape.base, max(shape.high, shape.order), excess, lambda size: 0.8 * size
    )
    if step is None:
        return None
    return theory_on(scenario, shape, step, step == shape.base, ALL, made)


def figures_of_laws(
    scenario: ScenarioData,
    laws: Sequence[LawPair],
    policies: Sequence[Policy],
    made: Mapping[int, LongRun] = {},
) -> LawFigures:
    """Returns the figures of policies under laws, each of demand and of lead times; all else is the scenario's. `made`
    may have long runs under some laws, by their places: see `Promises`.

    A lattice is as fine as `MOST_WORK` allows. Raises NoTheory if the scenario has no best policy.
    """
    shape_of(scenario)
    widest = max(policy.S - policy.s for policy in policies)
    figures = list[list[PolicyFigures]]()
    for place, (own, shape) in enumerate(under_laws(scenario, laws)):
        theory = shape and run_of(own, shape, widest, made.get(place))
        if theory:
            theory.figure(theory.pairs_of(policies))
            figures.append([theory.figures(policy.s, policy.S) for policy in policies])
    if not figures:
        raise NoTheory(
            "no law of demand has a long run: as much comes back as is asked for",
            "demand",
        )
    table, scale = np.array(figures), float(scenario.scale)
    return LawFigures(table[..., 0] / scale, table[..., 1])


class Promises:
    """Policies of a scenario that meet shares, as its theory counts them, under enough of some laws, and by its own.

    `made` has the long runs of laws, by their places; `lacking` laws have none, and so keep no promise. Fill rates are
    counted in steps of `step` items, exact but for rounding if `exact` says so.
    """

    def __init__(
        self,
        scenario: ScenarioData,
        theory: LongRun,
        gap: int,
        laws: Iterable[LawPair],
        shares: Sequence[float],
        confidence: float = CONFIDENCE,
    ) -> None:
        """Takes laws, each of demand and of lead times. `theory` is that of the scenario, and `gap` that of a good
        policy, in its cells. The confidence is above 0, and at most 1."""
        self.theory = theory
        self.shares = shares
        self.confidence = confidence
        scenarios = [*under_laws(scenario, laws)]
        self.step = self.step_for(
            [shape for _, shape in scenarios if shape], gap * theory.step
        )
        self.exact = theory.exact and self.step == theory.step
        self.made = dict[int, LongRun]()
        for place, (own, shape) in enumerate(scenarios):
            if shape and shape.has_room(self.step):
                made = theory_on(own, shape, self.step, self.exact)
                self.made[place] = made.counting(theory.counts_periods)
        self.theories = [*self.made.values()]
        self.lacking = len(scenarios) - len(self.theories)
        self.levels = dict[tuple[int, int], dict[float, int]]()

    def step_for(self, shapes: Sequence[Shape], span: int) -> int:
        """Returns the finest step on which levels for S - s of a span of items are found in time."""

        def time_of(shape: Shape, step: int) -> float:
            if shape.leads == 1:
                return shape.level / step / MOST_LEVELS
            return shape.late_work(step, span / step) / MOST_LATE_WORK

        def excess(step: int) -> float:
            """Returns by how many times it takes too long to find levels, in the mean of the laws."""
            return sum(time_of(shape, step) for shape in shapes) / max(len(shapes), 1)

        return (
            finest(self.theory.step, math.inf, excess, lambda excess: 1)
            or self.theory.step
        )

    def prepare(self, laws: Sequence[int], gaps: Sequence[int]) -> None:
        """Computes the levels of rising gaps under some laws that are not known."""
        for law in laws:
            new = [gap for gap in gaps if (law, gap) not in self.levels]
            for gap, levels in self.theories[law].levels_with_fill(new, self.shares):
                self.levels[law, gap] = dict(zip(self.shares, levels))

    def level_at(
        self, place: int, laws: Sequence[int], gap: int, share: float
    ) -> float:
        """Returns the level at a place in the order of the least S of a gap under some laws, by their numbers. It is
        infinite beyond them: the others have no long run."""
        self.prepare(laws, [gap])
        levels = sorted(self.levels[law, gap][share] for law in laws)
        return levels[place] if place < len(levels) else math.inf

    def policy(self, gap: int, level: float, share: float) -> Candidate:
        """Returns the cheapest feasible policy of a gap with S of at least a level that meets a share by the own law."""
        feasible = self.theory.feasible
        own = self.theory.gap_of(0, feasible.gap_in(gap, self.step, self.exact))
        least = self.theory.cheapest_of_gaps([own], share)
        if max(level, least.cost) == math.inf:
            return NO_POLICY
        if level <= least.level:
            return least
        return self.theory.policy(own, int(level))

    @property
    def place(self) -> int:
        """Returns how many laws, in the order of the least S that they allow, come before the one that decides."""
        return max(
            0,
            # By rounding, 0.55 of 100 laws is more than 55.
            math.ceil(self.confidence * (len(self.theories) + self.lacking) - 1e-9) - 1,
        )

    def keeps(self, point: int, level: int, share: float) -> bool:
        """Returns whether a policy meets a share under enough laws."""
        laws = range(len(self.theories))
        return (
            self.level_at(self.place, laws, (level - point) // self.step, share)
            <= level
        )

    def cheapest(self, plain: Candidate, share: float) -> Candidate:
        """Returns the cheapest feasible policy found that meets a share under enough laws. `plain` is the one by the
        own law."""
        if plain.cost == math.inf:
            return NO_POLICY
        laws = range(len(self.theories))
        place = self.place
        first = (plain.level - plain.point) // self.step
        low = max(0, place - BESIDE)
        self.prepare(laws, [first])
        near = sorted(laws, key=lambda law: self.levels[law, first][share])[
            low : place + BESIDE + 1
        ]
        others = self.others(first)
        self.prepare(near, others)

        def near_policy(gap: int) -> Candidate:
            return self.policy(gap, self.level_at(place - low, near, gap, share), share)

        best = min(others, key=near_policy, default=first)
        return min(
            self.policy(gap, self.level_at(place, laws, gap, share), share)
            for gap in (first, best)
        )

    def others(self, first: int) -> list[int]:
        """Returns the gaps around one that are looked at too."""
        feasible = self.theory.feasible
        factors = FACTORS if feasible.has_all_levels else (*FEWER, *FACTORS)
        return sorted({round(first * factor) for factor in factors} - {first})
