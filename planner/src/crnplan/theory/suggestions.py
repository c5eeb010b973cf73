"""Suggests policies for a scenario: the best (s,S) by theory, and good alternatives, beside today's.

The first policy of the scenario is today's. Of two policies that behave alike the first is kept, with the reasons of
both. Figures leave `unit` out: in the long run it adds unit times the mean net demand to every policy.

Policies behave alike if they place the same orders in the same periods, whatever is drawn. Counted from S down, the
position after an order changes by the net demand of each period until it is more than S - s below S. If net demands are
never below 0, its depth is a sum of them, so not every depth can occur: with demand in packs of 6 it is a multiple of
6. If net demands of both signs occur, returns can come first, so each multiple of their greatest common divisor is a
depth. What counts of s is the greatest depth, up to S - s, that can occur.
"""
from __future__ import annotations

import itertools
import math
from collections.abc import Iterable, Iterator, Sequence
from dataclasses import dataclass
from fractions import Fraction
from typing import Any

from ..formats import MOST_ITEMS, POLICIES
from ..remarks import Remark
from ..policies import Policy
from ..scenario import BY_ITS_LAWS, ScenarioData
from ..columns import columns_of
from ..table import DataTable, Json, Result
from ..toml.documents import read_document
from ..toml.scenarios import head_of, plain_text
from ..sentences import sentence
from .figures import PolicyFigures
from .lattice import theories_of
from .long_run import Candidate, LongRun
from .many_laws import Promises
from .walk import net_tables

FILLS = {"95": 0.95, "98": 0.98, "99": 0.99, "995": 0.995}
ORDERS = {
    "fewer_orders": 1.5,
    "more_orders": 0.65,
    "fewest_orders": 2.2,
    "most_orders": 0.4,
}  # times the best gap
NEIGHBOURS = {
    "higher": 1,
    "lower": -1,
    "higher_2": 2,
    "lower_2": -2,
    "higher_3": 3,
    "lower_3": -3,
}
BEST = Remark("the best")
MUCH = 0.001  # by which the best policy may cost more than one with s below 0, unsaid
ROUGH = 0.05  # the share of a cost above which rounded figures are called rough
# In percent: how much dearer than the best of all a policy of a search was in planner/studies/search.csv.
MOST_EXCESS = 0.7


# The figures of suggestions, which are all by theory.
FIGURES = "policy s S cost fill short stock orders".split()


def reasons_of(policy: Any) -> str:
    return "; ".join(policy.reasons)


COLUMNS = columns_of("theory", "policies", {"reasons": reasons_of})


class Depths:
    """The depths below S, in items, that the position of a scenario can have."""

    def __init__(self, scenario: ScenarioData) -> None:
        """Takes the net demands that occur."""
        tables = [table.chances for table in net_tables(scenario)]
        pairs = itertools.product(*tables)
        nets = {demand - sum(back) for demand, *back in pairs}
        self.divisor = math.gcd(*nets)
        self.falls = sorted(net for net in nets if net > 0)
        self.rises = min(nets) < 0

    def last(self, gap: int) -> int:
        """Returns the greatest depth up to a gap that can occur. From the product of the least and the greatest fall
        on, in units of the divisor, each number is a sum of falls (Schur's bound: Brauer, On a problem of partitions,
        1942)."""
        if self.rises or gap * self.divisor >= self.falls[0] * self.falls[-1]:
            return gap - gap % self.divisor
        depths, all_up_to = 1, (1 << gap + 1) - 1  # a bit for each depth
        for fall in self.falls:
            shift = fall
            if depths >> fall & 1:
                # It is a sum of smaller falls, so it adds no depth.
                shift = gap + 1
            while shift <= gap:
                # Each turn doubles how many times this fall may be in a sum.
                depths |= depths << shift & all_up_to
                shift *= 2
        return depths.bit_length() - 1

    def behaviour(self, point: int, level: int) -> tuple[int, int]:
        """Returns a pair that two policies share if they behave alike from their first order on, and only then. Before
        it they may differ, if a run starts from a stock that is no depth below S."""
        return self.last(level - point), level


class SuggestedPolicies:
    """Policies in order with the reasons for each, by behaviour. `left_out` are names without a place."""

    def __init__(self, scenario: ScenarioData) -> None:
        """Starts with today's policy, the first of the scenario, if there is one."""
        self.depths = Depths(scenario)
        self.policies = {
            self.depths.behaviour(today.s, today.S): (today, [Remark("today's policy")])
            for today in scenario.policies[:1]
        }
        self.left_out: list[str] = []

    def add(self, name: str, policy: Candidate, reason: Remark) -> None:
        """Adds a policy, or only the reason if one that behaves alike is there; nothing if there is no policy."""
        if policy.cost == math.inf:
            return
        behaviour = self.depths.behaviour(policy.point, policy.level)
        if behaviour in self.policies:
            self.policies[behaviour][1].append(reason)
        elif len(self.policies) == POLICIES[1]:
            self.left_out.append(name)
        else:
            names = {other.name for other, _ in self.policies.values()}
            while name in names:
                name = f"{name[:15]}_"
            own = Policy(name, policy.point, policy.level)
            self.policies[behaviour] = own, [reason]


def add_fills(
    chosen: SuggestedPolicies, theory: LongRun, promises: Promises | None
) -> None:
    """Adds the cheapest policies with fill rates, and beside each the cheapest that promises it."""
    for name, share in FILLS.items():
        plain = theory.best(share)
        fill = {"fill": 100 * share}
        chosen.add(f"fill_{name}", plain, Remark("fill rate", fill))
        if promises:
            sure = promises.cheapest(plain, share)
            more = sure.cost / plain.cost - 1 if plain.cost else 0.0
            facts = {**fill, "percent": 100 * promises.confidence, "more": more}
            chosen.add(f"sure_{name}", sure, Remark("sure fill rate", facts))


def chosen_policies(
    scenario: ScenarioData,
    theory: LongRun,
    best: Candidate,
    promises: Promises | None = None,
) -> SuggestedPolicies:
    """Returns the suggested policies of a scenario, of which the best is known. All but today's are feasible."""
    chosen = SuggestedPolicies(scenario)
    chosen.add("best", best, BEST)
    for today in scenario.policies[:1]:
        chosen.add("same_s", theory.best_with_point(today.s), Remark("today's s"))
        chosen.add("same_S", theory.best_with_level(today.S), Remark("today's S"))
    add_fills(chosen, theory, promises)
    gap = theory.gap_of(*best.levels)
    for name, factor in ORDERS.items():
        bound = max if factor > 1 else min
        changed = bound(round(gap * factor), gap + (1 if factor > 1 else -1))
        if changed >= 0:
            chosen.add(name, theory.cheapest_of_gaps([changed], 0.0), Remark(name))
    shift = max(1, round(theory.deviation / 2))
    for name, times in NEIGHBOURS.items():
        point = best.point + times * shift
        if 0 <= point <= MOST_ITEMS:
            reason = Remark(f"{name.split('_')[0]} s", {"by": abs(times) * shift})
            chosen.add(name, theory.best_with_point(point), reason)
    return chosen


@dataclass(frozen=True)
class Suggestion:
    """A policy with the reasons why it is suggested, as remarks, and its figures."""

    policy: Policy
    remarks: tuple[Remark, ...]
    figures: PolicyFigures

    @property
    def cost(self) -> float:
        return self.figures.cost

    @property
    def reasons(self) -> tuple[str, ...]:
        """Returns the reasons in words."""
        return tuple(map(sentence, self.remarks))

    def toml(self, scale: Fraction) -> str:
        """Returns the policy as TOML, with its reasons and figures as a comment: one of money counts `scale` there."""
        policy = self.policy
        cost = self.cost * float(scale)
        fill = self.figures.fill
        return (
            f"\n# {'; '.join(self.reasons)} (by theory {cost:.2f} a period, fill {fill:.2%})\n[[policy]]\n"
            f'name = "{policy.name}"\ns = {policy.s}\nS = {policy.S}\n'
        )


def table_of(
    rows: Sequence[Suggestion], names: Sequence[str], index: str = ""
) -> DataTable:
    """Returns the named figures of policies."""
    columns = [column for column in COLUMNS if column.name in names]
    return DataTable.of(columns, rows, index=index)


@dataclass(frozen=True, eq=False, repr=False)
class ByTheory(Result):
    """Policies with their figures of a period in the long run, by theory: cost (money, without `unit`), fill and short
    (shares), stock (items) and orders. The rows are in the order of the policies.

    Attributes
    ----------
    scenario : Scenario
        Whose laws and costs count.
    rows : tuple of Suggestion
        The policies with their figures.
    step : int
        Demand is counted in steps of so many items.
    error : float or None
        About the relative error of the costs; None if they are exact but for rounding.
    net : float
        The mean net demand of a period, in items.
    """

    scenario: ScenarioData
    rows: tuple[Suggestion, ...]
    step: int
    error: float | None
    net: float

    @property
    def table(self) -> DataTable:
        """Returns the figures, indexed by `policy`."""
        return table_of(self.rows, FIGURES, index="policy")

    @property
    def said(self) -> list[Remark]:
        """Returns what the figures mean: what items cost a period beside them, and what is known of their error."""
        unit = self.scenario.money(self.scenario.costs.unit * self.net)
        remarks = [Remark("figures of suggestions", {"unit": unit})]
        if self.error is None:
            return [*remarks, Remark("exact figures")]
        kind = "rough figures" if self.error > ROUGH else "rounded figures"
        facts = {"step": self.step, "error": max(self.error, 1e-4)}
        return [*remarks, Remark(kind, facts | {"twice": 2 * self.step})]

    @property
    def notes(self) -> str:
        """Returns the lines below the table."""
        return "\n".join(["", BY_ITS_LAWS, *map(sentence, self.said), ""])


def figures_of(
    scenario: ScenarioData,
    policies: Iterable[tuple[Policy, Sequence[Remark]]],
    theory: LongRun,
    coarse: LongRun | None,
) -> ByTheory:
    """Returns the figures of policies, each with the reasons for it, by the theory of a scenario, perhaps with about the
    relative error of their costs by a coarser theory."""
    rows, errors = list[Suggestion](), list[float]()
    for policy, reasons in policies:
        figures = theory.figures(policy.s, policy.S)
        if coarse:
            cost = coarse.figures(policy.s, policy.S).cost
            errors.append(abs(cost - figures.cost) / figures.cost)
        figures = figures._replace(cost=scenario.money(figures.cost))
        rows.append(Suggestion(policy, tuple(reasons), figures))
    net, error = theory.net.mean * theory.step, max(errors, default=None)
    return ByTheory(scenario, tuple(rows), theory.step, error, net)


def by_theory(scenario: ScenarioData, policies: Sequence[Policy]) -> ByTheory:
    """Returns the figures of policies by the theory of a scenario. Raises NoTheory."""
    widest = max(policy.S - policy.s for policy in policies)
    pairs = [(policy, ()) for policy in policies]
    return figures_of(scenario, pairs, *theories_of(scenario, widest))


@dataclass(frozen=True, eq=False, repr=False)
class Suggestions(ByTheory):
    """The suggested policies of a scenario, today's first, and what is known of their figures.

    `position` is the best policy's mean inventory position at the beginning of a period, in items. `remarks` say how
    policies were found.
    """

    position: float
    remarks: tuple[Remark, ...]

    @property
    def best(self) -> Policy:
        """Returns the best policy, under whatever name: that of today if they behave alike."""
        (best,) = (row.policy for row in self.rows if BEST in row.remarks)
        return best

    @property
    def initial(self) -> int:
        """Returns the proposed initial stock: a run that starts near the long run is biased least."""
        return min(max(round(self.position), 0), MOST_ITEMS)

    @property
    def table(self) -> DataTable:
        """Returns the figures of all policies, today's first, with the reasons of each."""
        return table_of(self.rows, [*FIGURES, "reasons"])

    @property
    def text(self) -> str:
        """Returns the table without the reasons, and the notes."""
        return self.table.with_columns(FIGURES).text + self.notes

    @property
    def tree(self) -> dict[str, Json]:
        """Returns all as data, without rounding."""
        return {
            "initial": self.initial,
            "position": self.position,
            "error": self.error,
            "step": self.step,
            "policies": self.table.records,
        }

    @property
    def said(self) -> list[Remark]:
        """Returns what the columns mean, and what is known of the error and of a run."""
        remarks = [*super().said, *self.remarks]
        start = {"mean": self.position, "today": self.scenario.initial}
        if self.scenario.has_initial:
            remarks.append(Remark("initial", {**start, "initial": self.initial}))
        if self.scenario.costs.unit > 0:
            remarks.append(Remark("unit of a run"))
        return remarks

    def toml(self, *, initial: bool = False, unit_zero: bool = False) -> str:
        """Returns the scenario with the suggested policies as TOML, each with its reasons and its cost as a comment.
        The comment at the top stays. All costs are in the program's whole numbers. `initial` writes the proposed start, `unit_zero` an item cost of 0.
        """
        source, scale = self.scenario.toml(), self.scenario.scale
        tree, _ = read_document(source.encode())
        tree["policy"] = []
        if initial or not self.scenario.has_initial:
            tree["initial"] = self.initial
        if unit_zero:
            tree["costs"]["unit"] = 0
        return "".join(
            [head_of(source), plain_text(tree), *(row.toml(scale) for row in self.rows)]
        )


def suggestions_of(scenario: ScenarioData) -> Suggestions:
    """Returns the suggested policies of a scenario, at most 16 with today's. Raises NoTheory if there is no best one."""
    theory, coarse = theories_of(scenario)
    best = theory.best()
    chosen = chosen_policies(scenario, theory, best)
    found = figures_of(scenario, chosen.policies.values(), theory, coarse)
    return Suggestions(
        **vars(found),
        position=theory.mean_position(*best.levels),
        remarks=(*remarks_of(theory, chosen), *below_0(theory, best)),
    )


def below_0(theory: LongRun, best: Candidate) -> Iterator[Remark]:
    """Yields what the best policy costs more than one that waits until items are owed, if that is much. Costs of lows fall
    and then rise with them, so a policy with s below 0 can only be better if the best one has the least s.
    """
    if best.point >= theory.step:
        return
    other = theory.best_below_0(best)
    if best.cost > other.cost * (1 + MUCH):
        facts = {"s": other.point, "S": other.level, "more": best.cost / other.cost - 1}
        yield Remark("s below 0", facts)


def remarks_of(theory: LongRun, chosen: SuggestedPolicies) -> Iterator[Remark]:
    """Yields how policies were found, and which have no place."""
    if theory.is_searched:
        yield Remark("search of a grid", {"most": MOST_EXCESS})
    else:
        yield Remark("search of all pairs")
    if chosen.left_out:
        names = ", ".join(chosen.left_out)
        yield Remark("left out", {"most": POLICIES[1], "names": names})
