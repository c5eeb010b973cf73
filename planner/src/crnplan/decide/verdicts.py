"""Says which policies are better and worse than the first one of a report, the base, by paired-t intervals.

Each other policy gets an interval for its difference from the base, with R - 1 degrees of freedom. All these intervals
together hold at the level, by Bonferroni over the comparisons (Law, Simulation Modeling and Analysis, chapter 10).

A report has no variance of a policy's own costs, but it follows exactly. With R replications, the variance of the
difference of two costs is R * diff_var. It equals the sum of both variances less twice their covariance `cov`, and the
variance of the base's costs is the base's `cov`. All else is rounded, and none of it is proved; crnsim's figures are.
"""
from __future__ import annotations

import functools
import math
from collections.abc import Iterator, Sequence
from dataclasses import dataclass
from fractions import Fraction
from typing import NamedTuple

from ..columns import columns_of
from ..crnsim.report import ReportRow
from ..remarks import Remark
from ..scenario import BY_ITS_LAWS
from ..table import DataTable, Json, Result, names_of
from ..sentences import sentence

Ends = tuple[float, float] | tuple[None, None]
FEWEST_ORDERS = 2  # of the rarer policy of a comparison, in all replications
# The columns over the periods of a report, and those in the long run.
COLUMNS = columns_of("decide", "compared", span="replication")
LONG_RUN_COLUMNS = columns_of("decide", "compared", span="period")
THEORY_COST = "theory_cost"  # the column that stands if some policy has a figure
MOST_ROWS = 20  # that are shown unless all are asked for
VERDICTS = {
    "better": "better than {}",
    "worse": "worse than {}",
    "undecided": "can't be told apart from {}",
}


@dataclass(frozen=True)
class Compared:
    """A policy beside the base, in the scenario's money, as the columns have it. None stands for no figure.

    `diff`, `std_error`, `low` and `high` are of a replication over coming periods, of a period in the long run.
    """

    policy: str
    s: int
    S: int
    cost: float
    cost_low: float | None
    cost_high: float | None
    diff: float
    percent: float | None
    std_error: float | None
    low: float | None
    high: float | None
    verdict: str
    theory_cost: float | None = None


class RunEstimate(NamedTuple):
    """What a run says of a policy in the long run, in money of a period: its cost, and that less the base's, each with
    its standard error. None stands for no error: the rarer policy hardly orders, or nothing varies. `orders` are those
    of the whole run, inf if they are only known to be many."""

    policy: str
    cost: float
    own_error: float | None
    difference: float
    error: float | None
    orders: float

    def in_money(self, scale: Fraction) -> RunEstimate:
        """Returns the estimate in money of which one counts `scale` here."""
        times = float(scale)
        own = None if self.own_error is None else self.own_error / times
        error = None if self.error is None else self.error / times
        return RunEstimate(
            self.policy,
            self.cost / times,
            own,
            self.difference / times,
            error,
            self.orders,
        )


class Gap(NamedTuple):
    """A figure of a policy, `cost` or `saving`, by theory and by a run with its standard error."""

    policy: str
    figure: str
    theory: float
    run: float
    error: float


def far_from(
    estimates: Sequence[RunEstimate],
    costs: Sequence[float],
    errors: float,
    spare: Sequence[float],
) -> Iterator[Gap]:
    """Yields the figures that are further from theory's costs than so many standard errors, and what is to spare for
    the policy. A saving is beside the first policy. Figures without a standard error are not compared.
    """
    for estimate, cost, more in zip(estimates, costs, spare, strict=True):
        gaps = (
            ("cost", cost, estimate.cost, estimate.own_error),
            ("saving", costs[0] - cost, -estimate.difference, estimate.error),
        )
        for figure, theory, run, error in gaps:
            if error is not None and abs(run - theory) > errors * error + more:
                yield Gap(estimate.policy, figure, theory, run, error)


@functools.lru_cache
def t_quantile(tails: float, degrees: int) -> float:
    """Returns the value that Student's |t| exceeds with probability `tails`, above 0, with so many degrees of freedom.

    By Abramowitz and Stegun, Handbook of Mathematical Functions, 26.7.1, from the incomplete beta function: scipy's
    `stdtrit` is right to nine digits alone if the degrees are few.
    """
    from scipy.special import betaincinv

    inside = float(betaincinv(degrees / 2, 0.5, tails))
    return math.sqrt(degrees * (1 - inside) / inside)


def periods_of(row: ReportRow, replications: int) -> Fraction | None:
    """Returns the periods of a replication that a row implies: None if the policy costs nothing."""
    is_known = row.total and row.per_period
    return row.total / (row.per_period * replications) if is_known else None


def own_variance(row: ReportRow, base: ReportRow, replications: int) -> Fraction:
    """Returns the variance of a policy's own cost from one replication to the next, of which there are several."""
    assert row.diff_var is not None and row.cov is not None and base.cov is not None
    return replications * row.diff_var - base.cov + 2 * row.cov


def own_error(row: ReportRow, base: ReportRow, replications: int) -> float:
    """Returns the standard error of the mean of a policy's own cost of a replication."""
    return math.sqrt(own_variance(row, base, replications) / replications)


def estimates_of(
    rows: Sequence[ReportRow],
    replications: int,
    periods: int,
    shifts: Sequence[float],
    orders: Sequence[float],
) -> list[RunEstimate]:
    """Returns an estimate of each policy of a report. `shifts` are taken from the costs of a period."""
    estimates = list[RunEstimate]()
    for row, shift, count in zip(rows, shifts, orders, strict=True):
        own = error = None
        if count >= FEWEST_ORDERS:
            own = own_error(row, rows[0], replications) / periods
        if min(count, orders[0]) >= FEWEST_ORDERS and row.diff_var:
            error = math.sqrt(row.diff_var) / periods
        cost = float(row.per_period) - shift
        difference = float(row.diff_mean) / periods - shift + shifts[0]
        estimates.append(RunEstimate(row.policy, cost, own, difference, error, count))
    return estimates


def verdict_of(low: float | None, high: float | None) -> str:
    """Returns what the interval of a difference from the base says of a policy."""
    if low is None or high is None or low <= 0 <= high:
        return "undecided"
    return "worse" if low > 0 else "better"


def ends_of(middle: float, error: float | None, errors: float) -> Ends:
    """Returns both ends of an interval of so many standard errors on either side; None if there is no error."""
    if error is None:
        return None, None
    return middle - errors * error, middle + errors * error


def ranked(
    rows: Sequence[ReportRow],
    estimates: Sequence[RunEstimate],
    percents: Sequence[float | None],
    level: float,
    replications: int,
    theory: Sequence[float | None] = (),
) -> tuple[Compared, ...]:
    """Returns compared policies, the cheapest first, perhaps with costs by theory."""
    tails, joint, single = 1 - level, 0.0, 0.0
    policies = list[Compared]()
    if replications > 1:
        joint = t_quantile(tails / max(1, len(rows) - 1), replications - 1)
        single = t_quantile(tails, replications - 1)
    for row, own, percent, theory_cost in zip(
        rows, estimates, percents, theory or [None] * len(rows), strict=True
    ):
        error = own.error if policies else None
        low, high = ends_of(own.difference, error, joint)
        cost_low, cost_high = ends_of(own.cost, own.own_error, single)
        verdict = verdict_of(low, high) if policies else "base"
        policies.append(
            Compared(
                row.policy,
                row.s,
                row.S,
                own.cost,
                cost_low,
                cost_high,
                own.difference,
                percent,
                error,
                low,
                high,
                verdict,
                theory_cost,
            )
        )
    return tuple(sorted(policies, key=lambda policy: policy.diff))


def decided(
    rows: Sequence[ReportRow], replications: int, level: float = 0.95
) -> Decision:
    """Compares all rows of a report with its first one."""
    base, estimates, percents = rows[0], list[RunEstimate](), list[float | None]()
    for row in rows:
        own = error = percent = None
        if replications > 1:
            periods = float(periods_of(row, replications) or 1)
            own = own_error(row, base, replications) / periods
            error = math.sqrt(row.diff_var or 0)
        if base.total:
            percent = float(100 * Fraction(row.diff_total, base.total))
        cost, difference = float(row.per_period), float(row.diff_mean)
        estimates.append(
            RunEstimate(row.policy, cost, own, difference, error, math.inf)
        )
        percents.append(percent)
    policies = ranked(rows, estimates, percents, level, replications)
    return Decision(policies, base.policy, replications, level)


@dataclass(frozen=True, eq=False, repr=False)
class Decision(Result):
    """Policies compared with the base, the cheapest first, at a joint level.

    `horizon` says what they are compared over, if that is known. In the long run `runs` says of what the costs are, and
    `theory` how exact theory's figures are. The text lists so many policies as `most`, of which one is always the base.
    """

    rows: tuple[Compared, ...]
    base: str
    replications: int
    level: float
    horizon: Remark | None = None
    runs: Remark | None = None
    theory: Remark | None = None
    warnings: tuple[Remark, ...] = ()
    most: int = MOST_ROWS

    @property
    def table(self) -> DataTable:
        """Returns the table of all policies, indexed by `policy`."""
        return self._table_of(self.rows)

    def _table_of(self, rows: Sequence[Compared]) -> DataTable:
        """Returns the table of some policies, without columns that may lack and have no figure."""
        columns = LONG_RUN_COLUMNS if self.runs else COLUMNS
        return DataTable.of(columns, rows, index="policy").without_empty([THEORY_COST])

    @property
    def listed(self) -> Sequence[Compared]:
        """Returns the rows to show: all, or the first by rank of which one is always the base."""
        first = self.rows[: self.most]
        if self.runs:
            return self.rows
        if any(row.verdict == "base" for row in first):
            return first
        return [*first[:-1], next(row for row in self.rows if row.verdict == "base")]

    @property
    def text(self) -> str:
        """Returns the horizon, the table of the listed policies, and the notes."""
        rest = len(self.rows) - len(self.listed)
        heading = f"The {sentence(self.horizon)}\n\n" if self.horizon else ""
        more = f"{rest} more policies are not listed\n" * (rest > 0)
        return f"{heading}{self._table_of(self.listed).text}{more}{self.notes}"

    @property
    def notes(self) -> str:
        """Returns what the columns mean, the policies by verdict, and the warnings."""
        lines = [
            f"replications: {self.replications}, comparisons with {self.base}: {len(self.rows) - 1}, joint level: "
            f"{self.level:g}",
            BY_ITS_LAWS,
            *self._column_lines(),
        ]
        for verdict, words in VERDICTS.items():
            names = [row.policy for row in self.rows if row.verdict == verdict]
            lines.append(f"{words.format(self.base)}: {names_of(names, self.most)}")
        lines += [f"\nWARNING: {sentence(warning)}" for warning in self.warnings]
        return "".join(f"\n{line}" for line in lines) + "\n"

    def _column_lines(self) -> list[str]:
        if self.runs and self.theory:
            names, theory = self.table.names, sentence(self.theory)
            return [
                f"cost to verdict: a period by crnsim, {sentence(self.runs)}; unit is left out",
                "low to high: the interval of diff; all hold together at the joint level",
                f"cost_low to cost_high: the interval of cost, each at {self.level:g} by itself",
                f"theory_cost: a period of the long run by theory, {theory}"
                if THEORY_COST in names
                else f"theory is {theory}",
            ]
        if self.replications == 1:
            return [
                "one replication tells nothing of spread, so there are no intervals"
            ]
        joint = [
            f"low to high: the interval of diff; all {len(self.rows) - 1} hold together at the joint level"
        ]
        return [
            *joint * (len(self.rows) > 1),
            f"cost_low to cost_high: the interval of a policy's own cost, each at "
            f"{self.level:g} by itself; to compare policies use low and high",
        ]

    @property
    def tree(self) -> dict[str, Json]:
        """Returns all as data, without rounding to decimals."""
        tree: dict[str, Json] = {}
        if self.horizon:
            tree["horizon"] = f"the {sentence(self.horizon)}"
        tree |= {
            "base": self.base,
            "replications": self.replications,
            "level": self.level,
        }
        if self.runs:
            tree["crnsim"] = sentence(self.runs)
        if self.theory:
            tree["theory"] = sentence(self.theory)
        tree["policies"] = self.table.records
        tree["warnings"] = [*map(sentence, self.warnings)]
        return tree
