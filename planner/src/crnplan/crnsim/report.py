"""Reads a report of crnsim without rounding. This module is not proved; crnsim's figures are.

Reports of one scenario under several keys, which are independent, are pooled into the report of all replications: each
has the exact sums of its own R replications. With differences d = a - b, D the sum of d, V the variance of their mean,
A and B the sums of a and b, and C their covariance:

    sum of d^2 = V R (R - 1) + D^2 / R        sum of a b = C (R - 1) + A B / R

These sums are added over all keys. With n replications in all, the pooled variance of the mean is (sum of d^2 - D^2 /
n) / (n (n - 1)), and the pooled covariance (sum of a b - A B / n) / (n - 1). So an interval from it has n - 1 degrees
of freedom.

Costs do not steer orders. So a run with one cost at 1 and the others at 0 counts orders (`setup`), items ordered
(`unit`), items in stock at the ends of periods (`holding`) or items owed (`backlog`).
"""
from __future__ import annotations

import csv
import dataclasses
import io
import re
from collections.abc import Iterable, Sequence
from dataclasses import dataclass
from fractions import Fraction
from pathlib import Path
from typing import Any

from .. import formats
from ..columns import columns_of
from ..toml.documents import shown
from ..toml.scenarios import MANY, check_tree, name_faults, plain_text
from ..errors import Fault, ProgramError, Refused, argument
from ..policies import Policy
from ..scenario import ScenarioData
from ..table import DataTable
from .program import find_program, run_all

HEADER = list(formats.COLUMNS)
WHOLE = re.compile("-?[0-9]{1,40}")
FRACTION = re.compile("-?[0-9]{1,60}/[1-9][0-9]{0,59}")
COLUMNS = columns_of("crnsim", "report")
# Totals in the money that a scenario was made from may be no whole numbers.
MONEY_COLUMNS = [
    dataclasses.replace(column, kind="exact") if column.unit == "money" else column
    for column in COLUMNS
]
# Columns whose cell may be `-`, which stands for no figure.
MAY_LACK = ("diff_var", "cov")


@dataclass(frozen=True)
class ReportRow:
    """A row of a report: a policy (s and S in items), and its exact costs in the money that its scenario was made from.

    Differences are from the costs of the first policy, as docs/FORMATS.md defines them. `diff_var` and `cov` are None
    with one replication, and if they are not known.
    """

    policy: str
    s: int
    S: int
    total: int | Fraction
    per_period: Fraction
    diff_total: int | Fraction
    diff_mean: Fraction
    diff_var: Fraction | None
    cov: Fraction | None

    def times(self, factor: Fraction) -> ReportRow:
        """Returns the row with so many units of another money for one."""
        if factor == 1:
            return self
        return dataclasses.replace(
            self,
            total=self.total * factor,
            per_period=self.per_period * factor,
            diff_total=self.diff_total * factor,
            diff_mean=self.diff_mean * factor,
            diff_var=self.diff_var and self.diff_var * factor**2,
            cov=self.cov and self.cov * factor**2,
        )


def policies_in(rows: Iterable[ReportRow]) -> list[Policy]:
    """Returns the policies of a report."""
    return [Policy(row.policy, row.s, row.S) for row in rows]


def csv_of(rows: Iterable[ReportRow], scale: Fraction = Fraction(1)) -> str:
    """Returns rows as the program would write them, in its whole numbers: one of money counts `scale` there."""
    return DataTable.of(COLUMNS, [row.times(scale) for row in rows]).csv


def _refused(what: str, place: str, line: int) -> Refused:
    return Refused(str(Fault(what, place or "the report", line)))


def _value(name: str, cell: str, place: str, line: int) -> Any:
    if name == "policy":
        for fault in name_faults(("policy",), cell):
            raise _refused(f"column policy: {fault.what}", place, line)
        return cell
    if cell == "-" and name in MAY_LACK:
        return None
    whole = name in formats.WHOLE
    if not (WHOLE if whole else FRACTION).fullmatch(cell):
        kind = "a whole number" if whole else "a fraction such as 359/4"
        raise _refused(
            f"column {name}: {shown(cell)} is not {kind}; give crnsim's own report",
            place,
            line,
        )
    return int(cell) if whole else Fraction(cell)


def read_rows(text: str, place: str = "") -> list[ReportRow]:
    """Returns the rows of a report, in its order. `place` names the report in an error.

    Raises Refused if a line is none of a report, or if the first policy is not the base.
    """
    try:
        heading, *lines = list(csv.reader(io.StringIO(text, newline=""))) or [[]]
    except csv.Error as fault:
        raise _refused(f"this is no report of crnsim: {fault}", place, 0) from fault
    if heading != HEADER:
        raise _refused(
            f"this is no report of crnsim, whose first line is {formats.HEADER}",
            place,
            1,
        )
    if not lines:
        raise _refused("the report has no policy", place, 0)
    rows = list[ReportRow]()
    for line, cells in enumerate(lines, 2):
        if len(cells) != len(HEADER):
            raise _refused(f"{len(cells)} columns, not {len(HEADER)}", place, line)
        rows.append(
            ReportRow(
                *(_value(name, cell, place, line) for name, cell in zip(HEADER, cells))
            )
        )
    if rows[0].diff_total != 0:
        raise _refused(
            "the first policy is not the base, whose differences are 0", place, 2
        )
    return rows


def rows_of(scenario: ScenarioData, text: str, program: str | Path) -> list[ReportRow]:
    """Returns the rows of the report on a scenario, in the money that it was made from. Raises ProgramError if the
    program's output is no such report."""
    try:
        rows = read_rows(text, str(program))
    except Refused:
        rows = []
    if policies_in(rows) != [*scenario.policies]:
        raise ProgramError(
            f"{program}: what it writes is no report of the scenario; name crnsim with "
            f"{argument('program')}"
        )
    return [row.times(1 / scenario.scale) for row in rows]


def pooled(
    reports: Sequence[Sequence[ReportRow]], replications: int, periods: int
) -> list[ReportRow]:
    """Returns the rows of all replications. Each of the reports has the same policies and so many replications."""
    rows, own = list[ReportRow](), replications
    count = own * len(reports)
    base = sum(report[0].total for report in reports)
    for column in zip(*reports, strict=True):
        squares = products = Fraction(0)
        for row, report in zip(column, reports):
            squares += (row.diff_var or 0) * own * (own - 1) + Fraction(
                row.diff_total**2, own
            )
            products += (row.cov or 0) * (own - 1) + Fraction(
                row.total * report[0].total, own
            )
        total = sum(row.total for row in column)
        difference = total - base
        variance = (squares - Fraction(difference**2, count)) / (count * (count - 1))
        covariance = (products - Fraction(total * base, count)) / (count - 1)
        rows.append(
            ReportRow(
                column[0].policy,
                column[0].s,
                column[0].S,
                total,
                Fraction(total, count * periods),
                difference,
                Fraction(difference, count),
                variance,
                covariance,
            )
        )
    return rows


def parts_of(scenario: ScenarioData) -> list[ScenarioData]:
    """Returns a scenario for each run of any number of policies: at most 16 in a run, with the base in each."""
    base, *others = scenario.policies
    most = formats.POLICIES[1] - 1
    return [
        scenario.with_policies([base, *others[start : start + most]])
        for start in range(0, max(1, len(others)), most)
    ]


def joined(
    reports: Sequence[Sequence[ReportRow]], program: str | Path
) -> list[ReportRow]:
    """Returns the rows of all reports, the base once. Raises ProgramError if it has not the same row in all."""
    base = reports[0][0]
    if any(rows[0] != base for rows in reports):
        raise ProgramError(
            f"{program}: the base has not the same row in all reports; name crnsim with "
            f"{argument('program')}"
        )
    return [base, *(row for rows in reports for row in rows[1:])]


def rows_of_run(
    scenario: ScenarioData, program: str | Path | None = None
) -> tuple[ReportRow, ...]:
    """Runs a scenario, whose first policy is the base, on any number of policies, and returns the rows of all.

    Raises ScenarioError with all faults, Refused without a review in each period, and ProgramError.
    """
    check_tree(scenario.tree, MANY)
    if scenario.review > 1:
        raise Refused("crnsim reviews in each period, and this scenario does not")
    found, parts = find_program(program), parts_of(scenario)
    # One or two policies take less processor time on threads, and more of them side by side.
    words = "lanes" if scenario.policies[2:] else "run"
    texts = run_all(found, [(plain_text(part.tree), words) for part in parts])
    rows = [rows_of(part, text, found) for part, text in zip(parts, texts)]
    return tuple(joined(rows, found))
