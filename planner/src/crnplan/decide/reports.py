"""Reads reports of crnsim for a decision: one, or several of one scenario under different keys, which are pooled."""
from __future__ import annotations

from collections.abc import Sequence

from .. import formats
from ..crnsim.report import ReportRow, policies_in, pooled, read_rows
from ..errors import Refused
from ..policies import Policy
from .verdicts import own_variance, periods_of

MOST_KEYS = 64  # that a report may be pooled of


def _is_of(row: ReportRow, base: ReportRow, replications: int) -> bool:
    if not 1 <= replications <= formats.MOST_REPLICATIONS * MOST_KEYS:
        return False
    periods, of_base = periods_of(row, replications), periods_of(base, replications)
    if (
        row.diff_mean * replications != row.diff_total
        or row.total - base.total != row.diff_total
        or row.total < 0
    ):
        return False
    if periods is not None and (
        periods.denominator != 1 or of_base not in (None, periods)
    ):
        return False
    if replications == 1 or row.diff_var is None or row.cov is None:
        return replications == 1 and row.diff_var is None and row.cov is None
    return row.diff_var >= 0 and own_variance(row, base, replications) >= 0


def check_replications(
    rows: Sequence[ReportRow], replications: int, place: str
) -> None:
    """Raises Refused if a row is of no report of this number of replications. `place` names the report."""
    for line, row in enumerate(rows, 2):
        if not _is_of(row, rows[0], replications):
            raise Refused(
                f"{place}:{line}: this is no report of {replications} replications; give its own number"
            )


def rows_in(data: bytes, name: str, replications: int) -> list[ReportRow]:
    """Returns the rows of a report. Raises Refused if it is none of so many replications."""
    try:
        rows = read_rows(data.decode("utf-8"), name)
    except UnicodeDecodeError as fault:
        raise Refused(f"{name}: this is no report of crnsim: {fault}") from fault
    check_replications(rows, replications, name)
    return rows


def read_reports(
    reports: Sequence[tuple[str, bytes]], replications: int
) -> list[ReportRow]:
    """Returns the rows of a report, or those of all replications of several, each with its name. Raises Refused if one
    is none of so many replications, or if they are not of one scenario under different keys.
    """
    read = dict[str, list[ReportRow]]()
    for name, data in reports:
        rows = rows_in(data, name, replications)
        for earlier, others in read.items():
            if policies_in(others) != policies_in(rows):
                raise Refused(f"{name}: it has other policies than {earlier}")
            if others == rows:
                raise Refused(
                    f"{name}: it is the report {earlier} again", "take another key"
                )
        read[name] = rows
    if len(read) == 1:
        return rows
    found = [periods_of(row, replications) for rows in read.values() for row in rows]
    periods = {*filter(None, found)}
    if len(periods) > 1:
        raise Refused(f"{name}: it has another number of periods than those before")
    return pooled([*read.values()], replications, int(min(periods, default=1)))


def check_policies(
    rows: Sequence[ReportRow], policies: Sequence[Policy], report: str, scenario: str
) -> None:
    """Raises Refused if the rows are not those of a scenario's policies: names of both files."""
    given = policies_in(rows)
    for number, (one, other) in enumerate(zip(given, policies), 1):
        if one != other:
            raise Refused(
                f"{report}: policy {number} is {one.name} ({one.s}, {one.S}), but in {scenario} it is "
                f"{other.name} ({other.s}, {other.S}); give the report's own scenario"
            )
    if len(given) != len(policies):
        raise Refused(
            f"{report}: it has {len(given)} policies, but {scenario} has {len(policies)}"
        )
