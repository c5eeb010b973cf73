"""Says in a table and in lines what has changed since an earlier plan of a catalogue."""
from __future__ import annotations

import heapq
from collections import Counter
from typing import NamedTuple

from ..plan.catalogue import PlannedFolder
from ..plan.changes import DAMPED, KINDS, MOVED, Change, ChangeSums
from ..table import DataTable
from .catalogue_tables import words_of
from ..columns import columns_of
from ..drawing.rendering import rendered

CHANGES = "changes.csv"
MOST_MOVED = 15


class ChangeRow(NamedTuple):
    """What has changed of an item, as a row of the table."""

    change: Change

    @property
    def demand_since(self) -> int | None:
        since = self.change.since
        if since:
            return sum(since.demands)
        return None

    @property
    def why(self) -> str:
        return words_of(self.change.reasons)


CHANGE_COLUMNS = columns_of(
    "show", "changes", kinds=", ".join(KINDS[:-1]) + f" or {KINDS[-1]}"
)


def changes_of(folder: PlannedFolder) -> DataTable:
    """Returns what has changed since the earlier plan: a row for each item of either."""
    return folder.table(CHANGE_COLUMNS, map(ChangeRow, folder.changes()))


def _size(change: Change) -> tuple[float, str]:
    """Returns what sorts changes: what they gain or cost."""
    return abs(change.gain or 0.0), change.name


def moved_rows(folder: PlannedFolder) -> list[dict[str, str]]:
    """Returns the rows of the items whose levels move most, by what that gains or costs, as a reader gets them."""
    moved = (change for change in folder.changes() if change.kind == MOVED)
    most = [
        ChangeRow(change) for change in heapq.nlargest(MOST_MOVED, moved, key=_size)
    ]
    return [
        *DataTable.of(CHANGE_COLUMNS, most, folder.currency.decimals, "").cells(
            is_shown=True
        )
    ]


def change_lines(folder: PlannedFolder) -> list[str]:
    """Returns what has changed since the earlier plan, as lines: no line without one."""
    if not folder.planned.earlier:
        return []
    sums = ChangeSums.of(folder.changes())
    by_name = Counter(dict(sorted(sums.reasons.items())))
    return rendered(
        "changes.txt",
        {
            "sums": sums,
            "kinds": KINDS,
            "reasons": by_name.most_common(),
            "moved": sums.kinds[MOVED],
            "damped": sums.kinds[DAMPED],
            "file": CHANGES,
            "every": folder.every,
            "least_gain": folder.settings.least_gain,
            "money": folder.currency.text,
        },
    ).splitlines()
