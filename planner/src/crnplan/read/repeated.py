"""Finds what tables say twice: files whose rows are all in another file, and rows of totals."""
from __future__ import annotations

from collections.abc import Iterable, Iterator, Mapping, Sequence
from fractions import Fraction
from typing import TYPE_CHECKING

import numpy as np

from ..errors import Fault
from ..remarks import Remark
from .cells import TOTAL, Flags, Numbers
from .sources import FILE_BITS, Sheet

if TYPE_CHECKING:
    from .amounts import AmountReader
    from .rows import Rows, KeptTable

# The columns of masters of which a total has the sum.
ADDED = ("stock", "s", "S", "price", "setup", "holding", "backlog", "pack", "order_min")
Shared = Numbers  # how many different rows two files of a table share, a row and a column for each file


def shared_rows(rows: Rows) -> Shared:
    """Returns how many different rows each two files of a table share."""
    from scipy import sparse

    count = len(rows.sheet.files)
    _, which = np.unique(rows.hashes, return_inverse=True)
    pairs = np.unique(np.stack([which, rows.lines >> FILE_BITS]), axis=1)
    ones = np.ones(pairs.shape[1], np.int64)
    has = sparse.csr_matrix((ones, pairs), (int(pairs[0].max(initial=-1)) + 1, count))
    shared: Shared = (has.T @ has).toarray()
    return shared


def shared_in(tables: Mapping[str, Rows]) -> dict[str, Shared]:
    """Returns how many rows the files of each table share that is in several."""
    shared = dict[str, Shared]()
    for kind, rows in tables.items():
        if len(rows.sheet.files) > 1:
            shared[kind] = shared_rows(rows)
    return shared


def files_within(
    sheets: Mapping[str, Sheet], parts: Iterable[Mapping[str, Shared]]
) -> Iterator[Fault]:
    """Yields a fault for each file whose rows are all in another file of its table too; of two that are the same for one."""
    sums: dict[str, Shared] = {}
    for part in parts:
        for kind, shared in part.items():
            sums[kind] = sums.get(kind, np.zeros_like(shared)) + shared
    for kind, shared in sums.items():
        files = sheets[kind].files
        sizes = np.diagonal(shared)
        is_within = (
            (shared == sizes[:, None])
            & (sizes[:, None] > 0)
            & ~np.eye(len(files), dtype=bool)
        )
        found = set[int]()
        for file, other in np.argwhere(is_within).tolist():
            if other not in found and file not in found:
                found.add(file)
                facts = {"rows": int(sizes[file]), "other": files[other].file_name}
                yield Fault(Remark("file within another", facts), files[file].file_name)


def names_apart(tables: Mapping[str, Rows]) -> dict[bool, list[str]]:
    """Returns the names of items that begin with a digit and have rows in the masters alone (True), or in the demand
    alone."""
    names = tables["items"].names
    masters, demand = (
        rows.items[rows.good] for rows in (tables["items"], tables["demand"])
    )
    apart = dict[bool, list[str]]()
    for is_master, mine, others in ((True, masters, demand), (False, demand, masters)):
        alone = [names[code] for code in np.setdiff1d(mine, others).tolist()]
        apart[is_master] = [name for name in alone if name[:1].isdecimal()]
    return apart


def zeros_apart(parts: Iterable[Mapping[bool, Sequence[str]]]) -> Iterator[Remark]:
    """Yields what is to be said of items of the demand that would have a master but for zeros before their names."""
    masters, demand = dict[str, str](), list[str]()
    for part in parts:
        masters |= {name.lstrip("0"): name for name in part[True]}
        demand += part[False]
    apart = sorted(name for name in demand if name.lstrip("0") in masters)
    if apart:
        master = masters[apart[0].lstrip("0")]
        yield Remark(
            "zeros apart", {"items": len(apart), "name": apart[0], "master": master}
        )


def sums_of_columns(
    masters: KeptTable, readers: Mapping[str, AmountReader]
) -> dict[str, Fraction]:
    """Returns the sums of those columns of masters that have any value."""
    sums = dict[str, Fraction]()
    for role in ADDED:
        for cell, count in masters.counts(role).items():
            number = readers[role].known(cell) or 0
            sums[role] = sums.get(role, Fraction(0)) + count * number
    return sums


def is_called_total(name: object) -> bool:
    return TOTAL.match(str(name)) is not None


def total_rows(
    tables: Mapping[str, Rows],
    sums: Mapping[str, Fraction],
    readers: Mapping[str, AmountReader],
) -> Flags:
    """Returns which rows of masters are totals: those of items without other rows that are called so, and have the sum of
    all others in a column, or nothing beside their name."""
    rows = tables["items"]
    totals: Flags = np.zeros(len(rows), bool)
    called = [code for code, name in enumerate(rows.names) if is_called_total(name)]
    for kind, others in tables.items():
        if kind != "items":
            called = np.setdiff1d(called, others.items[others.good]).tolist()
    for row in np.flatnonzero(rows.good & np.isin(rows.items, called)).tolist():
        cells = rows.cells(row)
        del cells["item"]
        totals[row] = set(cells.values()) <= {""}
        for role, total in sums.items():
            number = readers[role].known(cells[role])
            # The sum of all rows has the total itself too.
            if number and 2 * number == total:
                totals[row] = True
    return totals
