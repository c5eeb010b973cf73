"""The table of control totals: rows, sums and dates of each file and of what is used, to tick off against the source."""
from __future__ import annotations

from collections import defaultdict
from collections.abc import Iterator, Mapping
from fractions import Fraction
from typing import NamedTuple

from ..read.controls import SUMMED, Control, Controls
from ..read.tables import OPEN, OTHER, REJECTED, USED, WITH_ITEM
from ..table import DataTable
from ..columns import columns_of

ALL = "all"
# What became of rows, in words. Only used ones are shown if there are none.
MEANINGS = {
    USED: "used",
    REJECTED: "rejected",
    WITH_ITEM: "left out with their item",
    OTHER: "other rows",
    OPEN: "lost",
}
CONTROL_COLUMNS = columns_of("show", "controls")
OPTIONAL = "returned", "owed", "unread"
ControlsByState = Mapping[str, Control]  # what rows come to, by what became of them


class ControlRow(NamedTuple):
    """The control totals of a file of a kind, of rows of which one thing became."""

    kind: str
    file: str
    rows_are: str
    control: Control

    @property
    def units(self) -> Fraction | None:
        """Returns the sum of the amounts that have a value."""
        for role in SUMMED[self.kind][:1]:
            return self.control.amounts.get(role)
        return None

    @property
    def unread(self) -> int | None:
        """Returns how many rows have an amount that can't be read; None if all can."""
        return self.control.unread or None


def controls_of(controls: Controls, decimals: int, currency: str) -> DataTable:
    """Returns the control totals of tables, by file. The files of a table that is in several of them are named first."""
    kinds: dict[str, dict[str, dict[str, Control]]] = defaultdict(
        lambda: defaultdict(dict)
    )
    for (kind, file, state), control in controls.items():
        kinds[kind][file][state] = control
    rows = [row for kind, files in kinds.items() for row in _rows_of(kind, files)]
    table = DataTable.of(CONTROL_COLUMNS, rows, decimals, currency=currency)
    return table.without_empty(OPTIONAL)


def _rows_of(kind: str, files: Mapping[str, ControlsByState]) -> Iterator[ControlRow]:
    """Yields the rows of a table that is in one file or in several."""
    together: defaultdict[str, Control] = defaultdict(Control)
    for states in files.values():
        for state, control in states.items():
            together[state] += control
    name, *others = files
    if others:
        name = f"{kind}, {ALL} files"
        for file, states in files.items():
            yield _read_row(kind, file, states)
    yield _read_row(kind, name, together)
    for state, meaning in MEANINGS.items():
        control = together[state]
        if control.rows or state == USED:
            yield ControlRow(kind, name, meaning, control)


def _read_row(kind: str, file: str, states: ControlsByState) -> ControlRow:
    """Returns the row of all that was read, whatever became of it."""
    return ControlRow(kind, file, "read", sum(states.values(), Control()))
