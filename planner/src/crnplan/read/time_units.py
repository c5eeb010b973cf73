"""Refuses times of masters whose unit nobody says: neither their heading, nor a word, nor their cells."""
from __future__ import annotations

from collections.abc import Mapping

from ..errors import Fault, RefusedFaults
from ..remarks import Remark
from .cells import Cell, Unreadable
from .table_files import FiledTable, WholeTables
from .times import TimeReader


def is_bare(reader: TimeReader, cell: Cell) -> bool:
    """Returns whether a cell has a number above 0, and no unit."""
    try:
        parts = [part for time in reader.read(cell) for part in time]
    except Unreadable:
        return False
    units = {unit for _, unit in parts}
    return units == {""} and any(number > 0 for number, _ in parts)


def refuse_bare_times(tables: Mapping[str, FiledTable], whole: WholeTables) -> None:
    """Raises RefusedFaults for columns of times without a unit. If some cells have one, those without are left to be
    rejected."""
    sheet = tables["items"].sheet
    faults: list[Fault] = []
    for role, reader in whole.times.items():
        column = sheet.columns.get(role)
        if column is None or column.unit:
            continue
        cells = tables["items"].counts(role).keys() - {""}
        if {is_bare(reader, cell) for cell in cells} == {True}:
            place = {"name": column.name, "place": f"items.{role}"}
            faults.append(sheet.fault_of(Remark("no unit of the column", place)))
    if faults:
        raise RefusedFaults(faults)
