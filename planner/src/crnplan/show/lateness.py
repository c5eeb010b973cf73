"""The table of suppliers' lateness: what their receipts took, and how many took longer than stated."""
from __future__ import annotations

from ..read.catalogue_reading import Catalogued
from ..read.lateness import Lateness, suppliers_of
from ..table import DataTable
from ..columns import columns_of

LATENESS = "lateness.csv"


def receipts_of(lateness: Lateness) -> int:
    return len(lateness.days)


COLUMNS = columns_of("show", "lateness", {"receipts": receipts_of})


def lateness_of(read: Catalogued) -> DataTable:
    """Returns how late suppliers are as a table."""
    return DataTable.of(COLUMNS, suppliers_of(read), missing="")
