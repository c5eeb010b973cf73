"""Reads DataFrames as rows of cells, as `to_csv` shows them, but that numbers and dates stay what they are."""
from __future__ import annotations

import datetime
import itertools
import math
import os
from collections.abc import Iterator, Mapping
from decimal import Decimal
from functools import partial
from typing import TYPE_CHECKING, Any, SupportsIndex

import numpy as np

from ..arguments import read_path
from ..errors import Refused, argument
from ..money import exact, is_missing
from ..vocabulary import Kind, entry_name, several
from .cells import Cell, Shown, text_of
from .sources import Row, Rules, Sheet

if TYPE_CHECKING:
    import pandas as pd

CELL_BYTES = 8  # about, as text
DAY = datetime.timedelta(days=1)
WHOLE = "int64"  # the type of whole numbers that stand among others, or without a type


class FrameSheet(Sheet):
    """A DataFrame, whose heading is in line 1. Its index is a column if it has a name, or if it is of dates or texts."""

    unsent = ("frame",)

    def __init__(self, kind: str, frame: pd.DataFrame, rules: Rules) -> None:
        """Takes the kind of the table, which is its name in messages."""
        super().__init__(kind, "DataFrame", rules)
        if any(name is not None for name in frame.index.names):
            frame = with_named_index(frame, kind)
        elif kind == "demand":
            frame = with_index(frame)
        self.frame = frame
        self.size = CELL_BYTES * self.frame.size

    def rows(self) -> Iterator[Row]:
        heading = [*map(heading_of, self.frame.columns)]
        rows = itertools.chain([heading], self.frame.itertuples(index=False, name=None))
        for line, cells in enumerate(rows, 1):
            yield line, [cell_of(cell) for cell in cells]

    @property
    def keys(self) -> str:
        """Returns the type of the column of items if its cells are whole numbers; empty if they are texts."""
        from pandas.api.types import is_integer_dtype

        column = self.frame.iloc[:, self.columns["item"].place]
        if is_integer_dtype(column.dtype):
            return str(column.dtype)
        cells = {*map(cell_of, column)} - {None}
        return WHOLE if cells and all(isinstance(it, int) for it in cells) else ""


def with_named_index(frame: pd.DataFrame, kind: str) -> pd.DataFrame:
    """Returns a frame with its index as columns, but for what a column of the same name says too. Raises Refused if that
    says something else."""
    import pandas as pd

    for name in {*frame.index.names} & {*frame.columns}:
        level = frame.index.get_level_values(name)
        if not pd.Series(level).equals(frame[name].reset_index(drop=True)):
            raise Refused(
                f"{argument(kind)}: the index and the column {str(name)!r} differ",
                "give one of them another name",
            )
        frame = frame.reset_index(level=name, drop=True)
    is_named = any(name is not None for name in frame.index.names)
    return frame.reset_index() if is_named else frame


def with_index(frame: pd.DataFrame) -> pd.DataFrame:
    """Returns a frame whose index has no name with that as a column if it says more than the place of each row: dates, or
    texts, of which the columns say what they are."""
    import pandas as pd

    name = ""
    if isinstance(frame.index, (pd.DatetimeIndex, pd.PeriodIndex)):
        name = "date"
    elif frame.index.dtype == object and frame.index.nlevels == 1:
        name = "index"
    if not name or name in frame.columns:
        return frame
    return frame.rename_axis(name).reset_index()


def heading_of(name: object) -> str:
    """Returns the name of a column: that of a day without its time of day."""
    return text_of(cell_of(name)) if isinstance(name, datetime.date) else str(name)


def cell_of(value: Any) -> Cell:
    """Returns the cell of a value: dates without their time of day, whole numbers as such, and times in days."""
    if isinstance(value, str):
        return value
    if is_missing(value):
        return None
    # A number of numpy is what it shows: 0.1 of 32 bits is no 0.10000000149011612.
    text = str(value)
    value = value.item() if isinstance(value, np.generic) else value
    if isinstance(value, datetime.datetime):
        return value.date()
    if isinstance(value, datetime.timedelta):
        return days_of(value)
    if isinstance(value, datetime.date):
        return value
    if isinstance(value, bool) or not isinstance(value, (int, float, Decimal)):
        return text
    return number_of(value, text)


def name_of(key: str | SupportsIndex) -> str:
    """Returns the name of an item by its key in a frame: 1 and 1.0 name `1`."""
    return text_of(cell_of(key))


def read_name(value: Any) -> str:
    """Returns a name of an item or a column, as a table has it that is read. Raises Refused."""
    entry_name(value)
    return name_of(value)


def read_table(value: Any) -> Any:
    """Returns the path of a table, a DataFrame, or what stands for one: columns by name, or rows by name. Raises Refused."""
    import pandas as pd

    if isinstance(value, (str, os.PathLike)):
        return read_path(value)
    if isinstance(value, pd.DataFrame):
        return value
    rows = value if isinstance(value, list) else [value]
    if rows and all(isinstance(row, Mapping) and row for row in rows):
        try:
            return pd.DataFrame(value)
        except ValueError as why:
            advice = "give a DataFrame, or columns of one length"
            raise Refused(f"no table: {why}", advice) from why
    name = "a Series" if isinstance(value, pd.Series) else type(value).__name__
    raise Refused(
        f"{name} is no table with headings",
        "give a DataFrame with named columns, or the path of a file",
    )


def read_demand(value: Any) -> Any:
    """Returns a table: also that of a Series by date, which is the demand of the item of its name, or by item and date.
    Raises Refused."""
    import pandas as pd

    index = value.index if isinstance(value, pd.Series) else None
    if isinstance(index, pd.MultiIndex):
        return pd.DataFrame(value.reset_index(name=value.name or "quantity"))
    if not isinstance(index, (pd.DatetimeIndex, pd.PeriodIndex)):
        return read_table(value)
    if value.name is None:
        raise Refused(
            "the Series has no name, so its item is not known",
            'give it the name of the item, as sales.rename("A-17")',
        )
    columns = {"item": value.name, "date": index, "quantity": value.to_numpy()}
    return pd.DataFrame(columns)


def read_by_item(column: str, value: Any) -> Any:
    """Returns a table: also that of a Series or a dict by item, which has the amounts of a column. Raises Refused."""
    import pandas as pd

    others = pd.DatetimeIndex, pd.PeriodIndex, pd.MultiIndex
    values = [*value.values()] if isinstance(value, Mapping) else []
    if values and all(map(pd.api.types.is_scalar, values)):
        value = pd.Series(value)
    if isinstance(value, pd.Series) and not isinstance(value.index, others):
        return pd.DataFrame({"item": value.index, column: value.to_numpy()})
    return read_table(value)


NAME = Kind(read_name)
NAMES = Kind(several(read_name))
TABLE, DEMAND = Kind(read_table), Kind(read_demand)
STOCK = Kind(partial(read_by_item, "stock"))
QUANTITIES = Kind(partial(read_by_item, "quantity"))


def number_of(value: int | float | Decimal, text: str) -> Cell:
    """Returns a number, which shows a text; the text of a decimal that has too many digits to be written in full."""
    if not isinstance(value, int):
        if Decimal(value).is_nan():
            return math.nan
        if not math.isfinite(value):  # nor is a decimal above every float
            return float(value)
    if isinstance(value, Decimal) and exact(text) is None:
        return text
    if value == int(value):
        return int(value)
    if Decimal(repr(float(text))) == Decimal(text):
        return float(text)
    return Shown("", format(Decimal(text), "f"), "")


def days_of(time: datetime.timedelta) -> str:
    """Returns a time as whole days; as it shows itself if it is none."""
    return f"{time // DAY} days" if time % DAY == datetime.timedelta() else str(time)
