"""Tests of the cells of DataFrames: each is read as `to_csv` shows it, numbers and dates as what they are."""
from __future__ import annotations

import datetime
import io
from decimal import Decimal
from fractions import Fraction
from typing import Any

import numpy as np
import pandas as pd
import pytest

from crnplan.read.cells import text_of
from crnplan.read.frames import FrameSheet, cell_of
from crnplan.read.sources import Rules
from crnplan.money import exact

Day = datetime.date
MOMENT = datetime.datetime(2026, 3, 2, 23, 30)


def as_csv(value: Any) -> str:
    """Returns what pandas writes of a value."""
    text = pd.DataFrame({"x": pd.Series([value], dtype=object)}).to_csv(
        index=False, header=False
    )
    return pd.read_csv(
        io.StringIO(f"x\n{text}"),
        dtype=str,
        keep_default_na=False,
        skip_blank_lines=False,
    )["x"][0]


@pytest.mark.parametrize(
    "value",
    [
        3,
        -3,
        np.int8(3),
        np.int64(3),
        np.uint16(3),
        0.1,
        np.float64(0.1),
        np.float32(0.1),
        np.float16(0.25),
        Decimal("0.1"),
        Decimal("12.50"),
        Decimal("1234567890.123456789"),
        2.5,
        1e-05,
        Decimal("0.000001"),
    ],
)
def test_numbers(value: Any) -> None:
    """A number is the one that CSV shows, with all its digits, whatever its type."""
    cell = cell_of(value)
    assert exact(str(cell)) == Fraction(as_csv(value))


@pytest.mark.parametrize(
    "value, cell",
    [
        (4711.0, 4711),
        (Decimal("4711.00"), 4711),
        (np.float32(12), 12),
        (-0.0, 0),
        (1e15, 10**15),
        (Decimal("1E+3"), 1000),
    ],
)
def test_whole_numbers(value: Any, cell: int) -> None:
    """A whole number is one, since a column with a missing cell has floating point numbers."""
    assert cell_of(value) == cell and isinstance(cell_of(value), int)


@pytest.mark.parametrize(
    "value",
    [
        None,
        float("nan"),
        np.nan,
        np.float32("nan"),
        pd.NA,
        pd.NaT,
        Decimal("NaN"),
        np.datetime64("NaT"),
        np.timedelta64("NaT"),
    ],
)
def test_missing_values(value: Any) -> None:
    assert text_of(cell_of(value)) == ""


@pytest.mark.parametrize(
    "value",
    [
        MOMENT,
        pd.Timestamp(MOMENT),
        pd.Timestamp(MOMENT, tz="Asia/Tokyo"),
        pd.Timestamp(MOMENT, tz="America/New_York"),
        MOMENT.replace(tzinfo=datetime.timezone.utc),
        np.datetime64(MOMENT),
        MOMENT.date(),
        np.datetime64("2026-03-02"),
    ],
)
def test_dates(value: Any) -> None:
    """A date is the day that CSV shows, whatever its time of day and its zone."""
    assert (
        cell_of(value) == Day(2026, 3, 2)
        and type(cell_of(value)) is Day
        and as_csv(value).startswith("2026-03-02")
    )


@pytest.mark.parametrize(
    "value",
    [
        True,
        np.bool_(False),
        "TRUE",
        " x ",
        "0017",
        float("inf"),
        datetime.time(9, 30),
        pd.Period("2026-03", "M"),
        b"x",
        (1, 2),
        pd.Timedelta(days=3, hours=5),
        1 + 2j,
    ],
)
def test_other_cells(value: Any) -> None:
    """Other cells are texts as CSV shows them."""
    assert str(cell_of(value)) == as_csv(value)


@pytest.mark.parametrize(
    "kind, cells",
    [
        ("category", ["b", "a", None]),
        ("string", ["b", "a", None]),
        ("Int64", [3, None, 5]),
        ("Float64", [0.5, None, 2]),
        ("boolean", [True, None, False]),
        ("datetime64[ns]", [MOMENT, None, MOMENT]),
        ("timedelta64[ns]", [datetime.timedelta(14), None, None]),
    ],
)
def test_columns_of_a_type(kind: str, cells: list[Any]) -> None:
    """Columns of each type of pandas have the cells that CSV shows, in the order of the rows."""
    frame = pd.DataFrame({"x": pd.Series(cells).astype(kind)})
    rows = [
        [text_of(cell) for cell in row]
        for _, row in FrameSheet("demand", frame, Rules()).rows()
    ]
    shown = pd.read_csv(
        io.StringIO(frame.to_csv(index=False)),
        dtype=str,
        keep_default_na=False,
        skip_blank_lines=False,
    )["x"]
    expected = [text.removesuffix(" 23:30:00").removesuffix(".0") for text in shown]
    assert rows == [["x"], *([text] for text in expected)]
