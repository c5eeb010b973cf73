"""Tests of wide tables of demand, with a column for each period: they are read as the same table with a row for each
movement, which pandas makes of them."""
from __future__ import annotations

import datetime
import re
from collections.abc import Sequence
from pathlib import Path
from typing import Any

import numpy as np
import openpyxl
import pandas as pd
import pytest

import crnplan as crn
from crnplan.errors import RefusedFaults
from crnplan.catalogues import Catalogue, read_catalogue
from planner.tests.read.catalogues import cases_of, items_of

CASES = cases_of("wide")
TODAY = datetime.date(2026, 6, 1)
PERIODS = {
    "month": pd.period_range("2025-01", "2026-03", freq="M"),
    "week": pd.period_range("2025-01-06", periods=30, freq="W-SUN"),
}
MONTHS = PERIODS["month"]
NAMES = [*map(str, MONTHS)]


def demand(periods: pd.PeriodIndex = MONTHS) -> pd.DataFrame:
    """Returns demand of six items by period, in which a third of the cells are empty."""
    random = np.random.default_rng(1)
    numbers = random.integers(1, 50, (6, len(periods))).astype(float)
    numbers[random.random(numbers.shape) < 1 / 3] = np.nan
    numbers[0, 0], numbers[0, -1] = 7, 9  # so the record has its ends
    names = pd.Index([f"A-{place}" for place in range(6)], name="item")
    return pd.DataFrame(numbers, names, periods)


def long_of(table: pd.DataFrame) -> pd.DataFrame:
    """Returns the rows of a wide table as pandas makes them."""
    rows = table.reset_index().melt("item", var_name="date", value_name="quantity")
    rows["date"] = pd.PeriodIndex(rows.date).start_time
    return rows.dropna().astype({"quantity": int})


def read(path: Path, table: Any, every: str = "month", **words: Any) -> Catalogue:
    masters = (
        f"item,setup,holding per {every},backlog per {every},lead ({every}s),s,S\n"
    )
    masters += "".join(f"A-{place},45,1,10,2,3,9\n" for place in range(6))
    (path / "items.csv").write_text(masters)
    words = {"every": every, "today": TODAY, "least": 1, **words}
    return read_catalogue(table, path / "items.csv", **words)


def written(
    path: Path, table: pd.DataFrame, headings: Sequence[str] = NAMES, sign: str = ","
) -> Path:
    """Writes a table with other headings of the periods as CSV."""
    cells = table.set_axis(headings, axis=1).astype("Int64")
    cells.to_csv(path / "demand.csv", sep=sign)
    return path / "demand.csv"


def facts_of(catalogue: Catalogue) -> dict[str, tuple[int, tuple[int, ...]]]:
    items = items_of(catalogue)
    return {name: (item.first, item.counts) for name, item in items.items()}


def assert_same(path: Path, wide: Catalogue, table: pd.DataFrame, *every: str) -> None:
    """Checks that a catalogue is that of the rows which pandas makes of a table."""
    assert facts_of(wide) == facts_of(read(path, long_of(table), *every))


@pytest.mark.parametrize("every, pattern", CASES["patterns"])
def test_periods_in_columns(tmp_path: Path, every: str, pattern: str) -> None:
    """Months and weeks in any form are read as the rows that pandas makes of the table."""
    table = demand(PERIODS[every])
    headings = [period.start_time.strftime(pattern) for period in PERIODS[every]]
    wide = read(tmp_path, written(tmp_path, table, headings, ";"), every)
    assert_same(tmp_path, wide, table, every)
    used = wide.counts["files"]["demand"]["used"]
    assert used == int(table.count().sum()) and wide.rejects.empty


@pytest.mark.parametrize("labels", [MONTHS, MONTHS.to_timestamp()])
def test_frames(tmp_path: Path, labels: Any) -> None:
    """The columns of a DataFrame may be periods or dates."""
    wide = read(tmp_path, demand().set_axis(labels, axis=1))
    assert_same(tmp_path, wide, demand())


def book_of(path: Path, rows: Sequence[Sequence[Any]]) -> Path:
    """Writes a workbook of rows, in which what is missing has no cell."""
    book = openpyxl.Workbook()
    for row in rows:
        book.active.append([None if cell != cell else cell for cell in row])
    book.save(path / "demand.xlsx")
    return path / "demand.xlsx"


def test_workbooks(tmp_path: Path) -> None:
    """The headings of a sheet may be dates, beside other columns."""
    table, days = demand(), [month.start_time.date() for month in MONTHS]
    rows = [[name, "Schraube", *row] for name, row in table.iterrows()]
    wide = read(tmp_path, book_of(tmp_path, [["item", "Bezeichnung", *days], *rows]))
    assert_same(tmp_path, wide, table)


def test_days_in_columns(tmp_path: Path) -> None:
    """Working days add up to weeks, and days without a column are said."""
    days = pd.period_range("2025-01-06", "2025-03-30", freq="D")
    table = demand(days[days.dayofweek < 5])
    path = written(tmp_path, table, [*map(str, table.columns)])
    wide = read(tmp_path, path, "week")
    assert_same(tmp_path, wide, table, "week")
    said = f"demand.csv: days between the columns that have none: {2 * 11}; they have no demand"
    assert said in wide.said


def test_totals_are_left_out(tmp_path: Path) -> None:
    """Columns and rows of totals are left out and said; other columns are ignored, and an item may be called Total Oil."""
    table, oil = demand().rename({"A-5": "Total Quartz 5W40"}), "Total Quartz 5W40"
    table["Total"], table["Summe 2025"] = table.sum(axis=1), 1
    table.loc["Gesamtergebnis"] = table.sum()
    path = written(tmp_path, table, [*NAMES, "Total", "Summe 2025"])
    wide = read(tmp_path, path)
    same = facts_of(read(tmp_path, long_of(demand()[:5])))
    assert facts_of(wide).items() >= same.items()
    assert "demand.csv: columns of totals left out: 'Total', 'Summe 2025'" in wide.said
    said = "demand.csv: 15 columns are periods, from '2025-01' to '2026-03'; an empty cell is no demand"
    assert said in wide.said
    reasons = wide.rejects.set_index("item").reason.to_dict()
    assert reasons == {
        "Gesamtergebnis": "the row looks like a total of the rows above",
        oil: "there is no master of this item",
    }
    assert not wide.missing


def test_rejects_name_line_and_column(tmp_path: Path) -> None:
    """What is wrong with a cell is said with its line and the heading of its column."""
    path = written(tmp_path, demand())
    lines = path.read_text().splitlines()
    cells = lines[2].split(",")
    cells[3], cells[5] = "many", "-2"
    lines[2] = ",".join(cells)
    lines += ["", ",1" + "," * 14, "A-1" + ",3" * 17, ""]
    path.write_text("\n".join(lines))
    wide = read(tmp_path, path)
    columns = ["line", "item", "column", "text", "reason"]
    first, second, third, last = wide.rejects[columns].values.tolist()
    assert first == [3, "A-1", "2025-03", "many", "'many' is not a number"]
    assert second == [3, "A-1", "2025-05", "-2", "'-2' is negative"]
    assert (third[0], third[4]) == (9, "the item is missing")
    said = "there are 18 cells, and 16 columns in the heading"
    assert (last[0], last[4]) == (10, said)
    counts = wide.counts["files"]["demand"]
    assert (counts["rejected"], counts["blank"]) == (4, 1) and not wide.missing


def test_rows_of_one_item_add_up(tmp_path: Path) -> None:
    """Rows of one item add up, and only equal rows are said to stand twice."""
    table = demand()
    twice = pd.concat([table, table.rename({"A-1": "A-0"}).iloc[1:2], table.iloc[2:3]])
    wide = read(tmp_path, written(tmp_path, twice))
    assert_same(tmp_path, wide, twice)
    (reject,) = wide.rejects.itertuples()
    assert (reject.item, reject.kind) == ("A-2", "suspicious")
    assert f"9 ({table.loc['A-2'].first_valid_index()})" in reject.reason


def test_an_item_without_demand_is_named(tmp_path: Path) -> None:
    """A row without a number is an item without demand."""
    table = demand()
    table.loc["A-3"] = np.nan
    wide = read(tmp_path, written(tmp_path, table))
    assert items_of(wide)["A-3"].counts == (0,) * len(MONTHS)


@pytest.mark.parametrize("headings, every, says", CASES["refused"])
def test_columns_that_are_refused(
    tmp_path: Path, headings: list[str], every: str, says: str
) -> None:
    """Columns for other periods, gaps and two of one period are refused."""
    path = written(tmp_path, demand(), headings)
    with pytest.raises(RefusedFaults) as refused:
        read(tmp_path, path, every)
    assert "demand.csv:1: " in str(refused.value) and says in str(refused.value)


def test_files_of_two_years(tmp_path: Path) -> None:
    """Wide tables of several years are one table."""
    table, pattern = demand(), str(tmp_path / "demand-*.csv")
    for year in (2025, 2026):
        part = table.loc[:, MONTHS.year == year].astype("Int64")
        part.to_csv(tmp_path / f"demand-{year}.csv")
    assert_same(tmp_path, read(tmp_path, pattern), table)
    path = tmp_path / "demand-2026.csv"
    path.write_text(re.sub("\nA-1,[^,\n]*", "\nA-1,many", path.read_text()))
    columns = ["file", "line", "column", "text"]
    rejects = read(tmp_path, pattern).rejects[columns].values.tolist()
    assert rejects == [["demand-2026.csv", 3, "2026-01", "many"]]


def test_found_toml_of_a_wide_table_reads_it_again(tmp_path: Path) -> None:
    """What was found states the headings as dates and the cells as quantities, and reads the same again."""
    path = written(tmp_path, demand())
    wide = read(tmp_path, path)
    assert 'date = "(headings)"' in wide.found and 'quantity = "(cells)"' in wide.found
    columns = {"demand": {"item": "item", "date": "(headings)", "quantity": "(cells)"}}
    assert facts_of(read(tmp_path, path, columns=columns)) == facts_of(wide)
    with pytest.raises(crn.Refused, match=r"no column '\(headings\)'"):
        read(tmp_path, long_of(demand()), columns=columns)
    columns = {"demand": {"returned": "2025-01"}}
    said = "a table with a column for each period has no column of the role returned"
    with pytest.raises(RefusedFaults, match=said):
        read(tmp_path, path, columns=columns)


def test_formulas_of_a_wide_sheet_must_be_computed(tmp_path: Path) -> None:
    """A formula below a period that was never computed is refused with its place."""
    heading = ["item", "2025-01", "2025-02", "Total"]
    path = book_of(tmp_path, [heading, ["A-0", 3, "=1+1", "=B2+C2"]])
    with pytest.raises(RefusedFaults) as refused:
        read(tmp_path, path)
    (fault,) = refused.value.faults
    assert (fault.line, fault.column) == (2, 3)


def test_a_pivot_table(tmp_path: Path) -> None:
    """A pivot table of a spreadsheet, with a line above its heading, and totals, is read."""
    table, total = demand(), "Gesamtergebnis"
    rows = [[name, *row, row.sum()] for name, row in table.iterrows()]
    sums = [total, *table.sum(), table.sum().sum()]
    above = ["Summe von Menge", "Spaltenbeschriftungen"]
    heading = ["Zeilenbeschriftungen", *NAMES, total]
    wide = read(tmp_path, book_of(tmp_path, [above, heading, *rows, sums]))
    assert_same(tmp_path, wide, table)
    assert wide.rejects[["item", "line"]].values.tolist() == [[total, 9]]


def test_rows_of_one_place_of_a_wide_table(tmp_path: Path) -> None:
    """Rows of a wide table are chosen by another column, as those of any table, and what places there are is said."""
    table = demand()
    both = pd.concat({"Main": table, "Outlet": table}, names=["Location"]).swaplevel()
    path = written(tmp_path, both)
    wide = read(tmp_path, path, where=["Location=Main"])
    assert_same(tmp_path, wide, table)
    counts, used = wide.counts["files"]["demand"], int(table.count().sum())
    assert counts["other"] == counts["used"] == used
    said = read(tmp_path, path).said
    assert any("have rows of several places" in line for line in said)
