"""Tests of dates as people and systems write them: each is read as itself, or rejected with what it may be."""
from __future__ import annotations

import datetime
import tomllib
from collections.abc import Sequence
from pathlib import Path
from typing import Any

import pandas as pd
import pytest
from babel.dates import format_date

import crnplan as crn
from crnplan.catalogues import stated_of
from crnplan.errors import RefusedFaults
from crnplan.read.cells import Unreadable
from crnplan.read.date_forms import day_of_serial
from crnplan.read.dates import DateReader
from crnplan.read.items import Reading
from crnplan.read.stock import read_holdings
from planner.tests.read.books import written
from planner.tests.read.catalogues import (
    MASTER,
    TODAY,
    cases_of,
    demand_of,
    items_of,
    masters_of,
    read_text,
)

Day = datetime.date
Cells = Sequence[Day | str]
CASES = cases_of("dates")
TRUE_DAYS = CASES["half_read"]["days"]


def first_of(cells: Cells, every: str | None = None, *patterns: str) -> Day:
    """Returns what the first date of a table is read as."""
    return DateReader(patterns, every=every).look(cells).read(cells[0])[0]


@pytest.mark.parametrize("text", CASES["same_day"])
def test_one_day_in_many_forms(text: str) -> None:
    """A date with the name of its month, or with signs of Asia, is read."""
    assert first_of([text]) == Day(2025, 1, 6)


@pytest.mark.parametrize("language", CASES["languages"])
def test_names_of_months_of_languages(language: str) -> None:
    """Dates as Babel writes them in a language are those days, if all twelve months are in the table."""
    days = [Day(2025, month, 28) for month in range(1, 13)]
    for pattern in CASES["patterns"]:
        texts = [format_date(day, pattern, locale=language) for day in days]
        reader = DateReader().look(texts)
        assert [reader.read(text)[0] for text in texts] == days


@pytest.mark.parametrize("cells, day", CASES["decided"])
def test_other_dates_of_a_table_decide(cells: Cells, day: Day) -> None:
    assert first_of(cells) == day


@pytest.mark.parametrize("cells, said", CASES["refused"])
def test_dates_that_cannot_be_read(cells: Cells, said: str) -> None:
    """A date that may be two days, or is none, is rejected with what it may be and what to do."""
    with pytest.raises(Unreadable, match=said):
        first_of(cells)


def test_numbers_of_a_spreadsheet() -> None:
    """`excel` reads a spreadsheet's numbers of days, as pandas does from the day that a spreadsheet begins with."""
    reader = DateReader(["excel", "%Y-%m-%d"])
    for number in (30_000, 45_678, 60_000):
        day = pd.Timestamp("1899-12-30") + pd.Timedelta(days=number)
        for cell in (number, f"{number}", f"{number}.75"):
            assert reader.read(cell)[0] == day.date()
    assert reader.read("2025-01-06")[0] == Day(2025, 1, 6)
    days = [day_of_serial(text) for text in ("19999", "20000", "60000", "60001")]
    assert days == [None, Day(1954, 10, 3), Day(2064, 4, 8), None]
    with pytest.raises(Unreadable, match="is no date of the form excel or %Y-%m-%d"):
        reader.read("6 Jan 2025")


def test_patterns() -> None:
    """A stated pattern decides a text alone."""
    assert first_of(["06-01-25"], None, "%d-%m-%y") == Day(2025, 1, 6)


@pytest.mark.parametrize("every, other", [("week", "month"), ("month", "week")])
def test_whole_periods(every: str, other: str) -> None:
    """A whole week or month is read as its first day if periods are such, which is said; else it is refused."""
    first, texts = CASES["periods"][every]
    said = f"a {every}.*, and the periods are {other}s; say .*every.*{every}"
    for text in texts:
        reader = DateReader(every=every).look([text])
        assert reader.read(text)[0] == first
        assert [*reader.notes] == ["whole periods"]
        with pytest.raises(Unreadable, match=said):
            first_of([text], other)


@pytest.mark.parametrize("pattern", ["%V.%G", "%V/%G", "%G%V"])
def test_numbers_beside_years_are_weeks_if_one_is_above_12(pattern: str) -> None:
    """A number beside the year is that of a week if another one of the table can't be a month; else it may be either."""
    days = [Day.fromisocalendar(2025, week, 1) for week in (1, 9, 13, 52)]
    texts = [day.strftime(pattern) for day in days]
    reader = DateReader(every="week").look(texts)
    assert [reader.read(text)[0] for text in texts] == days
    assert [*reader.notes] == ["whole periods"]
    said = f"{texts[0]}' may be a month or a week, and the periods are weeks; say .*month.* 2025-W01"
    with pytest.raises(Unreadable, match=said):
        first_of(texts[:2], "week")
    assert first_of(texts[1::-1], "month") == Day(2025, 9, 1)


def test_a_short_year_may_be_a_day() -> None:
    """`Apr-05` is a month if the years of all such are near to each other, as days are not."""
    assert first_of(["Apr-25", "May-24"], "month") == Day(2025, 4, 1)
    assert first_of(["May-24", "Apr-25"], "month") == Day(2024, 5, 1)
    said = "'Apr-05' may be 2005-04, or a day without its year; write years in full"
    with pytest.raises(Unreadable, match=said):
        first_of(["Apr-05", "Apr-19"], "month")


def half_read(days: Sequence[Day]) -> list[Day | str]:
    """Returns what a spreadsheet with months first stores of days of a file with days first."""
    cells: list[Day | str] = []
    for day in days:
        is_turned = day.day <= 12
        turned = Day(day.year, day.day, day.month) if is_turned else f"{day:%d/%m/%Y}"
        cells.append(turned)
    return cells


HALF_READ = half_read(TRUE_DAYS)


@pytest.mark.parametrize("cells", [HALF_READ, [*map(str, HALF_READ)]])
def test_half_read_dates_in_order_are_turned_back(cells: Cells) -> None:
    """Dates of which a spreadsheet interchanged day and month are read as they were, if the rows are then in order."""
    reader = DateReader().look(cells)
    assert [reader.read(cell)[0] for cell in cells] == TRUE_DAYS
    note = reader.notes["turned"]
    assert (note.code, note.facts["count"]) == ("turned", 4)


def test_sound_dates_in_order_are_not_turned() -> None:
    sound = [day if day.day <= 12 else f"{day:%d/%m/%Y}" for day in TRUE_DAYS]
    reader = DateReader().look(sound)
    assert [reader.read(cell)[0] for cell in sound] == TRUE_DAYS
    assert reader.notes["turned"].code == "not turned"


def test_half_read_dates_without_order_are_refused() -> None:
    """If the order of rows decides nothing, each such date is refused with both readings, and a pattern says which."""
    cells, day = [HALF_READ[place] for place in (3, 1, 5, 0, 2, 6, 4)], Day(2025, 8, 9)
    said = "'2025-08-09' may be 2025-09-08: a spreadsheet left '30/08/2025', and all others"
    with pytest.raises(Unreadable, match=said):
        first_of(cells)
    with pytest.raises(Unreadable, match="may be 2025-09-02"):
        DateReader().look(HALF_READ[:5]).read(HALF_READ[2])
    same = Day(2025, 8, 8)
    reader = DateReader().look([*cells, same])
    assert reader.read(same)[0] == same and reader.doubt() is not None
    assert reader.read("30/08/2025")[0] == Day(2025, 8, 30)
    for text, pattern in (("30.08.25", "%d.%m.%y"), ("08-30-2025", "%m-%d-%Y")):
        said = f"say .*{pattern}.* with .*%Y-%m-%d.* if '{day}' is right, and with .*%Y-%d-%m"
        with pytest.raises(Unreadable, match=said):
            first_of([day, text])
    with pytest.raises(Unreadable, match="2025-08-09 or 2025-09-08 by the patterns"):
        first_of([day], None, "%Y-%m-%d", "%Y-%d-%m")
    assert first_of([day], None, "%d/%m/%Y", "%Y-%d-%m") == Day(2025, 9, 8)
    assert first_of([day], None, "%d/%m/%Y", "%Y-%m-%d") == day


def test_half_read_dates_of_one_of_two_columns_are_refused() -> None:
    """A date that is turned in one column of a table, and sound in another, is refused."""
    reader = DateReader().look(HALF_READ).look([Day(2025, 2, 9), Day(2025, 2, 28)])
    with pytest.raises(Unreadable, match="'2025-02-09' may be 2025-09-02"):
        reader.read(Day(2025, 2, 9))
    assert reader.read(Day(2025, 8, 9))[0] == Day(2025, 9, 8)


@pytest.mark.parametrize("cells", CASES["half_read"]["sound"])
def test_mixed_dates_that_no_spreadsheet_made(cells: Cells) -> None:
    """Dates beside texts are read as they are if a day above 12 is among them, or one of at most 12 among the texts."""
    reader = DateReader().look(cells)
    assert reader.read(cells[0])[0] == cells[0]
    assert not reader.notes and reader.doubt() is None


def read(folder: Path, rows: str, **words: Any) -> crn.Catalogue:
    return read_text(folder, rows, today=Day(2026, 1, 1), least=1, **words)


@pytest.mark.parametrize("rows, said", CASES["unread"]["tables"])
def test_a_table_without_a_readable_date_says_so(
    tmp_path: Path, rows: str, said: str
) -> None:
    """If no date of demand can be read, that is said with an example and what to do, and not that the record is empty."""
    with pytest.raises(RefusedFaults, match=said):
        read(tmp_path, rows)


def test_half_read_dates_of_a_catalogue(tmp_path: Path) -> None:
    """Half-read dates are said if the order of rows decides, and refuse the table if not."""
    rows = [f"A,{cell},1\n" for cell in HALF_READ]
    catalogue = read(tmp_path, "".join(rows))
    said = "demand.csv: 4 dates, as '2025-02-09', have day and month interchanged"
    assert any(line.startswith(said) for line in catalogue.said)
    weeks = pd.Series(1, pd.PeriodIndex(TRUE_DAYS, freq="W")).resample("W").sum()
    assert [*items_of(catalogue)["A"].counts] == weeks.tolist()
    said = "demand.csv: '2025-01-10' may be 2025-10-01: a spreadsheet left"
    with pytest.raises(RefusedFaults, match=said):
        read(tmp_path, "".join([rows[-1], *rows[:-1]]))


def test_half_read_dates_of_a_workbook(tmp_path: Path) -> None:
    """A sheet with real dates beside texts is read as such a file."""
    cells = [(cell, "yyyy-mm-dd") for cell in HALF_READ]
    rows = [["item", "date", "quantity"], *(["A", cell, 1] for cell in cells)]
    path = written(tmp_path / "demand.xlsx", rows)
    costs = {"setup": 45, "holding (per month)": 1, "backlog (per month)": 10}
    masters = masters_of({**costs, "lead (months)": 1, "s": 3, "S": 9})
    found = crn.read_catalogue(path, masters, every="month", least=1)
    assert items_of(found)["A"].counts == (2, 4, 1)
    assert any("have day and month interchanged" in said for said in found.said)


def test_ends_of_a_record_are_days(tmp_path: Path) -> None:
    """The ends of a record are read as dates are, and a whole month is no end."""
    row = "A,2025-01-06,3\n"
    catalogue = read(tmp_path, row, start="30 Dec 2024", end="Jan 20, 2025")
    assert items_of(catalogue)["A"].counts == (0, 3, 0, 0)
    said = "end: '2025-01' is a whole month; write a day, as 2025-01-01"
    with pytest.raises(crn.Refused, match=said):
        read(tmp_path, row, end="2025-01")


def test_due_dates_are_read_as_others(tmp_path: Path) -> None:
    """The dates of what is on order may have names of months, and dates that a spreadsheet turned are said."""
    path, rows = tmp_path / "on_order.csv", "".join(f"A,1,{day}\n" for day in HALF_READ)
    path.write_text(f"item,quantity,due\nA,5,6-Jan-2025\n{rows}")
    holdings = read_holdings({"on_order": path}, Reading(), {"A": None})
    due = [arrival.due for arrival in holdings.arrivals["A"]]
    assert due == [Day(2025, 1, 6), *TRUE_DAYS]
    (reject,) = holdings.rejects
    assert (reject.column, reject.remark.code, reject.line) == ("due", "turned", 0)


def test_how_dates_are_read_is_stated(tmp_path: Path) -> None:
    """found.toml says that the day comes first, as one above 12 shows, and each word once."""
    demand = demand_of("A")
    demand["date"] = pd.to_datetime(demand.date).dt.strftime("%d/%m/%Y")
    demand.to_csv(tmp_path / "demand.csv", index=False)
    tables = tmp_path / "demand.csv", masters_of(MASTER)
    columns = {"demand.quantity": "quantity"}
    read = crn.read_catalogue(*tables, today=TODAY, every="week", columns=columns)
    words = tomllib.loads(stated_of(read, {}))["catalogue"]
    assert words["written"]["demand"]["day_first"] == {"/": True}
    assert words["every"] == "week"
