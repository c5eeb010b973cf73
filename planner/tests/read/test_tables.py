"""Tests of tables as they come: frames, roles of columns, sizes, twins, returns and files that change."""
from __future__ import annotations

import math
import subprocess
import sys
import time
from collections.abc import Sequence
from pathlib import Path

import numpy as np
import pytest

from crnplan.errors import Refused, RefusedFaults
from crnplan.read import sources
from crnplan.read.columns import find_columns
from crnplan.read.items import Reading
from crnplan.read.observed import sums_of
from crnplan.read.opening import opened
from crnplan.remarks import Remark
from crnplan.catalogues import read_catalogue
from planner.tests.read.catalogues import (
    HEADING,
    MASTER,
    MASTERS,
    MONDAY,
    TODAY,
    WEEKS,
    cases_of,
    day_of,
    demand_of,
    items_of,
    masters_of,
    read_text,
    weekly,
)

CASES = cases_of("tables")
COST = Path(__file__).parents[3] / "tests/hostile/cost.py"
TWOS = weekly([2] * WEEKS)


def test_frames() -> None:
    """Frames are read as files are. A missing number is an empty cell, whose row is named."""
    demand, masters = demand_of("A"), masters_of(MASTER)
    read = read_catalogue(demand, masters, today=TODAY)
    assert items_of(read)["A"].counts == tuple(demand.quantity)
    indexed = demand.set_index("item"), masters.set_index("item")
    assert items_of(read_catalogue(*indexed, today=TODAY)) == items_of(read)
    demand.loc[2, "quantity"] = float("nan")
    rejects = read_catalogue(demand, masters, today=TODAY).rejects
    rejects = rejects[["kind", "line", "column", "reason"]].values.tolist()
    why = "1 rows have no quantity, so that the demand of their periods is not known"
    assert rejects == [["suspicious", 4, "quantity", f"{why} (line 4)"]]


@pytest.mark.parametrize(
    "cell, said",
    [
        (True, "'True' is not a number"),
        (MONDAY, "'2026-03-02' is not a number"),
        (float("inf"), "'inf' is not a number"),
    ],
)
def test_a_cell_of_a_frame(cell: object, said: str) -> None:
    demand = demand_of("A").astype(object)
    demand.loc[1, "quantity"] = cell
    (reject,) = read_catalogue(
        demand, masters_of(MASTER), today=TODAY
    ).rejects.itertuples()
    assert (reject.line, reject.column) == (3, "quantity") and said in reject.reason


def test_a_column_has_one_role(tmp_path: Path) -> None:
    """A column that is stated for one role is not found for another whose name it has, and a unit in the heading of a text
    is part of its name."""
    masters = f"{HEADING},price,description (kg)\nA,45,1,10,2,3,9,7,iron\n"
    plain = items_of(read_text(tmp_path, TWOS, masters))["A"]
    assert (plain.price, plain.holding, plain.description) == (7, 1, "iron")
    columns = {"items": {"holding": "price"}}
    stated = items_of(read_text(tmp_path, TWOS, masters, columns=columns))["A"]
    assert (stated.price, stated.holding) == (None, 7)


def test_longest_lead_time_of_orders(tmp_path: Path) -> None:
    """An order that took 32 weeks is a lead time, and one that took a week more is rejected."""
    masters, orders = MASTERS.replace("10,2,3", "10,,3"), ""
    for weeks in (32, 33):
        orders += f"A,{day_of(-weeks)},{MONDAY}\n"
    catalogue = read_text(tmp_path, TWOS, masters, orders)
    assert items_of(catalogue)["A"].leads == (32,)
    (reason,) = catalogue.rejects.reason
    assert reason == "the lead time 33 is not from 1 to 32 periods"


@pytest.mark.parametrize("most", [5, 1 << 53])
def test_sums_are_exact(most: int) -> None:
    """Also where a floating point number has no room for them."""
    sums = sums_of(np.array([0, 2, 0]), np.array([most, 7, 1]), 3)
    assert sums.tolist() == [most + 1, 0, 7]


@pytest.mark.parametrize("item", ["A", '"A"'])
def test_long_line(item: str, tmp_path: Path, monkeypatch: pytest.MonkeyPatch) -> None:
    """It is named with its number, also behind a cell in quotes."""
    monkeypatch.setattr(sources, "MOST_LETTERS", 60)
    said = "demand.csv:3: the line has more than 59 letters"
    with pytest.raises(RefusedFaults, match=said):
        read_text(tmp_path, f"{item},2026-03-02,1\nA,2026-03-09,{'1' * 60}\n")


def test_gigabyte_without_a_line_end(tmp_path: Path) -> None:
    """A line of a gigabyte, also behind good rows, is refused in little memory."""
    path, masters = tmp_path / "demand.csv", tmp_path / "items.csv"
    masters.write_text(MASTERS, "utf-8")
    with path.open("wb") as file:
        file.write(b"item,date,quantity\n" + b"A,2026-03-02,1\n" * 100_000)
        file.write(b"A,2026-03-02,")
        file.truncate(1 << 30)
    errors = tmp_path / "errors"
    # A small process starts and measures it: the memory that a process has before `exec` counts for the program too.
    words = [sys.executable, COST, "/dev/null", errors, sys.executable, "-m", "crnplan"]
    words += ["plan", path, masters, "--check", "--out", tmp_path / "plan"]
    told = subprocess.run(words, capture_output=True, text=True, check=True)
    _, kilobytes, status = told.stdout.split()
    assert status == "2"
    assert "has more than 1,999,999 letters" in errors.read_text("utf-8")
    assert int(kilobytes) < 300_000


def test_a_file_that_changes_is_refused(tmp_path: Path) -> None:
    """A file that another program changes or removes while it is read is refused."""
    path, heading = tmp_path / "demand.csv", "item,date,quantity\n"
    path.write_text(heading + TWOS, "utf-8")
    said = "demand.csv: the file was changed while it was read; run again"
    with opened(path, "demand", Reading()) as sheet:
        rows = find_columns("demand", sheet, Reading()).rows()
        next(rows)
        path.write_text(heading + weekly([3] * (WEEKS - 1)), "utf-8")
        with pytest.raises(Refused, match=said):
            list(rows)
        path.unlink()
        with pytest.raises(Refused, match="demand.csv: No such file"):
            list(find_columns("demand", sheet, Reading()).rows())


@pytest.mark.serial
def test_many_rows_of_one_item(tmp_path: Path) -> None:
    """Rows of one item take about as long as rows of many, and not with their square. The least of three runs counts."""
    count, seconds = 60_000, {1: math.inf, 600: math.inf}
    for items in (1, 600) * 3:
        rows = []
        for row in range(count):
            rows.append(f"A{row % items},{day_of(0, row % 180)},{1 + row // 7 % 5}\n")
        masters = [f"A{item},45,1,10,2,3,9\n" for item in range(items)]
        begin = time.process_time()
        read = read_text(tmp_path, "".join(rows), f"{HEADING}\n{''.join(masters)}")
        counts = read.counts
        seconds[items] = min(time.process_time() - begin, seconds[items])
        assert counts["files"]["demand"]["used"] == count
        assert counts["items"]["ready"] == items
    assert seconds[1] <= 2 * seconds[600]


@pytest.mark.parametrize(
    "twice, total, left_out",
    [("keep", 2 * (WEEKS + 999), 0), ("leave-out", 2 * WEEKS, 999)],
)
def test_twins_are_counted(
    twice: str, total: int, left_out: int, tmp_path: Path
) -> None:
    """A thousand equal rows are named once, with their count."""
    rows = TWOS + TWOS.splitlines(True)[3] * 999
    catalogue = read_text(tmp_path, rows, twice=twice, far="keep")
    item = items_of(catalogue)["A"]
    assert sum(item.counts) == total and not catalogue.missing
    assert item.remarks == (Remark("rows twice", {"rows": 999}),)
    (reject,) = catalogue.rejects.itertuples()
    assert reject.reason.startswith("999 rows are the same as others above them")
    assert reject.rows == left_out


@pytest.mark.parametrize("amounts, week, amount, counts", CASES["returns"])
def test_a_return_belongs_to_the_sale_that_it_undoes(
    amounts: list[int], week: int, amount: int, counts: list[int], tmp_path: Path
) -> None:
    """With net an amount below 0 is taken off the last earlier periods that have enough."""
    rows = weekly(amounts + [2] * WEEKS) + f"A,{day_of(week, 1)},{amount}\n"
    catalogue = read_text(tmp_path, rows, net=True)
    if counts:
        assert items_of(catalogue)["A"].counts == (*counts, *[2] * WEEKS)
    else:
        rejects = catalogue.rejects
        assert [*rejects.line] == [rows.count("\n") + 1] and not items_of(catalogue)
        assert "less was asked for before" in rejects.reason[0]


@pytest.mark.parametrize("heading, every, leads, said", CASES["leads"])
def test_units_of_lead_times(
    heading: str, every: str, leads: list[int], said: str
) -> None:
    """Lead times are converted from the unit in their heading."""
    costs = {"setup": 45, f"holding (per {every})": 1, f"backlog (per {every})": 10}
    masters = masters_of({**costs, heading: "14; 10", "s": 3, "S": 9})
    columns = {"items": {"lead": heading}}
    words = {"columns": columns, "every": every, "today": TODAY}
    read = read_catalogue(demand_of("A"), masters, **words)
    assert [*items_of(read)["A"].leads] == leads
    assert said in " ".join(read.said)


@pytest.mark.parametrize("heading, factor", CASES["packs"])
def test_units_of_demand(heading: str, factor: int, tmp_path: Path) -> None:
    """Numbers of packs are converted."""
    amounts, columns = [1, 2, 3] * 5, {"demand": {"quantity": heading}}
    units = {"demand": {"quantity": "item"}} if factor == 1 else {}
    data = f"item,date,{heading}\n{weekly(amounts)}".encode()
    catalogue = read_text(tmp_path, data, columns=columns, units=units)
    counts: Sequence[int] = [factor * amount for amount in amounts]
    assert [*items_of(catalogue)["A"].counts] == counts


@pytest.mark.parametrize("item, more", [("A", ",x,y"), ("", "")])
def test_a_rejected_row_decides_nothing(item: str, more: str, tmp_path: Path) -> None:
    """A row that has too many cells, or no item, decides no decimal sign: its cells may be those of other columns."""
    rows = f'{TWOS}A,2026-03-02,"1,000"\n{item},2026-03-02,"1,234.5"{more}\n'
    rejects = read_text(tmp_path, rows).rejects
    doubtful = rejects[rejects.reason.str.contains("may be 1000 or 1")]
    assert [*doubtful.line] == [WEEKS + 2]
