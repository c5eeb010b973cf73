"""Tests tables with declared columns: each form has the same cells, and a spreadsheet runs none of them."""
from __future__ import annotations

import csv
import datetime
import html
import io
import json
import math
import re
from collections.abc import Mapping
from dataclasses import replace
from fractions import Fraction
from typing import NamedTuple

import pandas as pd
import pytest
from hypothesis import given, strategies as st

from crnplan.show.catalogue_tables import DECISION_COLUMNS, DETAIL_COLUMNS
from crnplan.table import (
    MONEY,
    TableCell,
    DataTable,
    aligned,
    exact,
    names_of,
    number,
    text,
    whole,
)
from planner.tables_page import PAGE, TABLES, page

TEXTS = st.text("ab .9", max_size=5)
COLUMNS = (
    text("name", "its name"),
    whole("count", "items", "how many"),
    number("cost", "money", "cost", MONEY, ".1f"),
    number("share", "share", "share", ".4f", ".1%"),
    exact("mean", "items", "mean"),
)
ROWS: list[list[TableCell]] = [
    ["A", 3, 1234.5678, 0.25, Fraction(7, 2)],
    ["b, c", None, math.nan, None, None],
    ["-", -4, -0.001, 1, 5],
]
# What a spreadsheet would run, by OWASP; and what it would not.
RUN = (
    "=1+1",
    "+1+1",
    "-1+1",
    "@SUM(A1)",
    "\t=1",
    "\r=1",
    "\n=1",
    "＝1+1",
    "＋A1",
    "－A1",
    "＠A1",
    "-cmd|' /C calc'!A0",
    "+A1",
)
PLAIN = ("-5", "+49", "-0.5", "-", "A=1", "1-2", "", "a@b", "'x")


def test_files_and_texts() -> None:
    """A file has the decimals of money, a text the shown spelling, to the left or right, and a mark for no figure."""
    assert DataTable(COLUMNS, ROWS, decimals=3).csv == (
        'name,count,cost,share,mean\nA,3,1234.568,0.2500,7/2\n"b, c",-,-,-,-\n-,-4,-0.001,1.0000,5\n'
    )
    assert DataTable(COLUMNS, ROWS, missing="").csv.splitlines()[2:] == [
        '"b, c",,,,',
        "-,-4,0.00,1.0000,5",
    ]
    assert DataTable(COLUMNS, ROWS).text == (
        "name  count    cost   share  mean\n"
        "A         3  1234.6   25.0%   7/2\n"
        "b, c      -       -       -     -\n"
        "-        -4     0.0  100.0%     5\n"
    )


def test_data_is_not_rounded() -> None:
    """JSON and frames have the numbers as they are, None for no figure. Named columns without figures are left out."""
    table = DataTable(COLUMNS, ROWS, index="name")
    assert table.records[0] == {
        "name": "A",
        "count": 3,
        "cost": 1234.5678,
        "share": 0.25,
        "mean": "7/2",
    }
    assert json.loads(json.dumps(table.records))[1] == dict.fromkeys(table.names) | {
        "name": "b, c"
    }
    frame = table.frame
    assert list(frame.dtypes.astype(str)) == ["Int64", "float64", "float64", "object"]
    assert frame.index.name == "name"
    assert frame.loc["A", "mean"] == Fraction(7, 2)
    assert frame.loc["A", "cost"] == 1234.5678
    assert frame.loc["b, c"].isna().all()
    page = DataTable(COLUMNS, [["<b>&", 1, 2.0, 0.5, 1]]).html
    cells = [html.unescape(it) for it in re.findall(r"<td[^>]*>(.*?)</td>", page)]
    assert cells == ["<b>&", "1", "2.0", "50.0%", "1"]
    assert "<b>" not in page
    assert re.findall(r'title="(.*?)"', page) == [
        it.meaning if it.is_text else f"{it.unit}: {it.meaning}" for it in COLUMNS
    ]
    costs = DataTable(
        [number("cost", "money a period", "its cost")], [], currency="EUR", every="week"
    )
    assert costs.frame.attrs["units"] == {"cost": "EUR a week"}
    assert replace(costs, currency="", every="").units == {"cost": "money a period"}
    table = DataTable(COLUMNS, [["A", None, math.nan, 0.0, None]]).without_empty(
        ("count", "cost", "share")
    )
    assert table.names == ["name", "share", "mean"]
    assert table.rows == [["A", 0.0, None]]


def test_cells_are_made_as_columns_say() -> None:
    """By a path of attributes and keys, of which each part may be None, or by a function. A figure of a column of rounded
    numbers is rounded, and what stands in a column of texts is a text. Rows of a list are kept, others are made once.
    """

    class Box(NamedTuple):
        name: str
        sizes: Mapping[str, Fraction] | None
        day: datetime.date | None = None

    columns = (
        text("name", "its name").by("name"),
        text("day", "of it").by("day"),
        number("mean", "items", "its mean").by("sizes.mean"),
        exact("most", "items", "the most").by("sizes.most"),
        whole("letters", "letters", "of its name").by(lambda box: len(box.name)),
    )
    boxes = [
        Box(
            "AB",
            {"mean": Fraction(7, 2), "most": Fraction(9, 4)},
            datetime.date(2026, 3, 1),
        ),
        Box("C", None),
    ]
    table = DataTable.of(columns, boxes, 2, "", currency="EUR")
    rows = [["AB", "2026-03-01", 3.5, Fraction(9, 4), 2], ["C", None, None, None, 1]]
    assert [*table.rows] == [*table.rows] == rows
    assert type(rows[0][2]) is type(table.rows[0][2])
    assert table.csv == "name,day,mean,most,letters\nAB,2026-03-01,3.5,9/4,2\nC,,,,1\n"
    assert table.currency == "EUR"
    once = DataTable.of(columns, iter(boxes))
    assert [*once.rows] == rows
    assert not [*once.rows]
    with pytest.raises(AssertionError, match="how a cell of cost is made"):
        number("cost", "money", "cost").cell(boxes[0])
    with pytest.raises(AttributeError):
        number("cost", "money", "cost").by("price").cell(boxes[0])


@pytest.mark.parametrize("style", ["de", "fr"])
def test_tables_for_spreadsheets_of_a_language(style: str) -> None:
    """By a style a file has semicolons and decimal commas, and begins with a mark of UTF-8; texts and headings stay."""
    columns = (*COLUMNS, number("50.0%", "items", "a heading with a point", ".1f"))
    table = DataTable(
        columns,
        [
            ["a.b;c", 3, 1234.5678, 0.25, Fraction(7, 2), 1.5],
            ["ü", None, None, None, None, -2.0],
        ],
        2,
        "",
    )
    data = "".join(table.lines_in(style)).encode()
    read = pd.read_csv(io.BytesIO(data), sep=";", decimal=",", encoding="utf-8-sig")
    assert [*read.columns] == table.names
    assert read.name.tolist() == ["a.b;c", "ü"]
    assert read.cost[0] == 1234.57
    assert read["50.0%"].tolist() == [1.5, -2.0]
    assert read["mean"][0] == "7/2"
    assert table.csv.splitlines()[1] == "a.b;c,3,1234.57,0.2500,7/2,1.5"


@pytest.mark.parametrize(
    "cell, is_run", [*((it, True) for it in RUN), *((it, False) for it in PLAIN)]
)
def test_a_spreadsheet_runs_no_cell(cell: str, is_run: bool) -> None:
    """A text that would run stands behind an apostrophe in a file, and as it is everywhere else."""
    table = DataTable(COLUMNS[:1], [[cell]])
    (_, [written]) = csv.reader(io.StringIO(table.csv, newline=""))
    assert written == ("'" + cell if is_run else cell)
    assert table.records == [{"name": cell}]
    assert html.escape(cell) in table.html


@given(
    st.integers(1, 4).flatmap(
        lambda width: st.lists(
            st.lists(TEXTS, min_size=width, max_size=width), min_size=1, max_size=4
        )
    )
)
def test_cells_end_at_the_same_place(rows: list[list[str]]) -> None:
    """Each cell of a column to the right ends where the column ends, and no line ends with a blank."""
    lines = aligned(rows, ()).split("\n")
    ends = [
        sum(max(len(row[it]) for row in rows) + 2 for it in range(place + 1)) - 2
        for place in range(len(rows[0]))
    ]
    assert lines.pop() == ""
    assert len(lines) == len(rows)
    for line, row in zip(lines, rows):
        padded = line.ljust(ends[-1])
        assert line == line.rstrip()
        for end, cell in zip(ends, row):
            assert padded[:end].endswith(cell)


@pytest.mark.parametrize(
    "names, most, words",
    [
        ([], 3, "none"),
        (["a"], 1, "a"),
        (["a", "b", "c"], 3, "a, b, c"),
        (["a", "b", "c"], 1, "a and 2 more"),
    ],
)
def test_names_as_one_text(names: list[str], most: int, words: str) -> None:
    """The first names are listed, the others counted."""
    assert names_of(names, most) == words


def test_the_page_of_tables_is_that_of_the_declared_columns() -> None:
    """docs/TABLES.md has each column with its unit and meaning. `python -m planner.tables_page` writes it."""
    assert PAGE.read_text("utf-8") == page()
    for name, (_, columns) in TABLES.items():
        assert all(
            it.meaning and (it.unit or it.kind == "text") for it in columns
        ), name
        assert len({it.name for it in columns}) == len(columns), name


def test_decisions_are_short_and_begin_with_what_to_order() -> None:
    """A planner reads at most 22 columns, the levels and the saving first; all others stand once, in the details."""
    decisions = [column.name for column in DECISION_COLUMNS]
    assert len(decisions) <= 22
    assert decisions[:4] == ["item", "s_chosen", "S_chosen", "saving"]
    details = {column.name for column in DETAIL_COLUMNS}
    assert details & {*decisions} == {"item"}
