"""Tests what is read of catalogues of one item or a few: what is refused, where records and items begin, and what is new."""
from __future__ import annotations

import datetime
import json
import tomllib
from pathlib import Path
from typing import Any

import numpy as np
import pytest

from crnplan.errors import Refused, RefusedFaults
from crnplan.read.dates import period_of
from crnplan.read.observed import Record, record_of
from crnplan.read.rows import far_above
from crnplan.catalogues import Catalogue
from crnplan.sentences import sentence
from planner.tests.read.catalogues import MASTER, MASTERS, TODAY, items_of, read_text

CASES = tomllib.loads(Path(__file__).with_name("reading.toml").read_text("utf-8"))
PASTS = CASES["pasts"]
ROWS = "".join(f"A,2026-{month:02}-15,3\n" for month in range(1, 11))
START, LAST = datetime.date(2024, 11, 25), datetime.date(2026, 11, 20)
MONDAY, RECORD = datetime.date(2025, 1, 6), 60


def read(
    folder: Path, demand: str | bytes = ROWS, masters: str = MASTERS, **words: Any
) -> Catalogue:
    return read_text(folder, demand, masters, **{"least": 1, **words})


def master(**changes: str) -> str:
    """Returns the master of item A, with other cells."""
    cells = {**MASTER, **changes}
    return f"item,{','.join(cells)}\nA,{','.join(cells.values())}\n"


@pytest.mark.parametrize("amounts, far", CASES["far"])
def test_far_above(amounts: list[int], far: int) -> None:
    assert far_above(np.array(amounts)) == far


@pytest.mark.parametrize("heading, rows, masters, said", CASES["refused"])
def test_refused_files(
    tmp_path: Path, heading: str, rows: str, masters: str, said: str
) -> None:
    rows = ROWS if rows == "usual" else rows
    data = f"{heading}\n{rows}".encode() if heading else b""
    with pytest.raises(Refused) as fault:
        read(tmp_path, data, MASTERS if masters == "usual" else masters)
    assert said in str(fault.value)


def test_faults_of_all_files_at_once(tmp_path: Path) -> None:
    """Says what is wrong with both files in one pass."""
    with pytest.raises(RefusedFaults) as fault:
        read(tmp_path, b"item,when,how much\nA,2026-01-01,1\n", "item,setup\nA,3\n")
    files = [Path(fault.file).stem for fault in fault.value.faults]
    assert files == ["demand", "demand", "items"]


def test_a_wrong_byte_far_down(tmp_path: Path) -> None:
    """Says where a byte is not UTF-8, with what it may be."""
    rows = "".join(f"A,2026-03-{1 + row % 28:02},{row % 7}\n" for row in range(80_000))
    data = f"item,date,quantity\n{rows}B\xfcrste,2026-03-02,1\n".encode("latin-1")
    said = r"demand.csv:80002:2: the byte 0xfc is not UTF-8; say encoding=cp1252 if 'Bürste' is"
    with pytest.raises(RefusedFaults, match=said):
        read(tmp_path, data)


@pytest.mark.parametrize("words, said", CASES["words"])
def test_unused_words_are_refused(
    words: dict[str, Any], said: str, tmp_path: Path
) -> None:
    with pytest.raises(Refused, match=said):
        read(tmp_path, **words)


def test_a_stated_record(tmp_path: Path) -> None:
    """Cuts the record where it is stated, and counts what is left out."""
    units = {"items": dict.fromkeys(("lead", "holding", "backlog"), "month")}
    words = {"start": "2026-02-01", "end": "2026-09-30", "every": "month"}
    catalogue = read(tmp_path, units=units, **words)
    item = items_of(catalogue)["A"]
    assert item.counts == (3,) * 8 and item.rows == 8
    reasons = [*catalogue.rejects.reason]
    assert reasons == ["2026-01-15 is before start", "2026-10-15 is after end"]
    counts = catalogue.counts
    assert json.loads(json.dumps(counts)) == counts and catalogue.missing == []


def test_how_dates_are_read(tmp_path: Path) -> None:
    """It is said by which forms dates are read, and which of them may be two days."""
    found = read(tmp_path, date_formats=("%Y-%m-%d",)).found
    assert "# dates by date_formats: 10\n" in found and found.count("# dates by") == 1
    doubtful = read(tmp_path, f"{ROWS}A,03/04/2026,2\nA,03/04/2026,5\n").found
    assert "day or the month first: 2; say" in doubtful


def test_several_cells_of_a_master(tmp_path: Path) -> None:
    """Names each cell for which an item is left out, cut after 30 letters."""
    masters = master(setup="ask the purchasing department", holding=40 * "x")
    (reject,) = read(tmp_path, masters=masters).rejects.itertuples()
    assert reject.column == "setup, holding"
    assert reject.text == f"ask the purchasing department, {30 * 'x'}..."
    assert reject.reason.count("is not a number") == 2


@pytest.mark.parametrize("changes, least", [({"s": "0", "S": "0"}, 1), ({}, 40)])
def test_masters_at_the_borders(
    tmp_path: Path, changes: dict[str, str], least: int
) -> None:
    """Takes levels of 0, and a record of just 40 weeks, 15 January to 15 October."""
    catalogue = read(tmp_path, masters=master(**changes), least=least)
    assert catalogue.counts["items"]["ready"] == 1 and catalogue.rejects.empty


def test_items_without_levels(tmp_path: Path) -> None:
    """Empty s and S, or no column of either, are no policy."""
    bare = "item,setup,holding,backlog,lead (weeks)\nA,10,0.5,5,2\n"
    for masters in (master(s="", S=""), bare):
        assert items_of(read(tmp_path, masters=masters))["A"].levels is None


@pytest.mark.parametrize("every, half", [("day", 183), ("week", 26), ("month", 6)])
def test_items_that_begin_late(every: str, half: int) -> None:
    """An item begins with the record if it is first seen in its first half year, else as it is seen."""
    record, first = Record(every, START, LAST, "", ""), period_of(START, every)
    begins = [record.first_of(first + late) - first for late in (0, half, half + 1)]
    assert begins == [0, 0, half + 1]


@pytest.mark.parametrize("away, rows, is_far", CASES["far_days"])
def test_days_far_from_all_others(away: int, rows: int, is_far: bool) -> None:
    far = START + datetime.timedelta(days=away)
    record = record_of({START: 1999 - rows, far: rows}, "week", None, None, TODAY)
    assert {record.first, record.last} == ({START} if is_far else {START, far})


@pytest.mark.parametrize(
    "setup, holding, decimals", [("10", "1", 0), ("10", "0.5", 1), ("10.25", "0.5", 2)]
)
def test_decimals_of_money(
    tmp_path: Path, setup: str, holding: str, decimals: int
) -> None:
    """Money has as many decimals as the finest amount of the masters."""
    catalogue = read(tmp_path, masters=master(setup=setup, holding=holding))
    assert catalogue.fact("decimals") == decimals


def test_demand_that_all_comes_back(tmp_path: Path) -> None:
    """Leaves an item out of which all came back: 3 in each of 10 months."""
    rows = ROWS.replace(",3", ",3,3")
    rejects = read(tmp_path, f"item,date,quantity,returned\n{rows}".encode()).rejects
    assert [*rejects.item] == ["A"]
    assert "comes back (30) as is asked" in rejects.reason[0]


@pytest.fixture
def pasts(tmp_path: Path) -> Catalogue:
    """Returns a catalogue of items with all pasts."""
    rows, masters = [], [
        "item,setup,holding,backlog,lead (weeks),stock,price,price unit,created on"
    ]
    for name, past in PASTS.items():
        for week in range(*past.get("weeks", [0])):
            day = MONDAY + datetime.timedelta(7 * week)
            rows.append(f"{name},{day},{past['amount']}\n")
        since = ""
        if "since" in past:
            day = MONDAY + datetime.timedelta(7 * past["since"])
            since = f"{day:%d.%m.%Y}"
        masters.append(f"{name},10,0.5,5,2,{past['stock']},250,100,{since}")
    end = MONDAY + datetime.timedelta(7 * RECORD - 1)
    words: dict[str, Any] = {"least": 13, "start": MONDAY, "end": end}
    return read(tmp_path, "".join(rows), "\n".join(masters), **words)


def test_what_the_record_says_of_the_past(pasts: Catalogue) -> None:
    """An item is new by too few weeks, and has no demand by none that asks for it. Where its history begins is said by its
    master, or else by its first row."""
    items = items_of(pasts)
    assert {*items} == {name for name, past in PASTS.items() if "past" in past}
    for name, item in items.items():
        past, periods = PASTS[name], PASTS[name]["periods"]
        assert (item.past, len(item.counts)) == (past["past"], periods), name
        first, stop = past.get("weeks", [0, 0])
        asked = int(past.get("amount", 0)) * (stop - max(first, 0))
        assert sum(item.counts) == asked, name
        codes = {remark.code for remark in item.remarks}
        assert ("since" in codes) == ("since" in past and periods != RECORD), name
        assert ("late" in codes) == (name == "few"), name
    (owed,) = items["owed"].remarks
    assert sentence(owed) == "its stock is below 0: 3 are owed to customers"
    assert items["owed"].value == 0
    named, known = pasts.counts["items"], [past.get("past") for past in PASTS.values()]
    assert (named["new"], named["late"]) == (known.count("new"), 1)
    assert named["no_demand"] == known.count("no demand")


def test_items_whose_rows_are_all_rejected(pasts: Catalogue) -> None:
    """Each item that is named is read or left out, then with the value of its stock."""
    left = pasts.rejects[pasts.rejects.kind == "item"].set_index("item")
    wanted = {name: past["value"] for name, past in PASTS.items() if "value" in past}
    assert {*left.reason} == {"all of its rows of demand are rejected"}
    values = left.value.map("{:.2f}".format).replace("nan", "")
    assert values.to_dict() == wanted
