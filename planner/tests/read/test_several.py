"""Tests tables in several files, and gzipped ones."""
from __future__ import annotations

import datetime
import gzip
import io
from pathlib import Path
from typing import Any

import pandas as pd
import pytest

from crnplan.errors import RefusedFaults
from crnplan.read import opening
from crnplan.read.blocks import Sizes
from crnplan.read.catalogue_reading import read_alone
from crnplan.read.items import Reading
from crnplan.read.several import open_tables
from crnplan.catalogues import Catalogue, read_catalogue

TODAY = datetime.date(2027, 1, 1)
HEADING = "item,date,quantity\n"
ROWS = [
    f"{'AB'[week % 2]},{datetime.date(2026, 3, 2) + datetime.timedelta(days=7 * week)},{1 + week % 5}\n"
    for week in range(40)
]
MASTERS = (
    "item,setup,holding,backlog,lead (weeks),s,S\nA,45,1,10,2,3,9\nB,45,1,10,2,3,9\n"
)


@pytest.fixture
def folder(tmp_path: Path) -> Path:
    """Returns a folder with demand in one file, and in two of a pattern, the second of which has a title above."""
    (tmp_path / "items.csv").write_text(MASTERS)
    (tmp_path / "whole.csv").write_text(HEADING + "".join(ROWS))
    (tmp_path / "demand-1.csv").write_text(HEADING + "".join(ROWS[:15]))
    (tmp_path / "demand-2.csv").write_text("January,,\n" + HEADING + "".join(ROWS[15:]))
    return tmp_path


def read(
    folder: Path, demand: str, masters: str = "items.csv", **words: Any
) -> Catalogue:
    return read_catalogue(folder / demand, folder / masters, today=TODAY, **words)


def rows_of(catalogue: Catalogue) -> list[Any]:
    with catalogue.opened() as its:
        return [*its.items()]


def test_several_files_are_one_table(folder: Path) -> None:
    """Files of a pattern give the items of one file with all their rows; in a file with the very name, none is sought."""
    whole, several = read(folder, "whole.csv"), read(folder, "demand-*.csv")
    assert rows_of(whole) == rows_of(several) and len(rows_of(whole)) == 2
    assert several.counts["files"]["demand"] == {
        **whole.counts["files"]["demand"],
        "name": "demand-*.csv",
    }
    (folder / "demand-*.csv").write_text(HEADING + "".join(ROWS[:26]))
    assert read(folder, "demand-*.csv").counts["files"]["demand"]["read"] == 26


def test_what_concerns_no_row_names_the_pattern(folder: Path) -> None:
    """What is said of a table as a whole, at no line, is said of the pattern, and at a line of the file."""
    with open_tables(
        {"demand": folder / "demand-*.csv"}, Reading(today=TODAY)
    ) as sheets:
        assert sheets["demand"].at(0) == ("demand-*.csv", 0, "")
        assert sheets["demand"].at(3) == ("demand-1.csv", 3, "")


@pytest.mark.parametrize("jobs", [1, 2])
def test_rejects_name_the_file(folder: Path, jobs: int) -> None:
    """Names the file and the line of each row that is left out, also of its twin in another file."""
    with (folder / "demand-2.csv").open("a") as file:
        file.write(f"A,2026-03-03,x\n{ROWS[3]}{ROWS[3]}C,2026-03-04,2\n")
    tables = {"demand": folder / "demand-*.csv", "items": folder / "items.csv"}
    sizes = Sizes(200, 400, plain=0) if jobs > 1 else Sizes()
    rejects = Catalogue(
        read_alone(folder / "plan", tables, Reading(today=TODAY), jobs, sizes)
    ).rejects
    assert [*zip(rejects.kind, rejects.file, rejects.line)] == [
        ("row", "demand-2.csv", 28),
        ("suspicious", "demand-2.csv", 29),
        ("item", "demand-2.csv", 31),
    ]
    assert rejects.reason[1] == (
        "2 rows are the same as others above them (lines 29 of demand-2.csv, 30 of "
        "demand-2.csv)"
    )


def test_first_of_a_twin_in_another_file(folder: Path) -> None:
    with (folder / "demand-2.csv").open("a") as file:
        file.write(ROWS[3])
    (reason,) = read(folder, "demand-*.csv").rejects.reason
    assert reason == "the row is the same as that of line 5 of demand-1.csv"


@pytest.mark.parametrize(
    "name, text, said",
    [
        (
            "demand-3.csv",
            "item,date,amount\n" + ROWS[0],
            "demand-3.csv:1: the heading is not that of demand-1.csv",
        ),
        (
            "demand-3.csv",
            (HEADING + ROWS[0]).replace(",", ";"),
            "demand-3.csv:1: the delimiter is not that of demand-1.csv",
        ),
        ("demand-3.csv", "a\n", "demand-3.csv:1: no column looks like the item"),
        ("items-2.csv", MASTERS, "2 files have this name; put the masters into one"),
        ("items.csv.gz", MASTERS, "this is no gzipped file that can be read"),
    ],
)
def test_refused_files(folder: Path, name: str, text: str, said: str) -> None:
    """Refuses files of one table that can't be read as one, and a file that is not gzipped."""
    (folder / name).write_text(text)
    with pytest.raises(RefusedFaults) as fault:
        read(
            folder,
            "demand-*.csv",
            "items*.csv"
            if name == "items-2.csv"
            else "items.csv.gz"
            if name.endswith("gz")
            else "items.csv",
        )
    assert said in str(fault.value)


def test_gzipped_files(folder: Path) -> None:
    """A gzipped file is read as the file in it, by its own name; one that is cut is refused."""
    packed = gzip.compress((folder / "whole.csv").read_bytes())
    (folder / "packed.csv.gz").write_bytes(packed)
    catalogue = read(folder, "packed.csv.gz")
    assert rows_of(catalogue) == rows_of(read(folder, "whole.csv"))
    assert catalogue.counts["files"]["demand"]["name"] == "packed.csv.gz"
    (folder / "packed.csv.gz").write_bytes(packed[:-20])
    with pytest.raises(
        RefusedFaults, match="packed.csv.gz: this is no gzipped file that can be read"
    ):
        read(folder, "packed.csv.gz")


def test_a_gzipped_file_that_unpacks_to_too_much(
    folder: Path, monkeypatch: pytest.MonkeyPatch
) -> None:
    """A bomb ends as soon as it is above the limit, and leaves nothing on the disk. A file of that size is read."""
    data = (folder / "whole.csv").read_bytes()
    (folder / "packed.csv.gz").write_bytes(gzip.compress(data))
    monkeypatch.setattr(opening, "MOST_UNPACKED", len(data))
    assert len(rows_of(read(folder, "packed.csv.gz"))) == 2
    monkeypatch.setattr(opening, "MOST_UNPACKED", 10_000_000)
    monkeypatch.setenv("TMPDIR", str(folder))
    monkeypatch.setattr("tempfile.tempdir", None)
    # 40 members of 16 MB each, of which the file has a thousandth.
    (folder / "bomb.csv.gz").write_bytes(
        gzip.compress(data) + 40 * gzip.compress(bytes(16_000_000))
    )
    for pattern in ("bomb.csv.gz", "bomb*.gz"):
        with pytest.raises(
            RefusedFaults,
            match="bomb.csv.gz: it unpacks to more than 10,000,000 bytes; unpack it, and give",
        ):
            read(folder, pattern)
    assert not [*folder.glob("crnplan-*")]


def test_locks_are_no_tables(folder: Path) -> None:
    """The lock of an open workbook, which a pattern names too, is passed over, and that is said; one that is named itself is
    refused."""
    for name, rows in (("a", ROWS[:15]), ("b", ROWS[15:])):
        frame = pd.read_csv(io.StringIO(HEADING + "".join(rows)))
        frame.to_excel(folder / f"{name}.xlsx", index=False)
    (folder / "~$b.xlsx").write_bytes(b"\x06planner" + bytes(157))
    catalogue = read(folder, "*.xlsx")
    assert rows_of(catalogue) == rows_of(read(folder, "whole.csv"))
    said = "passed over, since they are locks of open workbooks and no tables: ~$b.xlsx"
    assert [line for line in catalogue.said if said in line] == [
        f"{folder / '*.xlsx'}: {said}"
    ]
    for name in ("~$b.xlsx", "~$*.xlsx"):
        with pytest.raises(
            RefusedFaults, match="this is no table, but the lock of|No such file"
        ):
            read(folder, name)
    with pytest.raises(
        RefusedFaults,
        match="the lock of b.xlsx, which a spreadsheet program has open; give b.xlsx",
    ):
        read(folder, "~$b.xlsx")
