"""Tests that a command finds what its files are by their columns, in any order and in a folder, and asks where that can't be
told."""
from __future__ import annotations

import gzip
import itertools
import os
from pathlib import Path

import openpyxl
import pytest

from crnplan.read.items import Reading
from crnplan.read.looks import look_at
from planner.tests.conftest import Command, write_inputs

RECEIPTS = "item,ordered,received\nA,2026-01-05,2026-01-19\n"
EMPTY_TIMES = "item,from,to\nA,2026-01-05,2026-01-11\n"
LAWS = "item,value,chance\nA,0,0.5\nA,3,0.5\n"
SET = "item,s,S,reason\nA,4,9,by hand\n"
TABLES = {
    "orders": RECEIPTS,
    "out_of_stock": EMPTY_TIMES,
    "laws": LAWS,
    "overrides": SET,
}
OF_TODAY = {
    "stock": "item,stock\nA,4\n",
    "on_order": "item,open quantity,due\nA,4,2026-08-03\n",
}


@pytest.fixture(autouse=True)
def folder(tmp_path: Path, monkeypatch: pytest.MonkeyPatch) -> Path:
    """Returns a folder with tables whose names say nothing, in which the test runs: x0.csv is the demand, x1.csv are masters."""
    write_inputs(tmp_path)
    (tmp_path / "demand.csv").rename(tmp_path / "x0.csv")
    (tmp_path / "items.csv").rename(tmp_path / "x1.csv")
    monkeypatch.chdir(tmp_path)
    return tmp_path


def kinds_said(errors: str) -> dict[str, str]:
    """Returns what each file is said to be."""
    said = (line.removeprefix("# ").partition(": ") for line in errors.splitlines())
    return {name: what for name, _, what in said if what.startswith(("it is", "left"))}


def read_as(kind: str) -> str:
    return f"it is the table {kind} by its columns"


def test_files_in_any_order(folder: Path, crnplan: Command) -> None:
    """Files are what their columns say, in each order, and are read as if that were stated."""
    for place, (kind, text) in enumerate(TABLES.items(), 2):
        (folder / f"x{place}.csv").write_text(text, "utf-8")
    names = [f"x{place}.csv" for place in range(6)]
    kinds = dict(zip(names, ("demand", "items", *TABLES)))
    stated = crnplan("plan", *(f"{kinds[it]}={it}" for it in names), "--check")
    assert stated.status == 0 and kinds_said(stated.errors) == {}
    for order in [*itertools.permutations(names)][::97]:
        told = crnplan("plan", *order, "--check")
        assert told.output == stated.output
        assert kinds_said(told.errors) == {it: read_as(kinds[it]) for it in names}


def test_a_folder(folder: Path, crnplan: Command) -> None:
    """What is no table, what crnplan has written and what a plan does not read is named as left out, and nothing else is."""
    left = {"notes.txt": "Dear all, see below\n", "x0.csv.bak": "", "~$x.xlsx": ""}
    left |= {"out.csv": "item,s_chosen,S_chosen\nA,1,2\n", "plan.toml": "a = 1\n"}
    for name, text in (left | OF_TODAY).items():
        (folder / name).write_text(text, "utf-8")
    for kind in OF_TODAY:
        (folder / kind).rename(folder / f"{kind}.csv")
    (folder / "sub").mkdir()
    told = crnplan("plan", folder, "--check")
    assert told.status == 0
    said = {Path(name).name: what for name, what in kinds_said(told.errors).items()}
    none = "left out, since it is no table"
    other = "left out: it is the table {}, which this command does not read"
    assert said == {
        **dict.fromkeys([*left, "crnplan.toml", "sub"], none),
        "out.csv": "left out, since crnplan has written it",
        **{f"{kind}.csv": other.format(kind) for kind in OF_TODAY},
        "x0.csv": read_as("demand"),
        "x1.csv": read_as("items"),
    }


def test_two_of_a_kind(folder: Path, crnplan: Command) -> None:
    """Two tables of masters, and demand with two headings, are asked about by name, and the answer leaves the other out."""
    (folder / "x2.csv").write_text((folder / "x1.csv").read_text(), "utf-8")
    (folder / "x3.csv").write_text("item,date,sold\nA,2026-01-02,9\n", "utf-8")
    told = crnplan("plan", folder, "--check")
    _, first, second = told.errors.splitlines()
    for line, kind, name, other in (
        (first, "demand", "x3.csv", "x0.csv"),
        (second, "items", "x2.csv", "x1.csv"),
    ):
        name, other = f"{folder}/{name}", f"{folder}/{other}"
        said = f"by its columns it is the table {kind}, and so is {other}"
        assert line == (
            f"crnplan: {name}: {said}; say {kind}={other}, or {kind}={name}"
        )
    answers = f"demand={folder}/x0.csv", f"items={folder}/x2.csv"
    told = crnplan("plan", folder, *answers, "--check")
    said = "left out: its columns are those of {}, which another file was said to be"
    assert told.status == 0
    assert kinds_said(told.errors)[f"{folder}/x3.csv"] == said.format("demand")
    assert kinds_said(told.errors)[f"{folder}/x1.csv"] == said.format("items")


def test_demand_in_several_files(folder: Path, crnplan: Command) -> None:
    """Files of one heading are one table, as by a pattern; one that is named twice is read once."""
    heading, *rows = (folder / "x0.csv").read_text().splitlines()
    (folder / "x0.csv").unlink()
    for name, part in (("y1.csv", rows[:9]), ("y2.csv", rows[9:])):
        (folder / name).write_text("\n".join([heading, *part, ""]), "utf-8")
    pattern = crnplan("plan", "demand=y*.csv", "x1.csv", "--check")
    files = crnplan("plan", "y2.csv", "x1.csv", "y1.csv", "y2.csv", "--check")
    assert pattern.status == files.status == 0
    assert f"{len(rows)} used" in files.output.replace(" =", "")
    assert files.output.replace("y2.csv, y1.csv", "y*.csv") == pattern.output
    assert crnplan("plan", "y*.csv", "x1.csv", "--check").status == 0


def test_what_can_not_be_told(folder: Path, crnplan: Command) -> None:
    """A table of no kind, what can be read once, a missing table and a folder of crnplan are asked about."""
    (folder / "odd.csv").write_text("a,b\n1,2\n", "utf-8")
    files = "x0.csv", "x1.csv"
    told = crnplan("plan", *files, "odd.csv", "--check")
    assert told.refuses("crnplan: odd.csv: its columns are those of no table, or of ")
    assert (
        "a, b; say what it is, as demand=odd.csv or items=odd.csv, or none=odd.csv"
        in (told.errors)
    )
    told = crnplan("plan", *files, "none=odd.csv", "--check")
    assert kinds_said(told.errors)["odd.csv"] == "left out, as was said"
    os.mkfifo("pipe")
    for name in ("-", "pipe"):
        told = crnplan("plan", "x1.csv", name, "--check")
        assert told.refuses(f"{name}: it can be read only once; say what it is, as ")
    data = (folder / "x0.csv").read_bytes()
    assert crnplan("plan", "x1.csv", "demand=-", "--check", data=data).status == 0
    told = crnplan("plan", "x0.csv", "--check")
    assert told.refuses("no file is the table items by its columns; name one, or say ")
    (folder / "crnplan-folder.txt").touch()
    told = crnplan("plan", folder, "--check")
    assert told.refuses("this is a folder of crnplan, and none of tables")


def test_stated_columns_say_it_too(folder: Path, crnplan: Command) -> None:
    """Columns that only --set names, and periods in a heading, count; the wrong period is what is said of the latter."""
    (folder / "x0.csv").write_text("sku,when,pieces\nA,2026-01-02,9\n", "utf-8")
    files = "x1.csv", "x0.csv", "--check", "--anyway"
    assert crnplan("plan", *files).refuses("x0.csv: its columns are those of no table")
    sets = "--set", "demand.date=when", "--set", "demand.quantity=pieces"
    assert crnplan("plan", *files, *sets).status == 0
    (folder / "x0.csv").write_text("item,2026-01,2026-02\nA,1,2\n", "utf-8")
    told = crnplan("plan", *files)
    assert told.refuses("'2026-01' is a month, and the periods are weeks; say --every")


def test_sheets(folder: Path, crnplan: Command) -> None:
    """The sheets of a workbook are tables; those of no kind are left out. What crnplan has written is left out whole."""
    book = openpyxl.Workbook()
    book.remove(book.active)
    for title, name in (("Moves", "x0.csv"), ("Articles", "x1.csv")):
        sheet = book.create_sheet(title)
        for line in (folder / name).read_text().splitlines():
            sheet.append(line.split(","))
    book.create_sheet("Hints").append(["see", "the", "manual"])
    book.save(folder / "all.xlsx")
    told = crnplan("plan", "all.xlsx", "--check")
    assert kinds_said(told.errors) == {
        "all.xlsx!Moves": read_as("demand"),
        "all.xlsx!Articles": read_as("items"),
        "all.xlsx!Hints": "left out, since it is no table",
    }
    book.properties.creator = "crnplan"
    book.save(folder / "own.xlsx")
    told = crnplan("plan", "x0.csv", "x1.csv", "own.xlsx", "--check")
    assert (
        kinds_said(told.errors)["own.xlsx"] == "left out, since crnplan has written it"
    )


def test_a_packed_file_is_what_its_columns_say(folder: Path, crnplan: Command) -> None:
    packed = gzip.compress((folder / "x0.csv").read_bytes())
    (folder / "x0.csv").unlink()
    (folder / "x0.csv.gz").write_bytes(packed)
    told = crnplan("plan", ".", "--check")
    assert told.status == 0, told
    assert kinds_said(told.errors)["x0.csv.gz"] == read_as("demand")


def test_rows_that_a_planner_sees(tmp_path: Path) -> None:
    """They are the first five with something in them, below the heading and what stands above it."""
    rows = [f"A,2026-01-0{day},{day}" for day in range(1, 8)]
    lines = ["Export of stock,,", "item,date,quantity", rows[0], ",,", *rows[1:]]
    (tmp_path / "above.csv").write_text("\n".join(lines), "utf-8")
    look = look_at("demand", str(tmp_path / "above.csv"), Reading())
    assert look.heading == ["item", "date", "quantity"]
    assert look.rows == [row.split(",") for row in rows[:5]]
