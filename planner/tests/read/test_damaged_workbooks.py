"""Tests of hostile workbooks: what is damaged, locked, too large or no workbook is refused, and is no fault of crnplan."""
from __future__ import annotations

import zipfile
from pathlib import Path

import pytest

from crnplan.errors import Refused
from crnplan.read import workbooks
from planner.tests.read.books import changed, with_rows, written
from planner.tests.read.catalogues import cases_of
from planner.tests.read.test_workbooks import cells_of

CASES = cases_of("workbooks")


@pytest.fixture
def path(tmp_path: Path) -> Path:
    """Returns a workbook with a sheet of one column."""
    return written(tmp_path / "book.xlsx", [["demand"], [3], [2], [(0.2, "0%")]])


@pytest.mark.parametrize("old, new, said", CASES["damaged"])
def test_a_damaged_sheet(old: str, new: str, said: str, tmp_path: Path) -> None:
    """A sheet whose rows or cells stand twice, or beyond what there can be, is refused: it may have lost some."""
    rows = [[amount, "x"] for amount in (3, 2, 1, 4, 5, 6)]
    path = written(tmp_path / "book.xlsx", [["demand", "note"], *rows])
    assert cells_of(path)[1:] == [[str(amount), "x"] for amount in (3, 2, 1, 4, 5, 6)]
    changed(path, lambda text: text.replace(old, new, 1))
    with pytest.raises(Refused, match=said):
        cells_of(path)


def test_most_cells_of_a_row(path: Path) -> None:
    """A row with more cells than Excel can have ends the reading before it is whole in memory."""
    with_rows(path, f"<row>{16_383 * '<c/>'}<c><v>1</v></c></row>")
    assert [*map(len, cells_of(path))] == [16_384]
    with_rows(path, f"<row>{16_385 * '<c/>'}</row>")
    said = "book.xlsx:1: the row has more than 16,384 cells"
    with pytest.raises(Refused, match=said):
        cells_of(path)


@pytest.mark.parametrize("name, begin, said", CASES["other_files"])
def test_other_files(name: str, begin: str, said: str, tmp_path: Path) -> None:
    """A workbook or a packed file that is called otherwise is named as what it is, and so is a file that is none."""
    data = begin.encode("latin-1") + bytes(600 * bool(begin))
    (tmp_path / name).write_bytes(data)
    with pytest.raises(Refused, match=f"{name}: .*{said}"):
        cells_of(tmp_path / name)


def test_every_cut_of_a_workbook_is_refused(path: Path) -> None:
    """A workbook that ends too early, or has a wrong byte, is refused or read as it was, and is no fault of crnplan."""
    whole, refusals = path.read_bytes(), 0
    cuts = [whole[:size] for size in range(0, len(whole), 97)]
    others = []
    for place in range(0, len(whole), 41):
        data = bytearray(whole)
        data[place] ^= 0xFF
        others.append(bytes(data))
    for data in [*cuts, *others]:
        path.write_bytes(data)
        try:
            cells = cells_of(path)
        except Refused:
            refusals += 1
        else:
            assert cells == [["demand"], ["3"], ["2"], ["20%"]]
    assert refusals > len(cuts)


def test_a_workbook_that_unpacks_to_too_much(
    tmp_path: Path, monkeypatch: pytest.MonkeyPatch
) -> None:
    """A workbook is refused by what it unpacks to, before that is done."""
    path = written(tmp_path / "book.xlsx", [[number] for number in range(1000)])
    size = sum(info.file_size for info in zipfile.ZipFile(path).infolist())
    said = "unpacks? to .* bytes, more than 500; export the table as CSV"
    for limit, most in (("MOST_BYTES", size), ("MOST_PART_BYTES", 10_000)):
        with monkeypatch.context() as patch:
            patch.setattr(workbooks, limit, most)
            assert len(cells_of(path)) == 1000
            patch.setattr(workbooks, limit, 500)
            with pytest.raises(Refused, match=said):
                cells_of(path)
