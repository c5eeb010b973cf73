"""Tests of small workbooks that unpack to much: each is refused in words, or read as what it has, in little memory."""
from __future__ import annotations

import tracemalloc
import zipfile
from collections.abc import Iterable, Mapping
from pathlib import Path

import pytest

from crnplan.errors import Refused
from crnplan.read import workbooks
from crnplan.read.looks import looks_as
from crnplan.read.items import Reading
from planner.tests.read.test_workbooks import cells_of

MAIN = "http://schemas.openxmlformats.org/spreadsheetml/2006/main"
RELATED = "http://schemas.openxmlformats.org/officeDocument/2006/relationships"
PACKED = "http://schemas.openxmlformats.org/package/2006/relationships"
STYLES = f'<styleSheet xmlns="{MAIN}"><cellXfs><xf/><xf numFmtId="14"/></cellXfs></styleSheet>'
PARTS = {
    "_rels/.rels": f"""<Relationships xmlns="{PACKED}"><Relationship Id="a" Type="{RELATED}/officeDocument"
        Target="xl/workbook.xml"/></Relationships>""",
    "xl/_rels/workbook.xml.rels": f"""<Relationships xmlns="{PACKED}"><Relationship Id="a" Type="{RELATED}/worksheet"
        Target="sheet.xml"/><Relationship Id="b" Type="{RELATED}/styles" Target="/xl/styles.xml"/><Relationship Id="c"
        Type="{RELATED}/sharedStrings" Target="texts.xml"/></Relationships>""",
    "xl/workbook.xml": f"""<workbook xmlns="{MAIN}" xmlns:r="{RELATED}"><sheets><sheet name="S" r:id="a"/></sheets>
        </workbook>""",
}
WORDS = "item", "date", "quantity"


def row_of(*texts: object) -> str:
    """Returns a row of texts."""
    cells = [f'<c t="str"><v>{text}</v></c>' for text in texts]
    return f"<row>{''.join(cells)}</row>"


HEAD = row_of(*WORDS)
ROWS = [("A", f"2026-11-{day:02}", day % 3) for day in range(1, 29)]
TABLE = [HEAD, *(row_of(*row) for row in ROWS)]


@pytest.fixture
def path(tmp_path: Path) -> Path:
    return tmp_path / "book.xlsx"


def made(
    path: Path, rows: Iterable[str], behind: str = "", **more: Iterable[str]
) -> None:
    """Writes a workbook with these rows of a sheet, or other parts, piece by piece."""
    sheet = [
        f'<worksheet xmlns="{MAIN}"><sheetData>',
        *rows,
        f"</sheetData>{behind}</worksheet>",
    ]
    texts = [f'<sst xmlns="{MAIN}">', *more.get("texts", []), "</sst>"]
    parts: Mapping[str, Iterable[str]] = {
        **{name: [text] for name, text in PARTS.items()},
        "xl/styles.xml": more.get("styles", [STYLES]),
        "xl/texts.xml": texts,
        "xl/sheet.xml": sheet,
    }
    with zipfile.ZipFile(path, "w", zipfile.ZIP_DEFLATED, compresslevel=1) as archive:
        for name, pieces in parts.items():
            with archive.open(name, "w", force_zip64=True) as part:
                for piece in pieces:
                    part.write(piece.encode())


def looks(path: Path) -> dict[str, list[list[str]]]:
    """Returns the first rows of a file by the kind of table, and without rows what is wrong."""
    return {
        look.kind: [[*row] for row in look.rows] or [[str(it) for it in look.faults]]
        for look in looks_as(["demand", "items"], str(path), Reading())
    }


BLANK = "<row/>" * 20_000
FAR = '<row r="1048576"><c r="XFD1048576" s="1"/></row>'
WIDE = f"<row>{16_384 * '<c/>'}</row>" * 2
ENDS = {"rows": BLANK, "a far cell": FAR, "both": BLANK + FAR, "cells": WIDE}


@pytest.mark.parametrize("name", ENDS)
def test_empty_rows_and_columns_at_the_end_are_none(path: Path, name: str) -> None:
    """Rows are those up to the last filled cell, and a row ends with its own."""
    made(path, [*TABLE, ENDS[name]])
    assert cells_of(path) == [[*WORDS], *([*map(str, row)] for row in ROWS)]
    assert looks(path)["demand"] == [[*map(str, row)] for row in ROWS[:5]]


def test_empty_rows_between_others_are_rows(path: Path) -> None:
    made(path, [HEAD, "<row/><row/>", row_of("A"), '<row r="9"/>'])
    assert cells_of(path) == [[*WORDS], [], [], ["A"]]


def test_last_cell_far_away(path: Path) -> None:
    """A text in the last cell that Excel has is read in its place."""
    far = FAR.replace(' s="1"/>', ' t="str"><v>x</v></c>')
    made(path, [*TABLE, far])
    cells = cells_of(path)
    assert len(cells) == 1_048_576 and cells[-1] == [*[""] * 16_383, "x"]


def test_a_look_reads_the_beginning(path: Path) -> None:
    """Rows behind the first megabytes of a sheet are not looked at, whatever they are; who reads it sees them."""
    filler = f"<row>{'<c/>' * 16_384}</row>"
    made(path, [*TABLE, *[filler] * 20, "<row><c><v>?</row>"])
    assert looks(path)["demand"] == [[*map(str, row)] for row in ROWS[:5]]
    with pytest.raises(Refused, match="no workbook that can be read .mismatched tag"):
        cells_of(path)


def test_most_empty_cells(path: Path, monkeypatch: pytest.MonkeyPatch) -> None:
    made(path, [*TABLE, *["<row><c/><c/><c/></row>"] * 10])
    monkeypatch.setattr(workbooks, "MOST_BLANKS", 30)
    assert len(cells_of(path)) == len(TABLE)
    monkeypatch.setattr(workbooks, "MOST_BLANKS", 29)
    said = "book.xlsx:39: up to this row there are more than 29 empty cells with a format; delete"
    with pytest.raises(Refused, match=said):
        cells_of(path)


LONG = "x" * 1_000_000
LARGE = {
    "a cell": [f'<row><c t="str"><v>{LONG}</v></c></row>'],
    "other elements of a row": [f"<row>{'<x/>' * 250_000}</row>"],
    "what stands between rows": [f"<x>{LONG}</x>{HEAD}"],
}


@pytest.mark.parametrize("name", LARGE)
def test_a_large_row(path: Path, monkeypatch: pytest.MonkeyPatch, name: str) -> None:
    """It is refused before it is whole in memory."""
    made(path, [*LARGE[name], "<row>"])
    monkeypatch.setattr(workbooks, "MOST_ROW_BYTES", 500_000)
    with pytest.raises(Refused, match="a row or a text in it has more than 500,000 "):
        cells_of(path)


def test_what_stands_behind_the_cells_is_nothing(path: Path) -> None:
    """It is no part of the tree, so that it may be large."""
    made(path, TABLE, "<x/>" * 500_000)
    tracemalloc.start()
    try:
        assert len(cells_of(path)) == len(TABLE)
        assert tracemalloc.get_traced_memory()[1] < 5_000_000
    finally:
        tracemalloc.stop()


def shared(place: int) -> str:
    return f'<row><c t="s"><v>{place}</v></c></row>'


def test_shared_texts_are_read_as_far_as_cells_have_them(
    path: Path, monkeypatch: pytest.MonkeyPatch
) -> None:
    """A text with parts is whole, and how it is pronounced is none of it; what is damaged behind the last text is not read."""
    first = "<si><r><t>de</t></r><r><t>mand</t></r><rPh><t>x</t></rPh></si><si><t>3</t></si><si/>"
    rest = "<si><t>5</t></si>" * 10_000
    made(path, map(shared, (0, 1)), texts=[first, rest, "<si></x>"])
    assert cells_of(path) == [["demand"], ["3"]]
    made(path, map(shared, (0, 1, 2, 3, 10_002)), texts=[first, rest])
    assert cells_of(path) == [["demand"], ["3"], [""], ["5"], ["5"]]
    for place, why in ((-1, "there is no shared text -1"), (10_003, "")):
        made(path, [shared(0), shared(place)], texts=[first, rest])
        with pytest.raises(Refused, match=f"no workbook that can be read.*{why}"):
            cells_of(path)
    monkeypatch.setattr(workbooks, "MOST_TEXTS", 9_999)
    with pytest.raises(Refused, match="its cells have more than 9,999 texts; export"):
        cells_of(path)


def test_a_large_shared_text(path: Path) -> None:
    """Nor is one that cells share, by the limit as it is."""
    made(path, [shared(0)], texts=[f"<si><t>{LONG * 9}</t></si>"])
    with pytest.raises(Refused, match="a row or a text in it has more than 8,000,000"):
        cells_of(path)


def test_large_parts(path: Path) -> None:
    """Parts that are read at once may unpack to few megabytes, and shared texts to some more."""
    made(path, TABLE, styles=[LONG] * 21)
    with pytest.raises(Refused, match="its part xl/styles.xml unpacks to 21,000,000 "):
        cells_of(path)
    made(path, TABLE, texts=[LONG] * 260)
    with pytest.raises(Refused, match="xl/texts.xml unpacks to 260,0.*; export the"):
        cells_of(path)


def test_entities_are_not_unpacked(path: Path) -> None:
    """A text that stands for others, and these again for others, is refused by the reader of XML."""
    names = "abcdefghijklmnop"
    laughs = [f'<!ENTITY a "{100 * "x"}">']
    for before, name in zip(names, names[1:]):
        laughs.append(f'<!ENTITY {name} "{10 * f"&{before};"}">')
    head = f"<!DOCTYPE styleSheet [{''.join(laughs)}]>"
    made(path, TABLE, styles=[head + STYLES.replace("<xf/>", "<xf>&p;</xf>")])
    with pytest.raises(Refused, match="no workbook that can be read"):
        cells_of(path)
