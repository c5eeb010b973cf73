"""Writes workbooks for the tests of reading, and changes their parts."""
from __future__ import annotations

import zipfile
from collections.abc import Callable, Sequence
from pathlib import Path
from typing import Any

import xlsxwriter


def written(path: Path, *sheets: Sequence[Sequence[Any]]) -> Path:
    """Writes a workbook of sheets, and returns its path. A cell with a format is a pair of a number and its format."""
    with xlsxwriter.Workbook(path) as book:
        formats = dict[str, Any]()
        for rows in sheets:
            sheet = book.add_worksheet()
            for line, row in enumerate(rows):
                for place, cell in enumerate(row):
                    value, code = cell if isinstance(cell, tuple) else (cell, "General")
                    if code not in formats:
                        formats[code] = book.add_format({"num_format": code})
                    sheet.write(line, place, value, formats[code])
    return path


def changed(
    path: Path, change: Callable[[str], str], part: str = "xl/worksheets/sheet1.xml"
) -> None:
    """Writes a part of a workbook anew."""
    with zipfile.ZipFile(path) as archive:
        parts = {info.filename: archive.read(info) for info in archive.infolist()}
    parts[part] = change(parts[part].decode()).encode()
    with zipfile.ZipFile(path, "w", zipfile.ZIP_DEFLATED) as archive:
        for name, data in parts.items():
            archive.writestr(name, data)


def with_rows(path: Path, rows: str) -> None:
    """Writes the rows of the first sheet anew, as XML."""

    def change(text: str) -> str:
        before, _, rest = text.partition("<sheetData>")
        return (
            f"{before}<sheetData>{rows}</sheetData>{rest.partition('</sheetData>')[2]}"
        )

    changed(path, change)
