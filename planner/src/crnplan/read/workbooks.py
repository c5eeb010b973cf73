"""Reads sheets of workbooks as rows of cells, each as its reader sees it.

Hidden rows and columns are read like others, since a filter changes no data. Of merged cells the first one has the text,
and the others are empty. What is damaged, or was never computed, is refused. A sheet is never whole in memory.
"""
from __future__ import annotations

import contextlib
import functools
import itertools
import posixpath
import threading
import weakref
import zipfile
from collections.abc import Iterable, Iterator, Mapping, Sequence, Set
from dataclasses import dataclass
from pathlib import Path
from typing import IO
from xml.etree.ElementTree import Element, XMLPullParser, fromstring

from ..errors import Fault, RefusedFaults
from ..remarks import Remark, Value
from .cells import Cell, some_of
from .number_formats import Format, formats_of, number_of
from .sources import (
    HEAD_BYTES,
    RoleOf,
    Row,
    Rules,
    Sheet,
    TextRow,
    readable,
    refused,
    state_of,
)

BOOKS = (".xlsx", ".xlsm")
MOST_LISTED = 30  # names of sheets in a message, and cells with faults
# What Excel writes at most. Source: Microsoft, Excel specifications and limits.
MOST_ROWS, MOST_COLUMNS = 1_048_576, 16_384
# What a workbook may unpack to: all of it, its shared texts, each other part that is read at once, and each row or text
# with what stands before it. A sheet with all rows that Excel can have has some 60 bytes a cell.
MOST_BYTES, MOST_TEXT_BYTES, MOST_PART_BYTES, MOST_ROW_BYTES = (
    2_000_000_000,
    250_000_000,
    20_000_000,
    8_000_000,
)
MOST_TEXTS, MOST_BLANKS = 5_000_000, 50_000_000  # shared texts, and empty cells
PIECE = 1 << 16  # bytes that are unpacked at a time
MOST_KNOWN = 100_000  # cells that are read once
NAME = "{http://schemas.openxmlformats.org/spreadsheetml/2006/main}"
CELL, ROW, DATA, VALUE, FORMULA, INLINE, SHARED, TEXT, RUN = (
    f"{NAME}{tag}" for tag in ("c", "row", "sheetData", "v", "f", "is", "si", "t", "r")
)
TRUE = "1", "true"
DIGITS = "0123456789"
# The first bytes of a file of Microsoft's old kind, and the name in one that is locked by a password.
OLD, LOCKED, LOCKED_BYTES = (
    b"\xd0\xcf\x11\xe0\xa1\xb1\x1a\xe1",
    "EncryptedPackage".encode("utf-16-le"),
    64_000_000,
)


@contextlib.contextmanager
def parsing(name: str) -> Iterator[None]:
    """Turns errors of the file system, and what a library raises over a damaged workbook, into Refused."""
    with readable(name):
        try:
            yield
        except (RefusedFaults, MemoryError):
            raise
        except Exception as fault:
            if isinstance(fault, OSError) and fault.errno:
                raise
            said = str(fault) or type(fault).__name__
            raise refused("no workbook", name, fault=said) from fault


def drain(file: IO[bytes]) -> None:
    """Reads a part to its end, by which damage is seen."""
    while file.read(PIECE):
        pass


def elements(file: IO[bytes], name: str, most: int = MOST_BYTES) -> Iterator[Element]:
    """Yields the elements of a part at their ends, which are cleared after a row or a text, up to `most` bytes or the end of
    the cells. What stands behind these is read all the same, by which damage is seen. Raises RefusedFaults for a row or a text
    that is too large."""
    parser, size, start = XMLPullParser(["end"]), 0, 0
    while size < most and (data := file.read(PIECE)):
        parser.feed(data)
        size += len(data)
        for _, element in parser.read_events():
            yield element
            if element.tag in (ROW, SHARED):
                element.clear()
                start = size
            if element.tag == DATA:
                drain(file)
                return
        if size - start > MOST_ROW_BYTES:
            raise refused("large row", name, most=MOST_ROW_BYTES)
    if size < most:
        parser.close()


def text_in(element: Element) -> str:
    """Returns the text of a cell, whose parts may have formats of their own, without what says how it is pronounced."""
    if len(element) == 1 and element[0].tag == TEXT:
        return element[0].text or ""  # as nearly all are
    runs = [element, *element.iterfind(RUN)]
    return "".join(run.findtext(TEXT) or "" for run in runs)


def texts_in(path: Path, part: str) -> Iterator[str]:
    """Yields the texts that the cells of a workbook share."""
    with zipfile.ZipFile(path) as archive, archive.open(part) as file:
        for element in elements(file, str(path)):
            if element.tag == SHARED:
                # Excel writes _x005F_x000D_ for a text _x000D_, which alone would be a carriage return.
                yield text_in(element).replace("x005F_", "")


class Texts:
    """Texts of a workbook that are read as far as they are asked for. Several threads may use them."""

    def __init__(self, name: str, rest: Iterator[str]) -> None:
        self.name, self.known = name, list[str]()
        self.rest = rest
        self.lock = threading.Lock()

    def __getitem__(self, place: int) -> str:
        """Returns the text at a place from 0. Raises IndexError if there is none, and RefusedFaults for one behind more than
        MOST_TEXTS."""
        if place < 0:
            raise IndexError(f"there is no shared text {place}")
        if place >= MOST_TEXTS:
            raise refused("shared texts", self.name, most=MOST_TEXTS)
        if place >= len(self.known):
            with self.lock:
                missing = place + 1 - len(self.known)
                self.known += itertools.islice(self.rest, max(0, missing))
        return self.known[place]


@dataclass(frozen=True)
class Book:
    """What the sheets of a workbook share: its texts, its formats by the number of a style, and whether its formulas are
    yet to be computed. `parts` has the part of the file of each sheet with cells, and `names` are those of all sheets.
    """

    texts: Texts
    formats: Sequence[Format]
    is_uncomputed: bool
    parts: Mapping[str, str]
    names: Sequence[str]


# Those whose sheets are open, by path, size and time of the last change.
_books = weakref.WeakValueDictionary[tuple[Path, int, int], Book]()


class BookSheet(Sheet):
    """A sheet of a workbook."""

    unsent = ("book", "known", "places")

    def __init__(
        self, path: Path, sheet: str | None, rules: Rules, title: str, book: Book
    ) -> None:
        """Takes the name of the sheet as it is stated, and as it is, and the workbook."""
        super().__init__(
            f"{path}!{sheet}" if sheet else str(path), f"sheet {title}", rules, path
        )
        self.book_path = path
        self.part = book.parts[title]
        self.book = book
        value = functools.partial(value_of, book.formats)
        self.known = functools.lru_cache(MOST_KNOWN)(value)
        self.places = functools.cache(place_of)

    def rows(self) -> Iterator[Row]:
        """Yields the numbers of rows, with their cells, without empty ones at the end of a row or the sheet. Raises
        RefusedFaults if the sheet is damaged, and for formulas of used columns that were never computed.
        """
        self.hidden = 0
        self.uncomputed = list[Fault]()
        most = HEAD_BYTES if self.is_sample else MOST_BYTES
        with self.unchanged(), parsing(self.name):
            line = 0
            for number, cells in self._stored_rows(most):
                if cells:
                    yield from ((blank, []) for blank in range(line + 1, number))
                    line = number
                    yield line, cells
        if self.uncomputed:
            raise RefusedFaults(self.uncomputed)

    def head(self, wanted: Set[str], role_of: RoleOf) -> list[TextRow]:
        is_sample, self.is_sample = self.is_sample, True
        try:
            return super().head(wanted, role_of)
        finally:
            self.is_sample = is_sample

    def _stored_rows(self, most: int) -> Iterator[Row]:
        """Yields the rows that so many bytes of the file have, with their cells."""
        with zipfile.ZipFile(self.book_path) as archive, archive.open(
            self.part
        ) as file:
            number = count = blanks = 0
            is_sheet = False
            for element in elements(file, self.name, most):
                count += element.tag == CELL
                if count > MOST_COLUMNS:
                    raise refused(
                        "cells of a row", self.name, number + 1, most=MOST_COLUMNS
                    )
                if blanks > MOST_BLANKS:
                    raise refused("blank cells", self.name, number, most=MOST_BLANKS)
                if element.tag == ROW:
                    number = self._number(element, number)
                    self.hidden += element.get("hidden") in TRUE
                    cells = self._cells(number, element)
                    blanks += count - len(cells) + cells.count(None)
                    yield number, cells
                    count = 0
                is_sheet |= element.tag in (DATA, ROW)
            if not is_sheet and file.tell() < most:
                raise refused("no sheet of cells", self.name)

    def _number(self, row: Element, before: int) -> int:
        """Returns the number of a row behind another one. Raises Refused if it is no such number."""
        number = int(row.get("r", before + 1))
        if not before < number <= MOST_ROWS:
            raise refused(
                "number of a row", self.name, number, before=before, most=MOST_ROWS
            )
        return number

    def _cells(self, line: int, row: Iterable[Element]) -> list[Cell]:
        """Returns the cells of a row up to the last filled one. Raises RefusedFaults for cells that do not stand in order."""
        cells, least = list[Cell](), 0
        for element in row:
            place = self._place(line, element.get("r", ""), least)
            least = place + 1
            cell = self._cell(line, place, element)
            if cell is not None:
                cells += [None] * (place - len(cells))
                cells.append(cell)
        return cells

    def _place(self, line: int, name: str, least: int) -> int:
        """Returns the place from 0 of a cell by its name, as C7; the next one if it has none."""
        if not name:
            return least
        letters = name.rstrip(DIGITS)
        place = self.places(letters)
        if place < least or name[len(letters) :] != str(line):
            raise refused("place of a cell", self.name, line, least + 1, cell=name)
        return place

    def _cell(self, line: int, place: int, element: Element) -> Cell:
        """Returns what the reader of a cell sees."""
        if not len(element):
            return None
        kind = element.get("t", "n")
        text = element.findtext(VALUE) or ""
        if len(element) > 1 or not text:
            self._note_formula(line, place, element, kind, text)
        if kind == "s" and text:
            return self.book.texts[int(text)]
        if kind == "inlineStr":
            inline = element.find(INLINE)
            return None if inline is None else text_in(inline)
        return self.known(kind, element.get("s", "0"), text)

    def _note_formula(
        self, line: int, place: int, element: Element, kind: str, text: str
    ) -> None:
        """Keeps the place of a formula without its value, if the column is used. One whose text is empty has one."""
        formula = element.find(FORMULA)
        # Programs that compute nothing leave no value, or 0 and a mark that Excel is to compute all.
        is_computed = (
            kind == "str" or bool(text) and (text != "0" or not self.book.is_uncomputed)
        )
        if formula is None or is_computed or place not in self.used:
            return
        if len(self.uncomputed) < MOST_LISTED:
            facts: dict[str, Value] = {"formula": f"={formula.text or '..'}"}
            remark = Remark("no value of a formula", facts)
            self.uncomputed.append(Fault(remark, self.name, line, place + 1))


def value_of(formats: Sequence[Format], kind: str, style: str, text: str) -> Cell:
    """Returns what the reader of a cell sees, by the kind of its text and the number of its style."""
    if kind == "n" and text:
        number = number_of(text)
        if isinstance(number, str):
            return number
        return formats[int(style)].cell(number)
    if kind == "b" and text:
        return "FALSE" if text == "0" else "TRUE"
    if kind == "d" and text:
        from openpyxl.utils.datetime import from_ISO8601

        value = from_ISO8601(text)
        day: Cell = value.date() if hasattr(value, "date") else value
        return day if hasattr(day, "year") else text
    return text or None


def place_of(letters: str) -> int:
    """Returns the place from 0 of a column by its name, as C."""
    from openpyxl.utils import column_index_from_string

    return int(column_index_from_string(letters)) - 1


def check_container(path: Path) -> None:
    """Raises RefusedFaults for a file that is no workbook of today's kind, or that unpacks to too much."""
    name = str(path)
    with readable(name), path.open("rb") as file:
        first = file.read(len(OLD))
        if first == OLD:
            is_locked = LOCKED in file.read(LOCKED_BYTES)
            raise refused("locked workbook" if is_locked else "old workbook", name)
    with parsing(name), zipfile.ZipFile(path) as archive:
        parts = archive.infolist()
    size = sum(part.file_size for part in parts)
    if size > MOST_BYTES:
        raise refused("large workbook", name, size=size, most=MOST_BYTES)


def book_of(path: Path) -> Book:
    """Returns a workbook without its cells. Raises RefusedFaults for one that can't be read."""
    key = path, *state_of(path)
    book = _books.get(key)
    if book is None:
        check_container(path)
        with parsing(str(path)):
            book = _books[key] = read_book(path)
    return book


def sheets_of(path: Path) -> list[str]:
    """Returns the names of the sheets with cells of a workbook; none of another file, or of one that can't be read."""
    try:
        return [*book_of(path).parts] if path.suffix in BOOKS else []
    except RefusedFaults:
        return []


def check_part(archive: zipfile.ZipFile, part: str, most: int) -> None:
    """Raises RefusedFaults for a part of a workbook that unpacks to too much."""
    size = archive.getinfo(part).file_size
    if size > most:
        name = str(archive.filename)
        raise refused("large part", name, part=part, size=size, most=most)


def tree_of(archive: zipfile.ZipFile, part: str) -> Element:
    """Returns a part of a workbook that is read at once. Raises RefusedFaults if it is too large."""
    check_part(archive, part, MOST_PART_BYTES)
    return fromstring(archive.read(part))


def related(archive: zipfile.ZipFile, part: str = "") -> dict[str, tuple[str, str]]:
    """Returns the kinds and the names of the parts to which a part refers, or the whole file, by their numbers in it. Those
    that are not there are left out."""
    folder, name = posixpath.split(part)
    found = dict[str, tuple[str, str]]()
    for one in tree_of(archive, posixpath.join(folder, "_rels", f"{name}.rels")):
        target = posixpath.join("/", folder, one.attrib["Target"])
        other = posixpath.normpath(target).lstrip("/")
        if other in archive.NameToInfo:
            found[one.attrib["Id"]] = posixpath.basename(one.attrib["Type"]), other
    return found


def codes_of(styles: Element) -> list[str]:
    """Returns the formats of numbers by the number of a style."""
    from openpyxl.styles.numbers import BUILTIN_FORMATS

    codes = dict(BUILTIN_FORMATS)
    for one in styles.iterfind("{*}numFmts/{*}numFmt"):
        codes[int(one.attrib["numFmtId"])] = one.attrib["formatCode"]
    numbers = [one.get("numFmtId", "0") for one in styles.iterfind("{*}cellXfs/{*}xf")]
    return [codes.get(int(number), "General") for number in numbers]


def is_set(tree: Element, tag: str, name: str) -> bool:
    """Returns whether an element of a tree says yes to something."""
    element = tree.find(f"{{*}}{tag}")
    return element is not None and element.get(name) in TRUE


def read_book(path: Path) -> Book:
    """Reads a workbook without its cells."""
    from openpyxl.utils.datetime import MAC_EPOCH, WINDOWS_EPOCH

    with zipfile.ZipFile(path) as archive:
        main = dict(related(archive).values())["officeDocument"]
        tree, parts = tree_of(archive, main), related(archive, main)
        by_kind = dict(parts.values())
        texts, styles = by_kind.get("sharedStrings"), by_kind.get("styles")
        if texts:
            check_part(archive, texts, MOST_TEXT_BYTES)
        codes = codes_of(tree_of(archive, styles)) if styles else ["General"]
        sheets = dict[str, tuple[str, str]]()
        for sheet in tree.iterfind("{*}sheets/{*}sheet"):
            numbers = (word for name, word in sheet.items() if name.endswith("}id"))
            number = next(numbers, "")
            if number in parts:
                sheets[sheet.attrib["name"]] = parts[number]
    is_mac = is_set(tree, "workbookPr", "date1904")
    return Book(
        Texts(str(path), texts_in(path, texts) if texts else iter(())),
        formats_of(codes, MAC_EPOCH if is_mac else WINDOWS_EPOCH),
        is_set(tree, "calcPr", "fullCalcOnLoad"),
        {name: part for name, (kind, part) in sheets.items() if kind != "chartsheet"},
        [*sheets],
    )


def sheet_of_book(path: Path, sheet: str | None, rules: Rules) -> Sheet:
    """Returns a sheet of a workbook, whose lines are the numbers of rows. Raises Refused for a workbook that can't be
    read, or if it isn't clear which sheet is meant."""
    name = str(path)
    book = book_of(path)
    if sheet is None and len(book.parts) != 1:
        raise refused("no clear sheet", name, path=name, sheets=listed(book.parts))
    if sheet is not None and sheet not in book.parts:
        code = "chart sheet" if sheet in book.names else "no such sheet"
        raise refused(code, name, sheet=sheet, sheets=listed(book.parts))
    return BookSheet(path, sheet, rules, sheet or next(iter(book.parts)), book)


def listed(names: Iterable[str]) -> str:
    """Returns names of sheets, some of them if there are many."""
    return some_of(names, MOST_LISTED) or "none"
