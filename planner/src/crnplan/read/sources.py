"""Reads tables as rows of cells: CSV files, and what else gives rows; and finds their headings.

Cells of a file are texts. Those of a sheet or a frame are as these store them: texts, numbers, dates, or None. No file
is ever whole in memory, and no line is longer than MOST_LETTERS.
"""
from __future__ import annotations

import codecs
import contextlib
import csv
import io
import itertools
import re
from collections import Counter
from collections.abc import Callable, Iterable, Iterator, Mapping, Sequence, Set
from dataclasses import dataclass
from functools import partial
from pathlib import Path
from typing import Any, NamedTuple

from ..errors import Fault, Refused, RefusedFaults
from ..remarks import Remark, Value
from ..toml import documents
from ..vocabulary import TEXTS, Kind, Vocabulary, choice, read_text, several, word
from .amounts import DECIMALS
from .column_words import is_base
from .cells import Cell, shown, text_of
from .dates import check_format
from .encodings import likely_encodings

Row = tuple[int, Sequence[Cell]]
TextRow = tuple[int, list[str]]
RoleOf = Callable[[str], str | None]
# The bytes in which a heading and a delimiter are found, and the letters that a line may have.
HEAD_BYTES, MOST_LETTERS = 1_000_000, 2_000_000
# Rows by which these are judged, rows among which the heading is, and rows below it that messages may show.
SAMPLE_ROWS, TITLE_ROWS, SHOWN_ROWS = 1_000, 50, 3
# What an empty cell of demand means, if it is stated: a period whose demand is not known, or none.
EMPTY = UNKNOWN, NONE = "unknown", "none"
DELIMITERS = {",": ",", ";": ";", "tab": "\t", "\t": "\t"}
# The names by which the headings of the periods of a wide table, and the cells below them, are columns with roles.
HEADINGS_NAME, CELLS_NAME = "(headings)", "(cells)"
WIDE_ROLES = {
    "demand": {"date": HEADINGS_NAME, "quantity": CELLS_NAME},
    "laws": {"period": HEADINGS_NAME, "value": CELLS_NAME},
}
FILE_BITS = 40  # of a line; those above say in which file of its table it is
MARKS = (
    (codecs.BOM_UTF8, "utf-8-sig"),
    (codecs.BOM_UTF16_LE, "utf-16"),
    (codecs.BOM_UTF16_BE, "utf-16"),
)
# So bytes are kept in a text that are not of its encoding: as U+DC00 and so on, which no text has.
ESCAPES, ESCAPED = "crnplan.escapes", re.compile("[\udc00-\udcff]")


@dataclass(frozen=True)
class SourceColumn:
    """A column of a table: its name in the heading, its place from 0, whether it was found by its name alone, and its
    unit, empty if that is the one of its role. `counts` is the unit that is stated or named, whichever it is, and
    `currency` the one that its name says."""

    name: str
    place: int
    is_guess: bool = False
    unit: str = ""
    counts: str = ""
    currency: str = ""

    @property
    def unit_said(self) -> str:
        """Returns what its name or a planner says that it counts, whatever the unit of measure of a row is."""
        return self.counts or "base" * is_base(self.name)


class Mark(NamedTuple):
    """A column that chooses the rows of a table, which have one of the wanted texts in it, or that is watched for its
    use: what it says of a row."""

    column: SourceColumn
    use: str = ""
    wanted: frozenset[str] = frozenset()


def encoding_of(value: Any) -> str:
    """Returns the name of an encoding of texts. Raises Refused."""
    name = read_text(value)
    try:
        b"a".decode(name, "replace")
    except (LookupError, ValueError) as fault:
        what = f"{documents.shown(name)} is no encoding of texts"
        raise Refused(what, "write utf-8, latin-1 or cp1252") from fault
    return name


def pattern_of(value: Any) -> str:
    """Returns a pattern of dates. Raises Refused."""
    pattern = read_text(value)
    check_format(pattern)
    return pattern


DELIMITER = choice(*DELIMITERS, said=", and ; (in quotes) and tab", metavar="SIGN")
DECIMAL = choice(*DECIMALS, said=". and ,")
ENCODING = Kind(encoding_of, "str", "NAME")


@dataclass(frozen=True, init=False, repr=False)
class Rules(Vocabulary):
    """How files are read. None and nothing mean that the file says it. Raises Refused for what can't be meant.

    `every` is the period of dates that are whole weeks or months. `decimals` are the decimal signs of single columns by
    role, which count before `decimal`. `day_first` says by sign whether the day comes first in a date with slashes or
    dashes that may have the month first.
    """

    delimiter: str | None = word(
        DELIMITER,
        help="One of , ; tab. It is found from the heading and the rows.",
    )
    encoding: str | None = word(
        ENCODING,
        help="For example cp1252; without it that of the byte order mark, or UTF-8.",
    )
    decimal: str | None = word(
        DECIMAL, help="The decimal sign; without it each column must decide it."
    )
    date_formats: tuple[str, ...] = word(
        Kind(several(pattern_of), "str or list of str", "PATTERN", TEXTS),
        (),
        "A pattern as %d/%m/%y in place of the usual forms, or excel for a spreadsheet's numbers.",
        flag="date-format",
    )
    every: str | None = None
    decimals: Mapping[str, str] | None = None
    day_first: Mapping[str, bool] | None = None
    empty: str | None = word(
        choice(*EMPTY),
        help="An empty cell of demand: a period whose demand is unknown, or none. By default none in a table with a column "
        "for each period, unless others say 0, and unknown in one with dates.",
    )

    def decimal_of(self, role: str) -> str | None:
        """Returns the stated decimal sign of a column; None if its cells say it.

        :meta private:
        """
        return (self.decimals or {}).get(role, self.decimal)


def escape(fault: Any) -> tuple[str, int]:
    """Returns the first byte of a text that is not of its encoding as one of ESCAPES, and where to read on."""
    return chr(0xDC00 + fault.object[fault.start]), fault.start + 1


codecs.register_error(ESCAPES, escape)


def place_behind(before: str, line: int = 1) -> tuple[int, int]:
    """Returns the line and the column behind a text that begins in a line."""
    return line + before.count("\n"), len(before) - before.rfind("\n")


def byte_fault(name: str, text: str, encoding: str, line: int = 1) -> Fault | None:
    """Returns what is wrong with the first byte that is not of the encoding, in a text that has such bytes as ESCAPES;
    None if there is none."""
    bad = ESCAPED.search(text)
    if bad is None:
        return None
    facts: dict[str, Value] = {"byte": ord(bad[0]) - 0xDC00, "encoding": encoding}
    code = "no byte of the encoding"
    if encoding[:5] == "utf-8":
        likely = likely_encodings(text.encode("utf-8", "surrogateescape"))
        for number, (other, cell) in enumerate(likely.items(), 1):
            facts |= {f"encoding {number}": other, f"cell {number}": shown(cell)}
            code = f"likely encodings {number}"
    place = place_behind(text[: bad.start()], line)
    return Fault(Remark(code, facts), name, *place)


def refused(code: str, name: str, /, *place: int, **facts: Value) -> RefusedFaults:
    """Returns the error of a file with one fault, perhaps in a line and a column."""
    return RefusedFaults([Fault(Remark(code, facts), name, *place)])


def state_of(path: Path | None) -> tuple[int, int]:
    """Returns the size of a file and the time of its last change; zeros if there is none."""
    state = path.stat() if path and path.exists() else None
    return (state.st_size, state.st_mtime_ns) if state else (0, 0)


@contextlib.contextmanager
def readable(name: str) -> Iterator[None]:
    """Turns errors of the file system into Refused."""
    try:
        yield
    except OSError as fault:
        raise refused("no file", name, fault=fault.strerror) from fault


def rows_of_lines(
    name: str, lines: Iterable[str], delimiter: str
) -> Iterator[tuple[int, list[str]]]:
    """Yields the line in which each row begins, and its cells. `lines` keep their ends. Raises RefusedFaults for quotes
    that can't be read."""
    reader = csv.reader(lines, delimiter=delimiter, strict=True, skipinitialspace=True)
    line = 1
    try:
        for texts in reader:
            yield line, texts
            line = reader.line_num + 1
    except csv.Error as fault:
        raise refused("quotes", name, line, fault=str(fault)) from fault


def sample(text: str, delimiter: str) -> list[TextRow]:
    """Returns the first rows with their lines, without blanks around the cells, up to one that can't be read."""
    rows = list[TextRow]()
    found = rows_of_lines("", io.StringIO(text, newline=""), delimiter)
    with contextlib.suppress(RefusedFaults):
        for line, texts in itertools.islice(found, SAMPLE_ROWS):
            rows.append((line, [cell.strip() for cell in texts]))
    return rows


def heading_of(
    rows: Sequence[TextRow], wanted: Set[str], role_of: RoleOf
) -> tuple[int, tuple[int, int, int]]:
    """Returns the place of the heading among the first rows: the row with most of the wanted names, else with usual
    names of most roles, else with most texts; and how many it has of each. A cell that other rows have in the same
    column is data and no name, unless the whole row comes again."""
    cells = Counter(cell for _, row in rows for cell in enumerate(row))
    again = Counter(tuple(row) for _, row in rows)
    fits = [(0, 0, 0)]
    for _, row in rows[:TITLE_ROWS]:
        count = again[tuple(row)]
        names = [cell for place, cell in enumerate(row) if cells[place, cell] == count]
        roles = {*map(role_of, names)} - {None}
        filled = sum(map(bool, row))
        # A heading may lack the name of its first column, as that of an index.
        if len(row) > 1 and not row[0] and all(row[1:]):
            filled += 1
        fits.append((len(wanted & {*row}), len(roles), filled))
    best = max(fits)
    return max(0, fits.index(best) - 1), best


def delimiter_of(name: str, text: str, wanted: Set[str], role_of: RoleOf) -> str:
    """Returns the delimiter that fits the heading and the rows best: with most wanted columns, then usual ones, then
    with several columns, then with most rows of as many cells as the heading. Raises RefusedFaults if two do.
    """
    fits = {}
    for delimiter in (",", ";", "\t"):
        rows = sample(text, delimiter)
        place, (stated, usual, _) = heading_of(rows, wanted, role_of)
        width, *widths = [len(row) for _, row in rows[place:]] or [0]
        share = widths.count(width) / max(1, len(widths))
        fits[delimiter] = stated, usual, width > 1, share
    best = max(fits.values())
    fitting = [delimiter for delimiter, fit in fits.items() if fit == best]
    if len(fitting) > 1 and best[2]:
        first, second, *_ = (sign.replace("\t", "tab") for sign in fitting)
        raise refused("two delimiters", name, 1, first=first, second=second)
    return fitting[0]


class Sheet:
    """A table: its name in messages, how it is written, the rules by which it is read, what is wrong with its bytes,
    and which column has which role. One that has no text of its own has cells with commas between them in messages.
    `find_heading` sets the heading, which is empty if there is no row, its line, the titles above, and the first rows
    below it. `marks` are columns that choose rows or are watched."""

    delimiter = sign = ","
    fault: Fault | None = None
    is_sample = False  # whether a look at the beginning is enough
    hidden = 0  # rows that a workbook hides, as soon as all are read
    locks: Sequence[str] = ()  # files that its pattern names and that are none of it
    notes: Sequence[Remark] = ()  # what is to be said of how it is read
    unsent: Sequence[str] = ()

    def __init__(
        self, name: str, written: str, rules: Rules, path: Path | None = None
    ) -> None:
        """Takes the file, which nobody may change while it is read."""
        self.name = name
        self.written = written
        self.rules = rules
        self.path = path
        self.file_name = Path(name).name
        self.state = state_of(path)
        self.columns = dict[str, SourceColumn]()
        self.marks = dict[str, Mark]()
        self.size = self.state[0]  # about, in bytes

    def take_head(self, first: Sheet) -> None:
        """Takes the heading of another table, how it is written, and what stands beside its heading."""
        for name in (
            "delimiter",
            "sign",
            "line",
            "heading",
            "titles",
            "first_rows",
            "columns",
            "marks",
        ):
            setattr(self, name, getattr(first, name))

    def __getstate__(self) -> dict[str, Any]:
        """Returns what another process needs, which reads no rows: all but what is in `unsent`, as rows in memory."""
        return {name: vars(self)[name] for name in vars(self).keys() - {*self.unsent}}

    @property
    def files(self) -> Sequence[Sheet]:
        """Returns the files that the table is in."""
        return [self]

    def at(self, line: int) -> tuple[str, int, str]:
        """Returns the name of the file and the line in it of a row's line, and the heading of its cell in a wide table."""
        return self.file_name, line, ""

    def called(self, line: int) -> int | str:
        """Returns the line of a row as messages call it."""
        file, line, heading = self.at(line)
        name: int | str = f"{line} ({heading})" if heading else line
        return f"{name} of {file}" if len(self.files) > 1 else name

    def column_of(self, role: str, line: int) -> str:
        """Returns the name of the column that has a role in a row's line; the role if there is none."""
        _, _, heading = self.at(line)
        if heading and any(role in roles for roles in WIDE_ROLES.values()):
            return heading
        return self.columns[role].name if role in self.columns else role

    def fault_of(self, remark: Remark) -> Fault:
        """Returns what is wrong with the heading, or what must be asked of the columns."""
        return Fault(remark, self.name, self.line)

    @property
    def keys(self) -> str:
        """Returns the type of the whole numbers that name items; empty if texts do."""
        return ""

    @property
    def used(self) -> set[int]:
        """Returns the places of the columns with roles."""
        return {column.place for column in self.columns.values()}

    @property
    def width(self) -> int:
        """Returns how many columns the heading has."""
        return len(self.heading)

    @contextlib.contextmanager
    def unchanged(self) -> Iterator[None]:
        """Raises Refused after the block if others have changed the file since it was opened."""
        yield
        if state_of(self.path) != self.state:
            raise refused("changed file", self.name)

    def rows(self) -> Iterator[Row]:
        """Yields the line in which each row begins, and its cells. A table of several files has them in these."""
        raise NotImplementedError

    def find_heading(
        self, wanted: Iterable[str] = (), role_of: RoleOf = lambda cell: None
    ) -> None:
        rows = self.head({*wanted}, role_of)
        place, _ = heading_of(rows, {*wanted}, role_of)
        self.line, self.heading = rows[place] if rows else (1, [])
        self.titles = [
            (line, " ".join(filter(None, row))) for line, row in rows[:place]
        ]
        self.first_rows = rows[place + 1 : place + 1 + SHOWN_ROWS]

    def head(self, wanted: Set[str], role_of: RoleOf) -> list[TextRow]:
        """Returns the first rows as texts, with the lines in which they begin."""
        rows = itertools.islice(self.rows(), SAMPLE_ROWS)
        return [(line, [*map(text_of, cells)]) for line, cells in rows]

    def text_of(self, cells: Sequence[Cell]) -> str:
        """Returns the text of the row that was given last."""
        return ",".join(map(text_of, cells))


class _Bytes(io.RawIOBase):
    """The next so many bytes of a file."""

    def __init__(self, file: io.FileIO, count: int) -> None:
        self.file = file
        self.rest = count

    def readable(self) -> bool:
        return True

    def readinto(self, data: Any) -> int:
        count = self.file.readinto(memoryview(data)[: self.rest]) or 0
        self.rest -= count
        return count


class TextSheet(Sheet):
    """A CSV file, with the text of its first lines. Its encoding is that of a byte order mark, else the stated one,
    else UTF-8. If nobody has stated it and the bytes are not UTF-8, it is the likely one, with a fault: so the rest of
    the file can be checked too."""

    unsent = ("text",)

    def __init__(self, path: Path, name: str, rules: Rules) -> None:
        """Reads the first lines. Raises Refused, and RefusedFaults for other bytes that can't be decoded, and for NUL
        characters, as UTF-16 without a byte order mark has."""
        super().__init__(name, "", rules, path)
        self.file = path
        self.delimiter = DELIMITERS[rules.delimiter or ","]
        with readable(name), path.open("rb") as file:
            data = file.read(HEAD_BYTES)
        own = (encoding for mark, encoding in MARKS if data.startswith(mark))
        self.encoding = next(own, rules.encoding or "utf-8")
        is_all = len(data) < HEAD_BYTES
        if not is_all and not re.search(b"[\r\n]", data):
            raise refused("long first line", name, 1, most=HEAD_BYTES)
        if not is_all and not self.encoding.startswith("utf-16"):
            # The last letter may be cut: whole lines have whole letters.
            data = data[: data.rfind(b"\n") + 1] or data
        try:
            self.text = codecs.getincrementaldecoder(self.encoding)(ESCAPES).decode(
                data, is_all
            )
        except UnicodeError:  # UTF-16 without its byte order mark
            self.text = chr(0xDC00 + data[0])
        self.fault = byte_fault(name, self.text, self.encoding)
        if self.fault and (rules.encoding or self.encoding != "utf-8"):
            raise RefusedFaults([self.fault])
        if self.fault:
            self.encoding = next(iter(likely_encodings(data)), "latin-1")
            self.text = data.decode(self.encoding, "replace")
        before, zero, _ = self.text.partition("\0")
        if zero:
            # Of a Latin letter in UTF-16 one byte is 0: the first one, if the high byte comes first.
            is_big = data[::2].count(0) > data[1::2].count(0)
            encoding = "utf-16-be" if is_big else "utf-16-le"
            raise refused("NUL", name, *place_behind(before), encoding=encoding)

    def head(self, wanted: Set[str], role_of: RoleOf) -> list[TextRow]:
        """Returns the first rows, by the delimiter that fits best."""
        if not self.rules.delimiter:
            self.delimiter = delimiter_of(self.name, self.text, wanted, role_of)
        self.sign = "tab" if self.delimiter == "\t" else self.delimiter
        self.written = f"{self.encoding}, delimiter {self.sign}"
        return sample(self.text, self.delimiter)

    def rows(self, start: int = 0, stop: int | None = None) -> Iterator[Row]:
        """Yields the rows with their lines, while `kept` has their text: those of the file, or of its bytes from one on
        and before another. Raises RefusedFaults for bytes or quotes that can't be read; `is_read` says whether there
        were lines behind, of which there are `count` so far."""
        self.kept = list[str]()
        errors = "replace" if self.fault else ESCAPES
        stop = self.state[0] if stop is None else stop
        with readable(self.name), self.unchanged():
            with self.file.open("rb", buffering=0) as file:
                file.seek(start)
                data = io.BufferedReader(_Bytes(file, stop - start))
                text = io.TextIOWrapper(data, self.encoding, errors, newline="")
                lines = self._good_lines(text)
                for row in rows_of_lines(self.name, lines, self.delimiter):
                    yield row
                    self.kept.clear()

    def _good_lines(self, file: io.TextIOBase) -> Iterator[str]:
        """Yields the lines of a file with their ends. Raises RefusedFaults for one that is too long, or has a byte that
        is not of the encoding."""
        self.count = 0
        self.is_read = False
        lines = iter(partial(file.readline, MOST_LETTERS), "")
        for self.count, line in enumerate(lines, 1):
            if len(line) == MOST_LETTERS:
                raise refused("long line", self.name, self.count, most=MOST_LETTERS - 1)
            if not line.isascii():
                wrong = byte_fault(self.name, line, self.encoding, self.count)
                if wrong:
                    raise RefusedFaults([wrong])
            self.kept.append(line)
            yield line
        self.is_read = True

    def text_of(self, cells: Sequence[Cell]) -> str:
        """Returns the text of the row that was given last, as it stands in the file."""
        return "".join(self.kept).rstrip("\r\n")
