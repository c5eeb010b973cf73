"""Tables whose columns are declared once, each with how its cell is made.

Rows, the frame, CSV, JSON, text, HTML and the page of formats follow from that.
"""
from __future__ import annotations

import csv
import html
import io
import math
import re
from abc import ABC, abstractmethod
from collections.abc import Callable, Collection, Iterable, Iterator, Mapping, Sequence
from dataclasses import dataclass, field, replace
from fractions import Fraction
from functools import partial
from typing import TYPE_CHECKING, Any, ClassVar, Literal

from .errors import Refused
from .money import Currency
from .sentences import counted

if TYPE_CHECKING:
    import pandas as pd

TableCell = str | int | float | Fraction | None
Json = str | int | float | bool | None | Sequence["Json"] | Mapping[str, "Json"]
CellKind = Literal["text", "name", "whole", "number", "exact", "fraction"]
# The spelling of money: with as many decimals as its smallest unit has.
MONEY = "money"
TYPES = {"whole": "Int64", "number": float}
ITEM = "item"  # the column that names items
WHOLE_NAME = re.compile("0|-?[1-9][0-9]*")
# Units that name money or a period, with a currency and the name of a period in their place.
NAMED_UNITS = {
    "money": "{money}",
    "periods": "{period}s",
    **{f"{what} a period": f"{what} a {{period}}" for what in ("items", "orders")},
    "money a period": "{money} a {period}",
}
# What a notebook shows at most: rows, columns, letters of a cell, and notes; and how it spells rounded numbers by unit.
MOST_ROWS, MOST_COLUMNS, MOST_LETTERS, MOST_NOTES = 10, 8, 60, 20
SHOWN = {"share": ".1%", "orders a period": ".4f"}
# How a text begins that a spreadsheet would run, unless it is a number or a mark for no figure.
RUN = re.compile(r"[=@＝＠\t\r\n]|[+＋－-](?![0-9.,]*$)")


# The signs of a CSV file by its style: between cells, of decimals, and at its beginning. A system imports orders in the
# style of its language, and takes a file that begins with a byte order mark for UTF-8.
STYLES = {"en": (",", ".", ""), "de": (";", ",", "\ufeff"), "fr": (";", ",", "\ufeff")}


@dataclass(frozen=True)
class Column:
    """A column: its name, what it has, in which unit, and what that means.

    `written` is how a number is spelt in a file and `shown` how it is spelt for a reader: formats of Python, which may end with
    MONEY.
    Without them a number has all its digits; without `shown` a reader gets what a file has. `fact` makes a cell from what
    its row is of.
    """

    name: str
    unit: str
    meaning: str
    written: str = ""
    shown: str = ""
    kind: CellKind = "number"
    fact: Callable[[Any], Any] | None = field(default=None, compare=False)

    def by(self, fact: str | Callable[[Any], Any]) -> Column:
        """Returns the column with how its cell is made from what a row is of: by a function, or by the path of a fact in
        that, as `item.name`. Without a part of the path there is no figure."""
        return replace(self, fact=at(fact) if isinstance(fact, str) else fact)

    def cell(self, thing: object) -> TableCell:
        """Returns the cell of a row: a text or a figure, of a column of rounded numbers a rounded one."""
        assert self.fact, f"it is not declared how a cell of {self.name} is made"
        fact = self.fact(thing)
        cell: TableCell = fact
        if fact is not None and self.is_text:
            cell = str(fact)
        elif self.kind == "number" and isinstance(fact, Fraction):
            cell = float(fact)
        return cell

    def __getstate__(self) -> dict[str, Any]:
        """Returns what a pickle has: all but how cells are made, which a table with rows no longer needs."""
        return {**vars(self), "fact": None}

    @property
    def is_text(self) -> bool:
        return self.kind in ("text", "name")

    def for_notebook(self, currency: str) -> Column:
        """Returns the column as a notebook shows it: money with cents, or the decimals of its currency, and shares in
        percent."""
        if self.kind != "number" or self.shown and self.shown != MONEY:
            return self
        shown = SHOWN.get(self.unit, ",.2f")
        if MONEY in (self.written, self.shown):
            shown = f",.{Currency(currency).places}f"
        return replace(self, shown=shown)

    def unit_in(self, currency: str, every: str) -> str:
        """Returns the unit in a currency and for periods, each of which may be empty: EUR a week."""
        return NAMED_UNITS.get(self.unit, self.unit).format(
            money=currency or "money", period=every or "period"
        )

    def speller(
        self, decimals: int, missing: str, is_shown: bool = False
    ) -> Callable[[TableCell], str]:
        """Returns the function that spells a cell. Money has so many decimals; `missing` stands for no figure."""
        style = self.shown if is_shown and self.shown else self.written
        if style.endswith(MONEY):
            style = style.replace(MONEY, f".{decimals}f")
        if style.endswith(("f", "%")):  # no zero has a sign
            style = f"+z{style[1:]}" if style.startswith("+") else f"z{style}"

        def spelt_number(value: Any) -> str:
            return format(float(value), style)

        spell: Callable[[Any], str] = str
        if self.kind in ("number", "whole") and style:
            spell = spelt_number
        elif self.kind == "text" and not is_shown:
            spell = unrun
        elif self.kind == "fraction" and not is_shown:
            spell = fraction_text

        def spelt(value: TableCell) -> str:
            return missing if is_missing(value) else spell(value)

        return spelt


# Columns of rounded numbers, of whole ones, of whole numbers and fractions; of fractions and of names as crnsim writes
# them.
number = Column
whole, exact = partial(Column, kind="whole"), partial(Column, kind="exact")
fraction = partial(Column, kind="fraction")
name = partial(Column, unit="text", kind="name")


def text(name: str, meaning: str) -> Column:
    """Returns a column of texts."""
    return Column(name, "", meaning, kind="text")


def at(path: str) -> Callable[[Any], Any]:
    """Returns a function that returns a fact of a thing by its path of attributes, and of keys of mappings: None if a part
    of the path is None, or not there as a key."""
    names = path.split(".")

    def fact(thing: Any) -> Any:
        for name in names:
            if thing is None:
                break
            if isinstance(thing, Mapping):
                thing = thing.get(name)
            else:
                thing = getattr(thing, name)
        return thing

    return fact


def shortened(cell: TableCell) -> TableCell:
    """Returns a cell, with the end of a long text left out."""
    is_long = isinstance(cell, str) and len(cell) > MOST_LETTERS
    return f"{str(cell)[:MOST_LETTERS]} .." if is_long else cell


def is_missing(value: TableCell) -> bool:
    """Returns whether a cell has no figure: None or nan."""
    return value is None or isinstance(value, float) and math.isnan(value)


def fraction_text(number: int | Fraction) -> str:
    """Returns a fraction as crnsim writes it, 1/1 for a whole one."""
    return f"{number.numerator}/{number.denominator}"


def plain(cell: TableCell) -> str | int | float | None:
    """Returns a cell as plain data: a fraction as a text, None for no figure."""
    if isinstance(cell, Fraction):
        return fraction_text(cell)
    return None if is_missing(cell) else cell


def keys_of(names: Sequence[TableCell], kind: str) -> tuple[list[TableCell], Any]:
    """Returns names of items as whole numbers, None if there is none, with the type of their column: the stated one if
    all are such, one that may lack some, or any if a name is a text, as `A7` or `0017`.
    """
    keys = list[TableCell]()
    for name in names:
        is_whole = WHOLE_NAME.fullmatch(str(name))
        keys.append(int(str(name)) if is_whole else name or None)
    kinds = {*map(type, keys)}
    if str in kinds:
        return keys, object
    return keys, kind if kinds == {int} else TYPES["whole"]


def unrun(cell: str) -> str:
    """Returns a text that a spreadsheet does not run as a formula: behind an apostrophe, if it would.

    Source: OWASP, CSV injection. Numbers such as -5, and the mark - alone, stay as they are.
    """
    return f"'{cell}" if RUN.match(cell) else cell


@dataclass(frozen=True)
class DataTable:
    """Rows under declared columns. Money has `decimals`, `missing` stands for no figure, and `index` names the column
    by which a frame is indexed. Units are in a `currency` and for periods of `every`, if these are known. `keys` is
    the type of the whole numbers that name items in a frame; it is empty if texts do.
    """

    columns: Sequence[Column]
    rows: Iterable[Sequence[TableCell]]
    decimals: int = 2
    missing: str = "-"
    index: str = ""
    currency: str = ""
    every: str = ""
    keys: str = ""

    @classmethod
    def of(
        cls,
        columns: Sequence[Column],
        things: Iterable[object],
        *words: Any,
        **named: Any,
    ) -> DataTable:
        """Returns the table with a row for each thing; of an iterator, rows are made as they are needed. Further words
        are those of a table."""

        def rows() -> Iterator[list[TableCell]]:
            for thing in things:
                yield [column.cell(thing) for column in columns]

        made: Iterable[list[TableCell]] = rows()
        if isinstance(things, Sequence):
            made = [*made]
        return cls(columns, made, *words, **named)

    @property
    def names(self) -> list[str]:
        return [column.name for column in self.columns]

    def with_columns(self, names: Iterable[str]) -> DataTable:
        """Returns the table with the named columns alone, in their order."""
        places = [self.names.index(name) for name in names]
        return replace(
            self,
            columns=[self.columns[place] for place in places],
            rows=[[row[place] for place in places] for row in self.rows],
        )

    def without_empty(self, names: Collection[str]) -> DataTable:
        """Returns the table without those of the named columns in which no row has a figure."""
        filled = set[str]()
        for row in self.rows:
            for name, cell in zip(self.names, row):
                if not is_missing(cell):
                    filled.add(name)
        return self.with_columns(
            name for name in self.names if name not in names or name in filled
        )

    def spelt(self, is_shown: bool = False) -> Iterator[list[str]]:
        """Yields the heading and the rows as texts: as a file has them, or as they are shown to a reader."""
        spellers = list[Callable[[TableCell], str]]()
        for column in self.columns:
            spellers.append(column.speller(self.decimals, self.missing, is_shown))
        yield self.names
        for row in self.rows:
            yield [spell(cell) for spell, cell in zip(spellers, row, strict=True)]

    def cells(self, is_shown: bool = False) -> Iterator[dict[str, str]]:
        """Yields the rows by column: each cell as a file has it, or as it is shown to a reader."""
        heading, *rows = self.spelt(is_shown)
        for row in rows:
            yield dict(zip(heading, row))

    @property
    def lines(self) -> Iterator[str]:
        """Yields the lines of the table as CSV. Rows may be many: they are not kept."""
        return self.lines_in("en")

    def lines_in(self, style: str) -> Iterator[str]:
        """Yields the lines of the table as CSV in a style of STYLES."""
        delimiter, decimal, mark = STYLES[style]

        def line_of(row: Sequence[str]) -> str:
            line = io.StringIO(newline="")
            # It quotes a lone carriage return if it ends lines by one.
            csv.writer(line, delimiter=delimiter).writerow(row)
            return line.getvalue().removesuffix("\r\n") + "\n"

        rows = self.spelt()
        yield mark + line_of(next(rows))
        for row in rows:
            for place, column in enumerate(self.columns):
                if not column.is_text:
                    row[place] = row[place].replace(".", decimal)
            yield line_of(row)

    @property
    def csv(self) -> str:
        return "".join(self.lines)

    @property
    def records(self) -> list[dict[str, Json]]:
        """Returns the rows as plain data, unrounded: fractions as texts, None for no figure."""
        names = self.names
        return [dict(zip(names, map(plain, row), strict=True)) for row in self.rows]

    @property
    def units(self) -> dict[str, str]:
        """Returns the unit of each column that has one."""
        units = dict[str, str]()
        for column in self.columns:
            if column.unit:
                units[column.name] = column.unit_in(self.currency, self.every)
        return units

    @property
    def frame(self) -> pd.DataFrame:
        """Returns the rows unrounded, as typed columns: texts, whole numbers, floats and fractions. Its `attrs` have
        the units of columns."""
        import pandas as pd

        rows, columns = list(self.rows), dict[str, pd.Series]()
        for place, column in enumerate(self.columns):
            cells, kind = [row[place] for row in rows], TYPES.get(column.kind, object)
            if self.keys and column.name == ITEM:
                cells, kind = keys_of(cells, self.keys)
            columns[column.name] = pd.Series(cells, dtype=kind)
        frame = pd.DataFrame(columns)
        frame.attrs["units"] = self.units
        return frame.set_index(self.index) if self.index else frame

    @property
    def text(self) -> str:
        """Returns the table for a reader, with its columns in line."""
        texts = [place for place, column in enumerate(self.columns) if column.is_text]
        return aligned(list(self.spelt(True)), texts)

    def __repr__(self) -> str:
        rows = counted(len(self.rows), "row") if isinstance(self.rows, list) else "rows"
        return f"DataTable({rows} of {names_of(self.names, MOST_COLUMNS)})"

    def brief(self, names: Sequence[str]) -> tuple[DataTable, str]:
        """Returns the first rows, or all if these are few, of the named columns, or of the first ones, as a notebook shows
        them, and what is left out."""
        known = [name for name in names if name in self.names]
        some = self.with_columns((known or self.names)[:MOST_COLUMNS])
        every, rows, left = [*some.rows], list[list[TableCell]](), list[str]()
        shown = every if len(every) <= 2 * MOST_ROWS else every[:MOST_ROWS]
        for row in shown:
            rows.append([shortened(cell) for cell in row])
        columns = [column.for_notebook(self.currency) for column in some.columns]
        if len(every) > len(rows):
            left.append(counted(len(every) - len(rows), "more row"))
        if len(some.names) < len(self.names):
            left.append(counted(len(self.names) - len(some.names), "more column"))
        said = f"and {' and '.join(left)}, in frame" if left else ""
        return replace(some, columns=columns, rows=rows), said

    @property
    def html(self) -> str:
        """Returns the table as HTML. Each heading has the meaning of its column, and its unit, as its title."""
        heading, *rows = self.spelt(True)
        styles, parts = list[str](), ["<table>\n<thead><tr>"]
        for name, column in zip(heading, self.columns):
            styles.append("text-align: left" if column.is_text else "text-align: right")
            title = column.meaning
            if column.unit:
                title = f"{self.units[column.name]}: {title}"
            parts.append(
                f'<th scope="col" style="{styles[-1]}" title="{html.escape(title)}">{html.escape(name)}</th>'
            )
        parts.append("</tr></thead>\n<tbody>\n")
        for row in rows:
            parts.append("<tr>")
            for cell, style in zip(row, styles):
                parts.append(f'<td style="{style}">{html.escape(cell)}</td>')
            parts.append("</tr>\n")
        parts.append("</tbody>\n</table>\n")
        return "".join(parts)


class Result(ABC):
    """What every result shows in the same way: a table as a frame, as text for a terminal, and in a notebook, with the
    columns `brief`, or the first ones. Results of a kind with the same rows are equal.
    """

    brief: ClassVar[Sequence[str]] = ()

    @property
    @abstractmethod
    def table(self) -> DataTable:
        """Returns the figures."""

    @property
    def notes(self) -> str:
        """Returns lines on what the figures mean."""
        return ""

    @property
    def frame(self) -> pd.DataFrame:
        """Returns the figures as a table, unrounded. NaN or None stands for no figure."""
        return self.table.frame

    @property
    def text(self) -> str:
        """Returns the table and the notes."""
        return f"{self.table.text}{self.notes}"

    @property
    def tree(self) -> Mapping[str, Json]:
        """Returns all as plain data, without rounding."""
        return {"rows": self.table.records}

    @property
    def headline(self) -> str:
        """Returns what it comes to in a line: how many rows it has."""
        return counted(len([*self.table.rows]), "row")

    @property
    def content(self) -> list[list[dict[str, Json]]]:
        """Returns the rows of its tables as plain data: two results are equal if these are."""
        return [self.table.records]

    def __eq__(self, other: object) -> bool:
        return (
            isinstance(other, Result)
            and type(self) is type(other)
            and (self is other or self.content == other.content)
        )

    def __hash__(self) -> int:
        return hash((type(self), *self.table.names))

    def __repr__(self) -> str:
        return f"{type(self).__name__}({self.headline})"

    def _repr_html_(self) -> str:
        """Shows in a notebook what it comes to, its first rows, how many more there are, and the notes."""
        lines = [line for line in self.notes.splitlines() if line]
        try:
            some, left = self.table.brief(self.brief)
        except Refused as why:  # what it is read from is gone
            return f"<p>{html.escape(str(why))}</p>\n"
        said = [left, *lines[:MOST_NOTES]]
        parts = [f"<p>{html.escape(self.headline)}</p>\n", some.html]
        parts += [f"<p>{html.escape(line)}</p>\n" for line in said if line]
        return "".join(parts)


def aligned(rows: Sequence[Sequence[str]], left: Collection[int] = (0,)) -> str:
    """Returns the rows as lines. Columns in `left`, counted from 0, are set to the left, all others to the right."""
    widths = [max(map(len, column)) for column in zip(*rows)]
    lines = []
    for row in rows:
        cells = []
        for place, (cell, width) in enumerate(zip(row, widths)):
            cells.append(cell.ljust(width) if place in left else cell.rjust(width))
        lines.append("  ".join(cells).rstrip() + "\n")
    return "".join(lines)


def names_of(names: Sequence[str], most: int) -> str:
    """Returns the first `most` names as one text, with the number of those that are left out."""
    if not names:
        return "none"
    text = ", ".join(names[:most])
    return f"{text} and {len(names) - most} more" if len(names) > most else text
