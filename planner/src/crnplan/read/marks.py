"""Marks the columns of tables that choose rows, may split what rows say, or are asked about by their cells.

`where` chooses rows. Places such as stores, and states such as `Cancelled`, split them. Cells are asked about that
may say which lines are closed, what kind of stock a row is, what numbers beside the quantity are, and how many items
a unit of measure has.
"""
from __future__ import annotations

import re
from collections import Counter
from collections.abc import Callable, Iterable, Iterator, Mapping
from typing import TYPE_CHECKING, Any, NamedTuple

import numpy as np

from ..errors import Fault, Refused
from ..remarks import Remark, Value
from ..vocabulary import read_text, several
from .amounts import ITEM, UNITS
from .column_words import (
    BARE,
    CLOSED,
    COUNT,
    KIND,
    MARK,
    MARKS,
    OPEN,
    ORDERED,
    RECEIVED,
    ROLES_OF,
    ROWS,
    WORDS,
    asked_of_demand,
    asked_of_master,
    asked_of_order,
    asked_of_stock,
    is_base,
    is_state,
    part_of,
    words_of,
)
from .cells import (
    HEADINGS,
    Cell,
    Flags,
    Numbers,
    on_one_line,
    plain_name,
    some_of,
    text_of,
)
from .columns import ROLES, listed, usual_names
from .sources import SourceColumn, Mark, Sheet

if TYPE_CHECKING:
    from .items import Reading
    from .rows import Rows, KeptTable

ANY = "*"  # that each value of a column is taken
PLACE, STATE = "place", "state"  # what a watched column says of a row
WATCHED = {name: use for use in (PLACE, STATE) for name in HEADINGS["watched"][use]}
# Words that a name may end with, as in `Location Code`.
ENDINGS = {*HEADINGS["watched"]["endings"]}
# Masters are not watched for states: these are the items' own.
STATE_KINDS = {"demand", "orders", "stock", "on_order", "placed"}
MOST_VALUES = 6  # that are named
STATES = {name: {*words} for name, words in HEADINGS["states"].items()}
NOTHING = re.compile(r"[-+0.,\s]*")  # no number, or 0
# What is asked of a column by its name and its first cells, by the kind of its table.
ASKED_BY_CELLS = {"demand": asked_of_demand, "items": asked_of_master}
CONDITION = re.compile(rf"(?:({'|'.join(ROLES)})\.)?([^=]*[^=\s][^=]*)=(.*)")


class Condition(NamedTuple):
    """What must stand in a column of the rows that are taken: in the table of a kind, or in each that has the column."""

    kind: str
    column: str
    value: str

    @classmethod
    def of(cls, text: str) -> Condition:
        """Reads a condition, as Location=Main or demand.Location=Main. Raises Refused."""
        parts = CONDITION.fullmatch(text)
        if parts is None:
            raise Refused(
                f"{text!r} is not COLUMN=VALUE or FILE.COLUMN=VALUE",
                f"write Location=Main, or demand.Location=Main; the files are {', '.join(ROLES)}",
            )
        return cls(parts[1] or "", parts[2].strip(), parts[3].strip())


def conditions_of(table: Mapping[str, object]) -> tuple[str, ...]:
    """Returns the conditions of a table as texts: as {"Location": "Main"}, whose values may be lists, and which may be by
    file, as {"demand": {"Location": "Main"}}."""
    texts = list[str]()
    for name, value in table.items():
        if isinstance(value, Mapping):
            texts += [f"{name}.{text}" for text in conditions_of(value)]
        elif isinstance(value, (list, tuple)):
            texts += [f"{name}={one}" for one in value]
        else:
            texts.append(f"{name}={value}")
    return tuple(texts)


def conditions_in(value: Any) -> tuple[str, ...]:
    """Returns conditions on rows, of texts or a table. Raises Refused for one that can't be meant."""
    stated = conditions_of(value) if isinstance(value, Mapping) else value
    texts: tuple[str, ...] = several(read_text)(stated)
    for text in texts:
        Condition.of(text)
    return texts


def wanted_of(kind: str, where: Iterable[str]) -> dict[str, set[str]]:
    """Returns by column what must stand there in the table of a kind. Several values of a column are alternatives."""
    wanted: dict[str, set[str]] = {}
    for own, column, value in map(Condition.of, where):
        if own in ("", kind):
            wanted.setdefault(column, set()).add(value)
    return wanted


def use_of(name: str) -> str:
    """Returns what a column says of a row, by its name: a place, a state, or nothing that is known."""
    words = plain_name(name).split()
    while len(words) > 1 and words[-1] in ENDINGS:
        words = words[:-1]
    return WATCHED.get(" ".join(words), "")


def marks_of(kind: str, sheet: Sheet, words: Reading) -> dict[str, Mark]:
    """Returns the columns of a table that choose its rows, are watched or asked about, by what `Rows` calls them. Of those
    with a role only that of closed lines is one."""
    wanted = wanted_of(kind, words.where)
    uses = {PLACE, STATE} if kind in STATE_KINDS else {PLACE}
    asked = asked_in(kind, sheet, words.columns.get(kind, {}))
    closed, filed = sheet.columns.get(CLOSED), filed_in(kind, sheet)
    marks: dict[str, Mark] = {}
    for place, name in enumerate(sheet.heading):
        use = asked.get(name) or use_of(name)
        values = frozenset(wanted.get(name, ()))
        is_closed = closed is not None and closed.place == place
        if is_closed:
            use = CLOSED
        elif place == filed and name not in asked:
            use = ORDERED
        elif use not in uses | {*asked.values()} or place in sheet.used:
            use = ""
        if name in wanted:
            use = ""
            values = frozenset() if ANY in values else values
        elif not use:
            continue
        marks[f"={name}"] = Mark(SourceColumn(name, place), use, values)
    return marks


def filed_in(kind: str, sheet: Sheet) -> int | None:
    """Returns the place of the only column of open orders that says how many were ordered, beside that of what is still to
    come."""
    column = sheet.columns.get("quantity")
    if kind != "on_order" or column is None:
        return None
    is_own = is_base(column.name)
    places = [
        place
        for place, name in enumerate(sheet.heading)
        if place not in sheet.used
        and is_base(name) == is_own
        and part_of(name) in (BARE, ORDERED)
    ]
    return places[0] if len(places) == 1 else None


def asked_in(kind: str, sheet: Sheet, stated: Mapping[str, str]) -> dict[str, str]:
    """Returns what is asked of the columns of demand, masters, open orders and stock, by name. A number is not asked about if
    it may have a role that is stated, or of which a column in base units is there."""
    columns = sheet.columns
    asked = dict[str, str]()
    if kind in ASKED_BY_CELLS:
        return asked_by_cells(ASKED_BY_CELLS[kind], sheet)
    if kind not in ("on_order", "stock"):
        return asked
    known = {role for role in columns if is_base(columns[role].name)} | stated.keys()
    open_quantity = columns.get("quantity")
    is_open = open_quantity and (
        "quantity" in stated or part_of(open_quantity.name) not in (BARE, ORDERED)
    )
    parts = {RECEIVED} & columns.keys() | ({OPEN} if is_open else set())
    for name in sheet.heading:
        if kind == "on_order":
            roles = ROLES_OF.get(part_of(name), set())
            use = asked_of_order(name, parts)
        else:
            names = {role: usual_names(kind, role) for role in columns}
            roles = {role for role in columns if plain_name(name) in names[role]}
            use = asked_of_stock(name, columns["stock"].name)
        is_known = use == COUNT and known & roles or use == MARK and use_of(name)
        if use and not is_known:
            asked[name] = use
    return asked


def asked_by_cells(
    asked_of: Callable[[str, set[str]], str], sheet: Sheet
) -> dict[str, str]:
    """Returns what is asked of the columns of a table without a role, by name. The first rows tell which may have marks."""
    asked = dict[str, str]()
    for place, name in enumerate(sheet.heading):
        first = {
            plain_name(text_of(cells[place]))
            for _, cells in sheet.first_rows
            if place < len(cells)
        }
        use = asked_of(name, first)
        if use and place not in sheet.used and not use_of(name):
            asked[name] = use
    return asked


def faults_of_where(sheets: Mapping[str, Sheet], words: Reading) -> Iterator[Fault]:
    """Yields a fault for each column of `where` that no table has, or not the one that is named."""
    needed = words.where if words.is_where_needed and sheets else ()
    for kind, name, _ in dict.fromkeys(map(Condition.of, needed)):
        tables = [sheet for own, sheet in sheets.items() if kind in ("", own)]
        for sheet in tables:
            if sheet.heading.count(name) > 1:
                yield sheet.fault_of(Remark("same column of where", {"name": name}))
        if not any(name in sheet.heading for sheet in tables):
            first = next(iter(tables or sheets.values()))
            facts = {"name": name, "columns": listed(first.heading)}
            yield first.fault_of(Remark("no column of where", facts))


def split_items(rows: Rows) -> dict[str, int]:
    """Returns by column of a place how many items have rows of use with several values of it."""
    split = dict[str, int]()
    for name, mark in rows.sheet.marks.items():
        if mark.use == PLACE:
            codes, distinct = rows.columns[name]
            values = np.int64(len(distinct) + 1)
            pairs = np.unique(rows.items[rows.good] * values + codes[rows.good])
            split[name] = np.count_nonzero(np.bincount(pairs // values) > 1)
    return split


def places_of(rows: Rows, some: Numbers) -> tuple[str, dict[Cell, int]]:
    """Returns the column of a place in which some rows have several values, and how many have each; nothing if there is
    none."""
    for name, mark in rows.sheet.marks.items():
        values = Counter(rows.cell(name, row) for row in some.tolist())
        if mark.use == PLACE and len(values) > 1:
            return mark.column.name, dict(values)
    return "", {}


def named_values(counts: Mapping[Cell, int]) -> str:
    """Returns values with how many rows have each, the most frequent first."""
    ranked = sorted(counts, key=lambda value: (-counts[value], str(value)))
    texts = list[str]()
    for value in ranked[: MOST_VALUES + 1]:
        texts.append(f"{on_one_line(str(value)) or 'nothing'}: {counts[value]:,}")
    return some_of(texts, MOST_VALUES)


def said_of_marks(
    kind: str, table: KeptTable, split: Mapping[str, int]
) -> Iterator[Remark]:
    """Yields what is to be said of watched columns: places over which items are summed, and several states."""
    for name, mark in table.sheet.marks.items():
        values = table.counts(name)
        facts: dict[str, Value] = {
            "file": table.sheet.file_name,
            "column": mark.column.name,
            "kind": kind,
            "values": named_values(values),
            "first": str(max(values, key=values.__getitem__, default="")),
        }
        if mark.use == PLACE and split.get(name):
            yield Remark("summed places", {**facts, "items": split[name]})
        if mark.use == STATE and len(values) > 1:
            yield Remark("several states", {**facts, "count": len(values)})


def is_closed(name: str, cell: Cell) -> bool | None:
    """Returns whether a cell of a column says that its line is closed; None if that is not known."""
    text = plain_name(text_of(cell))
    for state in ("closed", "open"):
        if text in STATES[state]:
            return state == "closed"
    words = words_of(name)
    may_be_number = not WORDS["cancelled"].isdisjoint(words) and text.isdecimal()
    if text and (is_state(words) or may_be_number and int(text)):
        return None
    return MARKS.get(text)


def is_clear(use: str, name: str, cell: Cell) -> bool:
    """Returns whether a cell of a column needs no question."""
    text = text_of(cell)
    plain = plain_name(text)
    if use == CLOSED:
        return is_closed(name, cell) is not None
    if use == KIND:
        return not plain or plain in STATES["free"]
    return (
        use != COUNT or NOTHING.fullmatch(text) is not None or MARKS.get(plain) is False
    )


def ticked(cells: Iterable[Cell]) -> set[Cell]:
    """Returns the cells of a column that say yes, if each of them says yes or no in words, and not all the same."""
    texts = {cell: plain_name(text_of(cell)) for cell in cells}
    said = {cell: MARKS.get(text) for cell, text in texts.items()}
    is_mark = {*said.values()} == {True, False}
    is_mark &= not any(map(str.isdecimal, texts.values()))
    return {cell for cell in said if said[cell] and is_mark}


def closed_rows(rows: Rows) -> Iterator[tuple[str, Flags]]:
    """Yields the columns that say that lines are closed, with those lines."""
    for key, mark in rows.sheet.marks.items():
        name, column = mark.column.name, rows.columns[key]
        if mark.use == CLOSED:
            known = (is_closed(name, cell) is True for cell in column.distinct)
            yield name, column.of_rows(known, bool)


def sizes_of(rows: Rows, factors: Mapping[str, int]) -> dict[str, int]:
    """Returns how many items one of each unit of measure has that is known: of a stated one, an item, and a dozen."""
    sizes = {"": 1}
    for text in map(text_of, rows.counts("measure")):
        unit = UNITS.get(plain_name(text).removesuffix(" s"), "")
        if unit == ITEM or unit.isdecimal():
            sizes[text] = 1 if unit == ITEM else int(unit)
    return {**sizes, **factors}


def asked_of_marks(kind: str, table: KeptTable) -> Iterator[Remark]:
    """Yields what must be asked of the columns of a table that may say which rows count, or count something else."""
    for name, mark in table.sheet.marks.items():
        values, own = table.counts(name), mark.column.name
        unclear = {cell for cell in values if not is_clear(mark.use, own, cell)}
        is_state = mark.use == ROWS or mark.use == STATE and kind == "on_order"
        if is_state and len(values) > 1:
            unclear = {*values}
        if mark.use == MARK:
            unclear = ticked(values)
        if unclear:
            code = "unknown number" if mark.use == COUNT else "unknown state"
            yield question(code, kind, own, values, unclear)


def questions(kind: str, rows: Rows, sizes: Mapping[str, int]) -> Iterator[Remark]:
    """Yields what must be asked of the columns of a table, whose units of measure have these sizes."""
    yield from asked_of_marks(kind, rows)
    units = rows.counts("measure")
    unclear = {unit for unit in units if text_of(unit) not in sizes}
    if unclear and "factor" not in rows.columns:
        own = rows.sheet.columns["measure"].name
        yield question("unknown size", kind, own, units, unclear)


def question(
    code: str, kind: str, column: str, values: Mapping[Cell, int], unclear: set[Cell]
) -> Remark:
    """Returns a question about the unclear values of a column. The first one is the most frequent."""
    counts = {value: values[value] for value in unclear}
    first = max(counts, key=lambda value: (counts[value], str(value)))
    facts = {"column": column, "kind": kind, "values": named_values(counts)}
    return Remark(code, {**facts, "first": text_of(first)})
