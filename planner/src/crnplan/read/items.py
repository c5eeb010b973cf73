"""Says how the files of a catalogue are read, and what is left out of them: what became of their rows and items."""
from __future__ import annotations

from collections.abc import Callable, Collection, Mapping, Sequence
from dataclasses import dataclass
from fractions import Fraction
from functools import partial
from typing import Any, TypedDict

from ..errors import Refused
from ..formats import MOST_WEIGHT
from ..remarks import Remark
from ..toml.documents import shown
from ..vocabulary import (
    DATE,
    PAIRS,
    TEXTS,
    YES,
    Kind,
    Read,
    by_name,
    choice,
    documented,
    entries,
    entry_name,
    named,
    near,
    numbers,
    read_text,
    several,
    table_in,
    word,
)
from .marks import conditions_in
from .columns import ROLES, unit_fault
from .dates import EVERY
from .defaults import KEEP, LEAVE_OUT, Defaults
from .leads import LEAD_FROM, RECEIPTS
from .observed import Day, day_of
from .sources import DECIMAL, DELIMITER, ENCODING, Rules
from .status import AS_STATED, BY_TEST, MEANINGS

OUTSIDE = (
    "before start",
    "far before",
    "after end",
    "late date",
)  # what is wrong with a date outside the record


@dataclass(frozen=True)
class Reject:
    """What is left out, or only named: a row, an item with its rows of demand, or a row that is suspicious. `remark`
    says why, `rows` how many rows of demand are left out, and `value` what the stock of an item is worth, if that is
    known."""

    kind: str
    file: str
    line: int
    item: str
    column: str
    text: str
    remark: Remark
    rows: int
    value: Fraction | None = None


def by_place(
    read: Callable[[str, Any], Any],
    type: str,
    metavar: str,
    roles: Mapping[str, Collection[str]] = ROLES,
    what: str = "column",
) -> Kind:
    """Returns the kind of values by table and role, or by FILE.ROLE, each of which is read with its role."""

    def roles_of(file: str) -> Collection[str]:
        if file not in ROLES:
            raise Refused("there is no such table", near(file, ROLES))
        return roles[file]

    def of_role(file: str, role: str, value: Any) -> Any:
        if role not in roles_of(file):
            raise Refused(f"there is no such {what}", near(role, roles[file]))
        return read(role, value)

    def of_file(file: str, values: Any) -> dict[str, Any]:
        roles_of(file)
        own = table_in(values)
        return entries({role: partial(of_role, file, role, own[role]) for role in own})

    def read_all(value: Any) -> dict[str, dict[str, Any]]:
        reads = dict[Any, Callable[[], Any]]()
        for name, part in table_in(value, is_place=True).items():
            file, _, role = entry_name(name).partition(".")
            one = partial(of_role, file, role) if role else partial(of_file, file)
            reads[name] = partial(one, part)
        places = dict[str, dict[str, Any]]()
        for name, part in entries(reads).items():
            file, _, role = name.partition(".")
            places.setdefault(file, {}).update({role: part} if role else part)
        return places

    return Kind(read_all, type, metavar, PAIRS)


def unit_of(role: str, value: Any) -> str:
    """Returns the unit that is stated of a column of a role. Raises Refused."""
    unit = entry_name(value)
    reason = unit_fault(role, unit)
    if reason:
        raise Refused(reason, "write a unit of this column")
    return unit


# What may be said of how a single file is written.
WRITTEN: Mapping[str, Read] = {
    "delimiter": DELIMITER.read,
    "encoding": ENCODING.read,
    "decimal": by_name(DECIMAL.read, "", "").read,
    "day_first": by_name(YES.read, "", "").read,
}


KEPT = choice(KEEP, LEAVE_OUT)
DAY = Kind(day_of, "date or str", "DATE", DATE)


@documented
@dataclass(frozen=True, init=False, repr=False)
class Reading(Defaults, Rules):
    """Says how the tables of a catalogue are read, and what masters need not say, for several calls at once.

    Examples
    --------
    >>> reading = crn.Reading(every="week", lead="14 days")
    >>> read = crn.read_catalogue(sales, masters, reading=reading)
    >>> reading
    Reading(every='week', lead='14 days')
    """

    every: str = word(choice(*EVERY), "week", "The period. Weeks are ISO weeks.")
    columns: Mapping[str, Mapping[str, str]] = word(
        by_place(
            lambda role, value: entry_name(value),
            "dict, or texts as 'demand.quantity=Menge'",
            "FILE.ROLE=NAME",
        ),
        {},
        "The name of a column, as demand.quantity=Menge, or items.class= for none. Others are found by usual names.",
        flag="column",
    )
    units: Mapping[str, Mapping[str, str]] = word(
        by_place(unit_of, "dict, or texts as 'items.lead=day'", "FILE.ROLE=UNIT"),
        {},
        "What a column counts, as items.lead=day, items.holding=percent (of the price a year), items.price=100, "
        "demand.quantity=12. Else its heading says it.",
        flag="unit",
    )
    names: Mapping[str, Mapping[str, Sequence[str]]] = word(
        by_place(
            lambda role, value: several(read_text)(value), "dict", "FILE.ROLE=NAME"
        ),
        {},
        'Further usual names of columns by table and role, as {"demand": {"quantity": ["Menge"]}}.',
    )
    start: Day | None = word(
        DAY,
        help="The first day of the record, for all items.",
        flag="from",
        key="from",
    )
    end: Day | None = word(
        DAY, help="The last day of the record, for all items.", flag="to", key="to"
    )
    today: Day | None = word(
        DAY,
        help="The day of reading: rows after it are left out. By default the computer's date.",
        key="",
    )
    net: bool = word(YES, False, "Take quantities below 0 off their period.")
    negate: bool = word(
        YES,
        False,
        "Take quantities with the other sign: issues are below 0, as in SAP. What undoes them is taken off.",
    )
    twice: str | None = word(
        KEPT,
        help="Rows that stand twice; by default they are kept and named, but a file whose rows are all in another one is "
        "refused.",
    )
    far: str = word(KEPT, LEAVE_OUT, "Items with an amount far above all others.")
    least: int = word(numbers(1, MOST_WEIGHT), 13, "The periods that a history needs.")
    lead_from: str = word(
        choice(*LEAD_FROM),
        RECEIPTS,
        "From where lead times are: receipts of orders if an item has 5, else masters (orders); masters if they state one; "
        "or both, where the stated one counts as one receipt more.",
    )
    factors: Mapping[str, int] = word(
        by_name(
            numbers(1, MOST_WEIGHT).read, "dict, or texts as 'KAR=12'", "MEASURE=NUMBER"
        ),
        {},
        "How many items one of a unit of measure is, as KAR=12; each from 1 to 65,536.",
        flag="factor",
    )
    statuses: Mapping[str, str] = word(
        by_name(
            choice(*MEANINGS).read, "dict, or texts as 'Z3=stopped'", "TEXT=MEANING"
        ),
        {},
        "What a text of the masters' column status means, as Z3=stopped: active, phase out or stopped.",
        flag="status",
    )
    stopped: str = word(
        choice(BY_TEST, AS_STATED),
        BY_TEST,
        "Which items are asked for no longer: also those with a record that says so, whatever their status (by-test), or "
        "those whose status says so.",
    )
    written: Mapping[str, Mapping[str, object]] = word(
        by_place(
            lambda name, value: WRITTEN[name](value),
            "dict",
            "FILE.KEY=VALUE",
            dict.fromkeys(ROLES, WRITTEN),
            "key",
        ),
        {},
        "How a single file is written: its delimiter, its encoding, the decimal sign of each of its columns, and by the sign "
        'of its dates whether the day comes first, as {"demand": {"delimiter": ";", "decimal": {"quantity": '
        '","}, "day_first": {"/": True}}}.',
    )
    where: tuple[str, ...] = word(
        Kind(conditions_in, "str, list of str or dict", "COLUMN=VALUE", TEXTS),
        (),
        "Read only rows with this value, as Location=Main, or demand.Location=Main for one file. Of one column each value is "
        "taken; with Location=* all are. The others are counted.",
    )
    is_where_needed: bool = True

    def rules_of(self, kind: str) -> Rules:
        """Returns how the file of a kind is read: as that one is said to be written, else as all are.

        :meta private:
        """
        own = self.written.get(kind, {})
        return Rules(
            delimiter=own.get("delimiter", self.delimiter),
            encoding=own.get("encoding", self.encoding),
            decimal=self.decimal,
            date_formats=self.date_formats,
            every=self.every,
            decimals=own.get("decimal"),
            day_first=own.get("day_first"),
            empty=self.empty,
        )

    def _check(self) -> None:
        super()._check()
        self.leads(self.every)
        self.reviews(self.every)


class Left(Exception):
    """An item that is left out. Its arguments are the table and the line that say why, and what is wrong there."""


class FileCounts(TypedDict):
    """What became of the rows of a file."""

    name: str
    read: int
    blank: int
    used: int
    rejected: int
    with_item: int
    other: int


class Counts(TypedDict):
    """What became of all rows, by the kind of their file, and how many items there are of each kind."""

    files: dict[str, FileCounts]
    items: dict[str, int]
