"""Finds the heading of a table, its columns and their units, and converts numbers into the unit of their role.

Columns are found by the names that a planner states, else by usual names.

A name that is found is said as a guess. Two columns that could both be meant are refused, never chosen between. Days,
weeks, months and years are of 1, 7, 30.4375 and 365.25 days, so a year has 52.18 weeks.
"""
from __future__ import annotations

from collections.abc import Collection, Mapping, Sequence
from dataclasses import replace
from fractions import Fraction
from typing import TYPE_CHECKING

from ..errors import RefusedFaults
from ..remarks import Remark, Value
from ..table import names_of
from .amounts import AMOUNTS, ITEM, UNITS
from .column_words import Match, drop_units, narrowed, parted, words_of
from .cells import HEADINGS, plain_name
from .law_forms import LAWS, form_faults
from .sources import WIDE_ROLES, SourceColumn, Sheet
from .unit_words import (
    BESIDE,
    CURRENCIES,
    IMPLIED,
    SHARES,
    bare_name,
    counting,
    currency_in_name,
    is_number,
    may_be_thousands,
)
from .wide import NO_WIDE_ROLES, wide_sheet

if TYPE_CHECKING:
    from .items import Reading

# The roles of each table in order, and those that each must have. s and S differ by their case.
ROLES = {kind: ["item", *HEADINGS[kind]] for kind in AMOUNTS}
# Tables whose columns may also have the names of others.
LIKE = {
    "demand": ["today"],
    "stock": ["today"],
    "on_order": ["today"],
    "placed": ["on_order", "today"],
    "quantities": ["placed"],
}
NEEDED = {
    "demand": {"item", "date", "quantity"},
    "items": {"item", "setup", "holding"},
    "orders": {"item", "ordered", "received"},
    "stock": {"item", "stock"},
    "on_order": {"item", "quantity"},
    "placed": {"item", "quantity"},
    "quantities": {"item", "quantity"},
    "overrides": {"item"},
    "out_of_stock": {"item", "from", "to"},
    LAWS: {"item"},
}
# Each needs the other one.
LEVELS = {"s": "S", "S": "s", "override_s": "override_S", "override_S": "override_s"}
# The roles with money, whose decimals say what the smallest unit is.
MONEY = ("setup", "holding", "backlog", "price", "supplier_min")
# Roles that a column has by its whole name alone: others that begin so say something else, as a supplier's lead time or the price in a promotion.
WHOLE_NAMES = {"supplier", "promotion"}
# The year is that of the Julian calendar, and the month its twelfth.
DAYS = {
    "day": Fraction(1),
    "week": Fraction(7),
    "month": Fraction(487, 16),
    "year": Fraction(1461, 4),
}
# What the numbers of a role may count.
COUNTED = HEADINGS["counted"]
ROLE_UNITS = {role: kind for kind, its in COUNTED.items() for role in its["roles"]}
PERIODS, SOLD = HEADINGS["periods"]["date"], HEADINGS["periods"]["sold"]
NAMELESS = HEADINGS["periods"]["nameless"]
WANTED = COUNTED["share"]["roles"]  # shares of demand, or of periods
TIMES = ("length", "span")  # the kinds of roles that count times
MOST_NAME = 100  # letters of the name of a column in a message
# Of more columns than these, the first ones are named.
MOST_LISTED, FIRST_LISTED = 12, 5
NO_ROW = Remark("no row")
# The columns of which there is more to say if there is none.
OWN_ADVICE = "items.setup", "items.holding", "demand.item"
TWO_COLUMNS = "two columns"  # the code of what is said of these
SEVERAL = "several units of a column"  # that of those in a heading that is stated


def counts_items(role: str, column: SourceColumn | None) -> bool:
    """Returns whether the numbers of a column count items one by one."""
    return ROLE_UNITS.get(role) in ("count", "size") and (
        column is None or column.unit in ("", ITEM)
    )


def unit_fault(role: str, unit: str) -> str | None:
    """Returns why the numbers of a role can't be converted from a unit; None if they can."""
    kind = ROLE_UNITS.get(role)
    if kind is None:
        return f"the {role} has no unit"
    counted = COUNTED[kind]
    known = [*counted["units"]]
    may_be_packs = counted["may_be_packs"]
    if unit in known or may_be_packs and unit.isdecimal() and int(unit):
        return None
    if may_be_packs:
        known.append("or a number, as 12 for packs of 12")
    return f"the {role} counts {counted['what']}, and {unit!r} is none of its units: {', '.join(known)}"


def periods_a_year(every: str) -> Fraction:
    """Returns how many days, weeks or months a year has."""
    return DAYS["year"] / DAYS[every]


def conversion(role: str, unit: str, every: str) -> tuple[Fraction, str]:
    """Returns by what the numbers of a role are multiplied, and the words for it. A share is one of a year."""
    kind = ROLE_UNITS.get(role)
    if unit.isdecimal():
        if kind == "price":
            return 1 / Fraction(unit), f"a price for {unit} to items"
        return Fraction(unit), f"packs of {unit} to items"
    if unit in DAYS:
        periods = DAYS[unit] / DAYS[every]
        if kind not in TIMES:
            return 1 / periods, f"money a {unit} to money a {every}"
        placed = ", for orders that are placed on any day" * (kind == "length")
        return periods, f"{unit}s to {every}s{placed}"
    if kind == "size":
        return Fraction(1), "money to items, by their price"
    share = Fraction(1, 100) if unit == "percent" else Fraction(1)
    if kind == "rate":
        words = f"{unit} of the price and year to money an item and {every}"
        return share / periods_a_year(every), words
    return share, f"{unit} to shares"


def factors_of(columns: Mapping[str, SourceColumn], every: str) -> dict[str, Fraction]:
    """Returns by what the numbers of each column with a unit are multiplied, by role."""
    units = {role: column.unit for role, column in columns.items() if column.unit}
    return {role: conversion(role, units[role], every)[0] for role in units}


def is_converted(column: SourceColumn, every: str) -> bool:
    """Returns whether the numbers of a column are converted from its unit."""
    return column.unit not in ("", "period", every)


def converted(column: SourceColumn, role: str, every: str) -> str:
    """Returns how the numbers of a column are converted from its unit."""
    return f"column {column.name!r}: {role}: converted from {conversion(role, column.unit, every)[1]}"


def periods_of(lead: Fraction) -> tuple[int, ...]:
    """Returns the lead times in whole periods of an order that takes so many periods, and may be placed at any time of
    one: as those of dated orders, of which an order takes at least 1."""
    low = int(lead)
    # In sevenths, as the days of a week: so at most 7 lead times stand for one.
    rest = (lead - low).limit_denominator(7)
    leads = [max(1, low)] * (rest.denominator - rest.numerator)
    leads += [low + 1] * rest.numerator
    return tuple(leads) if len({*leads}) > 1 else (leads[0],)


def usual_names(kind: str, role: str) -> list[str]:
    """Returns the usual names of the column of a role in a table: those of all tables, its own, and those of the table that it
    is like."""
    names = list[str]()
    for table in ("all", kind, *LIKE.get(kind, ())):
        names += HEADINGS[table].get(role, ())
    return names


class Finder:
    """Finds the columns of a table in its heading, by the words of a planner and by usual names."""

    def __init__(self, kind: str, words: Reading, is_wide: bool = False) -> None:
        self.kind = kind
        self.every = words.every
        self.is_wide = is_wide
        self.needed = NEEDED[kind] - words.roles
        self.stated = words.columns.get(kind, {})
        self.units = words.units.get(kind, {})
        if is_wide:
            none = dict.fromkeys({*NO_WIDE_ROLES} & {*ROLES[kind]}, "")
            self.stated = {**none, **self.stated, **WIDE_ROLES[kind]}
        more = words.names.get(kind, {})
        self.role_of = dict[str, str]()
        for role in ROLES[kind]:
            own = map(plain_name, more.get(role, ()))
            for name in (*usual_names(kind, role), *own):
                self.role_of.setdefault(name, role)
        self.columns: dict[str, SourceColumn] = {}
        self.wrong: list[Remark] = []

    def _match(self, plain: str) -> Match:
        """Returns the role that a plain name may have, whether it is the very name of one, and the words of it that are not
        known. Else it is the name of the role with a unit, or the longest that it begins with: a minimum order value is
        no minimum order."""
        role = self.role_of.get(plain)
        if role:
            return role, True, []
        role = self.role_of.get(bare_name(plain)[0])
        if role in ROLE_UNITS:
            return role, False, []
        words = plain.split()
        for count in range(len(words) - 1, 0, -1):
            name = " ".join(words[:count])
            # s and S are whole names alone: too many others begin with such a letter.
            if len(name) > 1 and name in self.role_of:
                begun = self.role_of[name]
                unknown = self._unknown(begun, words, count)
                return (begun if role in (None, begun) else None), False, unknown
        return None, False, []

    def usual_role(self, cell: str) -> str | None:
        """Returns the role of which a cell has a usual name."""
        role, _, unknown = self._match(plain_name(cell))
        return None if unknown else role

    @property
    def may_be_wide(self) -> bool:
        """Returns whether a table without a column of dates may have them in its heading."""
        wide = WIDE_ROLES.get(self.kind, {})
        is_stated = any(
            self.stated.get(role, wide[role]) != wide[role] for role in wide
        )
        return bool(wide) and not is_stated and [*wide][0] not in self.columns

    def find(
        self, heading: Sequence[str]
    ) -> tuple[dict[str, SourceColumn], list[Remark]]:
        """Returns the column of each role that the heading has, and what is wrong. Names are compared whole first, for
        all roles, so that no column with the very name of one role goes to another one.
        """
        self.plain = [*map(plain_name, heading)]
        self.matches = [*map(self._match, self.plain)]
        if self.kind == "on_order":
            self.plain = [" ".join(words_of(name)) for name in heading]
            self.needed = self.needed - {"quantity"} | parted(
                heading, self.matches, self.stated
            )
        if self.kind in LIKE:
            self.matches = [*narrowed(heading, self.matches, AMOUNTS[self.kind])]
        stated, wrong = stated_columns(heading, self.stated)
        self.wrong = [remark for remark in wrong if remark.code != SEVERAL]
        for role, column in stated.items():
            self._add(role, column)
        for role in NO_WIDE_ROLES if self.is_wide else ():
            if self.stated.get(role):
                self._refuse("no role of a wide table", role)
        for role in ROLES[self.kind]:
            if not self.stated.get(role):
                self._find(role, heading)
        if self.kind in LIKE:
            is_mixed = drop_units(self.columns, AMOUNTS[self.kind])
            if is_mixed and self.kind == "on_order":
                self._refuse("other units", "quantity")
        return self.columns, self.wrong

    def _find(self, role: str, heading: Sequence[str]) -> None:
        """Adds the column that has a role, or says what is wrong. One that is stated as none is not looked for."""
        places, unclear = ([], {}) if role in self.stated else self._places(role)
        if not (places or unclear or role in self.stated):
            places = self._others(role)
        elif places and (self.kind, role) == ("demand", "date"):
            # Which of the days of a sale is that of the demand is not known.
            places = sorted({*places, *self._named(SOLD)})
        if len(places) > 1:
            names = " and ".join(repr(heading[place]) for place in places)
            self._refuse(TWO_COLUMNS, role, names=names)
        elif places:
            self._add(role, SourceColumn(heading[places[0]], places[0], True))
        elif unclear:
            for place, words in unclear.items():
                unknown = ", ".join(map(repr, words))
                self._refuse("unknown words", role, name=heading[place], words=unknown)
        elif role in self.needed or role not in self.stated and self._has_other(role):
            own = f" of {role}" * (f"{self.kind}.{role}" in OWN_ADVICE)
            code = "no column" + (" of a level" if role in LEVELS else own)
            facts = {"kind": self.kind, "other": LEVELS.get(role, "")}
            self._refuse(code, role, columns=listed(heading), **facts)

    def _others(self, role: str) -> list[int]:
        """Returns the places of the columns that have a role if no column has one of its names: dates that are named by
        their periods, and the only column of a wide table that has none, if its name says nothing.
        """
        if role == "date":
            return self._named((*PERIODS, *SOLD))
        own = self.plain[: -len(WIDE_ROLES[self.kind]) - 1] if self.is_wide else []
        return [0] if role == "item" and len(own) == 1 and own[0] in NAMELESS else []

    def _named(self, names: Collection[str]) -> list[int]:
        """Returns the places of the columns with one of these plain names."""
        return [place for place, name in enumerate(self.plain) if name in names]

    def _has_other(self, role: str) -> bool:
        """Returns whether a role is s or S, and there is a column of the other one."""
        other = LEVELS.get(role)
        if other is None or other in self.columns:
            return other is not None
        return other not in self.stated and self._places(other)[0] != []

    def _refuse(self, code: str, role: str, **facts: Value) -> None:
        own = {"role": role, "place": f"{self.kind}.{role}", "every": self.every}
        self.wrong.append(Remark(code, {**own, **facts}))

    def _places(self, role: str) -> tuple[list[int], dict[int, list[str]]]:
        """Returns the places of the columns that have a role, and those that may have it, each with what is not known
        behind its name. A column has one by its very name; if none has, by its name with a unit, or with words behind it
        that are known. No other role has it, nor its very name."""
        taken = {column.place for column in self.columns.values()}
        exact = list[int]()
        near = list[int]()
        unclear = dict[int, list[str]]()
        for place, (own, is_exact, unknown) in enumerate(self.matches):
            if place in taken or own != role:
                continue
            if unknown:
                unclear[place] = unknown
            else:
                (exact if is_exact else near).append(place)
        return (exact, {}) if exact or role in WHOLE_NAMES else (near, unclear)

    def _unknown(self, role: str, words: Sequence[str], first: int) -> list[str]:
        """Returns the words of a name, from a place on, that may not stand behind a name of a role. A description may have
        any."""
        if role == "description":
            return []
        has_unit = role in ROLE_UNITS or role in MONEY
        known = {*BESIDE, *HEADINGS["behind"].get(role, ())}
        if has_unit:
            known |= UNITS.keys() | CURRENCIES.keys()
        unknown = list[str]()
        for place, word in enumerate(words):
            is_known = word in known or has_unit and is_number(words, place)
            is_known &= word not in BESIDE or place < len(words) - 1
            if place >= first and not is_known:
                unknown.append(word)
        return unknown

    def _unit(self, role: str, column: SourceColumn, currency: str) -> str:
        """Returns the unit that the heading of a column says beside the name of its role, perhaps empty, and says what is
        wrong if it says several."""
        plain = self.plain[column.place]
        kind = ROLE_UNITS.get(role)
        if kind is None and role not in MONEY:
            return ""
        names = [name for name, own in self.role_of.items() if own == role]
        begun = [name for name in names if f"{plain} ".startswith(f"{name} ")]
        name = max(begun, key=len, default="")
        bare, units = bare_name(plain.removeprefix(name))
        implied = IMPLIED.get(name or bare)
        if implied and (implied in SHARES or not units):
            units.setdefault(implied, name or bare)
        left = counting(units)
        if currency and (left.keys() & SHARES or kind == "size" and left):
            left[currency] = currency
        facts = {"name": column.name, "number": min(left, default="")}
        if len(left) > 1:
            said = " and ".join(map(repr, left.values()))
            self._refuse("several units", role, units=said, **facts)
            return ""
        if kind == "price" and may_be_thousands(plain, units):
            self._refuse("thousands or items", role, **facts)
        if currency and role not in MONEY:
            return "money" if kind == "size" else currency
        return next(iter(left), "")

    def _add(self, role: str, column: SourceColumn) -> None:
        """Adds the column of a role with its unit: the stated one, else that of its heading; and with the currency that
        this says."""
        stated = self.units.get(role)
        kind = ROLE_UNITS.get(role)
        is_money = role in MONEY
        currency = currency_in_name(column.name) * (kind is not None or is_money)
        unit = stated or self._unit(role, column, currency)
        reason = unit_fault(role, unit) if unit else None
        if reason:
            self._refuse(
                "wrong unit" if stated else "wrong unit in the heading",
                role,
                unit=unit,
                why=reason,
                name=column.name,
            )
        if kind == "rate" and not unit and self.every != "week":
            self._refuse("no unit", role, name=column.name)
        own = {ITEM, "period", "order", self.every}
        is_own = unit in own or role in WANTED and unit == "share"
        if kind == "flow" and unit in DAYS and not is_own:
            self._refuse("other time of a column", role, unit=unit, name=column.name)
        self.columns[role] = replace(
            column,
            unit=unit * (kind in TIMES or not is_own),
            counts=unit,
            currency=currency * is_money,
        )


def listed(heading: Sequence[str]) -> str:
    """Returns the names of columns as one text: of many, the first ones, and how many there are more."""
    names = [name[:MOST_NAME] for name in heading if name]
    return names_of(names, FIRST_LISTED if len(names) > MOST_LISTED else MOST_LISTED)


def stated_columns(
    heading: Sequence[str], names: Mapping[str, str]
) -> tuple[dict[str, SourceColumn], list[Remark]]:
    """Returns the columns that are stated for roles, and what is wrong with those that a heading doesn't have once. A
    heading may name packs of so many items, and a time of lead times, beside another word. Other units are the item's own,
    as kilograms.
    """
    columns = dict[str, SourceColumn]()
    wrong = list[Remark]()
    for role, name in names.items():
        count = heading.count(name)
        if name and count != 1:
            facts = {"name": name, "role": role, "columns": listed(heading)}
            wrong.append(Remark("same columns" if count else "no stated column", facts))
        elif name:
            bare, units = bare_name(plain_name(name))
            kind = ROLE_UNITS.get(role)
            known = {*units} & DAYS.keys() if bare and kind in TIMES else set()
            if kind in ("count", "size"):
                known = {*filter(str.isdecimal, units)}
            if len(known) > 1:
                said = " and ".join(repr(units[unit]) for unit in sorted(known))
                wrong.append(Remark(SEVERAL, {"name": name, "units": said}))
            unit = next(iter(known), "")
            columns[role] = SourceColumn(name, heading.index(name), unit=unit)
    return columns, wrong


def columns_in(kind: str, sheet: Sheet, words: Reading) -> tuple[Sheet, list[Remark]]:
    """Finds the heading of a table of a catalogue, and returns the table with its columns, as rows if it is a wide one, and
    what is wrong with them."""
    finder = Finder(kind, words)
    sheet.find_heading([*filter(None, finder.stated.values())], finder.usual_role)
    sheet.columns, wrong = {}, [NO_ROW]
    if sheet.heading:
        sheet.columns, wrong = finder.find(sheet.heading)
    wide = wide_sheet(sheet) if finder.may_be_wide else None
    if wide:
        sheet = wide
        sheet.columns, wrong = Finder(kind, words, is_wide=True).find(sheet.heading)
        wide.mark_used()
    if kind == LAWS and not wrong:
        wrong = [*form_faults(sheet.columns)]
    return sheet, wrong


def find_columns(kind: str, sheet: Sheet, words: Reading) -> Sheet:
    """Returns a table of a catalogue with its heading, its columns and its first rows. Raises RefusedFaults with all
    that is wrong with them."""
    if sheet.fault:
        raise RefusedFaults([sheet.fault])
    sheet, wrong = columns_in(kind, sheet, words)
    if wrong:
        raise RefusedFaults([*map(sheet.fault_of, wrong)])
    return sheet
