"""Reads amounts as people write them: the one parser of numbers, shares, money and times, whatever their role.

All cells of a column together decide its decimal sign.

A cell that could mean two things is rejected, never guessed: 1,234 is read only if its column has a number such as 0.05
or 1,234,567, which has one reading alone, or if the sign is stated.
"""
from __future__ import annotations

import functools
import re
from abc import ABC, abstractmethod
from collections.abc import Collection, Hashable, Iterable, Mapping
from fractions import Fraction
from typing import Any, Generic, NamedTuple, Self, TypeVar

from ..errors import Refused
from ..money import MOST_DECIMALS, MOST_DIGITS, exact
from ..toml import documents
from .cells import HEADINGS, Cell, Shown, Unreadable, plain_name, shown

DECIMALS = (".", ",")
# Between groups of three digits: blanks (also no-break, thin and narrow no-break), apostrophes, and the other sign.
GROUPS = " \u00a0\u2009\u202f'\u2019"
# Before a number below 0. Japanese accounts have triangles.
MINUS = "-\u2212\u25b2\u25b3"
# A text of more letters is no number.
MOST_LETTERS = 60
NAMES = {".": "the point", ",": "the comma"}
# The unit of a word, that of shares in percent, and that of items.
UNITS: dict[str, str] = {
    word: unit for unit, words in HEADINGS["units"].items() for word in words
}
PERCENT, ITEM = "percent", "item"
# Signs and codes of money stand before or behind an amount. A sign may stand for a code.
SIGNS: dict[str, str] = dict(HEADINGS["money"]["signs"])
CODES: list[str] = HEADINGS["money"]["codes"]
CURRENCY = "|".join(map(re.escape, [*SIGNS, *CODES]))
# An amount: at most one sign, its digits, and a currency or a unit.
SHELL = re.compile(
    rf"(?P<first>[{MINUS}+]?)\s*(?P<before>{CURRENCY})?\s*(?P<second>[{MINUS}+]?)\s*(?P<digits>[0-9].*[0-9]|[0-9])"
    rf"(?P<last>-?)\s*(?:(?P<behind>{CURRENCY})|(?P<unit>%|(?:[^\W\d_]+\.?)?))"
)
# An amount below 0 in parentheses, perhaps with its currency outside.
WRAPPED = re.compile(
    r"(?P<before>[^()0-9]*)\((?P<inside>[^()]*)\)(?P<behind>[^()0-9]*)"
)
# The digits of a number by its decimal sign.
FORMS = {
    sign: re.compile(
        rf"(?P<whole>[0-9]+|[1-9][0-9]{{0,2}}(?P<group>[{other}{GROUPS}])[0-9]{{3}}(?:(?P=group)[0-9]{{3}})*)"
        rf"(?:{re.escape(sign)}(?P<part>[0-9]+))?"
    )
    for sign, other in ((".", ","), (",", "."))
}
# Kinds of numbers: the code of an empty cell, none if that is 0, and the codes of what a number must not be beside too long.
KINDS = {
    "number": ("no amount",),
    "money": ("no amount", "below 0", "decimals"),
    "cost": ("no amount", "below 0", "decimals", "zero"),
    "items": ("no amount", "no whole items"),
    "whole": ("no quantity", "not whole"),
    "sales": ("no quantity", "not whole", "negative sale"),
    "returns": ("", "not whole", "negative"),
    "owed": ("", "below 0"),
    "on order": ("no amount", "below 0"),
    "share": ("no amount", "no share"),
    "stated": ("no amount", "below 0"),
}

# The kinds of the amounts of each table, by role.
AMOUNTS: dict[str, dict[str, str]] = {
    "demand": {"quantity": "whole", "returned": "returns"},
    "items": {
        "setup": "money",
        "holding": "cost",
        "backlog": "cost",
        "fill": "share",
        "no_shortage": "share",
        "s": "items",
        "S": "items",
        "stock": "number",
        "price": "money",
        "price_for": "cost",
        "order_min": "money",
        "pack": "items",
        "s_min": "items",
        "supplier_min": "money",
        "override_s": "items",
        "override_S": "items",
    },
    "orders": {},
    "stock": {"stock": "number", "owed": "owed", "factor": "cost"},
    "on_order": {
        "quantity": "on order",
        "ordered": "on order",
        "received": "owed",
        "cancelled": "owed",
        "factor": "cost",
    },
    "placed": {"quantity": "on order", "factor": "cost"},
    "quantities": {"quantity": "number"},
    "overrides": {"s": "items", "S": "items"},
    "out_of_stock": {},
    "laws": {
        "value": "stated",
        "chance": "stated",
        "weight": "items",
        "mean": "stated",
        "variance": "stated",
        "deviation": "stated",
        "quantile": "share",
    },
}


class ReadAmount(NamedTuple):
    """What a text says by one reading: a number, the sign between its thousands, its decimal sign, its currency and its
    unit, each empty if it has none. The unit is one of headings.toml, or the word that stands for none.
    """

    number: Fraction
    group: str = ""
    decimal: str = ""
    currency: str = ""
    unit: str = ""

    @property
    def text(self) -> str:
        """Returns the number with its unit, for a reader."""
        number = f"{float(self.number):.15g}"
        return (
            f"{number}%" if self.unit == PERCENT else f"{number} {self.unit}".rstrip()
        )


# Each text is asked for twice: for the sign of its column, and when it is read.
@functools.lru_cache(1 << 14)
def amounts_of(text: str) -> Mapping[str, ReadAmount]:
    """Returns the amounts that a text may be, by decimal sign. One that needs no decimal sign is the same by both."""
    if len(text) > MOST_LETTERS:
        return {}
    parts = WRAPPED.fullmatch(text)
    if parts:
        text = f"{parts['before']}-{parts['inside'].strip()}{parts['behind']}"
    shell = SHELL.fullmatch(text)
    if shell is None or shell["before"] and (shell["behind"] or shell["unit"]):
        return {}
    signs = shell["first"] + shell["second"] + shell["last"]
    if len(signs) > 1:
        return {}
    currency = shell["before"] or shell["behind"] or ""
    currency = SIGNS.get(currency, currency)
    word = shell["unit"]
    unit = UNITS.get(plain_name(word), word) if word else ""
    amounts = dict[str, ReadAmount]()
    for sign, form in FORMS.items():
        digits = form.fullmatch(shell["digits"])
        if digits:
            part = digits["part"] or ""
            whole = re.sub("[^0-9]", "", digits["whole"])
            number = Fraction(int(whole + part), 10 ** len(part))
            if signs and signs in MINUS:
                number = -number
            group = digits["group"] or ""
            amounts[sign] = ReadAmount(number, group, sign * bool(part), currency, unit)
    return amounts


Reading = TypeVar("Reading", bound=Hashable)


class ColumnReader(ABC, Generic[Reading]):
    """Decides between the readings of the cells of a column. `sides` has the first text for each decimal sign that has
    readings by this sign alone."""

    none = "no number"  # the code of a text without a reading

    def __init__(self, stated: str | None = None) -> None:
        self.stated = stated
        self.sides = dict[str, str]()

    @abstractmethod
    def readings(self, text: str) -> Mapping[str, Collection[Reading]]:
        """Returns the readings of a text by each decimal sign."""

    @abstractmethod
    def plain(self, number: Fraction) -> Reading:
        """Returns the reading of a number."""

    @abstractmethod
    def named(self, reading: Reading) -> tuple[Fraction, str]:
        """Returns how large a reading is, and its text for a reader."""

    def look(self, cells: Iterable[Cell]) -> Self:
        """Looks at cells of the column for its decimal sign, which a number of a workbook has not. Returns itself."""
        for cell in cells:
            if not isinstance(cell, (str, Shown)) or str(cell).isdecimal():
                continue
            text, by_sign = str(cell), self.by_sign(cell)
            self.see(text, by_sign)
            signs = "".join(filter(by_sign.get, by_sign))
            if self.stated is None and len(signs) == 1 and {*DECIMALS} & {*text}:
                self.sides.setdefault(signs, text)
        return self

    def see(self, text: str, by_sign: Mapping[str, Collection[Reading]]) -> None:
        """Keeps what else a text says of the column."""

    @property
    def sign(self) -> str | None:
        """Returns the decimal sign: the stated one, or the only one that the column has; None if it is not known."""
        return self.stated or (next(iter(self.sides)) if len(self.sides) == 1 else None)

    def by_sign(self, cell: str | Shown) -> Mapping[str, Collection[Reading]]:
        """Returns the readings of a text by each decimal sign; those of a number of a workbook are by no sign."""
        if isinstance(cell, str):
            return self.readings(cell)
        return {"": self.readings(str(cell))["."]}

    def read(self, cell: Cell) -> Reading:
        """Returns the one reading of a cell that is not empty. Raises Unreadable."""
        if not isinstance(cell, (str, Shown)):
            number = exact(cell)
            if number is None:
                raise Unreadable(self.none, cell)
            return self.plain(number)
        text, by_sign = str(cell), self.by_sign(cell)
        readings = joined(by_sign)
        sign = self.sign if len(readings) > 1 else self.stated
        fitting = [*by_sign.get(sign or "", readings)]
        if len(fitting) == 1:
            return fitting[0]
        if fitting:
            raise self.doubt(text, fitting)
        if self.stated and readings:
            other = next(filter(by_sign.get, by_sign))
            raise Unreadable("no number by this sign", text, other=other)
        raise Unreadable(self.none, text, other="")

    def doubt(self, text: str, found: Collection[Reading]) -> Unreadable:
        """Returns what is said of a text with several readings."""
        signs = " and ".join(repr(shown(side)) for side in self.sides.values())
        named = sorted(map(self.named, found), reverse=True)
        readings = " or ".join(name for _, name in named)
        code = "two signs" if signs else "two readings"
        return Unreadable(code, text, readings=readings, signs=signs)


def joined(by_sign: Mapping[str, Collection[Reading]]) -> list[Reading]:
    """Returns all readings of a text once."""
    return [*dict.fromkeys(reading for found in by_sign.values() for reading in found)]


class AmountReader(ColumnReader[ReadAmount]):
    """Reads the amounts of a column: texts, or numbers as a sheet stores them. `currencies` has the first text of each
    currency, and is shared by all columns of money; columns without it have no currency. A column that counts items may
    have a word for these behind its numbers, as `45 pcs`."""

    def __init__(
        self,
        stated: str | None = None,
        currencies: dict[str, str] | None = None,
        counts_items: bool = False,
    ) -> None:
        super().__init__(stated)
        self.currencies = currencies
        self.counts_items = counts_items

    def readings(self, text: str) -> Mapping[str, Collection[ReadAmount]]:
        found = amounts_of(text)
        return {sign: [*filter(None, [found.get(sign)])] for sign in DECIMALS}

    def by_sign(self, cell: str | Shown) -> Mapping[str, Collection[ReadAmount]]:
        """Returns no reading of a number of a workbook whose format shows another sign than it has."""
        found = super().by_sign(cell)
        if isinstance(cell, str):
            return found
        number = Fraction(cell.digits)
        return {"": [it for it in found[""] if it.number == number]}

    def plain(self, number: Fraction) -> ReadAmount:
        return ReadAmount(number)

    def named(self, reading: ReadAmount) -> tuple[Fraction, str]:
        return abs(reading.number), reading.text

    def see(self, text: str, by_sign: Mapping[str, Collection[ReadAmount]]) -> None:
        for amount in joined(by_sign):
            if amount.currency and self.currencies is not None:
                self.currencies.setdefault(amount.currency, text)

    def amount(self, cell: Cell) -> ReadAmount:
        """Returns the amount of a cell that is not empty. Raises Unreadable."""
        # Most amounts are plain digits, which need no pattern.
        if isinstance(cell, str) and cell.isascii() and cell.isdecimal():
            if len(cell) <= MOST_LETTERS:
                return ReadAmount(Fraction(int(cell)))
        amount = self.read(cell)
        if amount.currency and self.currencies is None:
            raise Unreadable(self.none, cell)
        return amount

    def number(
        self, cell: Cell, kind: str = "number", unit: str | None = None
    ) -> Fraction:
        """Returns the number of a cell, which is of a kind of KINDS. In a column of chances and the like, which has a unit, it
        is in percent if that or the cell says so. What such numbers add up to, or are between, shows one that is written
        otherwise. Raises Unreadable."""
        if_empty, *_ = KINDS[kind]
        if cell == "" and if_empty:
            raise Unreadable(if_empty)
        amount = ReadAmount(Fraction(0)) if cell == "" else self.amount(cell)
        number, own = amount.number, ITEM * self.counts_items
        if unit is not None:
            own = PERCENT
            number /= 100 if PERCENT in (amount.unit, unit) else 1
        if amount.unit not in ("", own):
            raise Unreadable(self.none, cell)
        return checked(number, kind, cell)

    def known(self, cell: Cell) -> Fraction | None:
        """Returns the number of a cell; None if it has none."""
        try:
            return None if cell == "" else self.number(cell)
        except Unreadable:
            return None

    def share(self, cell: Cell, unit: str, role: str) -> Fraction:
        """Returns a share above 0, of a column in shares or in percent. Raises Unreadable."""
        if cell == "":
            raise Unreadable("no amount")
        share = share_in(self.amount(cell), unit, cell, role)
        return checked(share, AMOUNTS["items"][role], cell)


def meets(number: Fraction, code: str) -> bool:
    """Returns whether a number is none of which a code says what is wrong."""
    match code:
        case "digits":
            return bool(abs(number.numerator) < 10**MOST_DIGITS * number.denominator)
        case "not whole":
            return number.denominator == 1
        case "decimals":
            return bool(10**MOST_DECIMALS % number.denominator == 0)
        case "no whole items":
            return number >= 0 and number.denominator == 1
        case "zero":
            return number != 0
        case "no share":
            return 0 < number < 1
    return number.numerator >= 0


def checked(number: Fraction, kind: str, cell: Cell) -> Fraction:
    """Returns a number that meets the rules of its kind. Raises Unreadable."""
    for code in ("digits", *KINDS[kind][1:]):
        if not meets(number, code):
            raise Unreadable(code, cell, digits=MOST_DIGITS, decimals=MOST_DECIMALS)
    return number


def share_in(amount: ReadAmount, unit: str, cell: object, role: str) -> Fraction:
    """Returns the share that an amount is, in shares or in percent if no % stands behind it. Raises Unreadable for one
    that may be either, with both."""
    if amount.unit == PERCENT:
        return amount.number / 100
    if amount.unit or amount.currency:
        raise Unreadable("no share", cell)
    number = amount.number
    if unit == PERCENT:
        if 0 < number < 1:
            percent = f"{float(100 * number):.15g}"
            facts = {"number": amount.text, "percent": percent, "role": role}
            raise Unreadable("small percent", cell, **facts)
        return number / 100
    if number >= 1:
        raise Unreadable("large share", cell, number=amount.text, role=role)
    return number


def amount_in(value: Any) -> ReadAmount:
    """Returns the amount that a word, a key or an argument states: a number, or a text such as "12,50". Raises Unreadable,
    and Refused for a text with two readings."""
    try:
        return AmountReader(None, {}).amount(
            getattr(value, "spelt", value) if isinstance(value, float) else value
        )
    except Unreadable as why:
        if why.remark.code != "two readings":
            raise
        raise Refused(
            f"{documents.shown(value)} may be {why.remark.facts['readings']}",
            "write it without a sign between thousands",
        ) from why


def amount_of(value: Any) -> Fraction:
    """Returns an amount of money from 0, exactly. Raises Refused for anything else."""
    try:
        amount = amount_in(value)
        if not amount.unit and not amount.currency:
            return checked(amount.number, "money", value)
    except Unreadable:
        pass
    raise Refused(
        f"{documents.shown(value)} is no cost",
        f"write 0 or more, as 12.50, with at most {MOST_DECIMALS} decimals",
    )


def share_of(value: Any) -> Fraction:
    """Returns a share between 0 and 1, such as "20%", "0.2" or 0.2, exactly. Raises Refused for anything else; a number
    from 1 on, which may be in percent, with both readings."""
    try:
        amount = amount_in(value)
        share = share_in(amount, "share", value, "")
        if 0 < share < 1:
            return share
    except Unreadable as why:
        if why.remark.code == "large share":
            raise Refused(
                f"{documents.shown(value)} may be {amount.text}% or {amount.text} as a share",
                f"write {amount.text}% or {float(amount.number / 100):g}",
            ) from why
    raise Refused(f"{documents.shown(value)} is no share", "write 2% or 0.02")
