"""Makes of a number that a workbook stores the cell that its reader sees.

The number stays the stored one, written in full: no format rounds it or puts a sign between its thousands. What its
format shows beside it is applied: a percent, a currency, a unit or other words, leading zeros, and that it is a date.
Source: ECMA-376, Office Open XML File Formats, Part 1, 18.8.31, numFmts.
"""
from __future__ import annotations

import datetime
import operator
import re
from collections.abc import Iterable, Sequence
from decimal import Decimal

from .amounts import MINUS
from .cells import Cell, Shown

CellNumber = int | float
# The digits that Excel keeps of a number. What stands behind them comes from its arithmetic.
DIGITS = 15
# The parts of a format: a text in quotes, a letter behind a backslash, what is in brackets, a blank as wide as a letter,
# a letter that fills the cell, dashes in place of decimals (`12.-`), the plain form, a half of a day, an exponent, and a
# letter.
PART = re.compile(
    r'"(?P<quoted>[^"]*)"?|\\(?P<escaped>.)|\[(?P<bracket>[^\]]*)\]|_.|\*.|\.-+|(?P<plain>General)|AM/PM|A/P|'
    r"(?P<power>E[+-])|(?P<letter>.)",
    re.IGNORECASE | re.DOTALL,
)
CURRENCY = re.compile(r"\$([^-]*)(?:-.*)?", re.DOTALL)
ELAPSED = re.compile("h+|m+|s+", re.IGNORECASE)
CONDITION = re.compile(r"(<=|>=|<>|<|>|=) *(-?[0-9]+(?:\.[0-9]+)?)")
COMPARED = {
    "<=": operator.le,
    ">=": operator.ge,
    "<>": operator.ne,
    "<": operator.lt,
    ">": operator.gt,
    "=": operator.eq,
}
# What says in a section for amounts below 0, or for 0, that they are.
SIGNS = str.maketrans("", "", f"{MINUS}()")
# What Excel shows of a number that is no date.
PLACES = "0#?"  # letters that stand for a digit
NO_DATE, ZERO_DATE = "########", "1900-01-00"
LAST_DAY = 2_958_465  # 9999-12-31
MINUTES = 24 * 60


class Section:
    """A section of a format: what it shows before and behind the digits, by which the number is multiplied, the least
    digits of a whole number (`zeros`), its `places` with the letters between, whether it has digits at all, and whether
    it is of a date, or of a time of day alone."""

    def __init__(self, parts: Iterable[re.Match[str]], is_first: bool) -> None:
        """Reads the parts in turn. The first section is for all amounts, the others are for those below 0 and for 0."""
        self.before = self.behind = ""
        self.places = ""  # a letter for each digit, with the letters between
        self.has_letters = False  # between digits
        self.dates = ""
        self.percents = self.commas = 0
        self.has_digits = self.is_plain = self.has_point = False
        self.condition: tuple[str, Decimal] | None = None
        # Whether a reader sees of a number below 0 that it is.
        self.shows_sign = is_first
        for part in parts:
            self._read(part)
        if not is_first:
            before, behind = self.before, self.behind
            self.before = before.translate(SIGNS)
            self.behind = behind.translate(SIGNS)
            self.shows_sign |= (before, behind) != (self.before, self.behind)
        # Who sees 12 for 12,000 may take it for either.
        self.behind = (self.behind or " thousand" * self.commas).rstrip()
        self.before = self.before.lstrip()
        self.factor = Decimal(100) ** self.percents / Decimal(1000) ** self.commas
        self.zeros = 0 if self.is_plain else self.places.count("0")
        if self.is_plain or not self.has_letters:
            self.places = ""
        self.is_time = {*"hs"} & {*self.dates} and not {*"dy"} & {*self.dates}

    def _read(self, part: re.Match[str]) -> None:
        if part["bracket"] is not None:
            self._read_bracket(part["bracket"])
        elif part["quoted"] is not None or part["escaped"]:
            self._show(part["quoted"] or part["escaped"] or "")
        elif part["plain"]:
            self._place("")
            self.is_plain = True
        elif part["power"]:
            self.is_plain = True
        elif part["letter"]:
            self._read_letter(part["letter"])

    def _read_bracket(self, text: str) -> None:
        currency = CURRENCY.fullmatch(text)
        condition = CONDITION.fullmatch(text)
        if currency:
            self._show(currency[1])
        elif condition:
            self.condition = condition[1], Decimal(condition[2])
            self.shows_sign = True
        elif ELAPSED.fullmatch(text):
            self.dates += "s"
        else:
            self.shows_sign = True  # by a colour

    def _read_letter(self, letter: str) -> None:
        if letter in PLACES:
            self._place(letter)
        elif letter.lower() in "dmyhs":
            self.dates += letter.lower()
        elif letter == "%":
            self.percents += 1
            self._show(letter)
        elif letter == "," and self.has_digits:
            self.commas += 1
        elif letter == "." and (self.has_digits or not self.before):
            self.has_point = True
        elif letter == "/" and self.has_digits:
            self.is_plain = True
        elif letter != "@":
            self._show(letter)

    def _place(self, letter: str) -> None:
        """Takes a place of a digit. Letters behind the last one stand between digits."""
        self.is_plain |= self.commas > 0 or self.has_point
        self.places += self.behind + letter
        self.has_letters |= self.behind.strip() != ""
        self.behind = ""
        self.commas = 0
        self.has_digits = True

    def _show(self, text: str) -> None:
        if self.has_digits:
            self.behind += text
        else:
            self.before += text

    def holds_for(self, number: CellNumber) -> bool:
        """Returns whether the section is for a number, by its condition."""
        if self.condition is None:
            return True
        sign, other = self.condition
        return bool(COMPARED[sign](Decimal(repr(number)), other))


def sections_of(code: str) -> list[Section]:
    """Returns the sections of a format by its code, at most three: for all amounts or those above 0, for those below 0,
    and for 0."""
    parts: list[list[re.Match[str]]] = [[]]
    for part in PART.finditer(code):
        if part["letter"] == ";":
            parts.append([])
        else:
            parts[-1].append(part)
    # The fourth section is for texts.
    return [Section(own, not place) for place, own in enumerate(parts[:3])]


def number_of(text: str) -> CellNumber | str:
    """Returns a number that a workbook stores, as exactly as Excel keeps it; the text itself if it is none."""
    if text.isdecimal():
        return int(text)
    try:
        number = float(text)
    except ValueError:
        return text
    return rounded(number) if number == number else text


def rounded(number: float) -> CellNumber:
    """Returns a number with the digits that Excel keeps, a whole one as such."""
    kept = float(f"{number:.{DIGITS}g}")
    return int(kept) if kept.is_integer() else kept


class Format:
    """A format of numbers."""

    def __init__(self, code: str, epoch: datetime.datetime) -> None:
        """Takes its code, and the day from which the workbook counts days."""
        self.sections = sections_of(code)
        self.epoch = epoch

    def cell(self, number: CellNumber) -> Cell:
        """Returns what a reader sees of a number: a date, the number, the number with what is shown beside it, or a text
        if it has leading zeros, or shows no digit. One below 0 whose sign is not shown has both readings.
        """
        section = self._section(number)
        if section.dates:
            return self._date(number, section)
        if not section.has_digits:
            return section.before or number
        value = number
        if section.factor != 1:
            value = rounded(float(Decimal(repr(number)) * section.factor))
        if value < 0 and not section.shows_sign:
            seen = f"{section.behind} shown as {spelt(abs(value))}"
            return Shown(section.before, spelt(value), seen)
        digits = padded(value, section)
        if digits:
            return f"{section.before}{digits}{section.behind}"
        if not section.before and not section.behind:
            return value
        return Shown(section.before, spelt(value), section.behind)

    def _section(self, number: CellNumber) -> Section:
        if any(section.condition for section in self.sections):
            fitting = (part for part in self.sections if part.holds_for(number))
            return next(fitting, self.sections[-1])
        place = 1 if number < 0 else 2 * (number == 0)
        return self.sections[place] if place < len(self.sections) else self.sections[0]

    def _date(self, number: CellNumber, section: Section) -> Cell:
        """Returns the date of a number of days; a text if it is none."""
        from openpyxl.utils.datetime import from_excel

        if not 0 <= number <= LAST_DAY:
            return NO_DATE
        if section.is_time:
            minutes = round(number * MINUTES)
            return f"{minutes // 60}:{minutes % 60:02}"
        date = from_excel(number, self.epoch)
        return date.date() if isinstance(date, datetime.datetime) else ZERO_DATE


def spelt(number: CellNumber) -> str:
    """Returns a number in full with the point as its decimal sign."""
    return format(Decimal(repr(number)), "f")


def padded(number: CellNumber, section: Section) -> str:
    """Returns the digits of a whole number with the zeros before it, and the letters between, that a section has; the
    empty text if it has none, or the number is not whole."""
    if not isinstance(number, int) or section.zeros < 2 and not section.places:
        return ""
    own = str(abs(number))
    digits = own.rjust(section.zeros, "0")
    if section.places:
        digits = filled(section.places, digits)
    return "-" * (number < 0) + digits if digits != own else ""


def filled(places: str, digits: str) -> str:
    """Returns digits in their places, from the last one on, with the letters between. The first place has all digits
    that are left."""
    letters = ""
    first = re.search(f"[{PLACES}]", places)
    assert first is not None
    for letter in reversed(places[first.end() :]):
        if letter not in PLACES:
            letters = letter + letters
        elif digits:
            letters = digits[-1] + letters
            digits = digits[:-1]
    return digits + letters


def formats_of(codes: Sequence[str], epoch: datetime.datetime) -> list[Format]:
    """Returns the formats of codes, each of which is read once."""
    known = {code: Format(code, epoch) for code in {*codes}}
    return [known[code] for code in codes]
