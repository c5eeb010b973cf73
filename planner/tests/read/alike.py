"""Makes random tables, each in three ways: as CSV as shown, as a workbook with number formats, and as a DataFrame.

A cell has what each of them has: the text that a reader sees, the value that a workbook stores with its format, and a
value of Python, numpy or pandas. No format of these hides a digit. Without a stated decimal sign a column of amounts is
of numbers or of texts, since texts decide its sign and numbers do not.
"""
from __future__ import annotations

import csv
import datetime
import random
from collections.abc import Callable, Mapping
from decimal import Decimal
from pathlib import Path
from typing import Any, NamedTuple, TypeVar

import numpy as np
import pandas as pd
import xlsxwriter

from planner.tests.read.catalogues import MONDAY, TODAY, cases_of

T = TypeVar("T")
CASES = cases_of("alike")
# What a workbook's format shows of a date, as strftime does; what stands before and behind an amount of a currency, and the
# format that shows it.
DATES, SLASHED, MONEY = CASES["dates"], CASES["slashed"], CASES["money"]


class Both(NamedTuple):
    """A cell: its text in CSV, the value of a workbook with its format, and that of a DataFrame."""

    text: str
    stored: Any
    code: str
    framed: Any


Make = Callable[[], Both]
Table = list[list[Both]]


def as_text(text: str) -> Both:
    """Returns a cell that is a text everywhere."""
    return Both(text, text, "@", text)


class Cells:
    """Makes cells by a source of random numbers, with one decimal sign, which may be stated, and one currency."""

    def __init__(self, seed: int) -> None:
        self.source = random.Random(seed)
        self.decimal = self.choose(".", ",")
        self.group = self.choose(*CASES["groups"][self.decimal])
        self.is_stated = self.chance(0.5)
        self.currency = self.choose(*MONEY)
        self.is_typed = True  # of the column that is made

    def choose(self, *choices: T) -> T:
        return self.source.choice(choices)

    def chance(self, share: float) -> bool:
        return self.source.random() < share

    def number(self, least: int, most: int, digits: int = 0) -> Decimal:
        return Decimal(self.source.randint(least, most)).scaleb(-digits)

    def spelt(self, number: Decimal, places: int, is_grouped: bool = False) -> str:
        """Returns a number as it is shown."""
        text = f"{number:{',' * is_grouped}.{places}f}".replace(",", "G")
        return text.replace(".", self.decimal).replace("G", self.group)

    def empty(self, name: str) -> Both:
        """Returns an empty cell. Beside names pandas would take a missing date for a duration, and them too."""
        empties = [None, "", float("nan"), pd.NA] + [pd.NaT] * (name != "item")
        return Both("", None, "General", self.choose(*empties))

    def amount(self, number: Decimal, is_money: bool = False) -> Both:
        """Returns an amount, perhaps with a currency, with signs between thousands, or as a text."""
        digits = max(0, -int(number.as_tuple().exponent))
        # Without a stated sign, three digits behind it may be thousands, and so may signs between these.
        is_grouped = self.is_stated and self.chance(0.4)
        places = digits + self.choose(0, 0, 1, 2)
        places += places == 3 and not self.is_stated
        text = self.spelt(number, places, is_grouped)
        code = "#,##0" if is_grouped else "0"
        code += f".{'0' * places}" if places else ""
        before, behind, pattern = "", "", "{}"
        if is_money:
            other = self.choose(*MONEY)
            currency = self.currency if self.chance(0.98) else other
            before, behind, pattern = self.choose(*MONEY[currency])
        shown, code = f"{before}{text}{behind}", pattern.format(code)
        if number < 0 and self.chance(0.3):
            shown = f"({before}{text.lstrip('-')}{behind})"
            code = f"{code};({code})"
        elif not is_money and not is_grouped and self.chance(0.3):
            shown, code = self.spelt(number, digits), "General"
            shown = shown.rstrip("0").rstrip(self.decimal) if digits else shown
        stored: Any = float(number) if digits else int(number)
        if not self.is_typed or self.is_stated and self.chance(0.2):
            stored, code = shown, "@"
        is_shown = is_money or not self.is_typed
        framed = shown if is_shown else self.framed(number, digits, shown)
        return Both(shown, stored, code, framed)

    def framed(self, number: Decimal, digits: int, text: str) -> Any:
        """Returns a number as a DataFrame may have it; as text only beside a stated decimal sign."""
        ways: list[Any] = [float(number), np.float64(number), number]
        if not digits:
            ways += [int(number), np.int64(int(number))]
        if digits <= 2 and abs(number) < 1000:
            ways.append(np.float32(float(number)))
        return self.choose(*ways, *[text] * self.is_stated)

    def percent(self, number: Decimal) -> Both:
        """Returns a percent, as 20% of 20."""
        digits = max(0, -int(number.as_tuple().exponent))
        blank, shown_blank = self.choose(("", ""), (" ", "\\ "))
        code = f"0.{'0' * digits}" if digits else "0"
        shown = f"{self.spelt(number, digits)}{blank}%"
        return Both(shown, float(number / 100), f"{code}{shown_blank}%", shown)

    def time(self, number: int, is_text: bool = False) -> Both:
        """Returns a time with its unit. Beside texts pandas would take one for a duration, and texts too."""
        unit = self.choose(" days", " weeks", "d", " Tage", " Wochen", "w")
        text: Any = f"{number}{unit}"
        framed = text
        if unit == " days" and not is_text:
            spans = pd.Timedelta(days=number), np.timedelta64(number, "D")
            framed = self.choose(text, *spans)
        return Both(text, number, f'0"{unit}"', framed)

    def zeros(self, number: int, digits: int = 4) -> Both:
        """Returns a number with zeros before it, by its format or as text."""
        text = f"{number:0{digits}}"
        is_number = self.chance(0.6)
        return Both(text, number, "0" * digits, text) if is_number else as_text(text)

    def date(self, day: datetime.date, code: str, is_typed: bool = True) -> Both:
        """Returns a date, perhaps at a time of day."""
        clock = datetime.time(9, 30) if "hh" in code else datetime.time()
        moment = datetime.datetime.combine(day, clock)
        text = moment.strftime({**DATES, **SLASHED}[code])
        if not is_typed:
            return as_text(text)
        zone = self.choose("UTC", "Europe/Berlin", "Asia/Tokyo")
        stamps = pd.Timestamp(moment), pd.Timestamp(moment, tz=zone)
        frames: list[Any] = [moment, day, *stamps, np.datetime64(moment)]
        if code not in SLASHED:  # Texts with slashes decide which number is the day.
            frames.append(text)
        return Both(text, moment, code, self.choose(*frames))

    def foreign(self, name: str) -> Both:
        """Returns a cell that the column of a name has not: an error, a truth, garbage, or a cell of another kind."""
        error, truth = self.choose(*CASES["errors"]), self.chance(0.5)
        cells = [
            self.empty(name),
            as_text(self.choose(*CASES["garbage"])),
            Both(error, ("=1/0", error), "General", error),
            Both(str(truth).upper(), truth, "General", str(truth).upper()),
            self.percent(self.number(1, 150)),
            self.time(self.source.randint(1, 20), True),
            self.zeros(self.source.randint(1, 99)),
        ]
        if name not in CASES["no_amounts"]:  # Of these a workbook shows fewer zeros.
            cells += [
                self.amount(self.number(1, 99), True),
                self.date(MONDAY, "yyyy-mm-dd"),
                self.amount(self.number(-99, 9)),
            ]
        return self.choose(*cells)


class Tables(Cells):
    """Makes the tables of a catalogue and of its today."""

    def __init__(self, seed: int) -> None:
        super().__init__(seed)
        kind = self.source.randrange(3)
        numbers = self.source.sample(range(1, 99), 5)
        self.items = [lambda number=number: self.item(kind, number) for number in numbers]  # type: ignore[misc]

    def item(self, kind: int, number: int) -> Both:
        """Returns the cell of an item's name: a text, a number with zeros, or a number."""
        if kind == 0:
            return as_text(f"K-{number}")
        if kind == 1:
            return self.zeros(number, 5)
        text = str(number)
        whole, floating = (
            Both(text, number, "0", number),
            Both(text, number, "General", float(number)),
        )
        return self.choose(whole, floating, as_text(text))

    def table(
        self, foreign: float, count: int, columns: Mapping[str, Make | None]
    ) -> Table:
        """Returns a table of columns that make their cells, a share of which are foreign. A column is of numbers or of
        texts. The items come in turn."""
        typed = {name: self.chance(0.7) for name in columns}
        table = [[*map(as_text, columns)]]
        for place in range(count):
            row = list[Both]()
            for name, make in columns.items():
                self.is_typed = typed[name] or self.is_stated
                make = make or self.items[place % len(self.items)]
                row.append(self.foreign(name) if self.chance(foreign) else make())
            table.append(row)
        return table

    def dated(self, are_many: bool = False) -> Callable[[datetime.date, int], Make]:
        """Returns what makes the columns of dates of a table, from a day on: of one form, or of those with the year first.
        Many dates have one that decides which number is the day."""
        is_slashed, is_typed = are_many and self.chance(0.2), self.chance(0.7)
        codes = [self.choose(*(SLASHED if is_slashed else DATES))]
        if codes == ["yyyy-mm-dd"]:
            codes += ["yyyy-mm-dd hh:mm", "yyyymmdd"]

        def column(first: datetime.date, days: int) -> Make:
            """Returns what makes so many days from the first one on, each once."""
            left = self.source.sample(range(days), days)
            return lambda: self.date(
                first + datetime.timedelta(left.pop()), self.choose(*codes), is_typed
            )

        return column

    def whole(self, least: int, most: int) -> Make:
        return lambda: self.amount(self.number(least, most) * self.choose(1, 1, 1, 100))

    def money(self, least: int, most: int, digits: int = 0) -> Make:
        is_money = self.chance(0.3)
        return lambda: self.amount(self.number(least, most, digits), is_money)

    def share(self, is_percent: bool) -> Make:
        """Returns what makes shares: in percent with or without the sign, or below 1."""
        has_sign = self.chance(0.5)

        def make() -> Both:
            if has_sign != self.chance(0.05):
                return self.percent(self.number(10, 995, 1))
            return self.amount(self.number(10, 99, 0 if is_percent else 2))

        return make

    def span(self) -> Both:
        number = self.source.randint(1, 28)
        return self.time(number) if self.chance(0.4) else self.amount(Decimal(number))

    def texts(self, *texts: str) -> Make:
        return lambda: as_text(self.choose(*texts))

    def demand(self) -> Table:
        quantity = self.choose("quantity", "qty", "quantity (packs of 12)")
        columns: dict[str, Make | None] = {
            "item": None,
            "date": self.dated(True)(MONDAY, 112),
            quantity: self.whole(1, 40),
        }
        if self.chance(0.4):
            columns["returned"] = self.whole(0, 1)
        return self.table(0.02, 32, columns)

    def masters(self) -> Table:
        is_share, is_percent = self.chance(0.4), self.chance(0.5)
        rate = "holding (% a year)" if is_percent else "holding rate"
        more: dict[str, Make | None] = {
            "fill (%)" if is_percent else "fill": self.share(is_percent),
            "stock": self.whole(-5, 90),
            "price": self.money(100, 9_000, self.choose(2, 3)),
            "price unit": self.texts("1", "10", "100"),
            "class": self.texts("A", "B", "C", ""),
            "supplier": self.texts("Müller", "A & B, Co.", " Smith "),
            "supplier min": self.money(100, 900),
            "currency": self.texts(self.currency),
            "order min": self.whole(1, 40),
            "pack": self.whole(1, 6),
            "s min": self.whole(1, 9),
            self.choose("coverage (weeks)", "coverage (days)"): self.span,
            "shelf life (days)": self.span,
            "description": self.texts("bolt, M8", 'nut 3"', "=1+1", "1,5 mm"),
            "borrow": self.texts("all", "class", "none"),
            "created on": self.dated()(MONDAY, 60),
        }
        columns: dict[str, Make | None] = {
            "setup": self.money(1, 90),
            rate if is_share else "holding": self.money(1, 90, 2),
            "backlog": self.money(10, 900, 1),
            self.choose("lead (weeks)", "Lead time (days)", "lead"): self.span,
        }
        if is_share:
            columns |= {rate: self.share(is_percent), "price": more["price"]}
        names = [*columns, *self.source.sample([*more], 5)]
        if self.chance(0.5):
            more |= {"s": self.whole(1, 9), "S": self.whole(1000, 1200)}
            names += ["s", "S"]
        self.source.shuffle(names)
        more |= columns | {"item": None}
        return self.table(0.01, 5, {name: more[name] for name in ("item", *names)})

    def orders(self) -> Table:
        dated = self.dated(True)
        columns: dict[str, Make | None] = {
            "item": None,
            "ordered": dated(MONDAY, 150),
            "received": dated(MONDAY + datetime.timedelta(100), 90),
        }
        return self.table(0.05, 15, columns)

    def stock(self) -> Table:
        stock, owed = self.choose("stock", "on hand (pcs)"), self.whole(0, 3)
        return self.table(
            0.05, 10, {"item": None, stock: self.whole(-3, 90), "owed": owed}
        )

    def on_order(self) -> Table:
        quantity, due = self.whole(1, 90), self.dated()(TODAY, 60)
        return self.table(0.05, 10, {"item": None, "quantity": quantity, "due": due})


def as_csv(tables: dict[str, Table], folder: Path) -> dict[str, Any]:
    """Writes tables as CSV, as they are shown."""
    paths = {kind: folder / f"{kind}.csv" for kind in tables}
    for kind, path in paths.items():
        with path.open("w", encoding="utf-8", newline="") as file:
            writer = csv.writer(file, delimiter=";")
            for row in tables[kind]:
                writer.writerow([cell.text for cell in row])
    return paths


def as_book(tables: dict[str, Table], folder: Path) -> dict[str, Any]:
    """Writes tables as sheets of a workbook."""
    path = folder / "book.xlsx"
    with xlsxwriter.Workbook(path, {"strings_to_formulas": False}) as book:
        formats = dict[str, Any]()
        for kind, table in tables.items():
            sheet = book.add_worksheet(kind)
            for line, row in enumerate(table):
                for place, cell in enumerate(row):
                    if cell.code not in formats:
                        formats[cell.code] = book.add_format({"num_format": cell.code})
                    write(sheet, line, place, cell, formats[cell.code])
    return {kind: f"{path}!{kind}" for kind in tables}


def write(sheet: Any, line: int, place: int, cell: Both, own: Any) -> None:
    """Writes a cell of a workbook."""
    if isinstance(cell.stored, tuple):
        sheet.write_formula(line, place, cell.stored[0], own, cell.stored[1])
    elif isinstance(cell.stored, str) and cell.stored:
        sheet.write_string(line, place, cell.stored, own)
    elif cell.stored is not None:
        sheet.write(line, place, cell.stored, own)


def as_frames(tables: dict[str, Table], folder: Path) -> dict[str, Any]:
    """Returns tables as DataFrames, some columns of which are of one type."""
    frames = {}
    for kind, (heading, *rows) in tables.items():
        names = [cell.text for cell in heading]
        cells = [[cell.framed for cell in row] for row in rows]
        frame = pd.DataFrame(cells, columns=names, dtype=object)
        if len(rows) % 2 == 0:
            frame = frame.infer_objects()
        if len(names) % 2:
            frame[names[0]] = frame[names[0]].astype("category")
        frames[kind] = frame
    return frames


FORMS = {"csv": as_csv, "book": as_book, "frames": as_frames}
