"""Makes a small catalogue as a German system would export it, with a fault of each kind planted in it.

Each fault is known by the line or the item that it was planted in. The seed is fixed.
"""
from __future__ import annotations

import datetime
import random
from collections import defaultdict
from collections.abc import Collection
from dataclasses import dataclass, field, replace
from pathlib import Path

ITEMS, WEEKS = 60, 104
START = datetime.date(2024, 11, 25)  # a Monday
TODAY = datetime.date(2026, 11, 26)
TITLES = ["Warenbewegungen;;;;", ";;;;"]
DEMAND = "Beleg;Artikel;Buchungstag;Menge;Retouren"
MASTERS = (
    "Artikel;Bezeichnung;Bestellkosten;Lagerkosten;Fehlmengenkosten;Servicegrad;Lieferzeit (Wochen);Bestellpunkt;"
    "Höchstbestand;Bestand;Preis;Klasse"
)
ORDERS = "Artikel;Bestellt;Geliefert"
# Texts in place of a quantity, or of a date, for which the row is rejected.
BAD_QUANTITIES = ["n/a", "", "3,5", "-2", "zwei", "1.2.3"]
BAD_DATES = ["", "31.02.2026", "bald", "2062-03-04", "1999-01-04", "45678"]
# Changes of a master for which the item is left out.
BAD_MASTERS: list[dict[str, str]] = [
    {"Bestellkosten": ""},
    {"Bestellpunkt": "90", "Höchstbestand": "5"},
    {"Lagerkosten": "0"},
    {"Lieferzeit (Wochen)": "n/a"},
    {"Fehlmengenkosten": "", "Servicegrad": ""},
    {"Lieferzeit (Wochen)": "0"},
    {"Bestellkosten": "45,00 Stk"},
    {"Fehlmengenkosten": "", "Servicegrad": "120%"},
    {"Preis": "teuer", "Bestellkosten": "-3"},
]


# An item that can be read, but not planned: its costs are too far apart.
NO_PLAN = "A-042"
# An item that is too new for a law of its own, and one that nobody has asked for.
NEW, IDLE = "A-008", "A-900"
NO_COSTS = {"Lagerkosten": "0,0001", "Fehlmengenkosten": "500", "Servicegrad": ""}


@dataclass
class Made:
    """The files of a catalogue, and what was planted: lines of the demand file by kind, and items by kind."""

    demand: list[str] = field(default_factory=list)
    masters: list[dict[str, str]] = field(default_factory=list)
    orders: list[str] = field(default_factory=list)
    bad_lines: dict[str, set[int]] = field(default_factory=lambda: defaultdict(set))
    bad_items: dict[str, set[str]] = field(default_factory=lambda: defaultdict(set))

    def write(self, folder: Path) -> Path:
        """Writes the files into a folder, and returns it."""
        folder.mkdir(parents=True, exist_ok=True)
        masters = [MASTERS, *(";".join(its.values()) for its in self.masters)]
        for name, lines in (
            ("Bewegungen.csv", [*TITLES, DEMAND, *self.demand]),
            ("Artikel.csv", masters),
            ("Bestellungen.csv", [ORDERS, *self.orders]),
        ):
            (folder / name).write_text("\r\n".join([*lines, ""]), "utf-8")
        return folder


def name_of(number: int) -> str:
    return f"A-{number:03}"


def spelt(day: datetime.date, number: int) -> str:
    """Returns a date as the item writes it: in one of four forms."""
    return day.strftime(
        ["%Y-%m-%d", "%d.%m.%Y", "%d/%m/%Y", "%d.%m.%y 08:15"][number % 4]
    )


def movements(
    source: random.Random, number: int
) -> list[tuple[datetime.date, int, int]]:
    """Returns day, quantity and returns of an item's movements: item 7 is new, 8 much too new, 9 first seen late."""
    first = {7: 60, 8: 96, 9: 20}.get(number, 0)
    chance, most = (
        (0.9, 12) if number % 3 == 0 else (0.35, 6) if number % 3 == 1 else (0.12, 9)
    )
    found = [(START + datetime.timedelta(days=7 * first + number % 5), 2, 0)]
    for week in range(first, WEEKS):
        if source.random() < chance:
            day = START + datetime.timedelta(days=7 * week + source.randrange(5))
            found.append(
                (
                    day,
                    source.randint(1, most),
                    int(number == 6 and source.random() < 0.2),
                )
            )
    return found


def master(source: random.Random, number: int) -> dict[str, str]:
    holding, s = source.choice(["0,05", "0,25", "1,250", "0,0133"]), source.randint(
        2, 9
    )
    backlog = (
        f"{20 * float(holding.replace(',', '.')):.4f}".replace(".", ",")
        if number % 2
        else ""
    )
    return dict(
        zip(
            MASTERS.split(";"),
            [
                name_of(number),
                f"Teil {number}",
                source.choice(["12,50", "25", "80,00"]),
                holding,
                backlog,
                "" if number % 2 else source.choice(["95%", "0,9", "97,5%"]),
                {0: "", 5: "2 3 3 4"}.get(number % 12, source.choice("123")),
                str(s),
                str(s + source.randint(4, 30)),
                str(source.randint(0, 20)),
                f"{source.randint(1, 90)},{source.randint(10, 99)}",
                "XYZ"[number % 3],
            ],
        )
    )


def teaching(its: Made, planned: Collection[str]) -> Made:
    """Returns a catalogue of which only some items can be planned. The others teach: their costs are too far apart for
    a plan."""
    return replace(
        its,
        masters=[
            row if row["Artikel"] in planned else row | NO_COSTS for row in its.masters
        ],
    )


def made(seed: int = 1) -> Made:
    """Returns a catalogue with a fault of each kind."""
    source, its = random.Random(seed), Made()
    rows = [
        (day, number, quantity, back)
        for number in range(ITEMS)
        for day, quantity, back in movements(source, number)
    ]
    source.shuffle(rows)
    its.demand = [
        f"B{place:05};{name_of(number)};{spelt(day, number)};{quantity};{back}"
        for place, (day, number, quantity, back) in enumerate(rows)
    ]
    its.masters = [master(source, number) for number in range(ITEMS)]
    for number in range(0, ITEMS, 12):
        for _ in range(source.randint(3, 8)):
            placed = START + datetime.timedelta(days=source.randrange(600))
            its.orders.append(
                ";".join(
                    [
                        name_of(number),
                        spelt(placed, number),
                        spelt(
                            placed + datetime.timedelta(days=source.randint(5, 20)),
                            number,
                        ),
                    ]
                )
            )
    _plant_rows(source, its)
    _plant_masters(its)
    return its


def _plant_rows(source: random.Random, its: Made) -> None:
    """Plants faults into rows of demand, each in a row of its own, and double rows and orders below all others."""
    above = len(TITLES) + 2  # the line of the first row
    texts = [
        *(("Menge" if it else "leer", 3, it) for it in BAD_QUANTITIES),
        *(("Buchungstag", 2, it) for it in BAD_DATES),
        ("Artikel", 1, ""),
        ("zu lang", 4, "0;mehr"),
    ]
    places = source.sample(range(len(its.demand)), len(texts) + 3)
    for place, (kind, column, text) in zip(places, texts):
        cells = its.demand[place].split(";")
        cells[column] = text
        its.demand[place] = ";".join(cells)
        its.bad_lines[kind].add(place + above)
    for place in places[len(texts) :]:
        its.bad_lines["twice"].add(len(its.demand) + above)
        its.demand.append(its.demand[place])
    for name, times in (("A-010", 1000), ("A-013", 1000)):
        place = next(
            it
            for it, row in enumerate(its.demand)
            if f";{name};" in row and it not in places
        )
        cells = its.demand[place].split(";")
        its.demand[place] = ";".join([*cells[:3], str(int(cells[3]) * times), cells[4]])
        its.bad_items["far"].add(name)
    its.demand += [";;;;", "B99999;A-777;2026-03-02;4;0"]
    its.bad_items["no master"].add("A-777")
    its.demand.append(f";Summe;;{sum(range(99))};")
    its.bad_lines["total"].add(len(its.demand) + above - 1)
    its.orders += [
        "A-000;2026-05-01;2026-04-01",
        "A-000;2026-11-20;",
        "A-888;2026-05-01;2026-05-09",
    ]
    its.bad_items["orders alone"].add("A-888")


def _plant_masters(its: Made) -> None:
    """Plants faults into masters, each in one of its own."""
    for number, changes in enumerate(BAD_MASTERS, 20):
        its.masters[number] |= changes
        its.bad_items["master"].add(name_of(number))
    its.masters += [
        dict(its.masters[30]),
        {**its.masters[31], "Bezeichnung": "anders"},
        {**its.masters[35], "Artikel": IDLE},
    ]
    its.bad_items["two masters"].add("A-031")
    its.bad_items["missing master"].add("A-033")
    its.masters = [it for it in its.masters if it["Artikel"] != "A-033"]
    its.masters[34 - 1]["Bestand"] = "-4"
    next(it for it in its.masters if it["Artikel"] == NO_PLAN).update(NO_COSTS)
