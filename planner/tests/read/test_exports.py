"""Tests of files as systems export them, by the commands that read them: no number and no unit is guessed, and no row
is lost."""
from __future__ import annotations

import csv
import os
import threading
from collections.abc import Callable, Sequence
from fractions import Fraction
from operator import attrgetter
from pathlib import Path
from typing import Any, NamedTuple

import pytest

from crnplan.catalogues import Catalogue
from crnplan.cli import catalogues
from crnplan.read.bounds import OrderBounds
from crnplan.read.catalogue_reading import READ
from crnplan.read.item import Item
from planner.tests.conftest import Answer, Command
from planner.tests.read.catalogues import (
    HEADING,
    MASTERS,
    WEEKS,
    cases_of,
    day_of,
    items_of,
)

CASES = cases_of("exports")
MONTHS = "--every month --set least=2 --set units.items.lead=month --set units.items.holding=month --set units.items.backlog=month"
PRICED = "item,setup,holding,backlog,price,lead (weeks),s,S"
ALL_USED = f"{WEEKS} rows = {WEEKS} used"


def demand_of(
    quantities: Sequence[str], heading: str = "item,date,quantity", more: str = ""
) -> str:
    """Returns a file of demand: a row a week of item A, with these quantities in turn."""
    lines = [heading]
    for week in range(WEEKS):
        quantity = quantities[week % len(quantities)]
        lines.append(f"A,{day_of(week)},{quantity}{more}")
    return "\n".join([*lines, ""])


PLAIN = demand_of(["2", "3"])


class Read(NamedTuple):
    """What a check of a catalogue comes to: its answer, its rejects, its items, and its currency."""

    answer: Answer
    rejects: list[dict[str, str]]
    items: dict[str, Item]
    currency: object

    @property
    def item(self) -> Item:
        """Returns item A. Nothing is left out."""
        assert self.answer.status == 0 and not self.rejects, self
        return self.items["A"]

    @property
    def reason(self) -> str:
        """Returns why item A is left out, and the advice."""
        (reject,) = self.rejects
        assert reject["kind"] == "item" and "A" not in self.items
        return f"{reject['reason']}; {reject['advice']}"


Check = Callable[..., Read]


@pytest.fixture
def check(crnplan: Command, tmp_path: Path, monkeypatch: pytest.MonkeyPatch) -> Check:
    """Returns a function that checks a catalogue by the command, of texts of files or of a path of demand."""
    heard: dict[str, Any] = {}
    read_into = catalogues.read_into

    def listen(*given: Any) -> Path:
        catalogue = Catalogue(read_into(*given))
        heard["items"] = items_of(catalogue)
        heard["currency"] = catalogue.fact("currency")
        return catalogue.path

    def run(
        demand: str | Path = PLAIN, words: str = "", masters: str = MASTERS
    ) -> Read:
        table = f"demand={demand}"
        if isinstance(demand, str):
            table = str(tmp_path / "demand.csv")
            Path(table).write_bytes(demand.encode())
        (tmp_path / "items.csv").write_bytes(masters.encode())
        rejects = tmp_path / "rejects.csv"
        rejects.unlink(missing_ok=True)
        words = f"--check --rejects {rejects} {words}"
        heard.update(items={}, currency="")
        answer = crnplan("plan", table, tmp_path / "items.csv", *words.split())
        return Read(answer, rows_of(rejects) if rejects.is_file() else [], **heard)

    monkeypatch.setattr(catalogues, "read_into", listen)
    return run


def rows_of(path: Path) -> list[dict[str, str]]:
    with path.open(encoding="utf-8", newline="") as file:
        return [*csv.DictReader(file)]


def test_a_number_that_decides_may_be_none_itself(check: Check) -> None:
    """A number that is not whole decides the sign of the others, and is rejected."""
    rejects = check(demand_of(['"1,000"', '"12,5"'])).rejects
    assert {row["text"] for row in rejects if row["kind"] == "row"} == {"12,5"}


@pytest.mark.parametrize(
    "text, quantity",
    [("(3)", -3), ("3-", -3), ("\u22123", -3), ("1'000", 1000), ("1 000", 1000)],
)
def test_quantities_as_people_write_them(
    text: str, quantity: int, check: Check
) -> None:
    """Amounts below 0 may stand in parentheses or have the minus behind; thousands may have an apostrophe."""
    item = check(demand_of([text, "7000"]), f"--set net=true {MONTHS}").item
    assert sum(item.counts) == WEEKS // 2 * (7000 + quantity)


@pytest.mark.parametrize("sign, name, value", [(".", "point", 1000), (",", "comma", 1)])
def test_stated_sign_decides(sign: str, name: str, value: int, check: Check) -> None:
    """The key decimal decides what 1,000 is, which is said."""
    read = check(demand_of(['"1,000"']), f"--set decimal={sign}")
    assert sum(read.item.counts) == WEEKS * value
    assert f"# the decimal sign is the {name}, as stated\n" in read.answer.errors


@pytest.mark.parametrize("heading, cells, fact, value, is_converted", CASES["units"])
def test_units_of_masters(
    heading: str, cells: str, fact: str, value: Any, is_converted: bool, check: Check
) -> None:
    """Numbers are converted from the unit that their heading names, and that is said."""
    read = check(masters=f"{heading}\n{cells}\n")
    is_list = isinstance(value, list)
    wanted = tuple(value) if is_list else Fraction(value)
    assert attrgetter(fact)(read.item) == wanted
    assert ("converted from" in read.answer.errors) == is_converted


@pytest.mark.parametrize("heading, words, cells, expected", CASES["bounds"])
def test_bounds_of_masters(
    heading: str, words: str, cells: str, expected: list[Any], check: Check
) -> None:
    """The bounds of orders and levels are read with their units. None is stated by an empty cell."""
    masters = f"{HEADING},{heading}\nA,45,1,10,2,3,9,{cells}\n"
    read = check(words=words, masters=masters)
    whole, spans = expected[:3], expected[3:]
    bounds = [None if value == "" else value for value in whole]
    bounds += [Fraction(span) if span else None for span in spans]
    assert read.item.bounds == OrderBounds(*bounds)
    assert "not used" not in read.answer.errors


@pytest.mark.parametrize("heading, words, cell, said", CASES["bad_bounds"])
def test_bounds_that_cannot_be_read(
    heading: str, words: str, cell: str, said: str, check: Check
) -> None:
    masters = f"{HEADING},{heading}\nA,45,1,10,2,3,9,{cell}\n"
    assert said in check(words=words, masters=masters).reason


@pytest.mark.parametrize("heading, words, said", CASES["refused"])
def test_units_that_cannot_be_converted(
    heading: str, words: str, said: str, check: Check
) -> None:
    """A unit that can't be converted is refused, with what to say."""
    cells = "A,45,1,10,2,3,9" + ",4" * (heading.count(",") - 6)
    answer = check(words=words, masters=f"{heading}\n{cells}\n").answer
    assert answer.status == 2 and said in answer.errors


def test_stated_units(check: Check, tmp_path: Path) -> None:
    """A stated unit is that of its column, whatever the period is, by --set as by crnplan.toml, to which it adds."""
    masters, settings = f"{HEADING}\nA,45,12,10,9,3,9\n", tmp_path / "mine.toml"
    words = "--every month --set least=2 --set units.items.lead=week --set units.items.holding=year --set units.items.backlog=month --set units.demand.quantity=12"
    item = check(demand_of(["2"]), words, masters).item
    # Nine weeks are 2.07 months: nearly always 2.
    assert item.leads[:6] in ((2,), (2,) * 6)
    assert (item.holding, item.backlog, sum(item.counts)) == (1, 10, 24 * WEEKS)
    settings.write_text(CASES["stated"]["config"], "utf-8")
    words = f"--config {settings} --set units.items.lead=week"
    assert check(demand_of(["2"]), words, masters).item == item


def test_rows_in_two_units_of_measure(check: Check) -> None:
    """An item whose rows are in two units of measure is left out, unless it is said how many items one is."""
    rows = demand_of(["2,ST", "3,KAR"], "item,date,quantity,ME")
    reason = check(rows).reason
    assert "'ST' and 'KAR'" in reason and "--set factors.KAR=12" in reason
    item = check(rows, "--set factors.KAR=12").item
    assert sum(item.counts) == 2 * 13 + 3 * 12 * 13


@pytest.mark.parametrize("demand, masters", CASES["headings"])
def test_headings_of_exports(demand: str, masters: str, check: Check) -> None:
    """Headings of common exports are found, each as its role, without a word of the planner."""
    rows = "".join(f"A;{day_of(week)};2;ST\n" for week in range(WEEKS))
    masters = f"{masters}\nA;bolt;45;1;10;14;3;9;5;400;100;X\n"
    read = check(f"{demand}\n{rows}", masters=masters)
    item = read.item
    assert (item.leads, item.levels, item.group, item.price) == ((2,), (3, 9), "X", 4)
    assert "not used" not in read.answer.errors


def test_names_of_a_planner(check: Check, tmp_path: Path) -> None:
    """A planner adds usual names of columns in crnplan.toml."""
    settings = tmp_path / "mine.toml"
    settings.write_text(
        '[catalogue.names]\n"demand.quantity" = ["Bew.Menge netto"]\n', "utf-8"
    )
    rows = demand_of(["2"], "item,date,BEW.MENGE (netto)")
    assert check(rows, f"--config {settings}").item


def piped(path: Path, text: str) -> threading.Thread:
    """Makes a pipe that gives a text once."""
    os.mkfifo(path)
    thread = threading.Thread(target=path.write_bytes, args=[text.encode()])
    thread.daemon = True
    thread.start()
    return thread


def test_pipes_are_read_whole(check: Check, tmp_path: Path) -> None:
    """A file of demand that comes by a pipe is read whole, also beyond its first megabyte."""
    text = demand_of(["2"], "item,date,quantity,note", f",{'x' * 60_000}")
    thread = piped(tmp_path / "pipe", text)
    read = check(tmp_path / "pipe")
    thread.join(10)
    assert read.item and ALL_USED in read.answer.output


@pytest.mark.parametrize("heading, more, words", CASES["names"]["cases"])
def test_names_of_columns_as_data(
    heading: str, more: str, words: str, check: Check
) -> None:
    read = check(demand_of(["2", "3"], heading, more), words)
    assert read.item and ALL_USED in read.answer.output


def test_lone_carriage_return_in_a_cell(check: Check) -> None:
    """A carriage return in quotes is a part of its cell: no row is lost, and none is split."""
    text = demand_of(["2", "3"], "item,date,quantity,note", ',"first\rsecond"')
    masters = f'{HEADING},description\nA,45,0.5,5,2,3,9,"one\rtwo"\n'
    read = check(text, masters=masters)
    assert read.item and ALL_USED in read.answer.output


def test_item_whose_name_has_a_line_break(check: Check) -> None:
    """A name of an item with a line break is no name, and its row is counted as rejected."""
    read = check(PLAIN + '"B\rC",2026-03-02,4\n')
    (reject,) = read.rejects
    assert f"{WEEKS + 1} rows = {WEEKS} used + 1 rejected" in read.answer.output
    assert (reject["line"], reject["column"]) == (str(WEEKS + 2), "item")
    assert "line break" in reject["reason"] and "\r" not in reject["text"]


def test_reasons_are_counted_on_the_terminal(check: Check) -> None:
    """The ten most frequent reasons are named with how often, the others are counted."""
    texts = ["x"] * 5 + ["1.5"] * 3 + ["-1"] * 2
    bad = "".join(f"A,{day_of(0)},{text}\n" for text in texts)
    answer, rejects, *_ = check(f"{PLAIN}{bad}B,2026-03-02,1\n")
    lines = [line for line in answer.output.splitlines() if " left out, " in line]
    counts = [line.split(" left out")[0] for line in lines]
    assert counts == ["5 rows", "3 rows", "2 rows", "1 items"]
    said = f"quantity: \u2026 is not a number (demand.csv:{WEEKS + 2}, item A: 'x' is not a number; write digits"
    assert said in lines[0]
    assert len(rejects) == 11 and answer.status == 0


def test_only_the_most_frequent_reasons(check: Check) -> None:
    """Beyond ten reasons the others are counted together."""
    rows = []
    for place in range(6):
        for text in ("x", "-1"):
            cells = ["45", "1", "10", "2", "3", "9"]
            cells[place] = text
            rows.append(f"{'BCDEFGHIJKLMN'[len(rows)]},{','.join(cells)}\n")
    output = check(masters=MASTERS + "".join(rows)).answer.output
    assert output.count("items left out, ") == 10 and " more for " in output


@pytest.mark.parametrize("quantities, status, said", CASES["little"]["cases"])
def test_status_if_little_is_left(
    quantities: list[str], status: int, said: str, check: Check
) -> None:
    """The status says if nothing can be planned or most rows were rejected, unless that is allowed."""
    demand = demand_of(quantities)
    answer = check(demand).answer
    assert answer.status == status and said in answer.errors
    assert check(demand, "--anyway").answer.status == 0


@pytest.mark.parametrize("case", CASES["defaults"])
def test_defaults_of_masters(
    case: dict[str, Any], check: Check, tmp_path: Path
) -> None:
    """What a row says counts first, then its class, then the default, and it is counted from where values are; by words
    as by crnplan.toml."""
    masters, settings = "\n".join([*case["masters"], ""]), tmp_path / "mine.toml"
    read = check(words=case["words"], masters=masters)
    facts = {name: str(getattr(read.item, name)) for name in case["facts"]}
    assert facts == case["facts"]
    lines = read.answer.errors.splitlines()
    said = [line.removeprefix("# ") for line in lines if " by the " in line]
    assert said == case["said"]
    settings.write_text(f"[catalogue]\n{case['config']}\n", "utf-8")
    assert check(words=f"--config {settings}", masters=masters).item == read.item


@pytest.mark.parametrize("words, said", CASES["wrong_defaults"]["words"])
def test_defaults_that_cannot_be_meant(words: str, said: str, check: Check) -> None:
    """A default that may be meant in two ways is refused with both."""
    answer = check(words=words, masters=f"{PRICED}\nA,45,1,10,8,2,3,9\n").answer
    assert answer.status == 2 and said in answer.errors


@pytest.mark.parametrize("cells, words, said", CASES["wrong_defaults"]["cells"])
def test_masters_that_lack_what_a_default_needs(
    cells: str, words: str, said: str, check: Check
) -> None:
    """An item whose default needs its price, amounts in two currencies, and a cell that names no currency are left out."""
    heading = PRICED if cells.count(",") == 7 else f"{HEADING},WAERS,price"
    assert said in check(words=words, masters=f"{heading}\n{cells}\n").reason


@pytest.mark.parametrize("setup, price, words, currency", CASES["currencies"]["cases"])
def test_currency_of_a_catalogue(
    setup: str, price: str, words: str, currency: str, check: Check
) -> None:
    """The currency is that of the signs, of a column, or the stated one, which a sign may stand for."""
    read = check(words=words, masters=f"{PRICED}\nA,{setup},1,10,{price},2,3,9\n")
    assert read.item and read.currency == currency
    column = currency if len(currency) == 3 else ""
    read = check(masters=f"{HEADING},WAERS\nA,45,1,10,2,3,9,{column}\n")
    assert read.item and read.currency == column


def test_two_exports_of_a_system_lead_to_a_plan(
    crnplan: Command, program: Path, tmp_path: Path
) -> None:
    """Four options lead from movements and masters of SAP to a plan in its currency. 20% a year of 12.50 are 0.0479 a
    week, and ten days of delivery one week or two."""
    sap, out = CASES["sap"], tmp_path / "plan"
    lines = [sap["movements"], *sap["undone"]]
    for item, cells in sap["issues"].items():
        for week in range(WEEKS):
            day, cell = f"{day_of(week):%d.%m.%Y}", cells[week % len(cells)]
            lines.append(f"{item};;1000;261;{day};{cell};ST")
    demand, masters = tmp_path / "mb51.csv", tmp_path / "marc.csv"
    demand.write_text("\n".join([*lines, ""]), "cp1252")
    masters.write_text(sap["masters"].lstrip(), "cp1252")
    words = "--jobs 1 --set negate=true --set setup=45 --set holding_rate=20% --fill 95%".split()
    words += ["--out", str(out), "--program", str(program)]
    answer = crnplan("plan", demand, masters, *words)
    assert answer.status == 0 and "saved: EUR " in answer.output
    assert "2 named = 2 planned + 0 left out" in answer.output
    bearing, ring = items_of(Catalogue(out / READ)).values()
    issued = sum((3, 1, 0, 2)[week % 4] for week in range(1, WEEKS))
    assert sum(bearing.counts) == 2 + issued
    assert (bearing.levels, bearing.stock) == ((5, 12), 7)
    assert (bearing.price, bearing.leads) == (Fraction(25, 2), (2,))
    assert bearing.holding == Fraction(25, 2) / 5 * Fraction(28, 1461)
    assert ring.leads == (1, 1, 1, 1, 2, 2, 2)
    # Their demand is worth 18.51 and 22.40 a week: both are of class A.
    for row in rows_of(out / "decisions.csv"):
        assert (row["class"], row["abc"]) == ("A", "A")
