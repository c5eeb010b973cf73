"""Tests the plans of a catalogue: figures against the program itself, the same bytes always, and only what changed."""
from __future__ import annotations

import csv
import datetime
import hashlib
import json
import math
import re
import shutil
import subprocess
from collections import Counter
from collections.abc import Callable
from fractions import Fraction
from pathlib import Path
from typing import Any

import pytest

import crnplan as crn
from crnplan.plan.answer import CheckRun
from crnplan.plan.how import Settings
from crnplan.plan.question import Question
from planner.tests.catalogue.audit import Audit, audit
from planner.tests.catalogue.conftest import (
    FILES,
    REFUSED,
    SETTINGS,
    TABLES,
    WORDS,
    leave_few,
)
from planner.tests.catalogue.made import (
    IDLE,
    NEW,
    NO_PLAN,
    START,
    TITLES,
    WEEKS,
    Made,
    teaching,
)
from planner.tests.conftest import Answer, Command, heavy_of, rows_of
from planner.tests.planned_tables import runs_of, whole_rows, whole_table

SCENARIO = """version = 1
key = {keys}
periods = {periods}
replications = {replications}
initial = {initial}
ring = 1024
costs = {{ setup = {setup}, unit = 0, holding = {holding}, backlog = {backlog} }}
demand = {{ values = {values}, weights = {weights} }}
lead = {{ values = [{lead}], weights = [1] }}
policy = [{{ name = "today", s = {s_today}, S = {S_today} }}, {{ name = "chosen", s = {s_chosen}, S = {S_chosen} }}]
"""
RATES = {
    "setup": "Bestellkosten",
    "holding": "Lagerkosten",
    "backlog": "Fehlmengenkosten",
}
Row = dict[str, str]
Rows = dict[str, Row]
Plan = Callable[..., Answer]


@pytest.fixture(scope="module")
def masters(files: Path) -> Rows:
    return rows_of(files / FILES[1], "Artikel", delimiter=";")


@pytest.fixture(scope="module")
def table(planned: Path) -> Rows:
    return whole_rows(planned)


@pytest.fixture(scope="module")
def left_out(planned: Path) -> Rows:
    return rows_of(planned / "rejects.csv", kind="item")


@pytest.fixture(scope="module")
def bad(planted: Made) -> set[str]:
    """Returns the items that have no plan."""
    return {*set.union(*planted.bad_items.values()), NO_PLAN, NEW}


def amount(text: str) -> Fraction:
    """Returns a number with a comma; 0 of an empty cell."""
    return Fraction(text.replace(",", ".") or 0)


def ran(
    program: Path, levels: Row, run: CheckRun, lead: str, counts: Counter[int]
) -> tuple[Row, Row]:
    """Returns what the program says of today's and the chosen policy of an item."""
    law = {"values": sorted(counts), "weights": [counts[it] for it in sorted(counts)]}
    keys = json.dumps(run.key.split())
    text = SCENARIO.format(**vars(run) | levels | law, lead=lead, keys=keys)
    done = subprocess.run(
        [program], input=text.encode(), capture_output=True, check=True
    )
    today, chosen = csv.DictReader(done.stdout.decode().splitlines())
    return today, chosen


def counts_by(sums: Audit, name: str) -> Counter[int]:
    """Returns how many weeks of an item have each demand that is known, by the second program."""
    unread = sums.unread[name]
    weeks = {week: count for week, count in sums.asked[name].items() if count}
    known = [count for week, count in weeks.items() if week not in unread]
    return Counter({0: WEEKS - len({*weeks} | unread)}) + Counter(known)


def test_figures_are_the_programs(
    planned: Path, files: Path, masters: Rows, program: Path
) -> None:
    """Has the program's figures of a scenario of the second program's sums, and the masters' rates."""
    last, tested = START + datetime.timedelta(days=7 * WEEKS), 0
    sums = audit(files / FILES[0], len(TITLES) + 1, START, last)
    table = rows_of(planned / "decisions.csv")
    for name, (item, run) in runs_of(planned).items():
        for rate, column in RATES.items():
            wanted = amount(masters[name][column]) * run.scale
            assert abs(getattr(run, rate) - wanted) <= Fraction(1, 2)
        digest = hashlib.sha256(f"crnplan\n{name}".encode()).hexdigest()
        assert run.key.replace(" ", "") == digest
        row = table[name]
        lead, back = masters[name]["Lieferzeit (Wochen)"], sums.back[name].total()
        is_same = row["s_today"] == row["s_chosen"]
        if not lead.isdigit() or name == "A-007" or back or is_same:
            continue
        assert item.box == 1
        today, chosen = ran(program, row, run, lead, counts_by(sums, name))
        totals = [int(row["total"]) for row in (today, chosen)]
        assert totals == [run.total_today, run.total_chosen]
        assert Fraction(chosen["diff_mean"]) == run.difference
        assert Fraction(chosen["diff_var"]) == run.variance
        tested += 1
    assert tested > 15


def test_decisions(table: Rows, left_out: Rows, bad: set[str], masters: Rows) -> None:
    """Wanted shares are reached, theory's cost is at most today's, and money has the decimals of the finest amount."""
    assert not bad & {*table} and bad <= {*left_out}
    reject = left_out[NO_PLAN]
    assert "too far apart" in reject["reason"] and int(reject["rows"]) > 0
    idle = table[IDLE]
    assert (idle["verdict"], idle["cost_today"]) == ("no demand", "")
    assert (idle["s_chosen"], idle["S_chosen"]) == ("0", "0")
    for name in {*table} - {IDLE}:
        row = table[name]
        check_row(row)
        for column in ("cost_today", "saving", "run_saving"):
            assert len(row[column].partition(".")[2]) == 4
    value = float(amount(masters["A-001"]["Preis"])) * float(
        table["A-001"]["stock_today"]
    )
    assert float(table["A-001"]["value_today"]) == pytest.approx(value, rel=1e-3)


def check_row(row: Row) -> None:
    """Checks that a row of decisions agrees with itself."""
    saving, today, chosen = (
        float(row[name]) for name in ("saving", "cost_today", "cost_chosen")
    )
    assert math.isclose(saving, today - chosen, abs_tol=2e-4)
    assert row["by"] == "theory" and (saving > 0) == (row["verdict"] == "cheaper")
    if row["fill_wanted"]:
        wanted = float(row["fill_wanted"])
        assert float(row["fill_chosen"]) >= wanted - 1e-4
        if row["verdict"] == "more service":
            assert float(row["fill_today"]) < wanted
    else:
        assert saving >= 0 and row["verdict"] in ("cheaper", "same")
    if row["run_low"]:
        middle = (float(row["run_low"]) + float(row["run_high"])) / 2
        assert math.isclose(middle, float(row["run_saving"]), abs_tol=2e-4)


def test_summary_adds_up(planned: Path, bad: set[str]) -> None:
    """Has the sums of savings, the runs' with the root of the sum of squares as its interval, as the page has."""
    table = whole_table(planned)
    text = (planned / "summary.txt").read_text("utf-8")
    said = "laws fitted to the histories, if the coming year is like the last one."
    assert said in text and "LOST" not in text
    lines = {line.partition(":")[0]: line for line in text.splitlines()}
    saved = re.findall(r"-?\d+\.\d\d", lines["saved"].replace(" 0.95 ", ""))
    saving, run, low, high = map(float, saved)
    assert math.isclose(saving, table.saving.sum(), abs_tol=0.01)
    assert math.isclose(run, table.run_saving.sum(), abs_tol=0.01)
    page = (planned / "report.html").read_text("utf-8")
    assert all(f"{float(figure):,.2f}" in page for figure in saved)
    # Half an interval is 2.365 standard errors with 7 degrees of freedom (Student's table), and 1.96 in the sum.
    errors = (table.run_high - table.run_low) / 2 / 2.365
    width = 2 * 1.96 * math.sqrt((errors**2).sum())
    assert math.isclose(high - low, width, rel_tol=0.02)
    named, count = len(table) + len(bad), len(table) - 1
    said = (
        f"items: {named} named = {count} planned + 1 no demand + {len(bad)} left out "
    )
    assert lines["items"] == f"{said}(rejects.csv says why)"


def test_no_item_is_outside_the_tables(
    table: Rows, left_out: Rows, files: Path, masters: Rows
) -> None:
    """Each name in the files has a row of its own, in decisions.csv or in rejects.csv, with the value of its stock."""
    names = set[str]()
    for file, column in zip(FILES, (1, 0, 0)):
        lines = (files / file).read_text("utf-8").splitlines()
        names |= {line.split(";")[column] for line in lines[len(TITLES) * column :]}
    assert {*table} | {*left_out} == names - {"", "Artikel", "Summe"}
    assert not {*table} & {*left_out}
    values = {name: row["value"] for name, row in left_out.items()}
    values[IDLE] = f"{float(table[IDLE]['value_today']):.2f}"
    for name in (NEW, NO_PLAN, "A-010", "A-020", IDLE):
        value = amount(masters[name]["Bestand"]) * amount(masters[name]["Preis"])
        assert values[name] == f"{float(value):.2f}"
    # They have no master, no price, and two masters.
    assert values["A-777"] == values["A-028"] == values["A-031"] == ""


def test_processes_change_nothing(
    planned: Path, catalogue: crn.Catalogue, tmp_path: Path, program: Path
) -> None:
    out = tmp_path / "plan"
    plan = crn.plan(catalogue, out=out, jobs=3, program=program, **SETTINGS)
    for name in TABLES:
        assert (out / name).read_bytes() == (planned / name).read_bytes()
    assert [*plan.decisions.item] == [*rows_of(out / "decisions.csv")]
    assert plan.decisions.saving.dtype == float


@pytest.fixture
def plan(folder: Path, crnplan: Command, program: Path) -> Plan:
    """Returns a function that plans the files of the folder with more words."""

    def run(*words: str) -> Answer:
        common = "--out", "plan", "--jobs", "1", "--program", program
        return crnplan("plan", *WORDS, *common, *words)

    return run


def planned_now(told: Answer) -> int:
    """Returns how many items a command has planned."""
    assert told.status == 0, told.errors
    said = re.search(r"(\d+) items planned", told.errors)
    assert said
    return int(said[1])


def decisions(folder: Path) -> Rows:
    return whole_rows(folder / "plan")


@pytest.fixture
def begun(folder: Path, planned: Path) -> Path:
    """Returns a folder in which all was planned before."""
    shutil.copytree(planned, folder / "plan")
    return folder


def change(path: Path, row: str, column: int, value: str) -> None:
    """Changes a cell of the first row with this text."""
    lines = path.read_text("utf-8").splitlines()
    (place, *_) = [number for number, line in enumerate(lines) if row in line]
    cells = lines[place].split(";")
    cells[column] = value
    lines[place] = ";".join(cells)
    path.write_text("\r\n".join([*lines, ""]), "utf-8")


def add_column(path: Path, name: str, cells: Row) -> None:
    """Adds a column to a file, with a cell for some rows by their first cell."""
    heading, *rows = path.read_text("utf-8").splitlines()
    rows = [f"{row};{cells.get(row.partition(';')[0], '')}" for row in rows]
    path.write_text("\r\n".join([f"{heading};{name}", *rows, ""]), "utf-8")


def test_only_what_changed_is_planned(begun: Path, plan: Plan, planned: Path) -> None:
    """Plans nothing if nothing has changed, an item if its row has, and none for a price or a description."""
    demand, masters = begun / FILES[0], begun / FILES[1]
    assert planned_now(plan()) == 0
    # rejects.csv names options where a call names arguments.
    for name in {*TABLES} - {"rejects.csv"}:
        assert (begun / "plan" / name).read_bytes() == (planned / name).read_bytes()
    before = decisions(begun)
    change(demand, ";A-001;", 3, "7")
    assert planned_now(plan()) == 1
    after = decisions(begun)
    assert [name for name in before if before[name] != after[name]] == ["A-001"]
    change(masters, "A-002;", 10, "1234,50")
    change(masters, "A-003;", 1, "neu")
    assert planned_now(plan()) == 0
    after = decisions(begun)
    assert after["A-003"]["description"] == "neu"
    assert after["A-002"]["value_today"] != before["A-002"]["value_today"]
    change(masters, "A-002;", 7, "1")
    assert planned_now(plan()) == 1
    leave_few(begun, 3)
    assert planned_now(plan()) == 0
    assert planned_now(plan("--set", "seed=other")) == 3


def test_orders_of_a_day_load_no_compiler(planned: Path, tmp_path: Path) -> None:
    """They come from what is planned: numba would take half a second and 80 MB."""
    assert "numba" not in heavy_of("today", planned, "--out", tmp_path / "orders")


def test_the_command_says_what_it_found(folder: Path, plan: Plan) -> None:
    """Prints guessed columns, not stated ones; with --check nothing is planned."""
    told = plan("--check")
    assert told.status == 0 and 'quantity = "Menge"  # found by its name' in told.errors
    assert "rows = " in told.output and not (folder / "plan/decisions.csv").exists()
    (folder / "crnplan.toml").write_text(told.errors, "utf-8")
    again = plan("--check")
    assert again.output == told.output and "found by its name" not in again.errors
    told = plan("--check", "--set", "demand.quantity=Beleg")
    assert told.status == 1 and " rows = 0 used + " in told.output


def test_learning_from_others(begun: Path, planted: Made, plan: Plan) -> None:
    """Learns once, so that a changed row plans only its item. Fewer than 100 items learn on request. An item whose master
    says that it learns from none is planned alone."""
    settings = "[catalogue]\nperiods = 64\nreplications = 8\nborrow = 'all'\n"
    (begun / "crnplan.toml").write_text(settings, "utf-8")
    leave_few(begun, 0)
    assert "there are 0 items to learn from" in plan().errors
    teaching(planted, ("A-001", "A-034", "A-035", "A-036", "A-037")).write(begun)
    first = plan()
    rejects = rows_of(begun / "plan/rejects.csv", kind="item").values()
    without = sum("too far apart" in row["reason"] for row in rejects)
    before = decisions(begun)
    assert without > 30 and planned_now(first) == len(before) + without
    assert "laws of demand were learned from" in first.output
    laws = Counter(row["law"] for row in before.values())
    assert laws["borrowed"] > laws.total() / 2
    change(begun / FILES[0], ";A-001;", 3, "7")
    assert planned_now(plan()) == 1
    leave_few(begun, 4)
    add_column(begun / FILES[1], "borrow", {"A-034": "None", "A-035": "some"})
    told, was = plan(), before["A-034"]
    assert planned_now(told) == 1
    assert "the masters say otherwise for 1 items (borrow)" in told.output
    after = decisions(begun)["A-034"]
    assert after["law"] != "borrowed" == was["law"]
    alone = was["s_alone"], was["S_alone"]
    assert (after["s_chosen"], after["S_chosen"]) == alone
    reject = rows_of(begun / "plan/rejects.csv", kind="item")["A-035"]
    assert "'some' is not none, class or all" in reject["reason"]


def test_confidence_and_its_price(begun: Path, plan: Plan) -> None:
    """Keeps wanted fill rates under most laws that histories allow, and says in the summary what this costs."""
    leave_few(begun, 6)
    assert planned_now(plan()) == 0
    before, price = decisions(begun), 0.0
    told = plan("--set", "confidence=0.8")
    after = decisions(begun)
    assert planned_now(told) == len(after) == 6
    for name, row in after.items():
        rise = float(row["cost_chosen"]) - float(before[name]["cost_chosen"])
        assert rise >= 0 and (bool(row["fill_wanted"]) or rise == 0)
        assert row["fill_chosen"] >= before[name]["fill_chosen"]
        price += rise
    said = re.search("wanted shares kept under 80% of the laws.*", told.output)
    assert said
    items, cost = re.findall(r"\d[\d.]*", said[0])[1:]
    assert int(items) == sum(bool(row["fill_wanted"]) for row in after.values())
    assert math.isclose(float(cost), price, abs_tol=0.01) and price > 0


@pytest.mark.parametrize("text, said", REFUSED["settings"])
def test_refused_settings(folder: Path, plan: Plan, text: str, said: str) -> None:
    (folder / "crnplan.toml").write_text(text, "utf-8")
    told = plan()
    assert told.status == 2 and said in told.errors and not (folder / "plan").exists()


def test_other_folders_are_refused(folder: Path, plan: Plan) -> None:
    """Writes into no folder that has other files."""
    told = plan("--out", ".")
    assert told.status == 2 and "is not one of crnplan catalogue" in told.errors


@pytest.mark.parametrize("words", REFUSED["words"])
def test_refused_words_of_a_plan(words: dict[str, Any]) -> None:
    with pytest.raises(crn.Refused):
        Settings(**words)


def test_a_fault_of_ours_has_its_status(
    folder: Path, plan: Plan, monkeypatch: pytest.MonkeyPatch
) -> None:
    """An item that breaks our own code is a reject, and the command ends with the status of our faults."""

    def broken(question: Question) -> None:
        raise ZeroDivisionError(question.item.name)

    monkeypatch.setattr(Question, "theory", property(broken))
    told = plan()
    assert told.status == 3 and "are not planned by a fault of crnplan" in told.errors
    assert "ZeroDivisionError" in (folder / "plan/rejects.csv").read_text("utf-8")
