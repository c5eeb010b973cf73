"""Tests that all words of reading and planning stand in found.toml, and that this file given back gives the same bytes."""
from __future__ import annotations

import contextlib
import datetime
import shutil
import sqlite3
import subprocess
import sys
import tomllib
from pathlib import Path
from typing import Any

import pandas as pd
import pytest

import crnplan as crn
from crnplan.cli.catalogues import plan
from crnplan.plan.how import Settings
from crnplan.plan.settings import CATALOGUE_RULES
from crnplan.read.catalogue_reading import READ
from crnplan.read.cells import Unreadable
from crnplan.read.dates import DateReader
from crnplan.read.items import Reading
from crnplan.read.configuration import made_from, merged, told_of
from crnplan.toml.rules import TableCheck
from planner.tests.catalogue.conftest import TABLES
from planner.tests.conftest import Answer, Command

WEEKS = 40
# Laws as they were observed, and short runs.
SETTINGS: dict[str, Any] = {
    "periods": 16,
    "replications": 3,
    "fit": "empirical",
    "borrow": "none",
}
FILES = "demand.csv", "items.csv", "orders.csv", "--anyway"
# What names inputs and outputs, or how the work is done: it is no word of reading or planning.
OTHERS = {
    *("tables", "stated", "config", "after"),
    *("out", "only_read", "rejects"),
    *("anyway", "learn_again", "jobs", "cluster", "program"),
}
CASES, KEYS = (
    tomllib.loads(Path(__file__).with_name(f"{name}.toml").read_text("utf-8"))
    for name in ("words", "keys")
)


def rows(item: str, first: int = 0) -> str:
    """Returns movements of an item, of which none fall on the weekdays of another."""
    lines = []
    for week in range(first, WEEKS):
        amount = 1 + (week * (3 + len(item)) + ord(item[0])) % 9
        day = f"2026-{1 + week // 4:02}-{3 + 7 * (week % 4):02}"
        lines.append(f"{item},{day},{amount},{amount + week % 2},PCE\n")
    return "".join(lines)


def written(folder: Path) -> Path:
    """Writes the three tables into a folder, and returns it."""
    demand = "".join(map(rows, "ABDEF")) + rows("C", 27)
    demand += "B,2026-05-10,3,3,KAR\n" * 2 + "D,2026-06-18,9000,9000,PCE\n"
    heading = "item,date,quantity,counted,unit of measure\n"
    (folder / "demand.csv").write_text(heading + demand, "utf-8")
    (folder / "items.csv").write_text(
        "item,description,setup,holding (per week),backlog (per week),fill,lead (weeks),s,S,price,class\n"
        "A,description A,20,0.06,0.9,,2,10,40,10,blue\n"
        "B,description B,20,0.06,0.9,,2,10,40,10,red\n"
        "C,description C,20,0.06,0.9,,2,10,40,10,red\n"
        "D,description D,20,0.06,0.9,,2,10,40,10,red\n"
        "E,description E,,,0.9,,2,10,40,10,red\n"
        "F,description F,20,0.06,,,,10,40,10,blue\n",
        "utf-8",
    )
    (folder / "orders.csv").write_text(
        "item,ordered,received\nF,2026-03-02,2026-03-17\nF,2026-04-06,2026-04-20\nA,2026-03-02,2026-03-16\n",
        "utf-8",
    )
    return folder


@pytest.fixture
def room(tmp_path: Path, monkeypatch: pytest.MonkeyPatch) -> Path:
    """Returns a folder with three tables, in which the test runs, and settings that make a run fast."""
    monkeypatch.chdir(tmp_path)
    set_fast(tmp_path)
    return written(tmp_path)


@pytest.fixture(scope="module")
def without(tmp_path_factory: pytest.TempPathFactory, program: Path) -> Path:
    """Returns a folder with the plan of the three tables without any word but those that make a run fast."""
    folder = written(tmp_path_factory.mktemp("without"))
    set_fast(folder)
    command = [sys.executable, "-m", "crnplan", "plan", *FILES, "--out", "plan"]
    command += ["--config", "fast.toml", "--jobs", "1", "--program", str(program)]
    subprocess.run(command, cwd=folder, check=True, capture_output=True)
    return folder / "plan"


def set_fast(folder: Path, more: str = "", **changed: Any) -> None:
    """Writes settings that make a run fast, with more of them."""
    lines = [f"{key} = {value!r}\n" for key, value in (SETTINGS | changed).items()]
    (folder / "fast.toml").write_text(f"[catalogue]\n{''.join(lines)}{more}", "utf-8")


def read_in(folder: Path) -> dict[str, bytes]:
    paths = [folder / name for name in TABLES]
    return {path.name: path.read_bytes() for path in paths if path.is_file()}


def stated_in(folder: Path) -> dict[str, Any]:
    """Returns the table that found.toml of a folder has."""
    tree = tomllib.loads((folder / "found.toml").read_text("utf-8"))
    return dict(tree["catalogue"])


def test_each_word_has_a_case() -> None:
    """A new option of the command, or a new key of its settings, is carried and has a case here."""
    options = {str(option.name) for option in plan.params}
    assert options - OTHERS <= CASES.keys()
    rules = CATALOGUE_RULES.keys["catalogue"]
    assert isinstance(rules, TableCheck)
    kept = {case.get("key", name) for name, case in CASES.items()}
    assert rules.keys.keys() == kept | KEYS.keys() | {"items", "orders"}


@pytest.mark.parametrize("name", CASES)
def test_found_given_back(
    name: str, room: Path, crnplan: Command, program: Path, without: Path
) -> None:
    """Plans with a word, and again with nothing but found.toml of the first plan: tables are alike to the byte. Without
    the word they are not."""
    case = CASES[name]
    status, beside = case.get("status", 0), case.get("beside", [])

    def planned(out: str, config: str, *words: str) -> Answer:
        common = ["--out", out, "--config", config, "--program", program, "--jobs", 1]
        return crnplan("plan", *FILES, *common, *words)

    def change(file: str, old: str, new: str) -> None:
        text = (room / file).read_text("utf-8")
        assert old in text
        (room / file).write_bytes(text.replace(old, new).encode("cp1252"))

    if name == "borrow":
        set_fast(room, fit="auto")
    if "change" in case:
        change(*case["change"])
    if "--after" in beside:
        assert planned("plain", "fast.toml").status == 0
        change("items.csv", "20,0.06", "20.5,0.06")
    plan = planned("plan", "fast.toml", *case["words"], *beside)
    assert plan.status == status, plan
    assert case.get("key", name) in stated_in(room / "plan")
    if "change" in case or beside or status:
        planned("without", "fast.toml", *beside)
        without = room / "without"
    assert (read_in(room / "plan") == read_in(without)) == case.get("alike", False)
    again = planned("again", "plan/found.toml", *beside)
    assert again.status == status, again
    if status:
        assert again.errors.splitlines()[-1] == plan.errors.splitlines()[-1]
    assert read_in(room / "again") == read_in(room / "plan")
    assert stated_in(room / "again") == stated_in(room / "plan")


def test_keys_without_an_option() -> None:
    """Keys of crnplan.toml alone stand in what is stated of their words."""
    tree = merged(KEYS, {"factors": {"KAR": 12}})
    stated = told_of(made_from(Reading, tree)) | told_of(made_from(Settings, tree))
    assert stated == {**KEYS, "factors": {"KAR": 12}}


def test_words_of_a_command_replace_found_ones() -> None:
    """What a command says of all files counts before what was found of one; the rest of what was found holds."""
    own = {
        "delimiter": ";",
        "decimal": {"quantity": ","},
        "day_first": {"/": True},
    }
    found = {"written": {"demand": own}, "units": {"items.lead": "day"}}
    words = made_from(
        Reading, merged(found, {"delimiter": ",", "units": {"items.s": "12"}})
    )
    rules = words.rules_of("demand")
    assert rules.delimiter == "," and rules.decimal_of("quantity") == ","
    assert rules.day_first == {"/": True}
    assert words.units == {"items": {"lead": "day", "s": "12"}}
    point = made_from(Reading, merged(found, {"decimal": "."})).rules_of("demand")
    assert point.decimal_of("quantity") == "."
    dates = made_from(Reading, merged(found, {"date_formats": ["%Y%m%d"]})).rules_of(
        "demand"
    )
    assert dates.day_first is None
    with pytest.raises(crn.Refused, match="is not one of . and ,"):
        made_from(Reading, {"written": {"demand": {"decimal": {"quantity": "x"}}}})
    with pytest.raises(crn.Refused, match="is not one of , and ;"):
        made_from(Reading, {"written": {"demand": {"delimiter": "x"}}})


def test_stated_order_of_dates() -> None:
    """A stated order reads 03/04/2026, and is refused beside a date that has the other one."""
    text = "03/04/2026"
    for is_first, day in ((True, (2026, 4, 3)), (False, (2026, 3, 4))):
        reader = DateReader(day_first={"/": is_first}).look([text])
        assert reader.read(text)[0] == datetime.date(*day)
    for texts in ([text, "03/25/2026"], ["03-04-2026"]):
        reader = DateReader(day_first={"/": True}).look(texts)
        with pytest.raises(Unreadable, match="the day or the month may be first"):
            reader.read(texts[0])


def test_today_reads_as_the_plan_did(
    room: Path, crnplan: Command, program: Path
) -> None:
    """Stock and orders are read with the columns, the units, the delimiter and the sign that the plan was told, unless
    the command says otherwise."""
    set_fast(
        room,
        'delimiter = ","\nstock = { stock = "Bestand (VE)" }\nunits = { "stock.stock" = "12" }\n',
    )
    words = "--out plan --config fast.toml --program".split()
    answer = crnplan("plan", *FILES, *words, program)
    assert answer.status == 0
    Path("stock.csv").write_text("item,Bestand (VE),other\nA,0.5,4\nC,1,2\n", "utf-8")

    def stock_by(*words: str) -> dict[str, float]:
        common = "plan --stock stock.csv --date 2026-11-02 --out today".split()
        assert crnplan("today", *common, *words).status == 0
        orders = pd.read_csv("today/today_orders.csv")
        return stock_in(orders, pd.read_csv("today/today_lists.csv"))

    assert stock_by() == {"A": 6.0, "C": 12.0}
    other = "--set stock.stock=other --set units.stock.stock=item"
    known = "--set", "where=stock.Bestand (VE)=*"
    assert stock_by(*other.split(), *known) == {"A": 4.0, "C": 2.0}
    orders = crn.open_plan(room / "plan").orders_today("stock.csv", date="2026-11-02")
    assert stock_in(orders.frame, orders.lists) == {"A": 6, "C": 12}


def stock_in(*tables: pd.DataFrame) -> dict[str, float]:
    """Returns the stock of each item of which it is known."""
    stock = pd.concat(tables).set_index("item").stock.dropna()
    return {str(name): float(number) for name, number in stock.items()}


def test_folder_of_an_older_version(
    room: Path, crnplan: Command, without: Path
) -> None:
    """A folder without a fact that is needed is refused with advice."""
    shutil.copytree(without, "old")
    with contextlib.closing(sqlite3.connect(f"old/{READ}")) as base, base:
        base.execute("DELETE FROM facts WHERE name = 'told'")
    answer = crnplan("today", "old", "--date", "2026-11-02")
    said = "another version of crnplan has read it; run crnplan plan again"
    assert answer.status == 2 and said in answer.errors
