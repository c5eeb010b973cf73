"""Tests the test of a whole catalogue on its past: by the command and in Python, resumed, and with other workers."""
from __future__ import annotations

import contextlib
import csv
import dataclasses
import datetime
from collections.abc import Mapping
from pathlib import Path
from typing import Any

import numpy as np
import pytest

import crnplan as package
from crnplan.demand.learning import Prior
from crnplan.store.files import own_folder
from crnplan.show.backtest_tables import BACKTEST_COLUMNS, SUM_COLUMNS
from crnplan.plan.backtest.catalogue import TESTS
from crnplan.plan.backtest.lessons import Records
from crnplan.plan.backtest.methods import PLANNED, Walk, Way
from crnplan.plan.backtest.one import Backtest, backtest_one
from crnplan.plan.how import NONE, Settings
from crnplan.read.catalogue_reading import CATALOGUE, READ
from crnplan.read.item import Item
from crnplan.store.stored import Store
from planner.tests.conftest import Command, rows_of, shared
from planner.tests.show.page_reader import Page
from planner.tests.plan.items import START, several, tables_of

ITEMS = 14
WORDS = "--record 40 --every 10 --window 30".split()
WALK: dict[str, Any] = {"record": 40, "every": 10, "window": 30, "jobs": 1}
FILES = "backtest.csv", "backtest_sums.csv", "backtest.txt", "backtest.html"


def write(folder: Path, items: Mapping[str, Item]) -> list[Path]:
    """Writes the two tables of items into a folder. Item I-013 comes in week 30."""
    folder.mkdir(parents=True, exist_ok=True)
    written = list[Item]()
    for item in items.values():
        counts = np.array(item.counts)
        counts[: 30 if item.name == "I-013" else 0] = 0
        written.append(dataclasses.replace(item, counts=tuple(counts.tolist())))
    paths = [folder / "demand.csv", folder / "items.csv"]
    for path, table in zip(paths, tables_of(written)):
        table.to_csv(path, index=False)
    return paths


@pytest.fixture(scope="module")
def items() -> Mapping[str, Item]:
    return {item.name: item for item in several(ITEMS)}


@pytest.fixture(scope="module")
def made(items: Mapping[str, Item], tmp_path_factory: pytest.TempPathFactory) -> Path:
    """Returns a folder with the two tables of a small catalogue and its test in `out`, which nobody changes."""

    def make(room: Path) -> None:
        package.backtest(*write(room, items), out=room / "out", **WALK)

    return shared(tmp_path_factory, "past", make)


def read(folder: Path) -> dict[str, bytes]:
    return {name: (folder / name).read_bytes() for name in FILES}


def test_same_bytes_whatever_the_workers(room: Path, crnplan: Command) -> None:
    """The command writes with two processes what Python does with one, and prints the summary."""
    tables = room / "demand.csv", room / "items.csv"
    out = "--out", room / "two", "--jobs", 2
    answer = crnplan("backtest", *tables, *WORDS, *out)
    assert answer.status == 0
    assert answer.output == (room / "out/backtest.txt").read_text("utf-8")
    assert read(room / "two") == read(room / "out")


def test_only_what_has_changed_is_tested_again(room: Path, crnplan: Command) -> None:
    """Tested again, nothing is tested; after a change of a master, its item is."""
    tables, out = [room / "demand.csv", room / "items.csv"], room / "out"
    words = "backtest", *tables, *WORDS, "--out", out, "--jobs", 1
    before, files = rows_of(room / "out/backtest.csv"), read(room / "out")
    again = crnplan(*words)
    assert again.status == 0
    assert read(room / "out") == files
    assert "of 14 items" not in again.errors
    text = (room / "items.csv").read_text("utf-8")
    (room / "items.csv").write_text(
        text.replace("I-004,a,24.0", "I-004,a,25.0"), "utf-8"
    )
    assert "14 of 14 items (13 kept)" in crnplan(*words).errors
    after = rows_of(room / "out/backtest.csv")
    assert [name for name in before if before[name] != after[name]] == ["I-004"]


def test_rows_are_those_of_each_item(made: Path, items: Mapping[str, Item]) -> None:
    """Each row has the figures of its item by itself, and an item that came late says why it has none."""
    rows = rows_of(made / "out/backtest.csv")
    assert rows.keys() == items.keys()
    assert [*rows["I-001"]] == [column.name for column in BACKTEST_COLUMNS]
    assert {name for name, row in rows.items() if row["left_out"]} == {"I-013"}
    said = "it has 30 periods, and a test needs 50. test it with a shorter record"
    assert rows["I-013"]["left_out"] == said
    own, walk = Settings(borrow=NONE, every="week"), Walk(40, 10, 30)
    for name in ("I-002", "I-003"):
        test = backtest_one(items[name], walk, {PLANNED: Way(own, Prior(NONE))})
        for policy in ("today", "planned", "averaged", "smoothed", "cover"):
            outcome = getattr(test, policy)
            cost, fill, stock = (
                float(rows[name][f"{it}_{policy}"]) for it in ("cost", "fill", "stock")
            )
            assert cost == pytest.approx(outcome.cost, abs=0.006)
            assert fill == pytest.approx(outcome.fill, abs=6e-5)
            assert stock == pytest.approx(outcome.stock, rel=1e-4)


def test_items_as_they_were_at_the_end_of_their_records(made: Path) -> None:
    """What a test learns from, it sees up to that day."""
    with contextlib.closing(Records(made / "out" / READ, 40)) as records:
        pairs = [*zip(records.whole_items(), records.items(), strict=True)]
    assert len(pairs) == ITEMS
    for whole, known in pairs:
        assert known.counts == whole.counts[:40]


def test_values_of_a_notebook(room: Path) -> None:
    """A Catalogue that was read gives the same value: rows, sums, text and page."""
    catalogue = package.read_catalogue(room / "demand.csv", room / "items.csv")
    tests = package.backtest(catalogue, out=room / "out", **WALK)
    assert tests.tested.now == 0
    assert tests.tested.kept == ITEMS
    assert tests.table.csv.encode() == (room / "out/backtest.csv").read_bytes()
    assert tests.text == (room / "out/backtest.txt").read_text("utf-8")
    assert tests.page == (room / "out/backtest.html").read_text("utf-8")
    assert [*tests.sums] == [column.name for column in SUM_COLUMNS]
    assert tests.sums["class"].tolist() == ["", "a", "b"]
    assert tests.verdict in tests.text
    assert f"\n  {tests.gains}\n" in tests.text


def check_sides(table: list[list[str]], written: Mapping[str, str]) -> None:
    """Checks that ways stand side by side as in the table of sums."""
    names = {"today's": "today"}
    ways = ["today's", "planned", "averaged", "smoothed", "cover"]
    assert [row[0] for row in table[1:]] == ways
    columns = "stock_{}", "cost_{}", "equal_stock_{}", "equal_spent_{}"
    for row in table[1:]:
        code = names.get(row[0], row[0])
        met = float(row[1].partition(" ± ")[0])
        assert met == pytest.approx(100 * float(written[f"fill_{code}"]), abs=0.06)
        assert float(row[4]) == pytest.approx(
            float(written[f"orders_{code}"]), abs=6e-4
        )
        for cell, column in zip((row[2], row[3], row[6], row[7]), columns):
            if code == "planned":
                assert cell == "-"
                continue
            value, _, error = cell.partition("%")[0].partition(" ± ")
            name = column.format(code)
            figures = [100 * float(written[name + end]) for end in ("", "_error")]
            assert [float(value), float(error)] == pytest.approx(figures, abs=0.06)


def test_page(made: Path) -> None:
    """The page says what the text says, has a row for each class, and asks for no other file."""
    page, text = Page(made / "out/backtest.html"), (
        made / "out/backtest.txt"
    ).read_text("utf-8")
    page.check_alone()
    assert text.splitlines()[0] in page.words
    sums = page.tables["Sums of all items and of each class"]
    assert [row[0] for row in sums] == ["class", "all", "a", "b"]
    rows, written = rows_of(made / "out/backtest.csv"), rows_of(
        made / "out/backtest_sums.csv", "class"
    )
    for row in sums[1:]:
        own = written[row[0].replace("all", "")]
        assert [row[1], *row[3:5]] == [own["verdict"], own["items"], own["broken"]]
        assert f"  {own['broken']} of {own['items']} items missed the promised" in text
        shares = [100 * float(own[name]) for name in ("promised_fill", "fill_planned")]
        shown = [float(cell.partition(" ± ")[0].rstrip("%")) for cell in row[5:7]]
        assert shown == pytest.approx(shares, abs=0.06)
        assert float(row[7].partition(" ± ")[0]) == pytest.approx(
            -100 * float(own["drift"]), abs=0.06
        )
    check_sides(page.tables["Ways side by side"], written[""])
    worst = page.tables["The items that missed most"][1:]
    assert worst
    assert {row[0] for row in worst} <= {
        name for name, row in rows.items() if not row["left_out"]
    }
    assert worst[0][1] == f"{float(rows[worst[0][0]]['promised_fill_planned']):.1%}"


def test_no_item_in_sums(items: Mapping[str, Item], tmp_path: Path) -> None:
    """An item of which all demand is in the record has a test, but is in no sum, as nobody asked for it later. Nobody has
    asked for the other one at all."""
    ended = dataclasses.replace(
        items["I-000"], counts=(0, 9, 0, 0, 9) + (0,) * 495, returns=()
    )
    nothing = dataclasses.replace(items["I-001"], counts=(0,) * 500, returns=())
    tables = write(tmp_path, {"I-000": ended, "I-001": nothing})
    tests = package.backtest(
        *tables, start=START, end=START + datetime.timedelta(7 * 500 - 1), **WALK
    )
    assert (
        tests.verdict
        == tests.text.splitlines()[0]
        == "No item has a test on its own past."
    )
    assert (
        "items: 2 named = 1 tested + 1 without a test (backtest.csv says why) + 0 that can't be planned"
        in tests.text
    )
    assert (
        tests.frame.set_index("item")
        .left_out["I-001"]
        .startswith("nothing was asked for in 500 periods")
    )
    row, _ = csv.DictReader(tests.table.csv.splitlines())
    assert row["item"] == "I-000"
    assert float(row["cost_planned"]) > 0
    assert "No item has a test" in tests.page
    assert "Met at once, by stock" not in tests.page


def test_planned_folder(
    items: Mapping[str, Item], tmp_path: Path, crnplan: Command, program: Path
) -> None:
    """A folder of crnplan catalogue is tested with the settings of its plan, and keeps its plan."""
    tables, out = (
        write(tmp_path, {name: items[name] for name in ("I-000", "I-001")}),
        tmp_path / "plan",
    )
    words = f"--out {out} --set seed=other --jobs 1 --program {program}"
    crnplan("plan", *tables, *words.split())
    plan = (out / "decisions.csv").read_bytes()
    assert crnplan("backtest", out, *WORDS, "--jobs", 1).status == 0
    assert (out / "decisions.csv").read_bytes() == plan
    assert (
        package.backtest(*tables, seed="other", **WALK).table.csv.encode()
        == (out / "backtest.csv").read_bytes()
    )


def test_line_on_the_page_of_the_plan(
    items: Mapping[str, Item], tmp_path: Path, crnplan: Command, program: Path
) -> None:
    """The page of a plan says how to get the line of its past, has that of the test in its folder, and says if that is
    of other rows."""
    tables, out, name = write(tmp_path, items), tmp_path / "plan", "report.html"
    plan = "plan", *tables, "--out", out, "--jobs", 2, "--program", program
    (tmp_path / "crnplan.toml").write_text(
        "[catalogue]\nperiods = 64\nreplications = 4\n", "utf-8"
    )
    crnplan(*plan, "--config", tmp_path / "crnplan.toml")
    assert "is said by crnplan backtest FOLDER" in Page(out / name).words
    with own_folder(out, CATALOGUE) as folder:
        Store(
            folder.store(TESTS), Backtest
        ).close()  # a test that was broken off at once
    crnplan("report", out)
    assert "is said by crnplan backtest FOLDER" in Page(out / name).words
    crnplan("backtest", out, *WORDS, "--jobs", 1)
    crnplan("report", out)
    line = (out / "backtest.txt").read_text("utf-8").splitlines()[0]
    assert line.startswith("On your own past the plan met ")
    assert line in Page(out / name).words
    again = (out / name).read_bytes()
    crnplan(*plan, "--config", tmp_path / "crnplan.toml")
    assert (out / name).read_bytes() == again
    tables[1].write_text(
        tables[1].read_text("utf-8").replace("I-004,a,24.0", "I-004,a,25.0"), "utf-8"
    )
    crnplan(*plan, "--config", tmp_path / "crnplan.toml")
    words = Page(out / name).words
    assert "The test on your own past is not of this plan." in words
    assert line not in words


@pytest.mark.parametrize(
    "given, said",
    [
        (["plan"], "no plan is in it"),
        (["demand.csv", "items.csv"], "or tables and --out"),
        (["plan", "--set", "fill=95%"], "leave them out"),
        (["plan", "--out", "other"], "plan: No such file"),
    ],
)
def test_words_that_are_refused(crnplan: Command, given: list[str], said: str) -> None:
    answer = crnplan("backtest", *given)
    assert answer.status == 2
    assert said in answer.errors
