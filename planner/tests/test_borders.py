"""Tests values at a border, limits that are made small, and messages with figures or advice, of commands."""
from __future__ import annotations

import csv
import datetime
import re
import sys
from collections.abc import Callable, Sequence
from pathlib import Path

import pytest

import crnplan as crn
from planner.tests.conftest import Answer, Command

MASTERS = "item,setup,holding,backlog,lead (weeks),s,S,price,class\n"
MASTER = "{},12,0.06,0.9,2,6,20,5,{}\n"
TEACHER = "{},12,0.0001,500,2,6,20,5,{}\n"  # with costs too far apart for a plan
SMALL = "[catalogue]\nperiods = 8\nreplications = 2\nleast = 1\n"
Write = Callable[[str, Sequence[Sequence[object]]], str]


def make_small(patch: pytest.MonkeyPatch, name: str, value: int) -> None:
    """Sets a limit in each module of crnplan that has it under its name."""
    modules = [
        its
        for module, its in sys.modules.items()
        if module.startswith("crnplan") and hasattr(its, name)
    ]
    assert modules, f"there is no limit {name}"
    for module in modules:
        patch.setattr(module, name, value)


@pytest.fixture
def write(tmp_path: Path, monkeypatch: pytest.MonkeyPatch) -> Write:
    """Returns a function that writes rows to a CSV file of an own folder, in which the test runs."""
    monkeypatch.chdir(tmp_path)
    (tmp_path / "settings.toml").write_text(SMALL, "utf-8")

    def file(name: str, rows: Sequence[Sequence[object]]) -> str:
        with (tmp_path / name).open("w", encoding="utf-8", newline="") as out:
            csv.writer(out).writerows(rows)
        return name

    return file


def catalogue(
    crnplan: Command,
    names: Sequence[str],
    *words: str | Path,
    teachers: Sequence[str] = (),
) -> Answer:
    """Runs `crnplan plan` on demand.csv for items with these names, by one process. Teachers have no plan."""
    rows = [
        (TEACHER if name in teachers else MASTER).format(name, "AB"[place % 2])
        for place, name in enumerate(names)
    ]
    Path("items.csv").write_text(MASTERS + "".join(rows), "utf-8")
    line = "plan demand.csv items.csv --config settings.toml --jobs 1 --out plan"
    return crnplan(*line.split(), *words)


def of_days() -> list[str]:
    """Returns the words of a record of days, in which amounts of a period are those of a day."""
    return [
        "--every",
        "day",
        *(f"--set=units.items.{name}=day" for name in ("holding", "backlog", "lead")),
    ]


def rejects() -> list[dict[str, str]]:
    return [*csv.DictReader(Path("plan/rejects.csv").read_text("utf-8").splitlines())]


@pytest.mark.parametrize("stated", ["neither", "from", "to", "both"])
def test_days_at_the_ends_of_the_record(
    write: Write, crnplan: Command, program: Path, stated: str
) -> None:
    """The first and the last day belong to the record, the days beside them do not. Without an end it is today."""
    today = datetime.date.today()
    first = today - datetime.timedelta(60)
    days = [first + datetime.timedelta(it) for it in range(-1, 62)]
    write(
        "demand.csv",
        [
            ["date", "item", "quantity"],
            *([str(day), "A", number % 3 + 1] for number, day in enumerate(days)),
        ],
    )
    words = {"from": ["--set", f"from={first}"], "to": ["--set", f"to={today}"]}
    words |= {"neither": [], "both": words["from"] + words["to"]}
    told = catalogue(crnplan, ["A"], "--program", program, *of_days(), *words[stated])
    rejected = {row["line"] for row in rejects() if row["kind"] == "row"}
    assert told.status == 0
    assert rejected == {
        *(["2"] if stated in ("from", "both") else []),
        str(len(days) + 1),
    }


@pytest.mark.parametrize(("borrow", "learned"), [("all", 35), ("class", 40)])
def test_how_many_items_are_learned_from(
    write: Write,
    crnplan: Command,
    program: Path,
    borrow: str,
    learned: int,
    monkeypatch: pytest.MonkeyPatch,
) -> None:
    """What all items learn comes from so many at most. What a class learns comes from all."""
    assert callable(crn.plan)  # its modules are loaded, so that their limits are there
    make_small(monkeypatch, "MOST_READ", 35)
    names = [f"I-{number:02}" for number in range(40)]
    day = datetime.date(2025, 1, 6)
    write(
        "demand.csv",
        [
            ["date", "item", "quantity"],
            *(
                [str(day + datetime.timedelta(7 * week)), name, 1 + (number * week) % 4]
                for number, name in enumerate(names)
                for week in range(number % 3, 24, 2)
            ),
        ],
    )
    told = catalogue(
        crnplan,
        names,
        "--set",
        f"borrow={borrow}",
        "--program",
        program,
        teachers=names[2:],
    )
    assert (
        told.status == 0
        and f"laws of demand were learned from {learned} items" in told.output
    ), told


def test_odd_rows(write: Write, crnplan: Command, program: Path) -> None:
    """3,000 is 750 times 4. A row with too few cells lacks its last ones, as its quantity, and a text too many is
    rejected."""
    day = datetime.date(2025, 1, 6)
    amounts = [4, 3, 1, 3_000, 2, 4, 4_500, *[1, 2, 3] * 12]
    days = [day + datetime.timedelta(7 * week) for week in range(len(amounts))]
    write(
        "demand.csv",
        [
            ["date", "item", "quantity"],
            *([day, "A", amount] for day, amount in zip(days, amounts)),
            *([day, "B", 3] for day in days),
        ],
    )
    catalogue(crnplan, ["A", "B"], "--program", program)
    (row,) = (it for it in rejects() if it["item"] == "A")
    assert "lines 8, 5" in row["reason"]
    assert "750 times 4" in row["reason"]
    assert row["text"] == "4500"
    day = datetime.date(2025, 1, 6)
    rows = [
        [str(day + datetime.timedelta(7 * week)), "A", 1 + week % 3, "x"]
        for week in range(20)
    ]
    odd = [rows[0][:3], rows[1][:2], [*rows[2], ""], [*rows[3], "y"]]
    write("demand.csv", [["date", "item", "quantity", "note"], *odd, *rows[4:]])
    catalogue(crnplan, ["A"], "--program", program)
    found = {(row["line"], row["column"], row["kind"]) for row in rejects()}
    assert found == {("3", "quantity", "suspicious"), ("5", "", "row")}


@pytest.mark.parametrize("blank", [0, 2])
def test_blank_rows_are_counted(
    write: Write, crnplan: Command, program: Path, blank: int
) -> None:
    day = datetime.date(2025, 1, 6)
    rows = [[day + datetime.timedelta(7 * week), "A", week % 4] for week in range(30)]
    write(
        "demand.csv",
        [["date", "item", "quantity"], *rows[:9], *[["", "", ""]] * blank, *rows[9:]],
    )
    told = catalogue(crnplan, ["A"], "--program", program)
    (line,) = (it for it in told.output.splitlines() if it.startswith("demand.csv:"))
    assert ("2 blank rows" in line, "blank" in line) == (blank == 2, blank == 2)


DAILY = "item,setup,holding,backlog,lead (days),s,S\nA,12,1,9,2,6,20\n"


def daily_rejects(folder: Path, rows: Sequence[str], **words: str) -> list[str]:
    """Returns why rows of demand of an item A, as DATE,QUANTITY, are left out or looked at, with advice."""
    lines = ["date,quantity,item", *(f"{row},A" for row in rows), ""]
    (folder / "demand.csv").write_text("\n".join(lines), "utf-8")
    (folder / "items.csv").write_text(DAILY, "utf-8")
    units = {"items": {"holding": "day", "backlog": "day"}}
    read = crn.read_catalogue(
        *(folder / "demand.csv", folder / "items.csv"),
        **{"every": "day", "units": units, "least": 1, "far": "keep", **words},
    )
    return [*(read.rejects.reason + "; " + read.rejects.advice.fillna(""))]


@pytest.mark.parametrize("count", range(1, 13))
def test_lines_of_equal_rows(tmp_path: Path, count: int) -> None:
    """A note on rows that stand twice names all their lines, or says that there are more."""
    rows = ["2025-01-06,3"] * (count + 1)
    rows += [f"2025-02-{day:02},{day}" for day in range(1, 20)]
    (note,) = daily_rejects(tmp_path, rows)
    assert "the same as" in note
    lines = {int(it) for it in re.findall(r"\d+", note)}
    named = {*range(3, count + 3)} if count > 1 else {2}
    assert (named <= lines) == (".." not in note)


@pytest.mark.parametrize("text", ["1.000", "2.500", "9.000", "1.234", "7.001"])
def test_advice_on_two_readings_helps(tmp_path: Path, text: str) -> None:
    """Each decimal sign that a message advises leads to the number that it then is, or to the reason why it is none."""
    amounts = ["3", text, "0", "2"] * 4
    rows = [f"2025-01-{6 + at:02},{amount}" for at, amount in enumerate(amounts)]
    first, *_ = daily_rejects(tmp_path, rows)
    signs = re.findall(r"decimal=([.,])", first)
    assert signs == [".", ","]
    for sign in signs:
        number = float(text) if sign == "." else int(text.replace(".", ""))
        found = daily_rejects(tmp_path, rows, decimal=sign)
        assert bool(found) == bool(number % 1)
        assert all("is not a whole number" in reason for reason in found)
