"""Tests that an earlier plan which is damaged, or is another's, is refused as one's own is: no item is new by it."""
from __future__ import annotations

import datetime
import os
import random
import shutil
import sqlite3
from collections.abc import Callable, Sequence
from pathlib import Path
from typing import Any

import pandas as pd
import pytest

import crnplan as crn
from crnplan.errors import CrnplanError, Failed, Refused
from crnplan.store.files import MARKER
from crnplan.plan.catalogue import ANSWERS
from crnplan.read.catalogue_reading import READ
from planner.tests.conftest import shared
from planner.tests.test_folders import DAMAGES

WEEKS, NAMES = 30, [f"I{number:02}" for number in range(18)]
FIRST = datetime.date(2024, 1, 1)
TODAY = FIRST + datetime.timedelta(7 * WEEKS)


def sales_of(names: Sequence[str]) -> pd.DataFrame:
    draws = {name: random.Random(name) for name in names}
    return pd.DataFrame(
        [
            {
                "item": name,
                "date": str(FIRST + datetime.timedelta(7 * week)),
                "quantity": draw.randrange(4),
            }
            for name, draw in draws.items()
            for week in range(WEEKS)
        ]
    )


def plan(names: Sequence[str] = NAMES, **words: Any) -> crn.Plan:
    """Plans a small catalogue of some items."""
    masters = pd.DataFrame(
        {"item": names, "setup": 20, "holding": 1, "backlog": 9, "lead (weeks)": 2}
    )
    return crn.plan(
        sales_of(names),
        masters,
        periods=64,
        replications=2,
        jobs=1,
        fit="empirical",
        borrow="none",
        today=TODAY,
        **words,
    )


@pytest.fixture
def earlier(tmp_path_factory: pytest.TempPathFactory, program: Path) -> Path:
    """Returns the folder of an earlier plan."""
    return shared(
        tmp_path_factory, "earlier", lambda place: plan(out=place, program=program)
    )


def by_sql(store: str, statement: str) -> Callable[[Path], None]:
    """Returns what changes a store as a program would."""

    def damage(folder: Path) -> None:
        with sqlite3.connect(folder / store) as base:
            base.execute(statement)
        base.close()

    return damage


def pipe_in_place(folder: Path) -> None:
    (folder / ANSWERS).unlink()
    os.mkfifo(folder / ANSWERS)


# What changes a store as a program would.
STATEMENTS = {
    ANSWERS: [
        "DELETE FROM answers",
        "DELETE FROM answers WHERE item = 'I03'",
        "UPDATE answers SET item = 'I0x' WHERE item = 'I03'",
        "UPDATE answers SET chosen_cost = 2 * chosen_cost",
        "UPDATE answers SET seal = NULL",
        "DROP TABLE answers",
        "UPDATE answers SET digest = (SELECT digest FROM asked WHERE item = 'I04') WHERE item = 'I03'",
        "DELETE FROM asked",
        "DELETE FROM asked WHERE item = 'I03'",
        "UPDATE asked SET digest = 'x'",
        "DROP TABLE asked",
        "DROP TABLE facts",
        "DELETE FROM facts",
        "UPDATE facts SET value = 'null' WHERE name = 'planned'",
        "UPDATE facts SET value = '[]' WHERE name = 'planned'",
        "UPDATE facts SET value = CAST(x'ff' AS TEXT)",
    ],
    READ: [
        "DELETE FROM items",
        "DELETE FROM items WHERE name = 'I03'",
        "DROP TABLE items",
        "UPDATE items SET counts = 'x'",
        "UPDATE items SET counts = CAST(x'ff' AS TEXT)",
        "DROP TABLE facts",
        "DELETE FROM facts",
        "UPDATE facts SET value = 'x'",
        "UPDATE facts SET value = 'null'",
    ],
}
DAMAGED: dict[str, Callable[[Path], object]] = {
    "answers are a pipe": pipe_in_place,
    **{
        f"{statement} in {store}": by_sql(store, statement)
        for store, statements in STATEMENTS.items()
        for statement in statements
    },
    **{
        f"{name} in {store}": (
            lambda folder, store=store, damage=damage: damage(folder / store)
        )
        for store in STATEMENTS
        for name, damage in {
            **DAMAGES,
            "nothing": lambda path: path.write_bytes(b""),
            "no file": lambda path: path.unlink(),
        }.items()
    },
    "marker missing": lambda folder: (folder / MARKER).unlink(),
    "marker of other bytes": lambda folder: (folder / MARKER).write_bytes(
        b"\xff\xfe" * 99
    ),
}


@pytest.mark.parametrize("name", DAMAGED)
def test_a_damaged_plan(earlier: Path, program: Path, name: str) -> None:
    """What is damaged is named by its place, and nothing is planned after it."""
    DAMAGED[name](earlier)
    with pytest.raises(CrnplanError) as why:
        plan(after=earlier, program=program)
    assert isinstance(why.value, (Refused, Failed)) and str(earlier) in str(why.value)
    assert "make room" not in str(why.value)


@pytest.mark.parametrize("place", range(3))
def test_changed_bytes(earlier: Path, program: Path, place: int) -> None:
    """Whatever bytes of a plan are changed, it is refused, or the outcome is that of the sound one."""
    draw, kept = random.Random(place), {
        path: path.read_bytes() for path in earlier.rglob("*") if path.is_file()
    }
    sound = plan(after=earlier, program=program)
    for _ in range(12):
        path = draw.choice(
            [path for path in kept if path.suffix == ".sqlite" or path.name == MARKER]
        )
        data = bytearray(kept[path])
        for _ in range(draw.choice([1, 5, 50])):
            data[draw.randrange(len(data))] = draw.randrange(256)
        path.write_bytes(data)
        try:
            after = plan(after=earlier, program=program)
        except (Refused, Failed) as why:
            assert str(why)
        else:
            pd.testing.assert_frame_equal(after.changes, sound.changes)
        path.write_bytes(kept[path])


def test_plans_of_others(earlier: Path, tmp_path: Path, program: Path) -> None:
    """A plan of other items, of other periods, a folder of another kind and a plan of another version are refused."""
    with pytest.raises(Refused, match="none of its items is in these tables"):
        plan(["X1", "X2"], after=earlier, program=program)
    assert set(
        plan([*NAMES[5:], "X1"], after=earlier, program=program).changes.change
    ) == {"same", "new", "gone"}
    by_sql(ANSWERS, "ALTER TABLE answers RENAME COLUMN verdict TO outcome")(earlier)
    with pytest.raises(
        Refused,
        match="another version of crnplan has planned it; run crnplan plan again",
    ):
        plan(after=earlier, program=program)
    shutil.copytree(earlier, tmp_path / "copy")
    marker = tmp_path / "copy" / MARKER
    for old, new in (("catalogue", "item"), ("version 1", "version 2")):
        marker.write_text(
            (earlier / MARKER).read_text("utf-8").replace(old, new, 1), "utf-8"
        )
        with pytest.raises(Refused, match="this is no folder of crnplan catalogue"):
            plan(after=tmp_path / "copy", program=program)


def test_settings_that_there_are_no_longer(earlier: Path, program: Path) -> None:
    """A plan that had them as plans are made now is as before; one that was made otherwise is refused by name."""
    sound = plan(after=earlier, program=program)
    fact = (
        "UPDATE facts SET value = replace(value, '{0}', '{1}') WHERE name = 'planned'"
    )
    had = '"season": "auto"', '"season": "auto", "window": null, "weigh": "value"'
    by_sql(ANSWERS, fact.format(*had))(earlier)
    after = plan(after=earlier, program=program)
    pd.testing.assert_frame_equal(after.changes, sound.changes)
    by_sql(ANSWERS, fact.format('"window": null', '"window": 26'))(earlier)
    said = "answers.sqlite: it was planned by window, which there is no longer; run"
    with pytest.raises(Refused, match=said):
        plan(after=earlier, program=program)


def test_a_folder_of_an_older_version(tmp_path: Path, program: Path) -> None:
    """A folder with the files of a version that kept them beside the tables is to be planned anew."""
    (tmp_path / "answers.sqlite").touch()
    said = "an older version of crnplan has planned it; run crnplan plan again"
    with pytest.raises(Refused, match=said):
        plan(after=tmp_path, program=program)
    with pytest.raises(Refused, match=said):
        crn.open_plan(tmp_path)
