"""Fixtures of the tests of catalogues: a made one in a folder, and a way to plan it fast."""
from __future__ import annotations

import json
import tomllib
from collections.abc import Iterator, Mapping
from pathlib import Path
from typing import Any

import pandas as pd
import pytest

import crnplan as crn
from crnplan import plan
from crnplan.catalogues import Catalogue, read_catalogue
from planner.tests.catalogue.made import NO_PLAN, TODAY, Made, made
from planner.tests.catalogue.months import BEFORE, ITEMS, Month
from planner.tests.conftest import shared
from planner.tests.backtest.test_catalogue import write
from planner.tests.plan.items import QUICK, several
from crnplan.read.item import Item

FILES = ("Bewegungen.csv", "Artikel.csv", "Bestellungen.csv")
WORDS = [*FILES]
REFUSED = tomllib.loads(Path(__file__).with_name("refused.toml").read_text("utf-8"))
TABLES = ("decisions.csv", "details.csv", "rejects.csv", "summary.txt")
# Laws as they were observed, at the level of the record, and short runs: a third of the time.
SETTINGS: dict[str, Any] = {
    "fit": "empirical",
    "borrow": "none",
    "follow": "none",
    "periods": 64,
    "replications": 8,
}
FAST = "[catalogue]\n" + "".join(
    f"{name} = {json.dumps(value)}\n" for name, value in SETTINGS.items()
)


@pytest.fixture(scope="session")
def planted() -> Made:
    return made()


@pytest.fixture(scope="session")
def files(planted: Made, tmp_path_factory: pytest.TempPathFactory) -> Path:
    """Returns a folder with the files of the made catalogue, which nobody changes."""
    return planted.write(tmp_path_factory.mktemp("catalogue"))


@pytest.fixture(scope="session")
def catalogue(files: Path) -> Catalogue:
    """Returns the made catalogue as it is read."""
    return read_catalogue(*(files / it for it in FILES), today=TODAY)


@pytest.fixture(scope="session")
def planned(
    catalogue: Catalogue, tmp_path_factory: pytest.TempPathFactory, program: Path
) -> Path:
    """Returns a folder with the plan of the made catalogue, by one process, which nobody changes."""
    return (
        shared(
            tmp_path_factory,
            "planned",
            lambda folder: plan(
                catalogue, out=folder / "plan", jobs=1, program=program, **SETTINGS
            ),
        )
        / "plan"
    )


def leave_few(folder: Path, few: int) -> None:
    """Leaves so many masters alone, all of items that can be planned."""
    path = folder / FILES[1]
    heading, *rows = path.read_text("utf-8").splitlines()
    kept = [it for it in rows if it >= "A-034" and NO_PLAN not in it][:few]
    path.write_text("\r\n".join([heading, *kept, ""]), "utf-8")


@pytest.fixture
def folder(
    planted: Made, tmp_path: Path, monkeypatch: pytest.MonkeyPatch
) -> Iterator[Path]:
    """Returns a folder of its own with the files and settings that make a run fast, in which the test runs."""
    planted.write(tmp_path)
    (tmp_path / "crnplan.toml").write_text(FAST, "utf-8")
    monkeypatch.chdir(tmp_path)
    yield tmp_path


@pytest.fixture(scope="session")
def dozen() -> Mapping[str, Item]:
    return {item.name: item for item in several(ITEMS)}


@pytest.fixture(scope="session")
def month(
    dozen: Mapping[str, Item], tmp_path_factory: pytest.TempPathFactory, program: Path
) -> Month:
    """Returns eight weeks after a plan of 52, which nobody changes."""
    room = tmp_path_factory.mktemp("months")
    demand, masters = write(room, dozen)
    words = {**QUICK, "program": program}
    month = Month(
        pd.read_csv(demand, parse_dates=["date"]),
        pd.read_csv(masters),
        room / "before",
        words,
    )
    crn.plan(out=month.before, **month.until(BEFORE))
    return month
