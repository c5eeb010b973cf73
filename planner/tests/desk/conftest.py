"""Fixtures of the tests of the desk: a desk in a new folder, planners who ask it, and a desk with a plan."""
from __future__ import annotations

import contextlib
import io
import time
from collections.abc import Callable, Iterator
from pathlib import Path
from typing import Any

import pytest
from werkzeug.test import TestResponse

from crnplan.desk.front import Front
from crnplan.desk.kept import DESK, PLANS, Desk
from crnplan.desk.safety import TOKEN, Secret
from crnplan.desk.server import application, rooms_in
from crnplan.store.files import own_folder
from planner.tests.conftest import script
from planner.tests.desk.monday import Export
from planner.tests.show.made_catalogue import made_folder

HOST = "localhost"
ORIGIN = f"http://{HOST}"
MADE_PLAN = "2026-11-27"
# Words of crnplan.toml: how the American company of monday.py is planned, and that it takes seconds.
WORDS = {
    "where": ["Warehouse=Main", "Type=Sale"],
    "currency": "USD",
    "setup": 45,
    "holding_rate": 0.2,
    "fill": 0.95,
}
QUICK = {"periods": 256, "replications": 4}
# A loaded machine may need this long for some work, in seconds.
LONGEST = 100


def file_of(data: bytes, name: str) -> tuple[io.BytesIO, str]:
    """Returns a file as a form sends it."""
    return io.BytesIO(data), name


def wait_for(is_true: Callable[[], bool]) -> None:
    """Waits until something is true."""
    end = time.monotonic() + LONGEST
    while not is_true():
        assert time.monotonic() < end, "it took too long"
        time.sleep(0.02)


def held(folder: Path, program: Path) -> Path:
    """Returns a program that waits while there is a file `hold` in its folder, and makes that file."""
    hold = folder / "hold"
    hold.touch()
    lines = f'while [ -e "{hold}" ]; do sleep 0.05; done\nexec "{program}"'
    return script(folder / "held", lines)


class Planner:
    """Asks the pages of a desk as a browser does in which its address was opened."""

    def __init__(self, front: Front, language: str = "en") -> None:
        self.front, self.desk = front, front.desk
        self.client = application(front, {HOST}).test_client()
        self.token = front.secret.derived(TOKEN)
        self.languages = {"Accept-Language": language}
        assert self.get(f"/enter/{front.secret.text}").status_code == 200

    def get(self, path: str, **query: Any) -> TestResponse:
        """Returns the answer to a page that is asked for."""
        return self.client.get(path, query_string=query or None, headers=self.languages)

    def post(self, path: str, fields: dict[str, Any]) -> TestResponse:
        """Returns the answer to a form that is sent. A file is a pair of bytes and a name, several are a list of such."""
        return self.client.post(
            path,
            data={TOKEN: self.token, **fields},
            headers={**self.languages, "Origin": ORIGIN},
            content_type="multipart/form-data",
        )

    def wait(self) -> list[str]:
        """Waits for the end of the work that is under way, and returns what is said of it."""
        wait_for(lambda: self.front.work is None)
        return self.desk.state.said


@contextlib.contextmanager
def opened(path: Path, program: Path | None = None) -> Iterator[Front]:
    """Opens the desk of a folder, as the command does but for the server."""
    with (
        own_folder(path, DESK) as folder,
        rooms_in(folder.room()),
        contextlib.closing(
            Front(Desk(folder), Secret(), str(program) if program else None)
        ) as front,
    ):
        yield front


@pytest.fixture
def front(tmp_path: Path) -> Iterator[Front]:
    """Returns an empty desk. Its work runs no program."""
    with opened(tmp_path / "desk") as front:
        yield front


@pytest.fixture
def planner(front: Front) -> Planner:
    """Returns who asks an empty desk."""
    return Planner(front)


def add_export(front: Front, export: Export) -> None:
    """Adds the files of a company to a desk, which says how they are planned in few replications."""
    for kind, path in (("demand", export.demand), ("items", export.masters)):
        with path.open("rb") as data:
            file = front.desk.add_file(path.name, data)
        front.desk.set_file(file.name, kind, "")
    front.desk.keep_words({**QUICK, **WORDS})


def add_made_plan(front: Front, items: int, **more: Any) -> Path:
    """Adds a plan of so many made items to a desk, without planning, and returns its folder."""
    path = made_folder(front.desk.path / PLANS / MADE_PLAN, items, **more)
    with front.desk.changing() as state:
        state.plans.append(MADE_PLAN)
        state.planned = state.changed
    return path
