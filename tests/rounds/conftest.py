"""Fixtures of the tests of tools/rounds.py: a repository with a small crate that is proved."""
from __future__ import annotations

import fcntl
import shutil
from pathlib import Path

import pytest

from tests.rounds.small_crate import make_repository


@pytest.fixture(scope="session")
def proved(
    tmp_path_factory: pytest.TempPathFactory, top: Path, request: pytest.FixtureRequest
) -> Path:
    """Returns a repository in which the small crate is proved. All processes of a parallel run share it."""
    folder = tmp_path_factory.getbasetemp()
    folder = folder.parent if hasattr(request.config, "workerinput") else folder
    with open(folder / "rounds.lock", "w", encoding="ascii") as lock:
        fcntl.flock(lock, fcntl.LOCK_EX)
        if not (folder / "rounds").exists():
            make_repository(folder / "rounds.begun", top)
            (folder / "rounds.begun").rename(folder / "rounds")
    return folder / "rounds"


@pytest.fixture
def repository(proved: Path, room: Path) -> Path:
    """Returns a copy of that repository, of the test's own."""
    return Path(shutil.copytree(proved, room / "repository"))
