"""Tests of a store that is read while others read it."""
from __future__ import annotations

import shutil
from pathlib import Path
from typing import Any

import pytest

from crnplan.errors import Refused
from crnplan.plan.catalogue import readable


@pytest.fixture
def index(tmp_path: Path) -> Path:
    """Returns a store with what a reader has left beside it."""
    for name in ("answers.sqlite", "answers.sqlite-wal"):
        (tmp_path / name).write_bytes(b"x")
    return tmp_path / "answers.sqlite"


def test_log_that_vanishes(
    index: Path, tmp_path: Path, monkeypatch: pytest.MonkeyPatch
) -> None:
    """When the last reader ends, SQLite removes the log, whose content is in the store then."""
    usual = shutil.copyfile

    def copied(source: Path, target: Path) -> Any:
        index.with_name(f"{index.name}-wal").unlink(missing_ok=True)
        return usual(source, target)

    monkeypatch.setattr(shutil, "copyfile", copied)
    room = tmp_path / "room"
    room.mkdir()
    assert readable(index, room) == (index, True)
    for log in "wal", "journal":
        index.with_name(f"{index.name}-{log}").touch()
    assert readable(index, room) == (room / index.name, False)


def test_log_that_stays(index: Path, tmp_path: Path) -> None:
    """It is copied with the store; a copy that fails for another reason is refused."""
    room = tmp_path / "room"
    with pytest.raises(Refused, match="room"):
        readable(index, room)
    room.mkdir()
    assert readable(index, room) == (room / index.name, False)
    assert {path.name for path in room.iterdir()} == {index.name, f"{index.name}-wal"}
