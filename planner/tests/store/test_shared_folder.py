"""Tests of a folder that several threads of a run use."""
from __future__ import annotations

import sys
from collections.abc import Iterator
from concurrent.futures import ThreadPoolExecutor
from pathlib import Path

import pytest

from crnplan.store.files import MARKER, own_folder

THREADS, TIMES, KIND = 8, 30, "test"


@pytest.fixture(autouse=True)
def hurried() -> Iterator[None]:
    """Has threads take turns as often as they can."""
    usual = sys.getswitchinterval()
    sys.setswitchinterval(1e-6)
    yield
    sys.setswitchinterval(usual)


def test_threads_share_a_folder(tmp_path: Path) -> None:
    """Each has what it claims, and all have the same room for what is not finished."""
    with own_folder(tmp_path / "own", KIND) as folder:

        def used(thread: int) -> set[Path]:
            rooms = set[Path]()
            for time in range(TIMES):
                folder.claim(f"{thread} {time}")
                rooms.add(folder.room())
                assert folder.room().is_dir()
            return rooms

        with ThreadPoolExecutor(THREADS) as threads:
            rooms = set[Path]().union(*threads.map(used, range(THREADS)))
        assert len(rooms) == 1
        marked = (tmp_path / "own" / MARKER).read_text("utf-8").splitlines()[1:]
        assert {*marked} == folder.names and len(marked) == THREADS * TIMES + 1


def test_a_folder_that_was_let_go(tmp_path: Path) -> None:
    """A thread that is late writes nothing into a folder which another run may hold, nor into what was opened since."""
    with own_folder(tmp_path / "own", KIND) as folder:
        folder.write("a.txt", "first")
    other = (tmp_path / "other").open("w+", encoding="utf-8")
    before = (tmp_path / "own" / MARKER).read_bytes()
    for name in ("a.txt", "b.txt"):
        with pytest.raises(OSError):
            folder.claim(name)
            folder.room()
    assert [*(tmp_path / "own").glob("unfinished*")] == []
    assert (tmp_path / "own" / MARKER).read_bytes() == before
    assert other.read() == ""
    other.close()
