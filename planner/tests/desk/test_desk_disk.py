"""Tests of a desk whose disk is full: what it shows is what it has kept, and nothing is half done."""
from __future__ import annotations

import copy
import errno
import io
import os
from collections.abc import Callable
from pathlib import Path

import pytest
from werkzeug.test import TestResponse

from crnplan.desk.kept import FILES, STATE, State
from crnplan.store.files import Folder, faults_of
from planner.tests.desk.conftest import Planner, file_of, opened
from planner.tests.desk.today import Levels, Shown, levels

__all__ = ["levels"]
STOCK = b"item,stock\nA,3\n"
OTHER = b"item,owed,stock\nA,0,4\n"


def fill_disk(monkeypatch: pytest.MonkeyPatch) -> None:
    """Has the state of a desk find no room on the disk."""
    write = Folder.write

    def failing(folder: Folder, name: str, text: str) -> None:
        if name == STATE:
            with faults_of(folder.path):
                raise OSError(errno.ENOSPC, os.strerror(errno.ENOSPC))
        write(folder, name, text)

    monkeypatch.setattr(Folder, "write", failing)


def files_in(folder: Path) -> dict[str, bytes]:
    """Returns the files that were dropped, with their bytes, and how they are read."""
    paths = [*(folder / FILES).rglob("*.*"), folder / "crnplan.toml"]
    return {str(path.relative_to(folder)): path.read_bytes() for path in paths}


def test_orders_that_were_not_kept_are_not_shown(
    planner: Planner, levels: Levels, monkeypatch: pytest.MonkeyPatch
) -> None:
    """Orders are placed on a full disk: none is, neither here nor in the file from which the desk is opened again."""
    shown, path = Shown(planner), planner.desk.path / STATE
    with monkeypatch.context() as full:
        fill_disk(full)
        assert shown.send(shown.forms[-2], "/today/place").status_code == 500
    assert planner.desk.state.placed == [] and Shown(planner).lines == shown.lines
    assert State.stored(path).placed == []
    assert shown.send(shown.forms[-2], "/today/place").status_code == 303
    assert len(State.stored(path).placed) == len(shown.lines)


def drop(planner: Planner, name: str) -> TestResponse:
    """Drops two files at once, of which one replaces the first one."""
    files = [file_of(STOCK, "new.csv"), file_of(b"a,b\n1,2\n", "notes.csv")]
    return planner.post("/files/drop", {"files": files})


def remove(planner: Planner, name: str) -> TestResponse:
    return planner.post(f"/files/{name}/remove", {})


def change_kind(planner: Planner, name: str) -> TestResponse:
    """Says that a file is of another kind, with a delimiter of its own."""
    form = {"kind": "on_order", "delimiter": ";"}
    return planner.post(f"/files/{name}", form)


@pytest.mark.parametrize("change", [drop, remove, change_kind])
def test_files_are_as_they_were(
    change: Callable[[Planner, str], TestResponse],
    planner: Planner,
    monkeypatch: pytest.MonkeyPatch,
) -> None:
    """A file is dropped, removed, or called another one on a full disk: all files, and what is said of them, stay."""
    planner.desk.set_file(
        planner.desk.add_file("a.csv", io.BytesIO(STOCK)).name, "stock", ""
    )
    (file,), before = planner.desk.state.files, files_in(planner.desk.path)
    state = copy.deepcopy(planner.desk.state)
    with monkeypatch.context() as full:
        fill_disk(full)
        assert change(planner, file.name).status_code == 500
    assert planner.desk.state == state and planner.desk.state.files == [file]
    assert files_in(planner.desk.path) == before
    assert change(planner, file.name).status_code == 303
    places = {one.place for one in planner.desk.state.files}
    assert files_in(planner.desk.path).keys() - {"crnplan.toml"} == places


def test_files_are_moved_at_the_next_start(tmp_path: Path) -> None:
    """A desk that ended once its state was kept moves its files when it is opened."""
    with opened(tmp_path / "desk") as front:
        desk = front.desk
        old, new = (desk.add_file(f"{it}.csv", io.BytesIO(STOCK)) for it in "ab")
        desk.set_file(old.name, "stock", "")
        with pytest.MonkeyPatch.context() as ended:
            ended.setattr(desk, "_move", lambda: None)
            desk.set_file(new.name, "stock", "")
        assert len(files_in(desk.path)) == 3
    with opened(tmp_path / "desk") as front:
        (file,) = front.desk.state.files
        assert files_in(front.desk.path).keys() - {"crnplan.toml"} == {file.place}
        assert front.desk.state.moves == {}
