"""Tests that nothing but crnplan's own is overwritten or removed, and that a damaged store is named."""
from __future__ import annotations

import contextlib
import fcntl
import os
import shutil
import sqlite3
from collections.abc import Callable, Sequence
from pathlib import Path

import pytest

from crnplan.errors import Refused
from crnplan.plan.catalogue import ANSWERS
from crnplan.read.catalogue_reading import READ
from crnplan.store.files import own_folder
from planner.tests.conftest import Command, write_inputs

PLANT = "not of crnplan\n"
MARKER = "plan/crnplan-folder.txt"
# Files that earlier commands of crnplan wrote, or looked for.
NAMES = """parts/mine.csv lock catalogue.sqlite catalogue.sqlite.part answers.sqlite decisions.csv state.json summary.txt
    00000.toml key_1.csv kept/answers.sqlite unfinished-0123456789abcdef/mine""".split()
# The commands that keep a folder, with their words.
CATALOGUE = "plan demand.csv items.csv --jobs 1 --out plan".split()
REPORT = ["report", "plan"]
KEEPING = pytest.mark.parametrize("words", [CATALOGUE], ids=lambda words: words[0])


def write_all_inputs(folder: Path, top: Path) -> Path:
    """Writes the inputs of all commands into a folder."""
    write_inputs(folder)
    shutil.copy(top / "examples/two_policies.toml", folder / "base.toml")
    return folder


@pytest.fixture(autouse=True)
def room(
    tmp_path: Path, top: Path, program: Path, monkeypatch: pytest.MonkeyPatch
) -> Path:
    """Returns a folder with inputs of all commands, in which the test runs."""
    monkeypatch.chdir(tmp_path)
    monkeypatch.setenv("CRNSIM", str(program))
    return write_all_inputs(tmp_path, top)


@pytest.fixture
def plan(room: Path, crnplan: Command) -> Path:
    told = crnplan(*CATALOGUE)
    assert told.refuses("plan: 1 items planned, 0 kept from before\n", 0)
    return room / "plan"


def contents(folder: Path) -> dict[Path, bytes]:
    """Returns all files below a folder; a folder or a symlink counts as an empty one."""
    found = dict[Path, bytes]()
    for path in folder.rglob("*"):
        is_plain = path.is_file() and not path.is_symlink()
        found[path] = path.read_bytes() if is_plain else b""
    return found


def plant(path: Path) -> None:
    path.parent.mkdir(parents=True, exist_ok=True)
    path.write_text(PLANT, "utf-8")


def change_inputs(room: Path) -> None:
    """Changes what all commands have read, so that they write anew."""
    with (room / "demand.csv").open("a") as file:
        file.write("A,2026-06-30,4\n")
    base = room / "base.toml"
    base.write_text(base.read_text("utf-8").replace("setup = 32", "setup = 33"))


@KEEPING
def test_a_folder_of_others(room: Path, crnplan: Command, words: Sequence[str]) -> None:
    """Leaves a folder of others as it is, whatever its files are called, and one in which another run works."""
    for name in NAMES:
        plant(room / "plan" / name)
        before = contents(room / "plan")
        assert crnplan(*words).refuses("plan: the folder is not empty")
        assert contents(room / "plan") == before
        shutil.rmtree(room / "plan")
    assert crnplan(*words).status == 0
    with (room / MARKER).open() as marker:
        fcntl.flock(marker, fcntl.LOCK_EX)
        told = crnplan(*words)
    assert told.refuses("another run of crnplan works in this folder")


def test_check_writes_nothing(room: Path, crnplan: Command) -> None:
    """Writes nothing with --check: into no folder of others, no new one, and none of an earlier plan."""
    plant(room / "plan/mine.csv")
    for folder in ("plan", "new", "kept"):
        if folder == "kept":
            assert crnplan(*CATALOGUE[:-1], folder).status == 0
            change_inputs(room)
            with (room / "demand.csv").open("a") as file:
                file.write("A,2026-06-30,n/a\n")
        before = contents(room)
        assert crnplan(*CATALOGUE[:-1], folder, "--check").status == 0
        assert contents(room) == before
    assert crnplan(*CATALOGUE[:-2], "--check").status == 0
    assert crnplan(*CATALOGUE[:-2]).refuses("--out is missing")
    assert contents(room) == before
    assert crnplan(*CATALOGUE, "--check", "--rejects", "left.csv").status == 0
    assert "n/a" in (room / "left.csv").read_text("utf-8")
    assert len(contents(room)) == len(before) + 1


@KEEPING
def test_what_is_put_into_a_folder_of_ours(
    room: Path, crnplan: Command, words: Sequence[str]
) -> None:
    """Leaves other files in a folder of its own, and those behind symlinks, also if a file there names them."""
    assert crnplan(*words).status == 0
    others = ("plan/parts/mine.csv", "plan/notes.md", "plan/items/mine.html", "outside")
    for name in others:
        plant(room / name)
    (room / "plan/state.json").write_text(
        '{"files": {"notes.md": "", "../outside": "", "parts/mine.csv": ""}}'
    )
    replaced = list[Path]()
    for path in [*(room / "plan").iterdir()]:
        if path.suffix in (".csv", ".txt", ".toml", ".html") and path != room / MARKER:
            path.unlink()
            path.symlink_to(room / "outside")
            replaced.append(path)
    change_inputs(room)
    told = crnplan(*words)
    assert told.status == 0, told.errors
    assert {(room / name).read_text("utf-8") for name in others} == {PLANT}
    assert replaced
    assert not any(path.is_symlink() for path in replaced)


@pytest.mark.parametrize(
    "name", ["kept/answers.sqlite", "kept/answers.sqlite-wal", "kept", "items"]
)
def test_symlinks_to_what_is_written_in_place(
    plan: Path, crnplan: Command, name: str
) -> None:
    """Refuses a symlink at the place of a file that is not replaced whole."""
    report, target = [*REPORT, "--item", "A"], plan.parent / "outside"
    assert crnplan(*report).status == 0
    is_folder = name in ("kept", "items")
    plant(target / "mine" if is_folder else target)
    before = contents(plan.parent / "outside")
    if (plan / name).exists():
        os.rename(plan / name, plan.parent / "moved")
    (plan / name).symlink_to(target)
    told = crnplan(*(report if name == "items" else CATALOGUE))
    assert told.refuses("is a symlink, which is not followed")
    assert contents(target) == before
    assert is_folder or target.read_text("utf-8") == PLANT


def test_a_folder_of_another_kind(plan: Path) -> None:
    """Refuses the folder of a catalogue for anything else, and leaves it as it is."""
    before = contents(plan)
    with pytest.raises(Refused, match="not that of a folder of crnplan desk"):
        with own_folder(plan, "desk"):
            pass
    assert contents(plan) == before


def test_a_marker_that_is_no_file(room: Path, crnplan: Command) -> None:
    """Refuses a folder whose marker is a pipe, and does not wait for it, or is empty beside other files."""
    (room / "plan").mkdir()
    os.mkfifo(room / MARKER)
    assert crnplan(*CATALOGUE).refuses(f"{MARKER}: it is no file")
    (room / MARKER).unlink()
    (room / MARKER).touch()
    plant(room / "plan/mine.csv")
    told = crnplan(*CATALOGUE)
    assert told.refuses("txt is not that of a folder of crnplan catalogue")
    (room / "plan/mine.csv").unlink()
    assert crnplan(*CATALOGUE).status == 0


def test_what_a_killed_run_has_left(plan: Path, crnplan: Command) -> None:
    """Removes what a killed run has not finished, and nothing like it. The marker's last line may be cut off."""
    ours, other = (f"unfinished-00000000000000{end}" for end in ("aa", "bb"))
    for name in (ours, other):
        plant(plan / name / "part")
    marker = plan.parent / MARKER
    with marker.open("a") as file:
        file.write(f"{ours}/\n")
    assert crnplan(*CATALOGUE).refuses("plan: 0 items planned, 1 kept from before\n", 0)
    assert [path.name for path in plan.glob("unfinished-*")] == [other]
    lines = marker.read_text("utf-8").splitlines()
    assert lines[1:] == sorted(lines[1:])
    assert f"{ours}/" not in lines
    lines.remove("summary.txt")
    marker.write_text("\n".join([*lines, "summa"]), "utf-8")
    told = crnplan(*CATALOGUE)
    assert told.refuses("plan/summary.txt: crnplan has not made it")
    (plan / "summary.txt").unlink()
    assert crnplan(*CATALOGUE).status == 0
    assert "summary.txt" in marker.read_text("utf-8").splitlines()


def page_of_zeros(path: Path) -> None:
    """Overwrites the first page but for its head, as a disk may."""
    data = path.read_bytes()
    path.write_bytes(data[:100] + bytes(3_900) + data[4_000:])


DAMAGES: dict[str, Callable[[Path], object]] = {
    "other bytes": lambda path: path.write_bytes(
        b"these are other bytes, and no store at all. " * 200
    ),
    "zeros": page_of_zeros,
    "cut": lambda path: path.write_bytes(path.read_bytes()[:5_000]),
}


@pytest.mark.parametrize(
    "name, words",
    [
        (ANSWERS, CATALOGUE),
        (ANSWERS, REPORT),
        (READ, REPORT),
        (READ, ["curve", "plan"]),
    ],
    ids=lambda it: it if isinstance(it, str) else it[0],
)
def test_a_damaged_store(
    plan: Path, crnplan: Command, name: str, words: Sequence[str]
) -> None:
    """Names a store that was damaged, with what to remove. Without it the plan is made again."""
    before, whole = (
        (plan / "decisions.csv").read_bytes(),
        (plan / name).read_bytes(),
    )
    for damage in DAMAGES.values():
        (plan / name).write_bytes(whole)
        damage(plan / name)
        status, _, errors = crnplan(*words)
        (line,) = (it for it in errors.splitlines() if it.startswith("crnplan: "))
        assert status == 3 and name in line and "remove" in line, errors
    (plan / name).unlink()
    assert crnplan(*CATALOGUE).status == 0
    assert (plan / "decisions.csv").read_bytes() == before


def test_a_plan_that_was_refused(room: Path, crnplan: Command) -> None:
    """Finds no plan in a folder of which only the rows were read: one item is too few to learn from."""
    assert crnplan(*CATALOGUE, "--set", "borrow=all").status == 2
    assert (room / "plan" / ANSWERS).is_file()
    assert crnplan(*REPORT).refuses("plan: no plan is in it")


def test_an_answer_that_was_changed(plan: Path, crnplan: Command) -> None:
    """Names a file in which one figure was changed, and a store that SQLite can't open, which is not damaged."""
    before = (plan / "decisions.csv").read_bytes()
    for change, commands in (
        ("UPDATE answers SET chosen_cost = 2 * chosen_cost", [REPORT, CATALOGUE]),
        ("DELETE FROM answers", [REPORT]),
    ):
        with contextlib.closing(sqlite3.connect(plan / ANSWERS)) as base, base:
            base.execute(change)
        for words in commands:
            said = "answers.sqlite: the answer to 'A' is not as it was kept"
            assert crnplan(*words).refuses(said, 3)
    assert crnplan(*CATALOGUE).status == 0
    assert (plan / "decisions.csv").read_bytes() == before
    (plan / f"{ANSWERS}-wal").mkdir()
    told = crnplan(*CATALOGUE)
    assert told.refuses("name a folder that can be written", 3)
    assert "plan: " in told.errors


def test_settings_that_were_read_are_named(room: Path, crnplan: Command) -> None:
    """Names crnplan.toml if it was read, since it changes a plan from beside."""
    check = [*CATALOGUE, "--check"]
    assert "# settings are from crnplan.toml\n" in crnplan(*check).errors
    (room / "crnplan.toml").rename(room / "other.toml")
    assert "settings are from" not in crnplan(*check).errors
    told = crnplan(*check, "--config", "other.toml")
    assert "# settings are from other.toml\n" in told.errors
