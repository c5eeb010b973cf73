"""Tests that a file which a user names as output is opened as other programs do: a device or a pipe is written
into, a symlink is followed, and a regular file is there whole or as it was, with its mode and its owner."""
from __future__ import annotations

import ast
import errno
import os
import re
import shlex
import socket
import stat
import subprocess
import sys
import threading
import tomllib
from collections.abc import Iterator, Sequence
from pathlib import Path

import pytest

import crnplan as crn
from crnplan.errors import Failed, Refused
from crnplan.store.files import named_bytes, own_folder
from planner.tests.conftest import Command, as_nobody, write_inputs
from planner.tests.test_folders import PLANT
from planner.tests.test_statuses import files_of_at_most

OLD = b"what was here before\n"
TOP = Path(__file__).resolve().parents[2]
NULL = os.makedev(1, 3)
# The commands that write a file which the user names, with OUT in its place.
EXAMPLE = f"{TOP}/examples/two_policies"
WRITING = {
    "catalogue": "plan demand.csv items.csv --check --rejects OUT.csv",
    "reports": f"run '{EXAMPLE}.csv' --replications 1 --out OUT.csv",
}
# Those that need the program, the first two also a plan.
BY_PROGRAM = {
    "report": "report plan --xlsx OUT.xlsx",
    "curve": "curve plan --plot OUT.svg",
    "run": f"run '{EXAMPLE}.toml' --out OUT.csv",
}


@pytest.fixture(autouse=True)
def inputs(tmp_path: Path, monkeypatch: pytest.MonkeyPatch) -> Path:
    """Returns a folder with the inputs of all commands, in which the test runs."""
    write_inputs(tmp_path)
    with (tmp_path / "demand.csv").open("a") as file:
        file.write("A,2026-06-30,n/a\n")
    monkeypatch.chdir(tmp_path)
    return tmp_path


def words_to(path: Path, line: str) -> list[str]:
    """Returns the words of a command that writes to a path."""
    return [re.sub(r"OUT\.\w+", str(path), word) for word in shlex.split(line)]


def make_device(path: Path) -> None:
    """Makes a device that swallows all, as the system's null device; a pipe where devices may not be made."""
    try:
        os.mknod(path, stat.S_IFCHR | 0o666, NULL)
    except PermissionError:
        os.mkfifo(path)


class Reader(threading.Thread):
    """Reads all that is written into a pipe."""

    def __init__(self, path: Path) -> None:
        super().__init__(daemon=True)
        self.path, self.data = path, b""
        self.start()

    def run(self) -> None:
        self.data = self.path.read_bytes()

    def all(self) -> bytes:
        """Returns what was written, once the writer has closed the pipe."""
        self.join(60)
        assert not self.is_alive(), "nothing was written into the pipe"
        return self.data


def check_ways(crnplan: Command, folder: Path, words: str) -> None:
    """A command writes the same bytes into a new file, a pipe, and behind a symlink; a device stays one."""
    ending = words[words.index("OUT") + 3 :]
    whole, device, pipe, link, target = (
        folder / f"{name}{ending}"
        for name in ("whole", "device", "pipe", "link", "target")
    )
    first = crnplan(*words_to(whole, words))
    assert whole.is_file(), first
    make_device(device)
    kind = device.stat()
    swallowing = Reader(device) if stat.S_ISFIFO(kind.st_mode) else None
    assert crnplan(*words_to(device, words)).status == first.status
    now = device.stat()
    assert (now.st_ino, now.st_mode, now.st_rdev) == (
        kind.st_ino,
        kind.st_mode,
        kind.st_rdev,
    )
    assert swallowing is None or swallowing.all() == whole.read_bytes()
    os.mkfifo(pipe)
    reader = Reader(pipe)
    assert crnplan(*words_to(pipe, words)).status == first.status
    assert stat.S_ISFIFO(pipe.lstat().st_mode)
    written = reader.all()
    assert written
    assert ending == ".xlsx" or written == whole.read_bytes()
    link.symlink_to(target.name)
    for _ in ("a target that is not there", "one that is"):
        assert crnplan(*words_to(link, words)).status == first.status
        assert link.is_symlink()
        assert ending == ".xlsx" or target.read_bytes() == written
        assert not target.is_symlink()
    assert not [*folder.glob(".*")]


@pytest.mark.parametrize("name", WRITING)
def test_each_way_to_write(inputs: Path, crnplan: Command, name: str) -> None:
    check_ways(crnplan, inputs, WRITING[name])


@pytest.mark.parametrize("name", BY_PROGRAM)
def test_each_way_to_write_by_the_program(
    inputs: Path,
    crnplan: Command,
    program: Path,
    name: str,
    monkeypatch: pytest.MonkeyPatch,
) -> None:
    monkeypatch.setenv("CRNSIM", str(program))
    if "plan" in BY_PROGRAM[name]:
        words = "plan demand.csv items.csv --jobs 1 --out plan"
        assert crnplan(*words.split()).status == 0
    check_ways(crnplan, inputs, BY_PROGRAM[name])


def write(path: Path, data: bytes = PLANT.encode()) -> None:
    with named_bytes(path) as file:
        file.write(data)


def test_a_workbook_of_python(inputs: Path, program: Path) -> None:
    """`Plan.to_excel` writes into a pipe too."""
    plan = crn.plan(
        "demand.csv", "items.csv", periods=64, replications=2, jobs=1, program=program
    )
    os.mkfifo(inputs / "plan.xlsx")
    reader = Reader(inputs / "plan.xlsx")
    plan.to_excel(inputs / "plan.xlsx")
    assert reader.all().startswith(b"PK")


@pytest.mark.parametrize("mode", [0o600, 0o640, 0o664, 0o4755])
def test_mode_and_owner(tmp_path: Path, mode: int) -> None:
    """A regular file keeps its mode, its owner and its attributes; a new one has those of any new file."""
    kept = tmp_path / "kept"
    kept.write_bytes(OLD)
    if os.geteuid() == 0:
        os.chown(kept, 1234, 2345)
    kept.chmod(mode)
    try:
        os.setxattr(kept, "user.origin", b"here")
    except OSError as fault:
        assert fault.errno == errno.ENOTSUP
    before, attributes = kept.stat(), os.listxattr(kept)
    write(kept)
    after = kept.stat()
    assert (after.st_mode, after.st_uid, after.st_gid) == (
        before.st_mode,
        before.st_uid,
        before.st_gid,
    )
    assert os.listxattr(kept) == attributes
    assert kept.read_text() == PLANT
    new, other = tmp_path / "new", tmp_path / "other"
    write(new)
    other.write_bytes(b"")
    assert new.stat().st_mode == other.stat().st_mode


@pytest.mark.parametrize("is_link", [False, True])
def test_whole_or_as_it_was(tmp_path: Path, is_link: bool) -> None:
    """Until all is written, and if that fails, the file is as it was, also behind a symlink. Nothing else is left."""
    target = tmp_path / "target"
    target.write_bytes(OLD)
    path = tmp_path / "link" if is_link else target
    if is_link:
        path.symlink_to(target)
    with pytest.raises(KeyError), named_bytes(path) as file:
        file.write(b"new")
        file.flush()
        assert target.read_bytes() == OLD
        raise KeyError
    with files_of_at_most(50), pytest.raises(
        Failed, match="File too large; what was done before is kept"
    ):
        write(path, bytes(99))
    assert target.read_bytes() == OLD
    assert not [*tmp_path.glob(".*")]


def refused(path: Path) -> str:
    with pytest.raises(Refused) as why:
        write(path)
    return str(why.value)


def test_names_that_can_not_be_written(tmp_path: Path) -> None:
    """A folder, a loop of symlinks, a missing folder and a name behind a file are refused with the name that was
    given."""
    (tmp_path / "loop").symlink_to("loop")
    (tmp_path / "file").write_bytes(OLD)
    for name, part in (
        ("", "Is a directory"),
        ("loop", "Too many levels"),
        ("nowhere/file", "No such file or dir"),
        ("file/below", "Not a directory"),
        ("a" * 300, "File name too long"),
    ):
        assert refused(tmp_path / name).startswith(f"{tmp_path / name}: {part}")


def test_a_name_that_became_a_device(tmp_path: Path) -> None:
    """What has become a device or a pipe while a file was written is not replaced."""
    path = tmp_path / "new"
    with pytest.raises(Refused, match="new: it is no regular file"), named_bytes(
        path
    ) as file:
        file.write(OLD)
        make_device(path)
    assert not path.is_file()
    assert not [*tmp_path.glob(".*")]


def test_a_pipe_in_a_folder_of_ours(tmp_path: Path) -> None:
    """What has become a pipe in a folder of ours is neither replaced nor removed."""
    path = tmp_path / "plan/a.csv"
    with own_folder(tmp_path / "plan", "x") as folder:
        folder.write("a.csv", "text")
        path.unlink()
        os.mkfifo(path)
        with pytest.raises(Refused, match="a.csv: it is no regular file"):
            folder.write("a.csv", "new")
        folder.remove("a.csv")
    assert stat.S_ISFIFO(path.stat().st_mode)


def test_sockets(tmp_path: Path) -> None:
    """A socket is refused, and stays."""
    path = tmp_path / "socket"
    with socket.socket(socket.AF_UNIX) as listening:
        listening.bind(str(path))
        assert "No such device or address" in refused(path)
    assert stat.S_ISSOCK(path.stat().st_mode)


def test_a_pipe_whose_reader_goes(tmp_path: Path) -> None:
    """A reader that ends early is named: what it lacks is lost."""
    path = tmp_path / "pipe"
    os.mkfifo(path)
    reader = os.open(path, os.O_RDONLY | os.O_NONBLOCK)
    with pytest.raises(Failed, match="pipe: its reader has gone"), named_bytes(
        path
    ) as file:
        os.close(reader)
        file.write(OLD)


def run(
    words: Sequence[str], prefix: Sequence[str] = (), **streams: object
) -> "subprocess.CompletedProcess[bytes]":
    """Runs Python in a process of its own, perhaps on other standard streams or as another user."""
    return subprocess.run(
        [*prefix, sys.executable, *words],
        stdin=subprocess.DEVNULL,
        **{"stdout": subprocess.PIPE, "stderr": subprocess.PIPE, **streams},
    )  # type: ignore[call-overload]


@pytest.mark.parametrize("number, stream", [(1, "stdout"), (2, "stderr")])
def test_a_standard_stream_by_a_name(inputs: Path, number: int, stream: str) -> None:
    """The file in which a standard stream ends has the rejects beside all that is printed, if it is named for these too:
    by a symlink as the system's own, which no test may touch."""
    whole, both, link = inputs / "whole.csv", inputs / "both.txt", inputs / "stream"
    link.symlink_to(f"/proc/self/fd/{number}")
    words = f"-m crnplan {WRITING['catalogue']}"
    plain = run(words_to(whole, words))
    printed = plain.stdout if stream == "stdout" else plain.stderr
    with both.open("wb") as file:
        run(words_to(link, words), **{stream: file})
    written = both.read_bytes()
    assert printed
    assert whole.read_bytes() in written
    assert written.replace(whole.read_bytes(), b"") == printed


AS_NOBODY = """
import os, sys
from pathlib import Path
from crnplan.errors import Refused
from crnplan.store.files import named_bytes
try:
    with named_bytes(Path(sys.argv[1])) as file:
        file.write(b"new")
except Refused as why:
    print(why)
"""


def test_files_that_can_not_be_replaced(open_room: Path) -> None:
    """A file that may be written in a folder that may not is refused with the reason, and so is one whose owner a new
    file can't have, and one that may not be written in a folder that may."""
    closed, shared = open_room / "closed", open_room / "shared"
    for folder, mode in ((closed, 0o555), (shared, 0o777)):
        folder.mkdir()
        for name, its in (("writable", 0o666), ("closed", 0o444)):
            (folder / name).write_bytes(OLD)
            (folder / name).chmod(its)
        folder.chmod(mode)
    cases = [
        (closed / "writable", f"its folder {closed} can't be written"),
        (closed / "closed", "Permission denied"),
        (closed / "new", "Permission denied"),
        (shared / "closed", "Permission denied"),
    ]
    if os.geteuid() == 0:
        cases.append((shared / "writable", "it belongs to another user"))
    for path, part in cases:
        told = run(["-c", AS_NOBODY, str(path)], as_nobody())
        assert part in told.stdout.decode() and str(path) in told.stdout.decode(), told
        assert not path.exists() or path.read_bytes() == OLD
    closed.chmod(0o755)
    assert not [*open_room.rglob(".*")]


SOURCE = TOP / "planner/src/crnplan"
# What replaces, removes or writes a file by its path: functions of modules, and methods of paths and figures.
LAYERS = TOP / "tests/sources/layers.toml"
KNOWN = tomllib.loads(LAYERS.read_text("utf-8"))
ALLOWED, BY_PATH = KNOWN["writes"], KNOWN["by_path"]
OPENING, METHODS = KNOWN["code"]["opening"], KNOWN["code"]["methods"]


def writes(call: ast.Call) -> bool:
    """Returns whether a call may replace, remove or write a file by its path."""
    function = call.func
    if isinstance(function, ast.Name):
        return function.id == "open" and has_writing_mode(call, 1)
    if not isinstance(function, ast.Attribute):
        return False
    if isinstance(function.value, ast.Name) and function.value.id in BY_PATH:
        return function.attr in BY_PATH[function.value.id]
    if function.attr == "replace":
        return (
            len(call.args) == 1 and not call.keywords
        )  # of a path: that of a text takes two
    is_module = isinstance(function.value, ast.Name) and function.value.id in OPENING
    return (
        function.attr in METHODS
        or function.attr == "open"
        and has_writing_mode(call, int(is_module))
    )


def has_writing_mode(call: ast.Call, place: int) -> bool:
    """Returns whether a file may be opened to write. One that has to be new (`x`) replaces nothing."""
    modes = [
        *call.args[place : place + 1],
        *(word.value for word in call.keywords if word.arg == "mode"),
    ]
    return any(
        not isinstance(mode, ast.Constant) or bool({*str(mode.value)} & {*"wa+"})
        for mode in modes
    )


def writing_places(text: str) -> Iterator[str]:
    """Yields the function and the code of each call that may replace, remove or write a file, and of each import of
    such a function by its bare name."""

    def below(node: ast.AST, place: str) -> Iterator[str]:
        for child in ast.iter_child_nodes(node):
            is_named = isinstance(child, (ast.FunctionDef, ast.ClassDef))
            yield from below(
                child, f"{place}.{child.name}".lstrip(".") if is_named else place
            )
        if isinstance(node, ast.Call) and writes(node):
            yield f"{place}: {ast.unparse(node.func)}"
        elif isinstance(node, ast.ImportFrom) and node.module in BY_PATH:
            yield from (
                f"{place}: from {node.module} import {name.name}"
                for name in node.names
                if name.name in BY_PATH[str(node.module)]
            )

    yield from below(ast.parse(text), "")


def test_planted_writes() -> None:
    """Finds each way to write by a path, and none that reads or writes into what is open."""
    wrong, sound = KNOWN["code"]["writes"], KNOWN["code"]["writes_none"]
    assert [code for code in wrong if not [*writing_places(code)]] == []
    assert [place for code in sound for place in writing_places(code)] == []
    assert [
        *writing_places("class A:\n    def b(self):\n        os.replace(1, 2)")
    ] == ["A.b: os.replace"]


def test_who_writes() -> None:
    """Only functions that check a path, or that write where nobody else does, write by it; each with a reason."""
    found = {
        f"{file.relative_to(SOURCE)}: {place}"
        for file in SOURCE.rglob("*.py")
        for place in writing_places(file.read_text("utf-8"))
    }
    assert found - ALLOWED.keys() == set()
    assert ALLOWED.keys() - found == set()
