"""Fixtures of the tests of crnplan: its command in this process, and the scenarios of the repository."""
from __future__ import annotations

import csv
import fcntl
import io
import os
import shutil
import signal
import subprocess
import sys
import tempfile
import tomllib
from collections.abc import Callable, Iterator
from pathlib import Path
from types import ModuleType
from typing import Any, NamedTuple

import pytest

from crnplan import cli
from crnplan.compiled import Compiled
from planner.tests.store.clusters import Cluster


class Answer(NamedTuple):
    """What a command does: its status, and what it prints on standard output and standard error."""

    status: int
    output: str
    errors: str

    def refuses(self, part: str, status: int = 2) -> bool:
        """Returns whether the command has ended with a status, 2 if it is refused, and says a part of why."""
        return self.status == status and part in self.errors


Command = Callable[..., Answer]
# A user of whom the machine knows nothing, without a name and a home.
NOBODY = "54321"
# What `crnplan desk` alone loads, with what that brings.
OF_THE_DESK = {"flask", "waitress", "werkzeug"}
HEAVY = {
    *"babel distributed jinja2 numba numpy openpyxl pandas scipy".split(),
    *"tomlkit tqdm xlsxwriter".split(),
    *OF_THE_DESK,
}


def cases_beside(file: str) -> dict[str, Any]:
    """Returns the cases of a module of tests: those of the TOML file of its name."""
    return tomllib.loads(Path(file).with_suffix(".toml").read_text("utf-8"))


def heavy_of(*words: str | Path) -> set[str]:
    """Returns the libraries that a command loads of those that take long. It has to end with 0."""
    line = [sys.executable, "-X", "importtime", "-m", "crnplan", *map(str, words)]
    ran = subprocess.run(line, capture_output=True, text=True, check=True)
    loaded = [row.rpartition("|")[2] for row in ran.stderr.splitlines()]
    return {name.strip().partition(".")[0] for name in loaded} & HEAVY


def heed_interrupts() -> None:
    """Gives a process the default action of an interrupt, as a terminal does: one that is started in the background by
    a script ignores interrupts, and so would all that it starts."""
    signal.signal(signal.SIGINT, signal.SIG_DFL)


def script(path: Path, lines: str) -> Path:
    """Makes a program of lines of the shell, and returns its path."""
    path.parent.mkdir(exist_ok=True, parents=True)
    path.write_text(f"#!/bin/sh\n{lines}\n", "utf-8")
    path.chmod(0o755)
    return path


def as_nobody() -> list[str]:
    """Returns the words before a command that run it without the rights of root."""
    return (
        ["setpriv", "--reuid", NOBODY, "--regid", NOBODY, "--clear-groups"]
        if os.geteuid() == 0
        else []
    )


def write_inputs(folder: Path, items: str = "A") -> Path:
    """Writes the tables of items, each of 24 days, and settings by which a plan is short. Returns the folder."""
    days = [
        f"2026-{month:02}-{day:02},{day % 4}"
        for month in range(1, 7)
        for day in (2, 9, 16, 23)
    ]
    sales, masters = list[str](), list[str]()
    for item in items:
        sales += [f"{item},{day}" for day in days]
        masters.append(f"{item},20,1,9,1,5,20,3")
    heading = "item,setup,holding,backlog,lead (weeks),s,S,price"
    texts = {
        "demand.csv": ["item,date,quantity", *sales],
        "items.csv": [heading, *masters],
        "crnplan.toml": ["[catalogue]", "periods = 64", "replications = 2"],
    }
    for name, lines in texts.items():
        (folder / name).write_text("\n".join([*lines, ""]), "utf-8")
    return folder


@pytest.fixture
def open_room() -> Iterator[Path]:
    """Returns a folder that each user can reach and write; those of pytest are this user's alone."""
    with tempfile.TemporaryDirectory(prefix="crnplan-test-") as folder:
        Path(folder).chmod(0o777)
        yield Path(folder)


def leave_as_written(monkeypatch: pytest.MonkeyPatch, *modules: ModuleType) -> None:
    """Has the loops of modules run in plain Python: as they are written, and not as they are compiled."""
    for module in modules:
        for name, loop in [*vars(module).items()]:
            if isinstance(loop, Compiled):
                monkeypatch.setattr(module, name, loop.__wrapped__)


def shared(
    factory: pytest.TempPathFactory, name: str, make: Callable[[Path], object]
) -> Path:
    """Returns a copy of a folder that the first worker which needs it makes for all, and which nobody changes."""
    base = factory.getbasetemp()
    place = (
        base.parent if "PYTEST_XDIST_WORKER" in os.environ else base
    ) / f"shared {name}"
    with place.with_suffix(".lock").open("w") as lock:
        fcntl.flock(lock, fcntl.LOCK_EX)
        if not place.with_suffix(".made").exists():
            place.mkdir()
            make(place)
            place.with_suffix(".made").touch()
    # What SQLite has beside a store while another test reads it may vanish meanwhile.
    passing = shutil.ignore_patterns("*.sqlite-shm", "*.sqlite-wal")
    copy = factory.mktemp("copy") / "made"
    return Path(shutil.copytree(place, copy, symlinks=True, ignore=passing))


def state_of(folder: Path) -> dict[Path, tuple[bytes, int]]:
    """Returns the bytes of all files below a folder, and when they were written."""
    files = [path for path in folder.rglob("*") if path.is_file()]
    return {path: (path.read_bytes(), path.stat().st_mtime_ns) for path in files}


def rows_of(
    path: Path, key: str = "item", kind: str = "", delimiter: str = ","
) -> dict[str, dict[str, str]]:
    """Returns the rows of a table by a column, of one kind if the table has several."""
    with path.open(encoding="utf-8", newline="") as file:
        return {
            row[key]: row
            for row in csv.DictReader(file, delimiter=delimiter)
            if row.get("kind", "") == kind
        }


@pytest.fixture
def crnplan(
    monkeypatch: pytest.MonkeyPatch, capfd: pytest.CaptureFixture[str]
) -> Command:
    """Returns a function that runs a command of crnplan by its words, with `data` as standard input."""
    usual = signal.getsignal(signal.SIGINT)

    def run(*words: str | Path, data: bytes = b"") -> Answer:
        monkeypatch.setattr(sys, "argv", ["crnplan", *map(str, words)])
        monkeypatch.setattr(sys, "stdin", io.TextIOWrapper(io.BytesIO(data)))
        with pytest.raises(SystemExit) as ended:
            cli.main()
        signal.signal(
            signal.SIGINT, usual
        )  # A command that was interrupted heeds no second one.
        return Answer(int(ended.value.code or 0), *capfd.readouterr())

    return run


@pytest.fixture(scope="module")
def shared_cluster(
    tmp_path_factory: pytest.TempPathFactory, program: Path
) -> Iterator[Cluster]:
    """Returns the cluster of all tests of a module, which find the tested program by its name. A test calls `restore`
    first. At the end nothing of it is left: an idle cluster takes 8% of a processor."""
    cluster = Cluster(tmp_path_factory.mktemp("cluster"))
    (cluster.home / "bin").mkdir()
    (cluster.home / "bin/crnsim").symlink_to(program)
    cluster.environment["PATH"] = f"{cluster.home / 'bin'}:{os.environ['PATH']}"
    yield cluster
    cluster.end_all()
    assert cluster.have_all_ended()


@pytest.fixture
def room(made: Path, tmp_path: Path, monkeypatch: pytest.MonkeyPatch) -> Path:
    """Returns a folder of its own with what is in `made`, where no settings are."""
    monkeypatch.chdir(tmp_path)
    return Path(shutil.copytree(made, tmp_path / "room"))


@pytest.fixture(scope="session")
def two_policies(top: Path) -> str:
    return (top / "examples/two_policies.toml").read_text("utf-8")
