"""Tests that a plan or a curve that is interrupted, by whatever, keeps what was done and goes on to the same bytes."""
from __future__ import annotations

import contextlib
import itertools
import os
import random
import re
import resource
import shutil
import signal
import sqlite3
import subprocess
import sys
import time
from collections.abc import Callable, Iterator, Sequence
from pathlib import Path
from typing import Any

import pytest

from crnplan.curve import gathered
from crnplan.curve.exchange_curve import CURVE, POLICIES, exchange_curve
from crnplan.store.files import MARKER
from crnplan.store.jobs import BATCH
from crnplan.plan import catalogue
from crnplan.plan.catalogue import ANSWERS
from planner.tests.catalogue.conftest import FAST, FILES, TABLES, WORDS, leave_few
from planner.tests.catalogue.made import Made, name_of, teaching
from planner.tests.conftest import (
    Answer,
    Command,
    heed_interrupts,
    script,
    shared,
    state_of,
)
from planner.tests.store.clusters import SECONDS, Cluster

# Two batches and a half. After so many runs of the program all others wait, so that a plan stops in its middle: one
# batch at least is kept then, however the runs are spread.
JOBS, FEW, PASSES = 2, 20, 17
CURVE_TABLES = CURVE, POLICIES
PLAN, DRAW = [
    "plan",
    *WORDS,
    "--out",
    "plan",
], "curve plan --fill 0.9".split()
# What is killed at random: a command with its words, the file with the answers that it keeps, and its tables.
KILLED = {
    "plan": (PLAN, ANSWERS, TABLES),
    "curve": (DRAW, gathered.CANDIDATES, CURVE_TABLES),
}
KILLS, MOST_DELAY = 2, 0.5  # the delay in seconds, from when so many answers are kept
# A program that waits after so many runs as the file `passes` says, until there is the file `go_on`.
HOLDING = """echo run >> "{folder}/runs"
[ "$(wc -l < "{folder}/runs")" -le $(cat "{folder}/passes") ] || until [ -e "{folder}/go_on" ]; do sleep 0.05; done
exec "{program}"
"""
# Moments at which a plan is interrupted, in seconds since it works, and how long after that once more. In two rounds it
# gets through a batch, and in none to its end.
INTERRUPTS, MOST_SECONDS, MOST_MORE = 7, 2.0, 0.3
FEW_PASSES, BATCH_PASSES, BATCH_ROUNDS = 4, 9, (2, 5)
Process = subprocess.Popen[bytes]
Start = Callable[..., Process]


@pytest.fixture(autouse=True)
def few(folder: Path) -> None:
    """Leaves some masters alone, so that a plan takes little."""
    leave_few(folder, FEW)


@pytest.fixture(scope="module")
def whole(
    planted: Made, tmp_path_factory: pytest.TempPathFactory, program: Path
) -> Path:
    """Returns the plan of the few items with a curve, which was never interrupted."""

    def make(files: Path) -> None:
        leave_few(planted.write(files), FEW)
        (files / "crnplan.toml").write_text(FAST, "utf-8")
        command = [sys.executable, "-m", "crnplan", *PLAN, "--jobs", "1"]
        command += ["--program", str(program)]
        subprocess.run(command, cwd=files, check=True, capture_output=True)
        exchange_curve(files / "plan", fill=0.9, jobs=1)

    return shared(tmp_path_factory, "few", make) / "plan"


def running(command: Sequence[str | Path], program: Path) -> list[str]:
    """Returns a command with the program that it runs, if it runs one: a curve needs none."""
    words = [*map(str, command)]
    return words + ["--program", str(program)] * (words[0] != "curve")


@pytest.fixture
def holding(folder: Path, program: Path) -> Path:
    """Returns a program that waits after some runs."""
    (folder / "passes").write_text(str(PASSES))
    lines = HOLDING.format(folder=folder, program=program)
    return script(folder / "holding", lines)


@pytest.fixture
def start(folder: Path, holding: Path) -> Iterator[Start]:
    """Returns a function that starts a command, by default a plan, in a process group of its own. What is left of it at
    the end is ended."""
    begun: list[Process] = []

    def starting(
        jobs: int,
        command: Sequence[str] = PLAN,
        before: Callable[[], None] = heed_interrupts,
    ) -> Process:
        words = [*running(command, holding), "--jobs", str(jobs)]
        begun.append(
            subprocess.Popen(
                [sys.executable, "-m", "crnplan", *words],
                cwd=folder,
                stdin=subprocess.DEVNULL,
                stdout=subprocess.DEVNULL,
                stderr=subprocess.PIPE,
                start_new_session=True,
                preexec_fn=before,
            )
        )
        return begun[-1]

    yield starting
    for process in begun:
        send(process, signal.SIGKILL)
        process.communicate()


@pytest.fixture
def go_on(folder: Path, crnplan: Command, holding: Path) -> Callable[..., Answer]:
    """Returns a function that runs a command, by default a plan, with a program that waits no more."""

    def run(command: Sequence[str | Path] = PLAN, jobs: int = 1) -> Answer:
        (folder / "go_on").touch()
        told = crnplan(*running(command, holding), "--jobs", str(jobs))
        assert told.status == 0, told.errors
        return told

    return run


def counts_of(told: Answer) -> tuple[int, int]:
    """Returns how many items a plan says that it planned and kept."""
    said = re.search(r"(\d+) items planned, (\d+) kept from before", told.errors)
    assert said, told.errors
    return int(said[1]), int(said[2])


def send(process: Process, number: int) -> bool:
    """Sends a signal to all processes of a command, as a terminal does; returns whether one was there."""
    with contextlib.suppress(ProcessLookupError):
        os.killpg(process.pid, number)
        return True
    return False


def kill(process: Process) -> None:
    """Kills all processes of a command, and waits for their end."""
    send(process, signal.SIGKILL)
    process.wait()
    wait_until(lambda: not send(process, 0))


def answers(folder: Path, name: str = ANSWERS) -> set[tuple[Any, ...]]:
    """Returns the answers that are kept, by a look from outside; none if there is no store yet."""
    path = f"file:{folder / 'plan' / name}?mode=ro"
    with contextlib.suppress(sqlite3.OperationalError):
        with contextlib.closing(sqlite3.connect(path, uri=True)) as base:
            return {*base.execute("SELECT * FROM answers")}
    return set()


def kept(folder: Path, name: str = ANSWERS) -> int:
    return len(answers(folder, name))


def wait_until(happened: Callable[[], object]) -> None:
    latest = time.monotonic() + 60
    while not happened():
        assert time.monotonic() < latest, "not in time"
        time.sleep(0.01)


def runs(folder: Path) -> int:
    path = folder / "runs"
    return path.read_text().count("run") if path.exists() else 0


def tables(folder: Path, names: Sequence[str] = TABLES) -> dict[str, bytes]:
    return {name: (folder / name).read_bytes() for name in names}


def children(process: Process) -> list[int]:
    text = Path(f"/proc/{process.pid}/task/{process.pid}/children").read_text()
    return [*map(int, text.split())]


def faults_in(errors: bytes) -> list[str]:
    """Returns what a command says of itself."""
    assert b"Traceback" not in errors, errors
    lines = errors.decode().splitlines()
    return [line for line in lines if line.startswith("crnplan:")]


def test_killed(
    folder: Path,
    whole: Path,
    crnplan: Command,
    start: Start,
    go_on: Callable[..., Answer],
) -> None:
    """Kills the first process: its workers end by themselves, and at most one batch of each is planned again."""
    process = start(JOBS)
    wait_until(lambda: kept(folder) >= 1)
    told = crnplan(*PLAN)
    said = "plan: another run of crnplan works in this folder"
    assert told.status == 2 and said in told.errors
    process.kill()
    process.wait()
    (folder / "go_on").touch()
    wait_until(lambda: not send(process, 0))
    there, before = kept(folder), runs(folder)
    assert 0 < there and before - there <= JOBS * BATCH
    assert counts_of(go_on()) == (FEW - there, there)
    assert runs(folder) == before + FEW - there
    assert tables(folder / "plan") == tables(whole)


@pytest.mark.parametrize("seed, kind", [(3, "plan"), (6, "curve")])
def test_killed_at_random(
    folder: Path,
    whole: Path,
    start: Start,
    go_on: Callable[..., Answer],
    seed: int,
    kind: str,
) -> None:
    """Killed at random moments, a command loses nothing that was kept, and goes on to the same bytes."""
    source, before = random.Random(seed), set[tuple[Any, ...]]()
    command, file, names = KILLED[kind]
    (folder / "go_on").touch()
    if kind == "curve":
        stores = (
            f"{Path(name).name}*" for name in (gathered.CANDIDATES, gathered.HULLS)
        )
        without = shutil.ignore_patterns(*stores, *CURVE_TABLES)
        shutil.copytree(whole, folder / "plan", ignore=without)
    for _ in range(KILLS):
        process, most = start(JOBS, command), source.randrange(FEW)
        wait_until(lambda: kept(folder, file) >= most or process.poll() is not None)
        time.sleep(source.uniform(0, MOST_DELAY))
        kill(process)
        assert before <= (there := answers(folder, file))
        before = there
    if kind == "plan":
        now, _ = counts_of(go_on())
    else:
        now = exchange_curve(folder / "plan", fill=0.9, jobs=1).gathered.new
    assert now == FEW - len(before)
    assert tables(folder / "plan", names) == tables(whole, names)


@pytest.mark.parametrize("jobs", [1, 2, 4])
def test_interrupted_at_random(
    folder: Path, whole: Path, start: Start, go_on: Callable[..., Answer], jobs: int
) -> None:
    """Interrupted at random moments, once or twice, a plan ends with one line, loses nothing that was kept, leaves no
    process, and goes on to the same bytes."""
    source, before = random.Random(jobs), set[tuple[Any, ...]]()
    for number in range(INTERRUPTS):
        few = source.randrange(FEW_PASSES)
        passes = BATCH_PASSES if number in BATCH_ROUNDS else few
        (folder / "passes").write_text(str(passes))
        (folder / "runs").unlink(missing_ok=True)
        for left in folder.glob("plan/unfinished-*"):
            shutil.rmtree(left) if left.is_dir() else left.unlink()
        process = start(jobs)
        begun = (
            lambda: [*folder.glob("plan/unfinished-*")] or process.poll() is not None
        )
        wait_until(begun)
        time.sleep(source.uniform(0, MOST_SECONDS))
        send(process, signal.SIGINT)
        if number % 2:
            time.sleep(source.uniform(0, MOST_MORE))
            send(process, signal.SIGINT)
        _, errors = process.communicate(timeout=60)
        assert process.returncode == 130
        assert faults_in(errors) == ["crnplan: interrupted"]
        wait_until(lambda: not send(process, 0))
        assert before <= (there := answers(folder))
        before = there
    assert counts_of(go_on()) == (FEW - len(before), len(before))
    assert tables(folder / "plan") == tables(whole)


def test_killed_after_an_earlier_plan(
    folder: Path, start: Start, go_on: Callable[..., Answer]
) -> None:
    """Kills all processes in the middle of a plan after an earlier one, with other costs for all items but one: what
    was done is kept, the bytes are those of a plan that was never interrupted, and the earlier folder is as it was.
    """
    earlier, path = folder / "earlier", folder / FILES[1]
    go_on(["plan", *WORDS, "--out", earlier])
    before = state_of(earlier)
    for name in ("go_on", "runs"):
        (folder / name).unlink()
    heading, first, *rows = path.read_text("utf-8").splitlines()
    others = [re.sub("^(.*?;.*?);.*?;", r"\1;33,50;", row) for row in rows]
    path.write_text("\r\n".join([heading, first, *others, ""]), "utf-8")
    command = ["plan", *WORDS, "--after", "earlier", "--set", "least_gain=5%", "--out"]
    process = start(JOBS, [*command, "plan"])
    wait_until(lambda: runs(folder) > PASSES)
    kill(process)
    there = kept(folder)
    now, from_before = counts_of(go_on([*command, "plan"]))
    # The item that has not changed is taken over once more, if its batch was not kept yet.
    assert now == FEW - from_before and from_before in (there, there + 1)
    go_on([*command, "at_once"], JOBS)
    names = *TABLES, "changes.csv", "report.html"
    assert 0 < there < FEW
    assert tables(folder / "plan", names) == tables(folder / "at_once", names)
    assert state_of(earlier) == before


def all_files(folder: Path) -> dict[str, object]:
    """Returns the bytes of each file in a folder, and of a file of SQLite what it has."""
    found: dict[str, object] = {}
    for path, (data, _) in state_of(folder).items():
        name = str(path.relative_to(folder))
        found[name] = data
        if path.suffix == ".sqlite":
            with contextlib.closing(sqlite3.connect(path)) as base:
                found[name] = [*base.iterdump()]
    return found


def test_interrupted_once_items_have_learned(
    folder: Path,
    planted: Made,
    crnplan: Command,
    program: Path,
    monkeypatch: pytest.MonkeyPatch,
) -> None:
    """A plan whose items learn from one another has the same bytes in all files if it was interrupted after that, and
    the terminal alone says what was kept."""
    teaching(planted, [name_of(number) for number in range(34, 34 + FEW)]).write(folder)
    words = (
        "plan",
        *WORDS,
        *"--set fit=auto --set borrow=all --jobs 1 --program".split(),
    )
    assert crnplan(*words, program, "--out", "whole").status == 0
    calls, plan_asked = itertools.count(), catalogue.plan_asked

    def plan_some(*asked: Any) -> object:
        if next(calls) > 2 * BATCH:
            raise KeyboardInterrupt
        return plan_asked(*asked)

    with monkeypatch.context() as cut:
        cut.setattr(catalogue, "plan_asked", plan_some)
        assert crnplan(*words, program, "--out", "plan").status == 130
    assert 0 < kept(folder) < FEW
    told = crnplan(*words, program, "--out", "plan")
    assert told.status == 0 and "learned in an earlier run" in told.errors
    assert all_files(folder / "plan") == all_files(folder / "whole")


def interrupt(process: Process) -> None:
    send(process, signal.SIGINT)


def fill_disk(process: Process) -> None:
    """Lets no file grow any more, as a full disk does."""
    resource.prlimit(process.pid, resource.RLIMIT_FSIZE, (1_000, 1_000))


def kill_worker(process: Process) -> None:
    """Kills a process that works, as a system without memory does."""
    os.kill(children(process)[0], signal.SIGKILL)


@pytest.mark.parametrize(
    "jobs, cut, status, said",
    [
        (1, interrupt, 130, "{} of 20 items are done and kept; run again to go on"),
        (JOBS, interrupt, 130, "{} of 20 items are done and kept; run again to go on"),
        (1, fill_disk, 3, "what was done before is kept; make room"),
        (JOBS, kill_worker, 0, "20 of 20 items"),
    ],
)
def test_cut_off(
    folder: Path,
    whole: Path,
    start: Start,
    go_on: Callable[..., Answer],
    jobs: int,
    cut: Callable[[Process], None],
    status: int,
    said: str,
    monkeypatch: pytest.MonkeyPatch,
) -> None:
    """One line says why a plan ends in the middle, and nothing that is kept is lost. It goes on with other processes if
    one of them is killed."""
    if cut is fill_disk:  # What measures lines would not find room either, and say so.
        monkeypatch.delenv("COVERAGE_PROCESS_START", raising=False)
    process = start(jobs)
    wait_until(lambda: kept(folder) >= 1)
    cut(process)
    if cut is not interrupt:
        (folder / "go_on").touch()
    _, errors = process.communicate(timeout=60)
    there = kept(folder)
    assert process.returncode == status, errors
    assert len(faults_in(errors)) == (status > 0)
    assert said.format(there) in errors.decode()
    assert counts_of(go_on()) == (FEW - there, there)
    assert 0 < there and (there < FEW) == (status > 0)
    assert tables(folder / "plan") == tables(whole)


def test_no_room_to_read(
    folder: Path, start: Start, monkeypatch: pytest.MonkeyPatch
) -> None:
    """Lets no file grow at all: one line, no half catalogue, and no parts are left."""
    # What measures lines would be cut off too.
    monkeypatch.delenv("COVERAGE_PROCESS_START", raising=False)
    most = resource.RLIMIT_FSIZE, (9_000, 9_000)
    process = start(1, before=lambda: resource.setrlimit(*most))
    _, errors = process.communicate(timeout=60)
    (line,) = faults_in(errors)
    assert process.returncode == 3 and "make room" in line
    assert {path.name for path in (folder / "plan").rglob("*")} == {MARKER, "kept"}


@pytest.mark.timeout(2 * SECONDS)
def test_a_cluster_that_loses_a_worker(
    folder: Path, whole: Path, holding: Path, shared_cluster: Cluster
) -> None:
    """Works on a Dask cluster, one worker of which is killed in the middle of a plan: the same bytes, of the plan and
    of its curve, which the other worker draws."""
    cluster = shared_cluster
    cluster.restore(folder)
    for command, file, names in KILLED.values():
        words = *running(command, holding), "--cluster", cluster.address
        cluster.start("driver", "-m", "crnplan", *words)
        cluster.wait_until("the first batch", lambda: kept(folder, file) >= 1, "driver")
        cluster.end("leaves")
        assert kept(folder) < FEW or file != ANSWERS
        assert children(cluster.processes["driver"]) == []
        (folder / "go_on").touch()
        status = cluster.wait_for_end("driver")
        assert status == 0, cluster.last_words("driver")
        assert tables(folder / "plan", names) == tables(whole, names)
