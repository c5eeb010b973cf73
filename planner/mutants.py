"""Plants bugs in crnplan at random, and says which of them no test sees.

    .venv/bin/python -m planner.mutants FOLDER --seed 1 --count 100 --jobs 2

A bug is planted in a copy of the repository, and tests run there until one fails, those first that import or name what is
changed. It is killed if a named test fails by itself, and passes without the bug in the same copy. If it stops the
loading of a module or a fixture, or is ended by time or a signal, it counts apart. What survives is either the same
program (an equivalent one), or a hole in the tests, or in what the nearest tests see in SECONDS of the processor.

FOLDER has the copies and the outcomes: the same command goes on where it was ended.
"""
from __future__ import annotations

import json
import multiprocessing
import os
import random
import resource
import shutil
import signal
import sys
from collections import Counter
from collections.abc import Iterator
from concurrent.futures import ThreadPoolExecutor
from pathlib import Path
from queue import SimpleQueue
from typing import Any, NamedTuple

import click

from planner.changes import Change, changes_of, holds_together
from planner.lines import SOURCE, TOP
from planner.near_tests import FilesOfTests
from planner.reports import KILLED, NOT_LOADED, PASSED, TIME
from tools.tokens import size_of

COPIED = (
    "planner",
    "tests",
    "examples",
    "docs",
    "tools",
    "bench",
    "conftest.py",
    "pytest.ini",
    "README.md",
    "CHANGELOG.md",
    "CONTRIBUTING.md",
)
INNER = SOURCE.relative_to(TOP)
PLANTED = {".py", ".toml", ".html", ".txt", ".svg"}
# Each run is forked from a process that has loaded these, but nothing of crnplan.
LOADED = """pytest hypothesis numpy scipy.stats scipy.optimize scipy.signal pandas numba jinja2 babel.dates openpyxl
    xlsxwriter tomlkit flask waitress click distributed charset_normalizer xml.dom.minidom""".split()
OURS = {"crnplan", "planner", "tests", "tools", "bench"}
# Tests that have a limit of their own take long.
USUAL = ["-q", "-m", "not timeout and not serial", "-p", "planner.reports"]
# A test that takes so many seconds of the processor more than all should is ended.
MORE_SECONDS = 60
SURVIVES, NO_TEST, STATUS, SIGNAL = "survives", "no test", "by status", "by signal"


class Run(NamedTuple):
    """What becomes of tests: the outcome, and the test that decided it."""

    outcome: str
    test: str = ""


def run_pytest(place: Path, words: list[str], seconds: int) -> None:
    """Runs tests in a copy of the repository, in a process that this ends."""
    os.setsid()
    os.chdir(place)
    resource.setrlimit(resource.RLIMIT_CPU, (seconds, seconds))
    out = os.open("out.txt", os.O_WRONLY | os.O_CREAT | os.O_TRUNC)
    os.dup2(out, 1)
    os.dup2(out, 2)
    paths = [str(place / INNER.parent), str(place)]
    sys.path[:0] = paths
    os.environ["PYTHONPATH"] = os.pathsep.join(paths)
    for name in [it for it in sys.modules if it.partition(".")[0] in OURS]:
        del sys.modules[name]
    sys.dont_write_bytecode = False  # The next run would compile all again.
    os.environ.pop("PYTHONDONTWRITEBYTECODE", None)
    import pytest

    status = int(pytest.main(words))
    sys.stdout.flush()
    os._exit(status)


class Copy:
    """A copy of the repository, in which bugs are planted and tests run."""

    def __init__(self, place: Path, program: Path, seconds: float) -> None:
        self.place, self.program, self.seconds = place, program, seconds
        self.planted, self.sound = 0, set[str]()
        shutil.rmtree(place, ignore_errors=True)
        place.mkdir(parents=True)
        for name in COPIED:
            copy: Any = shutil.copytree if (TOP / name).is_dir() else shutil.copy2
            copy(TOP / name, place / name)

    def plant(self, change: Change) -> None:
        """Plants a bug. Bytecode is known by the time and size of its file, so each bug has a time of its own."""
        path = self.place / INNER / change.file
        self.planted += 1
        path.write_bytes(change.apply((SOURCE / change.file).read_bytes()))
        os.utime(path, (self.planted, self.planted))

    def restore(self, change: Change) -> None:
        """Takes a bug away."""
        shutil.copy2(SOURCE / change.file, self.place / INNER / change.file)

    def run(self, tests: list[str], seconds: float) -> Run:
        """Runs tests until one fails by itself, or for so many seconds of the processor."""
        reports, most = self.place / "reports.jsonl", int(seconds) + MORE_SECONDS
        reports.unlink(missing_ok=True)
        words = [*USUAL, f"--reports={reports}", f"--seconds={seconds}"]
        words += [f"--program={self.program}", *tests]
        process = forks().Process(target=run_pytest, args=(self.place, words, most))
        process.start()
        process.join(20 * most)
        if process.is_alive():
            os.killpg(process.pid, signal.SIGKILL)
            process.join()
        seen = {outcome: test for test, outcome in reversed(read_lines(reports))}
        return outcome_of(seen, process.exitcode)

    def judge(self, change: Change, tests: FilesOfTests) -> Run:
        """Plants a bug, and returns what becomes of it: that it is killed, or else the worst of what its tests say."""
        found = Run(NO_TEST)
        for files in tests.groups(change):
            run = self.run_fairly(change, files, self.seconds)
            if run.outcome == KILLED:
                return run
            if found.outcome in (NO_TEST, SURVIVES):
                found = run
        return found

    def run_fairly(self, change: Change, files: list[str], seconds: float) -> Run:
        """Runs tests with a bug. The one that kills it has to pass without it, or else the others decide."""
        unsound = list[str]()
        while True:
            self.plant(change)
            run = self.run([*files, *unsound], seconds)
            self.restore(change)
            if run.outcome != KILLED or self.is_sound(run.test):
                return run
            unsound.append(f"--deselect={run.test}")

    def is_sound(self, test: str) -> bool:
        """Returns whether a test passes without a bug."""
        if (
            test not in self.sound
            and self.run([test], self.seconds).outcome == SURVIVES
        ):
            self.sound.add(test)
        return test in self.sound


def outcome_of(seen: dict[str, str], status: int | None) -> Run:
    """Returns what became of tests by the first one with each outcome and the status of their process."""
    if KILLED in seen:
        return Run(KILLED, seen[KILLED])
    if status is None or status < 0:
        is_late = -(status or 0) in (0, signal.SIGXCPU, signal.SIGKILL)
        return Run(TIME if is_late else SIGNAL)
    wrong = [it for it in seen if it != PASSED]
    if wrong:
        return Run(wrong[0], seen[wrong[0]])
    # pytest ends with 2 if it was told that enough is known, with 4 if conftest.py can't be loaded, and with 5 if all
    # tests are left out.
    by_status = {0: SURVIVES, 2: SURVIVES, 4: NOT_LOADED, 5: NO_TEST}
    return Run(by_status.get(status, STATUS))


def forks() -> Any:
    """Returns what forks processes from one that has loaded the libraries."""
    context = multiprocessing.get_context("forkserver")
    context.set_forkserver_preload(LOADED)
    return context


def read_lines(path: Path) -> list[Any]:
    """Returns the values of a file of JSON, a line each; none if it isn't there."""
    lines = path.read_text("utf-8").splitlines() if path.exists() else []
    return [json.loads(line) for line in lines]


def changes_by_line(file: str) -> list[list[Change]]:
    """Returns the changes of a file, by line."""
    found: dict[int, list[Change]] = {}
    for change in changes_of(file, (SOURCE / file).read_text("utf-8")):
        found.setdefault(change.line, []).append(change)
    return [*found.values()]


def chosen(count: int, seed: int, within: tuple[str, ...] = ("",)) -> Iterator[Change]:
    """Yields so many changes, in files by their tokens, and each line of a file as likely."""
    draw, found = random.Random(seed), set[Change]()
    paths = [path for path in sorted(SOURCE.rglob("*")) if path.suffix in PLANTED]
    names = [str(path.relative_to(SOURCE)) for path in paths]
    files = [name for name in names if name.startswith(within)]
    sizes = [size_of([SOURCE / file]) for file in files]
    weights = [size.tokens + size.others for size in sizes]
    lines = dict[str, list[list[Change]]]()
    while len(found) < count:
        (file,) = draw.choices(files, weights)
        if file not in lines:
            lines[file] = changes_by_line(file)
        if not lines[file]:
            continue
        change = draw.choice(draw.choice(lines[file]))
        text = (SOURCE / file).read_text("utf-8")
        if change not in found and holds_together(change, text):
            found.add(change)
            yield change


def line_of(change: Change, run: Run) -> str:
    """Returns a line on what became of a change."""
    data = (SOURCE / change.file).read_bytes()
    old = " ".join(data[change.start : change.end].decode().split())
    place = f"{change.file}:{change.line}: {change.kind}"
    by = f" ({run.test})" if run.test else ""
    return f"{run.outcome}: {place}: {old} -> {change.new or 'nothing'}{by}"


@click.command()
@click.argument("folder", type=click.Path(path_type=Path))
@click.option("--seed", type=int, default=1, show_default=True)
@click.option("--count", type=click.IntRange(1), default=100, show_default=True)
@click.option(
    "--within", multiple=True, help="Only in files whose path below crnplan begins so."
)
@click.option(
    "--seconds",
    type=float,
    default=15.0,
    show_default=True,
    help="Of the processor, for each group of tests.",
)
@click.option("--again", is_flag=True, help="Judge anew what survived.")
@click.option("--jobs", type=click.IntRange(1), default=2, show_default=True)
@click.option(
    "--program",
    type=click.Path(exists=True, path_type=Path),
    default=TOP / "crates/crnsim/out/crnsim",
)
def main(
    folder: Path,
    seed: int,
    count: int,
    within: tuple[str, ...],
    seconds: float,
    again: bool,
    jobs: int,
    program: Path,
) -> None:
    """Plant COUNT bugs, and print what becomes of each. FOLDER has the copies, and keeps the outcomes."""
    kept, tests = folder.resolve() / f"seed-{seed}.jsonl", FilesOfTests()
    known, totals = {line: Run(*run) for line, run in read_lines(kept)}, Counter[str]()
    if again:
        known = {line: run for line, run in known.items() if run.outcome != SURVIVES}
    copies = SimpleQueue[Copy]()
    for number in range(jobs):
        place = folder.resolve() / f"copy-{number}"
        copies.put(Copy(place, program.resolve(), seconds))

    def judged(change: Change) -> Run:
        name = line_of(change, Run(""))
        if name not in known:
            copy = copies.get()
            known[name] = copy.judge(change, tests)
            copies.put(copy)
            with kept.open("a", encoding="utf-8") as file:
                print(json.dumps([name, known[name]]), file=file)
        return known[name]

    changes = [*chosen(count, seed, within or ("",))]
    with ThreadPoolExecutor(jobs) as pool:
        for change, run in zip(changes, pool.map(judged, changes)):
            totals[run.outcome] += 1
            click.echo(line_of(change, run))
    click.echo(", ".join(f"{totals[it]} {it}" for it in sorted(totals)))


if __name__ == "__main__":
    main()
