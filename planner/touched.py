"""Keeps which tests run each line of crnplan, and chooses by that the tests which a change touches.

    .venv/bin/python -m planner.touched FOLDER

The gate keeps that map from the FOLDER of `pytest --lines`, in the user's folder of caches, for all clones. It has the text
of each module as it was then, so it stands for later ones too. Of a line it has those few tests that run fewest others.
tools/quick runs the tests that a change touches. `pytest --lines --mapped` measures these, a cover of all lines, and those
that the map does not have.
"""
from __future__ import annotations

import difflib
import heapq
import json
import math
import os
import re
import subprocess
import tempfile
from collections import defaultdict
from collections.abc import Iterable, Iterator
from pathlib import Path
from typing import NamedTuple

import click

from crnplan.store.caches import cache_folder
from planner.lines import SOURCE, TOP, UNMEASURED, is_in_part, seconds_of, tests_of

NAME = "tests_of_lines.json"
# Of a line so many tests are kept, and so many are in a cover.
MOST, TWICE = 20, 2
PYTHON = ".py"
# Where tests are, whose files are found by what they name.
SUITES = "tests", "planner/tests"


Line = tuple[str, int]


class NoCommit(click.ClickException):
    """A commit is not here, or this is no repository of git."""


class Module(NamedTuple):
    """The lines of a module of crnplan, and the tests of those that one runs, by number from 1. Of a template these are the
    lines of what it is compiled to."""

    lines: list[str]
    tests: dict[int, list[str]]


class Kept(NamedTuple):
    """The commit whose tests were run, the processor seconds of each, and the modules by their paths below the sources."""

    commit: str
    seconds: dict[str, float]
    modules: dict[str, Module]

    def cover(self, share: float = 1.0, times: int = TWICE) -> list[str]:
        """Returns tests that run a share of the lines so many times each, or as often as any do: those that run most in a
        second."""
        left, runs = dict[Line, int](), defaultdict[str, list[Line]](list)
        for file, module in self.modules.items():
            for line, tests in module.tests.items():
                left[file, line] = min(times, len(tests))
                for test in tests:
                    runs[test].append((file, line))
        missing, chosen = sum(left.values()), list[str]()
        most = missing * (1 - share)
        heap = [(-math.inf, test) for test in sorted(runs)]
        while heap and missing > most:
            _, test = heapq.heappop(heap)
            new = [line for line in runs[test] if left[line]]
            worth = -len(new) / self.cost([test])
            if heap and worth > heap[0][0]:
                heapq.heappush(heap, (worth, test))
            elif new:
                chosen.append(test)
                missing -= len(new)
                left.update({line: left[line] - 1 for line in new})
        return chosen

    def cost(self, tests: Iterable[str]) -> float:
        """Returns the processor seconds of tests. Each takes some that are not measured."""
        return sum(self.seconds.get(test, 1.0) + 0.02 for test in tests)

    def tests_of(self, file: str, text: str) -> Iterator[str]:
        """Yields the tests of the lines that a module no longer has, or that stand beside new ones: those first that run
        few others."""
        module = self.modules[file]
        same = difflib.SequenceMatcher(None, module.lines, text.splitlines(), False)
        touched = [
            line
            for kind, start, end, *_ in same.get_opcodes()
            if kind != "equal"
            for line in range(start + (start < end), end + 1 + (start == end))
        ]
        ranks = [module.tests.get(line, []) for line in touched]
        if touched and not any(ranks):  # Python runs them as it loads the module.
            ranks = [*module.tests.values()]
        for rank in range(MOST):
            yield from (tests[rank] for tests in ranks if rank < len(tests))

    def tests_naming(self, names: Iterable[str]) -> Iterator[str]:
        """Yields the tests of the lines of Python that have one of some names in them."""
        for file, module in self.modules.items():
            for line, tests in module.tests.items() if file.endswith(PYTHON) else ():
                if any(name in module.lines[line - 1] for name in names):
                    yield from tests


def place() -> Path | None:
    """Returns the file of the map; None if this user has no folder for it."""
    folder = cache_folder()
    return folder / NAME if folder else None


def keep(found: dict[Line, list[str]], seconds: dict[str, float]) -> None:
    """Keeps the tests of each line, by module and number, and what each test takes."""
    path, numbers = place(), {test: number for number, test in enumerate(seconds)}
    if not path:
        return
    modules: dict[str, tuple[list[str], dict[int, list[int]]]] = {}
    for (name, line), tests in sorted(found.items()):
        if name not in modules:
            modules[name] = (SOURCE / name).read_text("utf-8").splitlines(), {}
        known = [numbers[test] for test in tests if test in numbers]
        modules[name][1][line] = known[:MOST]
    kept = {
        "commit": git("rev-parse", "HEAD")[0],
        "seconds": seconds,
        "modules": modules,
    }
    handle, new = tempfile.mkstemp(prefix="new-", dir=path.parent)
    with open(handle, "w", encoding="utf-8") as file:
        json.dump(kept, file)
    os.replace(new, path)


def read() -> Kept | None:
    """Returns the kept map, or None if there is none that can be read."""
    path, modules = place(), dict[str, Module]()
    try:
        kept = json.loads(path.read_text("utf-8")) if path else {}
        names = [*kept["seconds"]]
        for file, (lines, numbers) in kept["modules"].items():
            tests = {int(at): [names[it] for it in its] for at, its in numbers.items()}
            modules[file] = Module(lines, tests)
        return Kept(kept["commit"], kept["seconds"], modules)
    except (OSError, ValueError, LookupError, TypeError, AttributeError):
        return None


def git(*words: str) -> list[str]:
    """Returns the lines that git prints, none of which is empty. It raises `NoCommit` if git fails."""
    try:
        ran = subprocess.run(
            ["git", "-C", TOP, *words], capture_output=True, text=True, check=True
        )
    except (OSError, subprocess.CalledProcessError) as fault:
        raise NoCommit(f"git {' '.join(words)}: {fault}") from fault
    return [*filter(None, ran.stdout.splitlines())]


def changed(since: str) -> list[str]:
    """Returns the files that are not as in a commit, or that it does not have."""
    new = git("ls-files", "--others", "--exclude-standard")
    return git("diff", "--name-only", "--no-renames", since) + new


def naming(path: Path) -> list[str]:
    """Returns the files of tests that name a file, import a module, or have its name; of a file of tests, that one."""
    files = [
        it for folder in SUITES for it in sorted((TOP / folder).rglob("test_*.py"))
    ]
    if TOP / path in files:
        return [str(path)]
    stem, name = re.escape(path.stem), re.escape(
        path.name if path.suffix else str(path)
    )
    pattern = rf"(?<![\w-]){name}(?!\w)"
    if path.suffix == ".py":
        pattern += rf"|\.{stem} import\b|import {stem}\b"
    named = re.compile(pattern)
    return [
        str(it.relative_to(TOP))
        for it in files
        if it.stem == path.stem or named.search(it.read_text("utf-8"))
    ]


def with_it(name: str) -> list[str]:
    """Returns the name of a file that crnplan reads, and those of the templates that take it in."""
    paths, names = (SOURCE / "templates").rglob("*.*"), [name]
    texts = {it.name: it.read_text("utf-8") for it in paths}
    for one in names:
        names += [it for it, text in texts.items() if one in text and it not in names]
    return names


def touched(paths: list[str], kept: Kept | None) -> list[str]:
    """Returns the tests that a change of files touches, and the files of tests that it touches as a whole, each once. Those
    of a module of crnplan are the tests of its changed lines, those of a file that it reads also of the lines that name
    it."""
    found = list[str]()
    for path in map(Path, paths):
        own = (
            str((TOP / path).relative_to(SOURCE))
            if SOURCE in (TOP / path).parents
            else ""
        )
        is_there = (TOP / path).is_file()
        if kept and own in kept.modules and own.endswith(PYTHON):
            text = (TOP / path).read_text("utf-8") if is_there else ""
            found += kept.tests_of(own, text)
        else:
            found += naming(path) if is_there else []
            found += kept.tests_naming(with_it(path.name)) if kept and own else []
    return [*dict.fromkeys(found)]


def unmeasured(folder: Path) -> frozenset[str]:
    """Returns the tests that are not measured in a run: no change since the map touches them, and others run their lines.
    Of the processes of the run the first one chooses them."""
    path = folder / UNMEASURED
    if not path.exists():
        folder.mkdir(parents=True, exist_ok=True)
        path.write_text(json.dumps(_unmeasured(read())), "utf-8")
    return frozenset(json.loads(path.read_text("utf-8")))


def _unmeasured(kept: Kept | None) -> list[str]:
    try:
        paths = changed(kept.commit) if kept else []
    except NoCommit:  # The map is of a commit that is not here.
        return []
    if not kept:
        return []
    chosen = {*kept.cover(), *touched(paths, kept)}
    return [it for it in kept.seconds if not chosen & {it, it.partition("::")[0]}]


@click.command()
@click.argument("folder", type=click.Path(exists=True, path_type=Path))
def main(folder: Path) -> None:
    """Keep the map of a run whose lines are in FOLDER, if all of its tests are measured."""
    if is_in_part(folder):
        click.echo("the map of tests is kept as it was: some were not measured")
    elif not place():
        click.echo("the map of tests is not kept: this user has no folder for it")
    else:
        keep(tests_of(folder), seconds_of(folder))
        click.echo(f"the map of tests is kept: {place()}")


if __name__ == "__main__":
    main()
