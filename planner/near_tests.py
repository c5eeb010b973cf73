"""Chooses the files of tests that may see a change of crnplan, by what they import and name."""
from __future__ import annotations

import re
from collections import Counter
from collections.abc import Iterator
from pathlib import Path, PurePath
from typing import NamedTuple

from planner.changes import Change
from planner.lines import TOP

FOLDERS = "planner/tests", "tests/documents"
# They take long and see little: they need a browser or a notebook, or count tokens.
LEFT_OUT = re.compile(
    r"/(browser|bench)/|test_(notebooks|reference|budgets|python)\.py"
)
# What sees changes of all parts.
BROAD = "acceptance/test_acceptance", "test_tools", "catalogue/test_planning"
IMPORTED = re.compile(r"^from crnplan\.?([\w.]*) import ([^(\n]+|\([^)]*\))", re.M)
# What a file of tests is worth if it imports the module, has its name, stands in its folder, or is one of `BROAD`. A word
# that it has in common with a change is worth 1 if no other file has it.
IMPORTS, NAME, FOLDER, ALL = 3.0, 2.0, 0.5, 0.2
# Where groups of the nearest files begin and end.
GROUPS = 0, 3, 9, 21


class FileOfTests(NamedTuple):
    """What a file of tests imports of crnplan, and the words of it and of the data beside it."""

    path: str
    modules: frozenset[str]
    words: frozenset[str]


def read_tests(path: Path) -> FileOfTests:
    """Returns what a file of tests imports and names."""
    text, stem = path.read_text("utf-8"), path.stem
    beside = {*path.parent.glob(f"{stem}.toml")}
    beside |= {it for it in path.parent.glob("*.toml") if it.name in text}
    modules = set[str]()
    for module, names in IMPORTED.findall(text):
        modules |= {module, *(f"{module}.{it}".strip(".") for it in words_in(names))}
    texts = [text, *(it.read_text("utf-8") for it in sorted(beside))]
    words = frozenset(it for each in texts for it in words_in(each))
    return FileOfTests(str(path.relative_to(TOP)), frozenset(modules), words)


def words_in(text: str) -> list[str]:
    return re.findall(r"\w{2,}", text)


class FilesOfTests:
    """All files of tests that may see a change."""

    def __init__(self) -> None:
        paths = [it for folder in FOLDERS for it in (TOP / folder).rglob("test_*.py")]
        found = [it for it in sorted(paths) if not LEFT_OUT.search(str(it))]
        self.files = [read_tests(path) for path in found]
        self.counts = Counter(word for file in self.files for word in file.words)

    def near(self, change: Change) -> list[str]:
        """Returns the files, those first that are nearest to a change. Files that have nothing in common with it are left
        out."""
        worth = {file.path: self.worth(file, change) for file in self.files}
        return sorted(filter(worth.get, worth), key=lambda it: (-worth[it], it))

    def worth(self, file: FileOfTests, change: Change) -> float:
        """Returns how near a file of tests is to a change."""
        inner, path = PurePath(change.file), PurePath(file.path)
        module = ".".join(inner.with_suffix("").parts)
        names = {*change.names, inner.stem}
        worth = sum(1 / self.counts[it] for it in names & file.words)
        worth += IMPORTS * (module in file.modules)
        worth += NAME * (inner.stem in path.stem)
        worth += FOLDER * bool({*inner.parts[:-1]} & {*path.parts})
        return worth + ALL * file.path.removesuffix(".py").endswith(BROAD)

    def groups(self, change: Change) -> Iterator[list[str]]:
        """Yields the nearest files in groups, each larger than the one before."""
        near = self.near(change)
        for start, end in zip(GROUPS, GROUPS[1:]):
            if near[start:end]:
                yield near[start:end]
