"""Fixtures of the tests of the program: folders, small C libraries, and the tools as modules."""
from __future__ import annotations

import importlib
import shutil
from collections.abc import Callable
from pathlib import Path
from typing import Any

import pytest

from tests.runs import library

HERE = Path(__file__).resolve().parent
Compiler = Callable[[Path], Path]
Tool = Callable[[str], Any]


@pytest.fixture
def room(tmp_path: Path) -> Path:
    """Returns an empty folder of the test's own."""
    return tmp_path


@pytest.fixture(scope="session")
def compiled(tmp_path_factory: pytest.TempPathFactory) -> Compiler:
    """Returns a function that builds the library of a C file, to be loaded before a program, once in a session."""
    folder = tmp_path_factory.mktemp("libraries")
    built: dict[Path, Path] = {}

    def build(source: Path) -> Path:
        if not shutil.which("cc"):
            pytest.skip("there is no C compiler (cc)")
        if source not in built:
            built[source] = library(source, folder)
        return built[source]

    return build


@pytest.fixture(scope="session")
def preload_library(compiled: Compiler) -> Path:
    """Returns the library of preload.c, which counts a run's requests, refuses some and holds its threads."""
    return compiled(HERE / "preload.c")


@pytest.fixture(scope="session")
def tool(top: Path) -> Tool:
    """Returns a function that imports a tool. It imports modules that stand beside it."""

    def imported(name: str) -> Any:
        with pytest.MonkeyPatch.context() as patch:
            patch.syspath_prepend(top / "tools")
            return importlib.import_module(name)

    return imported
