"""The reference of crnplan has each public name, is built without a warning, and its examples run."""
from __future__ import annotations

import doctest
import functools
import importlib
import inspect
import os
import pkgutil
import subprocess
import sys
from collections.abc import Iterator
from pathlib import Path
from typing import Any

import pytest
from numpydoc.validate import validate
from sphinx.util.inventory import InventoryFile

import crnplan as crn
from crnplan.table import Result
from tests.runs import TOP

REFERENCE = TOP / "docs" / "reference"
NAMES = [name for name in crn.__all__ if name != "__version__"]
FLAGS = doctest.NORMALIZE_WHITESPACE | doctest.ELLIPSIS
# What docstrings may not lack: arguments that are there alone, each with a type and a meaning. Functions say what they
# return too, and have an example. Values that only the package makes need not say how they are made.
RULES = {"GL08", "PR01", "PR02", "PR04", "PR07", "RT03", "SS03"}
OF_FUNCTIONS = {*RULES, "RT01", "EX01"}
OF_MADE = {"GL08", "SS03"}
MAKERS = {"Costs", "Law", "Policy", "Reading", "Settings"}
INTERNAL = ":meta private:"  # in the docstring of what is public for the package alone


def members_of(found: type) -> Iterator[tuple[str, Any]]:
    """Yields the public methods and properties of a class, also those of others of the package that it is made from."""
    for name, its in inspect.getmembers_static(found):
        homes = [home for home in found.__mro__ if name in vars(home)]
        is_own = homes and homes[0].__module__.startswith("crnplan")
        is_made = isinstance(its, (property, functools.cached_property))
        is_member = is_made or inspect.isroutine(getattr(its, "__func__", its))
        is_internal = name.startswith("_") or INTERNAL in (its.__doc__ or "")
        if is_own and is_member and not is_internal:
            yield name, its


def public() -> Iterator[tuple[str, Any]]:
    """Yields the public names, and those of public methods and properties."""
    for name in NAMES:
        found = getattr(crn, name)
        yield name, found
        if inspect.isclass(found):
            for member, its in members_of(found):
                yield f"{name}.{member}", its


def rules_of(place: str, found: object) -> set[str]:
    """Returns the rules for the docstring of a public name, or of a member of a public class."""
    if inspect.isclass(found):
        return RULES if place in MAKERS else OF_MADE
    if inspect.isroutine(getattr(found, "__func__", found)):
        return RULES if "." in place else OF_FUNCTIONS
    return {"GL08"}


@pytest.fixture(scope="module")
def built(tmp_path_factory: pytest.TempPathFactory) -> Path:
    """Returns the folder of the reference as Sphinx builds it, which fails at a warning."""
    folder = tmp_path_factory.mktemp("reference")
    words = [sys.executable, "-m", "sphinx", "-W", "--keep-going", "-q", "-b", "html"]
    run = subprocess.run([*words, REFERENCE, folder], capture_output=True, text=True)
    assert (run.returncode, run.stderr) == (0, "")
    return folder


def results() -> Iterator[type]:
    """Yields the classes of results, wherever in the package they are."""
    for module in pkgutil.walk_packages(crn.__path__, "crnplan."):
        if not module.name.endswith("__main__"):
            importlib.import_module(module.name)
    waiting = [Result]
    while waiting:
        found = waiting.pop()
        waiting += found.__subclasses__()
        if found.__name__ not in NAMES:
            yield found


def test_names_of_the_reference(built: Path) -> None:
    """Each public name, each public method and property, and each class of results has its place in the reference."""
    with open(built / "objects.inv", "rb") as file:
        inventory = InventoryFile.load(file, "", os.path.join)
    known = {
        name for kind in inventory if kind.startswith("py:") for name in inventory[kind]
    }
    wanted = {f"crnplan.{name}" for name, _ in public()}
    wanted |= {f"{found.__module__}.{found.__name__}" for found in results()}
    assert len(wanted) > 140
    assert wanted - known == set()


@pytest.mark.parametrize("name", NAMES)
def test_form_of_docstrings(name: str) -> None:
    """A public function or class, and each of its methods, has its arguments and results in the form of numpydoc."""
    faults = []
    for place, found in public():
        if place.split(".")[0] == name:
            rules = rules_of(place, found)
            for code, said in validate(f"crnplan.{crn._HOMES[name]}.{place}")["errors"]:
                if code in rules:
                    faults.append(f"{place}: {said}")
    assert faults == []


@pytest.fixture(scope="module")
def names(program: Path) -> dict[str, Any]:
    """Returns the names that the first page of the reference defines for all examples."""
    page = (REFERENCE / "index.rst").read_text("utf-8")
    with pytest.MonkeyPatch.context() as patch:
        patch.setenv("CRNSIM", str(program))
        test = doctest.DocTestParser().get_doctest(page, {}, "index", None, 0)
        run = doctest.DocTestRunner(optionflags=FLAGS).run(test, clear_globs=False)
    assert run.failed == 0 < run.attempted
    return test.globs


@pytest.mark.parametrize("name", NAMES)
def test_examples(
    name: str, names: dict[str, Any], program: Path, monkeypatch: pytest.MonkeyPatch
) -> None:
    """The examples of a public name and of its methods print what they say."""
    monkeypatch.setenv("CRNSIM", str(program))
    runner = doctest.DocTestRunner(optionflags=FLAGS)
    finder = doctest.DocTestFinder(exclude_empty=True)
    for test in finder.find(getattr(crn, name), name, module=False, globs=names):
        runner.run(test)
    assert runner.failures == 0
