"""Tests which tests a change touches, and which are measured, by a map of few lines that is made by hand."""
from __future__ import annotations

import json
import os
import subprocess
import sys
from pathlib import Path

import pytest
from click.testing import CliRunner

from planner import lines, touched
from planner.lines import TOP, UNMEASURED, seconds_of
from planner.quick import FIXED, within
from planner.touched import (
    Kept,
    Module,
    NoCommit,
    changed,
    keep,
    unmeasured,
    naming,
    read,
    with_it,
)

LINES = [
    "LIMIT = 1",
    "def a():",
    "    x = 1",
    "    return x",
    "def b():",
    "    return 2",
]
TESTS = {3: ["few", "same", "many"], 4: ["few", "same", "many"], 6: ["many"]}
SECONDS = {"few": 1.0, "same": 1.5, "many": 3.0, "other": 1.0}
KEPT = Kept("", SECONDS, {"a.py": Module(LINES, TESTS)})
ALL = ["few", "same", "many"]


@pytest.mark.parametrize(
    ("change", "found"),
    [
        ({}, []),
        ({4: "    return 1"}, ALL),
        ({6: "    return 3"}, ["many"]),
        ({3: "    x = 1\n    x += 1"}, ALL),
        ({5: "def b():\n    pass"}, ["many"]),
        ({6: "    return 2\n\n\ndef c():\n    return 3"}, ["many"]),
        ({1: "LIMIT = 2"}, ["few", "many", "same"]),
    ],
    ids=[
        "none",
        "a line",
        "of one test",
        "a new line",
        "a first line",
        "a new function",
        "loaded",
    ],
)
def test_lines_that_are_changed(change: dict[int, str], found: list[str]) -> None:
    """Those tests run a changed line, or one beside a new one. If a module runs it as it is loaded, all of its tests do."""
    text = "\n".join(change.get(line, old) for line, old in enumerate(LINES, 1))
    assert [*dict.fromkeys(KEPT.tests_of("a.py", text))] == found


def test_cover() -> None:
    """By hand: `few` runs two lines in a second, `same` in 1.5, and `many` three in three, one of which no other runs."""
    assert KEPT.cover(1, 1) == ["few", "many"]
    assert KEPT.cover(1, 2) == ALL
    assert KEPT.cover(0.6, 1) == ["few"]
    assert within(["few", "many", "other"], KEPT, 2.1) == ["few", "other"]


def test_files_of_tests_that_name_a_file() -> None:
    """What stands for a cover as long as there is no map are such files too."""
    assert all((TOP / path).is_file() for path in FIXED)
    own = f"tests/tools/{Path(__file__).name}"
    assert naming(Path(own)) == [own]
    assert own in naming(Path("planner/touched.py"))
    assert "tests/tools/test_gate.py" in naming(Path(".ci/run"))
    assert "tests/tools/test_gate.py" not in naming(Path("elsewhere/run"))
    scenario = naming(Path("planner/tests/test_scenario.toml"))
    assert "planner/tests/test_scenario.py" in scenario and own in scenario


def test_templates_that_take_in_another() -> None:
    """The page of a catalogue has the style of all pages, and that of a desk has none of its own."""
    assert {"base.html", "catalogue.html"} <= {*with_it("base.css")}
    assert with_it("closed.html") == ["closed.html"]


def test_templates_are_known_by_what_names_them() -> None:
    """Of a template the map has the lines of what it is compiled to, which may be more than its own."""
    naming_it = Module(['page = rendered("b.html")'], {1: ["few"]})
    compiled = Module(["<p>"], {7: ["other"]})
    kept = Kept("", SECONDS, {"a.py": naming_it, "templates/b.html": compiled})
    sources = "planner/src/crnplan"
    assert touched.touched([f"{sources}/templates/b.html"], kept) == ["few"]
    assert touched.touched([f"{sources}/read/b.toml"], kept) == []


def test_a_commit_that_is_not_here() -> None:
    with pytest.raises(NoCommit, match="git diff"):
        changed("0" * 40)


def test_map_is_kept(tmp_path: Path, monkeypatch: pytest.MonkeyPatch) -> None:
    """What is read is what was kept; a broken one counts as none. A run measures the tests that are new, touched or in a
    cover, and no test is left out by the map of a commit that is not here."""
    monkeypatch.setattr(touched, "place", lambda: tmp_path / "map")
    monkeypatch.setattr(
        touched, "changed", lambda since: ["planner/src/crnplan/law.py"]
    )
    assert read() is None and unmeasured(tmp_path / "none") == frozenset()
    tests = [f"t.py::{number}" for number in range(4)]
    keep({("law.py", 3): tests[:3], ("money.py", 1): tests}, dict.fromkeys(tests, 1.0))
    kept = read()
    assert kept and kept.modules["law.py"].tests == {3: tests[:3]}
    assert kept.modules["money.py"].lines[0].startswith('"""')
    assert unmeasured(tmp_path / "one") == {*tests[2:]}
    changes = json.loads((tmp_path / "map").read_text("utf-8"))
    changes["modules"]["law.py"][0][2] += " "
    (tmp_path / "map").write_text(json.dumps(changes), "utf-8")
    assert unmeasured(tmp_path / "two") == {tests[3]}
    assert unmeasured(tmp_path / "one") == {*tests[2:]}

    def no_commit(since: str) -> list[str]:
        raise NoCommit(since)

    monkeypatch.setattr(touched, "changed", no_commit)
    assert unmeasured(tmp_path / "three") == frozenset()
    (tmp_path / "map").write_text("{}", "utf-8")
    assert read() is None


def test_only_a_map_of_all_tests_is_kept(
    tmp_path: Path, monkeypatch: pytest.MonkeyPatch
) -> None:
    """A run that finds no map measures all of its tests."""
    monkeypatch.setattr(touched, "place", lambda: tmp_path / "map")
    monkeypatch.setattr(touched, "tests_of", lambda folder: {("law.py", 3): ["a"]})
    monkeypatch.setattr(touched, "seconds_of", lambda folder: {"a": 1.0, "b": 1.0})
    (tmp_path / UNMEASURED).write_text('["b"]', "utf-8")
    CliRunner().invoke(touched.main, [str(tmp_path)])
    assert read() is None
    assert unmeasured(tmp_path / "run") == frozenset()
    CliRunner().invoke(touched.main, [str(tmp_path / "run")])
    kept = read()
    assert kept and kept.modules["law.py"].tests == {3: ["a"]}


def test_lines_of_each_test(tmp_path: Path) -> None:
    """A run keeps which test runs a line, also in a process that it starts, and what each test takes. It measures none that
    is left out, and runs none that is not named."""
    table, process = "planner/tests/test_table.py", "planner/tests/test_statuses.py"
    here, out = (
        f"{table}::{it}" for it in ("test_data_is_not_rounded", "test_files_and_texts")
    )
    (tmp_path / UNMEASURED).write_text(json.dumps([out]), "utf-8")
    only = tmp_path / "only"
    started = f"{process}::test_a_full_standard_output[--help]"
    only.write_text("\n".join([here, out, started]), "utf-8")
    words = [table, process, "--only", only, "--lines", tmp_path, "--mapped"]
    command = [sys.executable, "-m", "pytest", "-q", *words]
    # If this test is measured, these variables would start that measurement in the run below too.
    outside = {*os.environ} - {"COVERAGE_PROCESS_START", "CRNPLAN_TEST"}
    known = {name: os.environ[name] for name in outside}
    subprocess.run(command, cwd=TOP, env=known, check=True)
    found = lines.tests_of(tmp_path)
    assert {*sum(found.values(), [])} == {here, started}
    assert {file for (file, _), tests in found.items() if started in tests} >= {
        "__main__.py"
    }
    assert [*seconds_of(tmp_path)] == [here, started, out]
