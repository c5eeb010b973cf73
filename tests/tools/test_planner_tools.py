"""Tests the golden data, whose fast parts are compared with what is stored, and the planting of bugs."""
from __future__ import annotations

import math
import shutil
import subprocess
import sys
from pathlib import Path

import pytest

from planner import mutants
from planner.changes import Change, changes_of, holds_together
from planner.golden.compared import Difference, compared, line_of, store
from planner.golden.parts import FAST, PARTS
from planner.lines import SOURCE, cut, missing, verdicts
from planner.mutants import (
    NO_TEST,
    SIGNAL,
    STATUS,
    SURVIVES,
    Copy,
    Run,
    chosen,
    outcome_of,
)
from planner.near_tests import FilesOfTests
from planner.reports import FIXTURE, KILLED, NOT_LOADED, PASSED, TIME

FIGURES = {
    "items": {"A": {"today": {"cost": 1.5, "s": 3}, "law": "empirical", "rows": [1, 2]}}
}


@pytest.mark.parametrize("part", FAST)
def test_figures_are_the_stored_ones(part: str, program: Path) -> None:
    """No figure of a part has moved. If one should, `python -m planner.golden --store` stores it anew."""
    count, differences = compared(part, PARTS[part](str(program), 1))
    assert count > 900
    assert [*map(line_of, differences)] == []


def test_each_difference_is_named(tmp_path: Path) -> None:
    """A changed number, text, entry of a list and key are named, and rounding is not. What is not stored differs."""
    store("few", FIGURES, tmp_path)
    assert compared("few", FIGURES, tmp_path) == (5, [])
    changed = {"today": {"cost": 1.5 * (1 + 1e-12), "s": 4}, "law": "geometric"}
    new = {"items": {"A": {**changed, "rows": [1]}, "B": {"saving": 2.0}}}
    count, differences = compared("few", new, tmp_path)
    assert count == 6
    assert [(it.key, it.old, it.new) for it in differences] == [
        ("few/items/A/today/s", 3, 4),
        ("few/items/A/law", "empirical", "geometric"),
        ("few/items/A/rows/1", 2, "-"),
        ("few/items/B/saving", "-", 2.0),
    ]
    assert differences[0].share == 1 / 3
    assert math.isnan(differences[1].share)
    assert [it.is_expected for it in differences] == [False, False, False, True]
    assert line_of(differences[0]) == "few/items/A/today/s: 3 -> 4 (+0.33)"
    assert compared("few", {"a": 1}, Path("nowhere")) == (
        1,
        [Difference("few/a", "-", 1, math.nan)],
    )


PYTHON = '''"""Says -1 and 2."""
LIMIT: int = -3

def least(given: list[int], most: int = 5) -> int:
    """Returns 1 < 2."""
    if not given or len(given) <= most:
        raise ValueError(f"{most + 1} at least")
    total = 0
    total += max(given[0], 2.5)
    total = round(total / 2, ndigits=1)
    print([sorted(it) for it in given if it])
    return total if any(given) else -total
'''
TOML = """[b]
one = ["text", "a.b"]
two = "{n:,} of {m}"
three = true
"""
TEMPLATE = '<a href="{{ x }}" id="i">{% if x and y %}{{ x|round }}{% endif %}</a>'
# The changes of each line, worked by hand.
CHANGES: dict[str, dict[int, set[str]]] = {
    PYTHON: {
        2: {"(3)", "(4)", "(2)"},
        4: {"(6)", "(4)"},
        6: {
            "(given)",
            "(not given)",
            "(len(given) <= most)",
            "(not given and len(given) <= most)",
            "(len(given) < most)",
        },
        7: {"pass"},
        8: {"(1)", "(-1)"},
        9: {
            "pass",
            "(given[0])",
            "(min(given[0], 2.5))",
            "(max(2.5, given[0]))",
            "(1)",
            "(-1)",
            "(5.0)",
        },
        10: {
            "pass",
            "(total / 2)",
            "(round(total / 2))",
            "(total * 2)",
            "(3)",
            "(1)",
            "(2)",
            "(0)",
        },
        11: {"pass", "(it)", "([sorted(it) for it in given])"},
        12: {"(-total if any(given) else total)", "(all(given))", "(total)"},
    },
    TOML: {
        2: {"", '"{n:,} of {m}"\ntwo = ["text", "a.b"]'},
        3: {"", 'true\nthree = "{n:,} of {m}"', "{m} of {n:,}", "n"},
        4: {"", "false"},
    },
    TEMPLATE: {1: {"", "if not (x and y)"}},
}
# A bug of law.py, by its text, a test that sees it, and others.
OLD, NEW = b"min(weights) < 0", "min(weights) <= 0"
SEES = "from crnplan.law import Law\ndef test_sees(): Law([0, 2], [1, 0])\n"
FAILS = f"def test_fails(): assert 0\n{SEES}"
WAITS = "def test_waits():\n    while True: pass\n"


@pytest.mark.parametrize("file, text", zip(("a.py", "a.toml", "a.html"), CHANGES))
def test_changes_of_a_file(file: str, text: str) -> None:
    """Changes each comparison, sign, constant, part of a condition, argument and statement that is not needed, key, value and
    attribute once, and no type, text or docstring."""
    found = changes_of(file, text)
    assert {
        line: {it.new for it in found if it.line == line}
        for line in sorted({it.line for it in found})
    } == CHANGES[text]
    for it in found:
        assert holds_together(it, text), it
    same = found[0]._replace(new=text.encode()[found[0].start : found[0].end].decode())
    broken = found[0]._replace(start=0, end=9, new='{{ "')
    assert not holds_together(same, text) and not holds_together(broken, text)


def test_parts_of_a_template_that_are_changed() -> None:
    data, found = TEMPLATE.encode(), changes_of("a.html", TEMPLATE)
    assert {data[it.start : it.end].decode() for it in found} == {
        ' href="{{ x }}"',
        ' id="i"',
        "if x and y",
        " and y",
        "{{ x }}",
        "{{ x|round }}",
        "|round",
    }


def test_changes_are_drawn_by_a_seed() -> None:
    first, *others = [[*chosen(5, seed, ("law.py", "toml/"))] for seed in (5, 5, 6)]
    assert first == others[0] != others[1]
    assert {it.file.partition("/")[0] for it in first} <= {"law.py", "toml"}


def test_bugs_are_judged_fairly(
    tmp_path: Path, program: Path, monkeypatch: pytest.MonkeyPatch
) -> None:
    """A bug is killed by a test that meets it, and a change that is none survives. A test that fails without the bug too, a
    module that can't be loaded and an endless loop kill nothing."""
    monkeypatch.setattr(mutants, "MORE_SECONDS", 5)
    start = (SOURCE / "law.py").read_bytes().index(OLD)
    bug = Change("law.py", "", 1, start, start + len(OLD), NEW)
    same, unread = bug._replace(new=OLD.decode()), bug._replace(new="((")
    copy = Copy(tmp_path, program, 1.0)
    for change, text, run in (
        (bug, SEES, Run(KILLED, "test_it.py::test_sees")),
        (same, SEES, Run(SURVIVES)),
        (bug, FAILS, Run(KILLED, "test_it.py::test_sees")),
        (unread, SEES, Run(NOT_LOADED, "test_it.py")),
        (bug, WAITS, Run(TIME)),
    ):
        (tmp_path / "test_it.py").write_text(text, "utf-8")
        assert copy.run_fairly(change, ["test_it.py"], 1.0) == run
        shutil.rmtree(tmp_path / "__pycache__", ignore_errors=True)


def test_outcomes_are_kept(
    tmp_path: Path,
    program: Path,
    monkeypatch: pytest.MonkeyPatch,
    capsys: pytest.CaptureFixture[str],
) -> None:
    """A bug is judged once, and one that survived again if that is asked for."""
    judged = list[Change]()

    def judge(copy: Copy, change: Change, tests: FilesOfTests) -> Run:
        judged.append(change)
        return Run(SURVIVES)

    monkeypatch.setattr(Copy, "judge", judge)
    words = [str(tmp_path), "--count=2", "--within=law.py", f"--program={program}"]
    for more in ([], [], ["--again"]):
        mutants.main([*words, *more], standalone_mode=False)
    assert len(judged) == 4 == 2 * len({*judged})
    assert capsys.readouterr().out.splitlines()[-1] == f"2 {SURVIVES}"


def test_nearest_tests() -> None:
    """Those come first that import what is changed, then those of its name or folder."""
    change = Change("plan/what_ifs.py", "", 1, 0, 0, "")
    first, *_ = FilesOfTests().groups(change)
    assert first[0] == "planner/tests/plan/test_what_ifs.py"


@pytest.mark.parametrize(
    "seen, status, outcome",
    [
        ({PASSED: "a"}, 0, SURVIVES),
        ({PASSED: "a"}, 2, SURVIVES),
        ({PASSED: "a", FIXTURE: "b"}, 1, FIXTURE),
        ({FIXTURE: "b", KILLED: "c"}, 1, KILLED),
        ({NOT_LOADED: "a.py"}, 2, NOT_LOADED),
        ({}, 4, NOT_LOADED),
        ({}, 5, NO_TEST),
        ({}, 3, STATUS),
        ({PASSED: "a"}, -11, SIGNAL),
        ({PASSED: "a"}, -24, TIME),
    ],
)
def test_outcomes(seen: dict[str, str], status: int, outcome: str) -> None:
    assert outcome_of(seen, status).outcome == outcome


def test_lines_that_are_not_run(tmp_path: Path) -> None:
    """A module that is loaded runs its definitions, and no body of a function, also in a process that is started. A file
    that was not written to its end is named, and counts for nothing."""
    script = (
        "import subprocess, sys; from pathlib import Path; from planner.lines import keep, measure\n"
        "measured = measure(Path(sys.argv[1])); import crnplan.money; keep(measured, {})\n"
        "subprocess.run([sys.executable, '-c', 'import crnplan.law'], check=True)"
    )
    words = [sys.executable, "-c", script, str(tmp_path)]
    subprocess.run(words, check=True, cwd=SOURCE.parents[2])
    assert cut(tmp_path) == []
    assert len([*tmp_path.glob("data.*")]) == 2
    (tmp_path / "writing/data.cut").write_bytes(b"SQLite format 3")
    found = missing(tmp_path)
    assert cut(tmp_path) == ["data.cut"]
    for module, line in (("money.py", "amounts[name] = amount"), ("law.py", "kept = ")):
        lines = "\n".join(["", *found[module].values()])
        assert line in lines
        assert "\ndef " not in lines


@pytest.mark.parametrize(
    ("reasons", "count"),
    [
        ({}, 2),
        ({"a.py": {"x = 1": "why"}}, 0),
        ({"a.py": {"y = 1": "why"}}, 3),
        ({"b.py": {"x = 1": "why"}}, 3),
    ],
)
def test_reasons(reasons: dict[str, dict[str, str]], count: int) -> None:
    """Each line that is not run has a reason, and no other line has one."""
    assert (
        len([*verdicts({"a.py": {3: "x = 1", 9: "x = 1"}, "b.py": {}}, reasons)])
        == count
    )
