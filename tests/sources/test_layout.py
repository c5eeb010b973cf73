"""All Python of the repository is laid out as black does it, so that nobody has to think of it. Nothing of crnplan is too
long to be taken in at once: files have at most 500 lines, bodies of functions at most 40, and at most three statements
are within one another."""
from __future__ import annotations

import ast
import os
import signal
import subprocess
import sys
from collections.abc import Iterator
from pathlib import Path

TOP = Path(__file__).resolve().parents[2]
FOLDERS = [TOP / name for name in ("planner", "tests", "tools", "bench", "examples")]
MOST_LINES, MOST_BODY, MOST_DEPTH = 500, 40, 3
NESTING = (ast.For, ast.While, ast.If, ast.With, ast.Try)


def ill_laid(*paths: Path) -> str:
    """Returns what black would write anew of files and folders, in its words; empty if it would leave all alone."""
    black = [sys.executable, "-m", "black", "--check", *map(str, paths)]
    with subprocess.Popen(
        black, stderr=subprocess.PIPE, text=True, start_new_session=True
    ) as ran:
        try:
            said = ran.communicate()[1]
        except BaseException:  # Black has processes of its own, which would go on.
            os.killpg(ran.pid, signal.SIGKILL)
            raise
    return said if ran.returncode else ""


def body_lines(function: ast.FunctionDef) -> int:
    """Returns the lines of a function's body, without its docstring."""
    documented = ast.get_docstring(function, clean=False) is not None
    body = function.body[documented:]
    if not body:
        return 0
    return (body[-1].end_lineno or 0) - body[0].lineno + 1


def depth(node: ast.AST) -> int:
    """Returns how many statements are within one another; an `elif` counts as its `if`, and a function within another one
    by itself."""
    deepest = 0
    for child in ast.iter_child_nodes(node):
        if isinstance(child, (ast.FunctionDef, ast.ClassDef)):
            continue
        is_elif = isinstance(node, ast.If) and node.orelse == [child]
        is_nested = isinstance(child, NESTING) and not is_elif
        deepest = max(deepest, depth(child) + is_nested)
    return deepest


def too_long(text: str) -> Iterator[str]:
    """Yields what is too long, or nested too deeply, in the text of a module."""
    lines = len(text.splitlines())
    if lines > MOST_LINES:
        yield f"{lines} lines"
    for node in ast.walk(ast.parse(text)):
        if not isinstance(node, ast.FunctionDef):
            continue
        if body_lines(node) > MOST_BODY:
            yield f"{node.name}: {body_lines(node)} lines"
        if depth(node) > MOST_DEPTH:
            yield f"{node.name}: {depth(node)} statements within one another"


def test_plants(tmp_path: Path) -> None:
    planted = tmp_path / "planted.py"
    planted.write_text("x = { 'a':1 }\n", "utf-8")
    assert "would reformat" in ill_laid(planted)
    long = "def long():\n    'What it does.'\n" + 41 * "    print()\n"
    deep = "def deep():\n    for a in b:\n        if a:\n            while c:\n                if d: e()\n"
    assert [*too_long(long + deep)] == [
        "long: 41 lines",
        "deep: 4 statements within one another",
    ]
    assert [*too_long(501 * "pass\n")] == ["501 lines"]
    assert [*too_long(long.replace("    print()\n", "", 1))] == []
    chain = "def chain():\n    if a:\n        b()\n" + 5 * "    elif a:\n        b()\n"
    assert [*too_long(chain)] == []


def test_layout() -> None:
    assert ill_laid(TOP / "conftest.py", *FOLDERS) == ""


def test_nothing_is_too_long() -> None:
    found = {
        path.name: long
        for path in sorted((TOP / "planner/src").rglob("*.py"))
        if (long := [*too_long(path.read_text("utf-8"))])
    }
    assert found == {}
