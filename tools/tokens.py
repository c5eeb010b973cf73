#!/usr/bin/env python3
"""Counts what a reader of a folder has to take in: tools/tokens.py FOLDER..

Prints a row for each package of each folder, with sums: lines of Python, its tokens (names, operators, numbers and texts, without
comments and docstrings), tokens a line of code, dense expressions (comprehensions, conditional expressions, lambdas) a
statement, and the words and signs of all other texts, such as TOML, templates and scripts: what moves there is read all
the same.
"""
from __future__ import annotations

import ast
import io
import re
import sys
import tokenize
from collections.abc import Iterable
from dataclasses import dataclass, field
from pathlib import Path

COUNTED = tokenize.NAME, tokenize.OP, tokenize.NUMBER, tokenize.STRING
OTHERS = {".toml", ".html", ".css", ".js", ".txt"}
DENSE = (
    ast.ListComp,
    ast.SetComp,
    ast.DictComp,
    ast.GeneratorExp,
    ast.IfExp,
    ast.Lambda,
)
DOCUMENTED = ast.Module, ast.ClassDef, ast.FunctionDef, ast.AsyncFunctionDef


@dataclass
class Size:
    """What was counted of some files."""

    lines: int = 0
    code: int = 0  # lines with a token
    tokens: int = 0
    dense: int = 0
    statements: int = 0
    others: int = 0

    def add(self, other: Size) -> None:
        """Adds the size of other files."""
        for name in vars(self):
            setattr(self, name, getattr(self, name) + getattr(other, name))

    @property
    def row(self) -> str:
        """The size as a row."""
        a_line = self.tokens / max(self.code, 1)
        a_statement = self.dense / max(self.statements, 1)
        return f"{self.lines:7,} {self.tokens:8,} {a_line:7.2f} {a_statement:6.3f} {self.others:8,}"


HEADING = f"{'':24}   lines   tokens  a line  dense   others"


def docstrings_of(tree: ast.AST) -> set[int]:
    """Returns the lines on which docstrings begin."""
    documented = [node for node in ast.walk(tree) if isinstance(node, DOCUMENTED)]
    return {
        node.body[0].lineno
        for node in documented
        if ast.get_docstring(node, clean=False) is not None
    }


def size_of_python(text: str) -> Size:
    """Returns the size of a text in Python."""
    tree = ast.parse(text)
    skipped = docstrings_of(tree)
    found = [
        token
        for token in tokenize.generate_tokens(io.StringIO(text).readline)
        if token.type in COUNTED and token.start[0] not in skipped
    ]
    nodes = [*ast.walk(tree)]
    return Size(
        lines=len(text.splitlines()),
        code=len({token.start[0] for token in found}),
        tokens=len(found),
        dense=sum(isinstance(node, DENSE) for node in nodes),
        statements=sum(isinstance(node, ast.stmt) for node in nodes),
    )


def size_of(files: Iterable[Path]) -> Size:
    """Returns the size of some files. Those of other kinds count for nothing."""
    size = Size()
    for file in files:
        if file.suffix == ".py":
            size.add(size_of_python(file.read_text("utf-8")))
        elif file.suffix in OTHERS:
            words = re.findall(r"\w+|[^\w\s]", file.read_text("utf-8"))
            size.others += len(words)
    return size


def by_package(folder: Path) -> dict[str, Size]:
    """Returns the size of each package of a folder by its name, and that of the modules that stand in none."""
    files: dict[str, list[Path]] = {}
    for file in sorted(folder.rglob("*")):
        package, *rest = file.relative_to(folder).parts
        if file.is_file():
            files.setdefault(package if rest else "modules", []).append(file)
    sizes = {name: size_of(its) for name, its in files.items()}
    return {name: size for name, size in sizes.items() if size.tokens or size.others}


def total_of(sizes: Iterable[Size]) -> Size:
    """Returns the sum of sizes."""
    total = Size()
    for size in sizes:
        total.add(size)
    return total


def main() -> None:
    """Prints the sizes of the folders that are named."""
    for folder in map(Path, sys.argv[1:]):
        print(f"{folder}\n{HEADING}")
        sizes = by_package(folder)
        for name, size in sizes.items():
            print(f"{name:24} {size.row}")
        print(f"{'all':24} {total_of(sizes.values()).row}")


if __name__ == "__main__":
    main()
