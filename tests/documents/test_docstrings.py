"""The docstrings of the crates have one form, and no comment says one thing in another way than all others.

Each public item has a docstring. Each public function says what it asks and its errors under headings of their own, if
it asks for something or can fail, and nowhere else. Each file of code begins with a comment on its module.
"""
from __future__ import annotations

import re
from collections.abc import Iterator
from typing import Any

import pytest

from tests.documents.markdown import text_of
from tests.runs import TOP

PUBLIC = r"pub (?:(?:const|unsafe) )*"
ITEM = re.compile(
    rf"((?:^ *//[^\n]*\n)*)(?:^ *#\[[^\n]*\n)*^ *{PUBLIC}(fn|struct|enum|trait|type|const) (\w+)([^\n]*\n"
    r"(?:(?! *\{| *//| *pub )[^\n]+\n)*)",
    re.MULTILINE,
)
KIND = re.compile(rf"^ *{PUBLIC}(?:fn|struct|enum|trait|type|const) \w", re.MULTILINE)
# What comments, and restricted visibility, are not to be spelt as, each with what stands in its place.
OTHER_WAYS = {
    r"growth was refused|want of memory": "an allocation fails",
    r"[Tt]akes? no memory|[Nn]eeds no memory": "allocates nothing",
    r"could be had|gives up": "fails",
    r"\ba front of\b": "a prefix of",
    r"pub\((?:super|in )": "pub(crate)",
}
LOOSE = re.compile(
    r"\b(?:Condition: |Asks that |Refuses, |of these faults that holds is answered)"
)
CODE = sorted(it.relative_to(TOP).as_posix() for it in TOP.glob("crates/*/src/**/*.rt"))
SPECS = sorted(
    it.relative_to(TOP).as_posix() for it in TOP.glob("crates/*/specs/**/*.antt")
)


def broken_rules(doc: str, kind: str, head: str) -> Iterator[str]:
    """Yields the rules that a docstring breaks."""
    lines = [it.strip()[3:].strip() for it in doc.splitlines()] + ["", "", ""]
    headings = [at for at, it in enumerate(lines) if it.startswith("# ")]
    if not doc or not all(it.strip().startswith("///") for it in doc.splitlines()):
        yield "it has no docstring"
    if kind != "fn":
        return
    wanted = ["# Asks"] * bool(re.search(r"\brequires\b", head)) + ["# Errors"] * bool(
        re.search(r"-> Result<", head)
    )
    if [lines[at] for at in headings] != wanted:
        yield f"it lacks the headings {wanted}, or has others"
    apart = (
        lines[at - 1] == lines[at + 1] == "" and lines[at + 2][:1] not in ("", "#")
        for at in headings
    )
    if 0 in headings or not all(apart):
        yield "a heading is not between blank lines, or has no text below"
    if LOOSE.search(" ".join(lines)):
        yield "it says what it asks or its errors outside the headings"


@pytest.mark.parametrize(
    "name", [it for it in CODE if "tests" not in it.rpartition("/src/")[2]]
)
def test_docstrings(name: str, check_all: Any) -> None:
    """Each public item of a file has a docstring of the one form."""
    text = text_of(name)
    found = list(ITEM.finditer(text))

    def cases() -> Iterator[tuple[str, object]]:
        yield "each public item is looked at", len(found) == len(KIND.findall(text))
        for it in found:
            yield f"{it[2]} {it[3]}", "; ".join(
                broken_rules(it[1], it[2], it[4])
            ) or True

    check_all(cases())


@pytest.mark.parametrize("name", CODE)
def test_comment_on_the_module(name: str) -> None:
    """A file of code begins with a comment on its module."""
    assert text_of(name).startswith("//! ")


@pytest.mark.parametrize("name", CODE + SPECS)
def test_one_way_to_say_it(name: str) -> None:
    """A file says no thing in another way than all others."""
    text = text_of(name)
    assert not [
        f"{found[0]}: {wanted}"
        for way, wanted in OTHER_WAYS.items()
        for found in re.finditer(way, text)
    ]
