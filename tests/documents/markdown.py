"""Reads the pages: their headings, fenced blocks, tables and code spans."""
from __future__ import annotations

import functools
import re
from typing import NamedTuple

from tests.runs import TOP

PAGES = [
    it.relative_to(TOP).as_posix()
    for folder in (
        "",
        "docs",
        "crates/uses",
        "examples",
        "examples/case",
        "planner",
        "tests",
    )
    for it in sorted((TOP / folder).glob("*.md"))
]
FENCE = re.compile(r"^```(\w*)\n(.*?)^```$", re.MULTILINE | re.DOTALL)
NUMBER = re.compile(r"(?<![\w.,])[0-9]+(?:,[0-9]{3})*(?!\w)")


class Piece(NamedTuple):
    """A piece of a page: prose, or what stands between fences of a kind (`sh`, or the empty text)."""

    is_prose: bool
    kind: str
    text: str


@functools.cache
def text_of(name: str) -> str:
    """Returns the text of a file of the repository."""
    return (TOP / name).read_text("utf-8")


def pieces_of(page: str) -> list[Piece]:
    """Returns the pieces of a page, in order."""
    text, place, pieces = text_of(page), 0, []
    for fenced in FENCE.finditer(text):
        pieces += [
            Piece(True, "", text[place : fenced.start()]),
            Piece(False, *fenced.groups()),
        ]
        place = fenced.end()
    return [*pieces, Piece(True, "", text[place:])]


def blocks_of(page: str, kind: str = "") -> list[str]:
    """Returns the blocks of a page that stand between fences of a kind."""
    return [it.text for it in pieces_of(page) if not it.is_prose and it.kind == kind]


def prose_of(page: str) -> str:
    """Returns what stands outside all fences of a page, its line ends and blanks as one blank each."""
    return " ".join(" ".join(it.text for it in pieces_of(page) if it.is_prose).split())


def spans_of(text: str) -> list[str]:
    """Returns what stands between backticks in prose. One may go over the end of a line."""
    return [" ".join(it.split()) for it in re.findall(r"`([^`]+)`", text)]


def anchors_of(page: str) -> set[str]:
    """Returns the names by which links reach a page's headings."""
    headings = re.findall(r"^#+ (.*)$", FENCE.sub("", text_of(page)), re.MULTILINE)
    return {re.sub(r"[^\w\- ]", "", it.lower()).replace(" ", "-") for it in headings}


def rows_of(page: str, *headings: str) -> list[list[str]]:
    """Returns the rows of the table of a page with these headings. There are none if it has not just one such table."""
    head = r"\| " + r" \| ".join(map(re.escape, headings)) + r" \|"
    tables = re.findall(
        rf"^{head}\n\|[-|]+\|\n((?:\|.*\n)*)", text_of(page) + "\n", re.MULTILINE
    )
    rows = tables[0].splitlines() if len(tables) == 1 else []
    return [
        [cell.strip() for cell in line.strip().strip("|").split("|")] for line in rows
    ]


def numbers_of(text: str) -> set[int]:
    """Returns the whole numbers of a text, such as 1,024."""
    return {int(it.replace(",", "")) for it in NUMBER.findall(text)}
