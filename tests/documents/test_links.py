"""Each link of a page leads to a file and a heading, and no page grows beyond its words."""
from __future__ import annotations

import os
import re
from typing import Any

import pytest

from tests.documents.markdown import FENCE, PAGES, anchors_of, text_of
from tests.runs import TOP

# The pages of the program that is proved, and all that people read to use and to change it.
CORE = [
    "README.md",
    "CONTRIBUTING.md",
    "docs/ARCHITECTURE.md",
    "docs/DECISIONS.md",
    "docs/DEFINITIONS.md",
    "docs/GLOSSARY.md",
    "docs/PROOFS.md",
    "docs/PROVING.md",
    "docs/READING.md",
    "tests/README.md",
    "crates/uses/README.md",
]
READ = [
    *CORE,
    "docs/FORMATS.md",
    "docs/GUIDE.md",
    "examples/README.md",
    "planner/CONTRIBUTING.md",
]


def links_of(page: str) -> list[str]:
    """Returns the links of a page to files and headings of the repository."""
    return [
        it
        for it in re.findall(r"\]\(([^)\s]+)\)", text_of(page))
        if not it.startswith("http")
    ]


@pytest.mark.parametrize("page", [it for it in PAGES if links_of(it)])
def test_links(page: str, check_all: Any) -> None:
    """A link to a file of the repository, or to a heading, leads there."""

    def leads(link: str) -> bool:
        path, _, anchor = link.partition("#")
        name = (
            os.path.normpath(os.path.join(os.path.dirname(page), path))
            if path
            else page
        )
        return (TOP / name).exists() and (not anchor or anchor in anchors_of(name))

    check_all((it, leads(it)) for it in links_of(page))


@pytest.mark.parametrize("page", PAGES)
def test_fences(page: str) -> None:
    """Each fence is spelt as the others are."""
    text = text_of(page)
    assert len(re.findall(r"^ *(?:```|~~~)", text, re.MULTILINE)) == 2 * len(
        FENCE.findall(text)
    )


def words_of(*pages: str) -> int:
    """Returns the number of words of some pages, with those of their code and the marks of their tables."""
    return sum(len(text_of(it).split()) for it in pages)


def test_words() -> None:
    """The pages of the core have at most 20,000 words together, and all that are read at most 30,000."""
    assert words_of(*CORE) <= 20_000
    assert words_of(*READ) <= 30_000


def test_no_page_is_left_out() -> None:
    """Each page of the folders of the core is counted, but for those in which one looks things up."""
    looked_up = {
        "CHANGELOG.md",
        "docs/STATEMENT.md",
        "docs/TABLES.md",
        "examples/case/README.md",
        "planner/README.md",
    }
    assert sorted({*PAGES, "crates/uses/README.md"} - looked_up) == sorted(READ)


def test_words_of_proving() -> None:
    """PROVING is read in one sitting: it has at most 1,500 words."""
    assert words_of("docs/PROVING.md") <= 1_500


@pytest.mark.parametrize("page", ["CHANGELOG.md", "planner/studies/README.md"])
def test_words_of_looked_up_pages(page: str) -> None:
    assert words_of(page) <= 2_500


def test_readme_fits_three_screens() -> None:
    """README has at most 165 lines, each of at most 132 characters."""
    lines = text_of("README.md").splitlines()
    assert len(lines) <= 165 and max(map(len, lines)) <= 132


def test_words_of_the_guide() -> None:
    """The guide has at most 3,500 words, and its first sections at most 400 each."""
    text = text_of("docs/GUIDE.md")
    for heading in (
        "Monday morning",
        "What is read",
        "What is decided, and ordered",
        "All items together",
        "One price",
        "Season",
        r"Does it hold on your past\?",
    ):
        (section,) = re.findall(
            rf"^## {heading}\n.*?(?=^## )", text, re.MULTILINE | re.DOTALL
        )
        assert len(section.split()) <= 400
    assert words_of("docs/GUIDE.md") <= 3_500


def packed() -> tuple[str, ...]:
    """Returns the pages and folders that `tools/packing.py` packs, as they stand here and where they are installed."""
    text = text_of("tools/packing.py")
    (names,) = re.findall(r"^DOCUMENTS = \[(.*)\]$", text, re.MULTILINE)
    return tuple(re.findall(r'"([^"]+)"', names))


@pytest.mark.parametrize("page", [it for it in PAGES if it.startswith(packed())])
def test_links_of_packed_pages(page: str, check_all: Any) -> None:
    """A page that is packed leads to what else is, so that its links work where it is installed."""
    assert {"docs/GUIDE.md", "examples"} <= {*packed()}
    folder = os.path.dirname(page)

    def is_packed(link: str) -> bool:
        path = link.partition("#")[0]
        return not path or os.path.normpath(f"{folder}/{path}").startswith(packed())

    check_all([("itself", True), *((it, is_packed(it)) for it in links_of(page))])
