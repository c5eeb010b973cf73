"""docs/STATEMENT.md is what tools/statement.py writes, and names all that the program is proved over."""
from __future__ import annotations

import re
import subprocess
from collections.abc import Callable
from pathlib import Path
from types import SimpleNamespace
from typing import Any

import pytest

from tests.documents.markdown import text_of
from tools.calls import PROGRAM, libraries

VERSION = "kit-1 logic abc\n"


@pytest.fixture(scope="module")
def statement(tool: Callable[[str], Any]) -> Any:
    """Returns the tool that writes the page."""
    return tool("statement")


def test_page_is_generated(statement: Any, repository: Any) -> None:
    version = subprocess.check_output(["rt", "version"], text=True)
    assert text_of(statement.PAGE) == statement.page_of(repository, version)


def test_page_is_short(statement: Any) -> None:
    assert len(text_of(statement.PAGE).split()) <= 1_500


def test_page_has_what_it_states(statement: Any, repository: Any) -> None:
    """The sentence, the five contracts with what they require, the facts of a block, what is trusted, and the kit."""
    page = statement.page_of(repository, VERSION)
    assert "**Under every schedule of atomic steps" in page
    assert len(re.findall(r"^## `crn_", page, re.MULTILINE)) == 5
    assert "\nrequires from { start.now.next ≤ upto }\n" in page
    assert "\nBlock: ghost demand_words: { demand ≡ StreamWords" in page
    assert "**Not claimed**: that a run ever ends" in page
    assert "`kit-1`, whose logic has the sum `abc`" in page


DECOY = """
impl<R: Read> Holder<Reader> {
    pub fn taken(&self) -> u64
        ensures { strong }
    {
        0
    }
}

impl Reader {
    pub fn taken(&self) -> u64
        requires { asked }
        ensures { weak }
    {
        0
    }
}
"""


def test_quoted_contract_is_that_of_the_type(statement: Any, tmp_path: Path) -> None:
    """And none of another type that only names it."""
    (tmp_path / "crates/crn_a/src").mkdir(parents=True)
    (tmp_path / "crates/crn_a/src/lib.rt").write_text(DECOY, "utf-8")
    repository, node = SimpleNamespace(top=tmp_path), (
        "function",
        "crn_a",
        "",
        "Reader::taken",
    )
    assert statement.clauses_of(repository, node) == ["ensures { weak }"]
    assert statement.clauses_of(repository, node, "requires|ensures") == [
        "requires { asked }",
        "ensures { weak }",
    ]


def test_trusted_crates() -> None:
    """README names the crates of the kit that those of the program stand on."""
    rows = re.findall(r"^(\w+):(.*)$", text_of("crates.txt"), re.MULTILINE)
    ours = {name for name, _ in rows}
    below = {*libraries(), PROGRAM}
    used = {it for name, its in rows if name in below for it in its.split()} - ours
    (said,) = re.findall(
        r"^- The contracts of the kit's crates (.*?)\.",
        text_of("README.md"),
        re.MULTILINE,
    )
    assert sorted(re.findall(r"`(\w+)`", said)) == sorted(used)
