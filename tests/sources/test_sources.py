"""No function of the program is without a clause, and its own file has no names, but those that are listed."""
from __future__ import annotations

import tomllib
from collections import Counter
from pathlib import Path
from typing import Any

import pytest

from tests.sources.rules import Tokens, names_of, tokens_of, without_clause
from tools.calls import PROGRAM, libraries

HERE = Path(__file__).resolve().parent
# What leaves an item out of the check that it stands in, or writes one that no source shows.
LEAVES_OUT = {"cfg", "macro_rules", "test"}
# What a search by lines or by letters would take for no code.
HIDDEN = """
fn hidden()
    ensures made { "}" ≡ made }
{
    let ensures_next = block();
    let text = r"\\"; block();
    /* 5" /* */ */ block(); // block();
    'a: loop { block('"'); }
}
"""


def listed(name: str) -> dict[str, Any]:
    """Returns a list of this folder."""
    return tomllib.loads((HERE / name).read_text("utf-8"))


@pytest.fixture(scope="module")
def sources(top: Path) -> dict[str, Tokens]:
    """Returns the tokens of each source of the program's crates, by its name."""
    crates = top / "crates"
    names = [*libraries(top), PROGRAM]
    paths = [it for name in names for it in sorted(crates.glob(f"{name}/src/**/*.rt"))]
    files = (str(path.relative_to(crates)) for path in paths)
    return dict(zip(files, tokens_of(*paths), strict=True))


def test_functions_without_clause(sources: dict[str, Tokens]) -> None:
    """The functions that state nothing of what they return are those that no_clause.toml gives a reason for."""
    silent = {name: sorted(without_clause(text)) for name, text in sources.items()}
    expected = {name: sorted(it) for name, it in listed("no_clause.toml").items()}
    assert {name: found for name, found in silent.items() if found} == expected


def test_no_item_is_left_out(sources: dict[str, Tokens]) -> None:
    """Each contract that a source shows is that of the code which is built, so pages can quote it from there."""
    left_out = {name: LEAVES_OUT & names_of(it).keys() for name, it in sources.items()}
    assert {name: found for name, found in left_out.items() if found} == {}


def test_names_of_the_program(sources: dict[str, Tokens]) -> None:
    """The program's own file has just the names that program.toml lists, just as often."""
    pairs = (pair.split() for pair in listed("program.toml")["names"].split(","))
    expected = Counter({name: int(count) for name, count in pairs})
    assert names_of(sources["crnsim/src/main.rt"]) == expected


@pytest.mark.parametrize(
    "line",
    [
        "    ensures { result ≡ run_fault_number self.now }",
        "    ghost from_gives = { λ e f. f ≡ Memory e };",
    ],
    ids=["ensures", "from_gives"],
)
def test_a_lost_clause(line: str, top: Path, tmp_path: Path) -> None:
    """A function whose clause is taken away is found."""
    text = (top / "crates/crn_run/src/fault.rt").read_text("utf-8")
    assert line in text
    for name, changed in (("whole", text), ("lost", text.replace(line, "", 1))):
        (tmp_path / name).with_suffix(".rt").write_text(changed, "utf-8")
    lost, whole = tokens_of(*sorted(tmp_path.iterdir()))
    assert len(without_clause(lost)) == len(without_clause(whole)) + 1


def test_hidden_names(tmp_path: Path) -> None:
    """Names in clauses, comments and texts are none, and none hides those beside it."""
    (tmp_path / "hidden.rt").write_text(HIDDEN, "utf-8")
    (tokens,) = tokens_of(tmp_path / "hidden.rt")
    assert (names_of(tokens)["block"], names_of(tokens)["made"]) == (4, 0)
    assert without_clause(tokens) == []


@pytest.mark.parametrize(
    ("text", "found"),
    [
        (
            "#[cfg(test)]\npub fn run_all() -> bool\n    ensures { strong }\n{}\n",
            {"cfg", "test"},
        ),
        ("macro_rules! made { () => {} }\n", {"macro_rules"}),
        ("pub fn run_all() -> bool\n    ensures { test }\n{\n    true\n}\n", set()),
    ],
    ids=["cfg", "macro", "clause"],
)
def test_left_out_item_is_seen(text: str, found: set[str], tmp_path: Path) -> None:
    """A contract that is shown and not checked is found."""
    (tmp_path / "planted.rt").write_text(text, "utf-8")
    (tokens,) = tokens_of(tmp_path / "planted.rt")
    assert LEAVES_OUT & names_of(tokens).keys() == found
