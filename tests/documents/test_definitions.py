"""docs/DEFINITIONS.md lists what the contracts of READING reach, and specs/Inner what no public contract states.

The parts of pages that tools/definitions.py writes are as it writes them, and it finds definitions that are planted.
"""
from __future__ import annotations

import re
import tomllib
from pathlib import Path
from typing import Any

import pytest

from tests.documents.markdown import text_of


@pytest.fixture(scope="module")
def sorts(definitions: Any, repository: Any) -> dict[Any, str]:
    """Returns the sort of each definition that the contracts of the chain reach."""
    public = dict(repository.public())
    return dict(repository.sorts([public[it] for it in definitions.CHAIN]))


def test_five_contracts_of_readme(definitions: Any, repository: Any) -> None:
    """README names five contracts. They begin the chain, and they are public."""
    proofs = text_of("README.md").partition("\n## Proofs\n")[2].partition("\n## ")[0]
    contracts = re.findall(r"^- `(crn[\w:]+)`:", proofs, re.MULTILINE)
    assert len(contracts) == 5
    assert set(contracts) <= set(definitions.CHAIN) <= set(dict(repository.public()))


def test_each_definition_has_its_meaning(
    repository: Any, sorts: dict[Any, str], check_all: Any
) -> None:
    """A definition that must be believed has its meaning in a comment."""
    check_all(
        (f"crates/{node[1]}/specs {node[2]}: {node[3]}", bool(repository.meaning(node)))
        for node in sorts
        if sorts[node] in ("stated", "kept")
    )


@pytest.mark.parametrize("page", ["docs/DEFINITIONS.md", "docs/PROOFS.md"])
def test_parts_are_generated(definitions: Any, repository: Any, page: str) -> None:
    """What stands between marks is what `tools/definitions.py pages` writes from the sources."""
    assert text_of(page) == definitions.filled(repository, text_of(page))


def test_pages_have_their_parts(definitions: Any) -> None:
    """DEFINITIONS has a list for each contract of the chain, in order. PROOFS quotes those of README, and some more."""
    marks = {
        page: definitions.PART.findall(text_of(page)) for page in definitions.PAGES
    }
    lists, quotes = marks["docs/DEFINITIONS.md"], [
        contract for _, contract, _ in marks["docs/PROOFS.md"]
    ]
    assert [(mark, contract) for mark, contract, _ in lists] == [
        ("reached by", it) for it in definitions.CHAIN
    ]
    assert set(definitions.CHAIN) <= set(quotes) and len(quotes) == len(set(quotes))
    assert all(
        re.search("^ensures ", body, re.MULTILINE)
        for _, _, body in marks["docs/PROOFS.md"]
    )


def test_explained_definitions(
    definitions: Any, sorts: dict[Any, str], check_all: Any
) -> None:
    """A name that DEFINITIONS explains, and so leaves out of its lists, is that of one definition of the chain."""
    names = re.findall(
        r"\*\*`([^`]+)`\*\*", definitions.PART.sub("", text_of("docs/DEFINITIONS.md"))
    )
    stated = [node[3] for node in sorts if sorts[node] == "stated"]
    check_all((it, stated.count(it) == 1) for it in names)


def test_reading_counts_definitions(sorts: dict[Any, str]) -> None:
    """READING says how many definitions must be believed, of how many."""
    stated = sum(it == "stated" for it in sorts.values())
    assert f"{stated} of {len(sorts)}" in text_of("docs/READING.md")


def test_inner_definitions(repository: Any, check_all: Any) -> None:
    """A file of specs/Inner has only definitions that no public contract states, and each other file no such one."""
    sorts = repository.sorts([it for _, it in repository.public()])

    def wrong(crate: str, module: str) -> str:
        inner = module.startswith("Inner.")
        return ", ".join(
            f"{it[3]} ({sorts[it]})"
            for it in sorts
            if it[1:3] == (crate, module) and (sorts[it] == "stated") == inner
        )

    modules = sorted({node[1:3] for node in sorts})
    check_all(
        (f"crates/{crate}/specs {module}", not (its := wrong(crate, module)) or its)
        for crate, module in modules
    )


# ---- planted definitions

WAYS = tomllib.loads(text_of("tests/documents/planted_definitions.toml"))
PLANTED = WAYS.pop("planted")


@pytest.mark.parametrize("way", WAYS)
def test_planted_definition(definitions: Any, tmp_path: Path, way: str) -> None:
    """A definition that a public contract states is found, however it is hidden; one that none states is not."""
    is_stated, files = WAYS[way]["is_stated"], {
        it: text for it, text in WAYS[way].items() if it != "is_stated"
    }
    for name, text in {"specs/Planted.antt": PLANTED, **files}.items():
        path = tmp_path / "crates/crn_planted" / name
        path.parent.mkdir(parents=True, exist_ok=True)
        path.write_text(text, "utf-8")
    planted = definitions.Repository(tmp_path)
    sorts = planted.sorts([it for _, it in planted.public()])
    assert (
        sorts["definition", "crn_planted", "Planted", "IsPlanted"] == "stated"
    ) == is_stated
