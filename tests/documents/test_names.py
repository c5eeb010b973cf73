"""What the pages say of the crates is what the repository has: names, quotes, and wrong implementations."""
from __future__ import annotations

import re
import subprocess
from collections import Counter
from typing import Any

import pytest

from tests.documents.markdown import spans_of, text_of
from tests.runs import TOP
from tools.edits import FOLDERS, Edit, crates, edits_of

LISTED = re.findall(r"^(\w+):", text_of("crates.txt"), re.MULTILINE)
# The list of crates stands above the table of crnplan's packages.
CRATES = text_of("docs/ARCHITECTURE.md").partition("| Module | Contents |")[0]
ROWS = re.findall(r"^- `((?:crn|tests_|uses)[a-z_]*)`:", CRATES, re.MULTILINE)
# What the program gives out. Each is defined in a crate below it, so main.rt compiles only if it is there.
PROGRAM_NAMES = {
    "simulate",
    "simulate_lanes",
    "leg",
    "resume",
    "migrate",
    "replay_run",
    "read_words",
    "Command",
    "Fault",
}
# Names in pages that stand for any of their kind.
STANDING_FOR_ANY = {
    "crn_x",
    "tests_x",
    "tests_ring_tests",
    "two_for_one",
    "what_it_does_wrong",
}
ENGINEERS = [
    "crates/uses/README.md",
    "docs/ARCHITECTURE.md",
    "docs/DEFINITIONS.md",
    "docs/PROOFS.md",
    "docs/PROVING.md",
    "docs/READING.md",
    "CONTRIBUTING.md",
]
EDITS = [
    it for crate in crates() for folder in FOLDERS for it in edits_of(crate, folder)
]
SENTENCES = Counter(it.what for it in EDITS)


def test_map_has_each_crate() -> None:
    """ARCHITECTURE lists the crates of crates.txt."""
    assert sorted(ROWS) == sorted(LISTED)


def test_kit() -> None:
    """PROOFS names the logic that proves the crates, as `rt version` prints it behind the kit."""
    kit, _, logic = subprocess.check_output(["rt", "version"], text=True).partition(
        " logic "
    )
    assert kit.startswith("rattle-kit-")
    assert f"with the kit's logic `{logic.strip()}`" in text_of("docs/PROOFS.md")


def test_program_gives_out_its_names() -> None:
    """The program exports its engines, its command line and its faults. crates/tests_engines has the other names."""
    code = text_of("crates/crnsim/src/main.rt")
    given = re.findall(
        r"^pub use [\w:]+?(?:::(\w+)|::\{([^}]*)\});", code, re.MULTILINE
    )
    names = {name.strip() for one, more in given for name in (more or one).split(",")}
    assert names >= PROGRAM_NAMES


def quotes() -> dict[str, tuple[str, list[str]]]:
    """Returns the quoted lines of the pages by a name, each with the files that the paragraph before it names."""
    reading = text_of("docs/READING.md")
    chain = reading[
        reading.index("## The chain") : reading.index("## What must be believed")
    ]
    found: dict[str, tuple[str, list[str]]] = {}
    proving = re.sub(
        r"^```\w+\n.*?^```$",
        "",
        text_of("docs/PROVING.md"),
        flags=re.MULTILINE | re.DOTALL,
    )
    for page, text in (
        ("READING", chain),
        ("PROVING", proving),
        ("uses", text_of("crates/uses/README.md")),
    ):
        for before, block in re.findall(
            r"((?:^(?!```)[^\n]*\n)+)^```\n(.*?)^```$", text, re.MULTILINE | re.DOTALL
        ):
            files = re.findall(r"`(crates/[^`]*\.(?:rt|antt))`", before)
            found |= {
                f"{page}: {line.strip()}": (line, files) for line in block.splitlines()
            }
    return found


def test_quotes(check_all: Any) -> None:
    """A quoted line stands in one of the files that the paragraph before it names, and each of these is there."""

    def stands(line: str, files: list[str]) -> bool:
        texts = [" ".join(text_of(it).split()) for it in files if (TOP / it).exists()]
        return len(texts) == len(files) > 0 and any(
            " ".join(line.split()) in it for it in texts
        )

    check_all((name, stands(*quote)) for name, quote in quotes().items())


@pytest.fixture(scope="module")
def words() -> set[str]:
    """Returns the names of the code: words of sources, functions and classes of Python, files and crates."""
    patterns = (
        "crates/*/src/**/*.rt",
        "crates/*/specs/**/*.antt",
        "crates/*/proofs/**/*.antt",
        "crates/*/*/*.edit",
        "tests/**/*.*",
        "tools/*",
        "examples/**/*.*",
        "planner/**/*.*",
    )
    paths = [it for pattern in patterns for it in TOP.glob(pattern) if it.is_file()]
    code = [it for it in paths if it.suffix in (".rt", ".antt", ".edit")]
    names = {word for it in code for word in re.findall(r"\w+", it.read_text("utf-8"))}
    names |= {
        word
        for it in paths
        if it.suffix == ".py"
        for word in re.findall(
            r"^ *(?:def|class) (\w+)", it.read_text("utf-8"), re.MULTILINE
        )
    }
    return (
        names
        | {it.stem for it in paths}
        | {it.relative_to(TOP).parts[1] for it in paths}
    )


@pytest.mark.parametrize("page", ENGINEERS)
def test_names_of_the_code(page: str, words: set[str]) -> None:
    """A name of the code that a page for engineers uses stands in a source."""
    spans = " ".join(re.findall(r"`([^`\n]+)`", text_of(page)))
    names = set(re.findall(r"\b[a-z]+_[a-z0-9_]+\b", spans))
    assert names
    assert sorted(names - words - STANDING_FOR_ANY) == []


@pytest.mark.parametrize(
    "edit", EDITS, ids=lambda it: f"{it.crate}-{it.folder}-{it.name}"
)
def test_wrong_implementation_says_what_it_is(edit: Edit) -> None:
    """It says what goes wrong, in a sentence of its own, and which function or test must notice it."""
    assert SENTENCES[edit.what] == 1 and edit.what.endswith(".")
    assert edit.seen_by if edit.folder == "tested" else edit.refused_by
