"""docs/sentences.toml says of each sentence that is proved what carries it, and what it names is there."""
from __future__ import annotations

import re
import tomllib
from collections.abc import Callable
from typing import Any

import pytest

from tests.documents.markdown import FENCE, text_of
from tests.runs import TOP

TABLE: dict[str, dict[str, list[str]]] = tomllib.loads(text_of("docs/sentences.toml"))
# The parts of README that speak of what is proved, by what stands first in each and first after it.
PROVED = [
    ("And it is **proved**", "\n\n`tools/package`"),
    ("Five contracts carry", "\n### What is trusted"),
]
# Where a paragraph or an item of a list ends, and where a sentence does.
ITEM = re.compile(r"\n\s*\n|\n(?=- |\d+\. )")
SENTENCE = re.compile(r"(?<=[.:])\s+(?=[A-Z`*])")


def items_of(text: str) -> list[str]:
    """Returns the paragraphs and the items of lists of a text, each as one line, without headings and fenced blocks."""
    prose = re.sub(r"<!--.*?-->|^#.*$", "", FENCE.sub("\n\n", text), flags=re.MULTILINE)
    lines = (
        " ".join(
            re.sub(r"^(?:- |\d+\. )|^> ", "", it.strip(), flags=re.MULTILINE).split()
        )
        for it in ITEM.split(prose)
    )
    return [it for it in lines if it]


def sentences_of(page: str) -> list[str]:
    """Returns the sentences of README that speak of what is proved; of another page all its items."""
    text = text_of(page)
    if page != "README.md":
        return items_of(text)
    parts = (text[text.index(first) :].partition(end)[0] for first, end in PROVED)
    return [
        it for part in parts for item in items_of(part) for it in SENTENCE.split(item)
    ]


def is_in(pattern: str, text: str) -> bool:
    """Returns whether a line of a text begins as a pattern says."""
    return bool(re.search(pattern, text, re.MULTILINE))


class Carriers:
    """What can carry a sentence, and whether it is there."""

    def __init__(self, definitions: Any) -> None:
        """Reads the public contracts, the groups of pinned calls, and the gate."""
        self.clauses_of = definitions.clauses_of
        self.repository = definitions.Repository()
        self.public = dict(self.repository.public())
        groups = tomllib.loads(text_of("tests/calls/calls.toml"))["group"]
        self.reasons = [" ".join(it["why"].split()) for it in groups]

    def has(self, carrier: str) -> bool:
        """Returns whether what a line of the table names is there."""
        kind, _, rest = carrier.partition(": ")
        if kind.startswith("crn_"):
            return self.has_clauses(kind, rest.split(", ") if rest else [""])
        if kind in ("refused", "tested"):
            crate, _, name = rest.partition("/")
            folders = ("wrong", "must-fail") if kind == "refused" else ("tested",)
            return any(
                (TOP / f"crates/{crate}/{it}/{name}.edit").is_file() for it in folders
            )
        others: dict[str, Callable[[str], bool]] = {
            "pinned": lambda why: sum(it.startswith(why) for it in self.reasons) == 1,
            "gate": lambda line: f"\n{line}" in text_of(".ci/run"),
            "test": has_test,
            "terms": lambda rest: not rest,
        }
        return kind in others and others[kind](rest)

    def has_clauses(self, path: str, labels: list[str]) -> bool:
        """Returns whether a public function has clauses with these labels, or a public type such facts."""
        if path not in self.public:
            return False
        node = self.public[path]
        if node[0] == "function":
            text = "\n".join(self.clauses_of(self.repository, node))
            return all(is_in(rf"^ensures {it} ?\{{", text) for it in labels)
        text = text_of(f"crates/{node[1]}/src/{node[2].replace('.', '/') or 'lib'}.rt")
        (fields,) = re.findall(
            rf"^pub struct {node[3]}\b.*?^}}", text, re.MULTILINE | re.DOTALL
        )
        return all(f" ghost {it}: {{" in fields for it in labels)


def has_test(name: str) -> bool:
    """Returns whether there is a test by pytest, such as `tests/a.py::test_b`, or in Rattle, such as `tests_ring a::b`."""
    if name.startswith("tests/"):
        path, _, test = name.partition("::")
        is_there = (TOP / path).is_file()
        return is_there and (not test or is_in(rf"^def {test}\(", text_of(path)))
    crate, _, path = name.partition(" ")
    *module, test = path.split("::")
    file = f"crates/{crate}/src/{'/'.join(module)}.rt"
    return (TOP / file).is_file() and is_in(
        rf"^ *#\[test\]\n *fn {test}\(", text_of(file)
    )


@pytest.fixture(scope="module")
def carriers(definitions: Any) -> Carriers:
    """Returns what can carry a sentence."""
    return Carriers(definitions)


@pytest.mark.parametrize("page", TABLE)
def test_each_sentence_is_in_the_table(page: str, check_all: Any) -> None:
    """Each sentence begins as just one row of the table says, and each row is for just one sentence."""
    said = sentences_of(page)
    rows = {it: sum(one.startswith(it) for one in said) for it in TABLE[page]}
    check_all((one, sum(one.startswith(it) for it in rows) == 1) for one in said)
    check_all((it, count == 1) for it, count in rows.items())


@pytest.mark.parametrize("page", TABLE)
def test_what_carries_a_sentence_is_there(
    page: str, carriers: Carriers, check_all: Any
) -> None:
    """What a row names is there, and each row names something."""
    named = {(row, it) for row, its in TABLE[page].items() for it in its or ["nothing"]}
    check_all((f"{row}: {it}", carriers.has(it)) for row, it in sorted(named))


@pytest.mark.parametrize(
    "lost",
    [
        "crn_run::run_all: att",
        "crn_run::run_some: at",
        "crn_run::run_all",
        "crn_cipher::Block: other_words",
        "pinned: A gate is asked in two places",
        "pinned: A",
        "refused: crn_run/no_such_edit",
        "tested: crn_run/a_reader_only_spins",
        "test: tests/program/test_none.py",
        "test: tests/calls/test_calls.py::test_none",
        "test: tests_ring run::large::no_blocks",
        "gate: rt all",
        "terms: of the field",
        "nothing",
    ],
)
def test_lost_carrier_is_seen(lost: str, carriers: Carriers) -> None:
    assert not carriers.has(lost)


def test_pages_are_whole() -> None:
    """Both pages are in the table, and a sentence ends where it should."""
    assert sorted(TABLE) == ["README.md", "docs/PROOFS.md"]
    text = "# Head\n\nOne is `a: b`. `Two` is\nlong:\n\n```\nc\n```\n- three. Four\n2. **five**"
    assert items_of(text) == [
        "One is `a: b`. `Two` is long:",
        "three. Four",
        "**five**",
    ]
    assert SENTENCE.split(items_of(text)[0]) == ["One is `a: b`.", "`Two` is long:"]


def test_ten_minutes_of_reading() -> None:
    """READING ends with eight steps: as many kinds, as many lines that load or store, and one crate that can."""
    minutes = text_of("docs/READING.md").partition("## Ten minutes\n")[2]
    (pattern,) = re.findall(r"`grep -rnE '([^']*)' crates/\*/src`", minutes)
    sources = {
        it: it.read_text("utf-8")
        for it in sorted((TOP / "crates").glob("*/src/**/*.rt"))
    }
    lines = [
        it.name
        for it, text in sources.items()
        for line in text.splitlines()
        if re.search(pattern, line)
    ]
    assert lines == ["steps.rt"] * 8
    kinds = text_of("crates/crn_steps/src/plays.rt").count("impl Play<")
    assert kinds == 8
    rows = text_of("crates.txt").splitlines()
    assert [it.partition(":")[0] for it in rows if "atomic_table" in it] == [
        "crn_steps"
    ]
    paths = re.findall(r"`(crates/[\w/.]+)`", minutes)
    assert len(paths) == 4 and all((TOP / it).exists() for it in paths)
