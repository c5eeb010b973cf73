"""The commands of the pages can be copied, and print what stands there.

Commands stand in blocks of the kind `sh` or `python`, and between backticks. Those of a page are run in order, in
a folder with a copy of `examples/`. What the commands of a block print is the next block without a kind, where a line
`..` stands for lines that are left out. A command that ends with a status other than 0, or whose pipe does, has failed:
a page shows a refusal with `|| echo`. What a command between backticks prints is not compared.
"""
from __future__ import annotations

import csv
import os
import re
import tomllib
from collections.abc import Iterator
from fractions import Fraction
from typing import Any

import click
import pytest

from crnplan import cli
from tests.documents.markdown import blocks_of, pieces_of, prose_of, spans_of, text_of
from tests.documents.page_folder import RUNNERS, Folder, commands_of
from tests.runs import TOP

Case = tuple[str, object]
FOR_PLANNERS = ["README.md", "docs/GUIDE.md", "docs/FORMATS.md", "examples/README.md"]
RUN = [*FOR_PLANNERS, "docs/PROVING.md"]
# Commands that are never run, and why. The last pattern is for those that have no reason yet: there must be none.
NOT_RUN = {
    r"\.ci/run": "it is the gate, of which this is a part",
    r"tools/(setup|install|package)\b.*": "tests/tools runs them, in folders of their own",
    r"(apt-get|pip) install \./.*": "tests/tools/test_package.py unpacks what they install",
    r"(\(cd crates/crn_pair && )?rt (check|fmt|lemma)\b.*": "they need the sources of a crate, which the page changes",
    r"tools/(measure|rounds)\.py .*": "they prove for minutes",
    r"dask-(scheduler|worker) .* &": "they do not end",
    r".* --cluster \S+( .*)?": "planner/tests runs a cluster of its own",
    r".*\b(rt|apt|apt-get|pip|pip3|git|sbatch|srun|curl|wget|sudo|ssh)\b.*": "",
}
# Blocks without a kind that no command prints: a page and how the block begins, and what it is.
NOT_PRINTED = {
    ("docs/FORMATS.md", "period  t  "): "a drawing",
    (
        "docs/FORMATS.md",
        "policy,s,S,",
    ): "the header of a report, which is compared by itself",
    (
        "docs/PROVING.md",
        "fn of_words(",
    ): "a quote, as the next two: test_names.py compares them",
    ("docs/PROVING.md", "invariant-loop-y l = "): "a quote",
    ("docs/PROVING.md", "loop-y-preserved c g h = "): "a quote",
}
# Blocks of other kinds, and what is done with them.
OTHER_KINDS = {
    "toml": "they are compared with the examples",
    "py": "test_python.py runs it",
    "cpp": "not run, as it needs the headers of Random123",
    "text": "what the prover prints, and an edit",
    "rust": "code of a change",
    "antt": "a proof of a change",
}
# A span is a command if it begins with one of these and goes on, unless it only names a command's words.
COMMAND = re.compile(
    r"\.ci/run|(crnsim|crnplan|(tools|crates/crnsim/out)/\w+|apt-get|awk|cat|cd|cmp|cp|cut|diff|echo"
    r"|git|grep|head|ls|mkdir|pip|printf|python3|rt|sed|seq|sh|sort|tail|tr|xargs) .*"
)
USAGE = re.compile(
    r"(crnsim|crnplan)( [a-z]+)?( \[?-?-?[A-Z][\w.]*\]?| --[a-z-]+)*( \.\.)?"
)


def short(text: str) -> str:
    """Returns a text on one line, cut if it is long."""
    line = " ".join(text.split())
    return line if len(line) <= 90 else f"{line[:90]} .."


def beside(printed: str, shown: str) -> str:
    """Returns a line that was printed and the one that is shown, from shortly before they differ."""
    start = max(0, len(os.path.commonprefix([printed, shown])) - 40)
    dots = ".. " if start else ""
    return f"prints {dots + short(printed[start:])!r}, and not {dots + short(shown[start:])!r}"


def pattern_of(lines: list[str]) -> str:
    """Returns a pattern of what is printed if a page shows these lines."""
    return "".join(
        "(?:.*\n)+?" if line == ".." else re.escape(f"{line}\n") for line in lines
    )


def unlike(printed: str, shown: str) -> tuple[bool | str, int]:
    """Returns True if a block shows what was printed, or what is wrong; and from which character of it on."""
    lines, place = shown.splitlines(), 0
    if lines and re.fullmatch(pattern_of(lines), printed):
        return True, 0
    for count, line in enumerate(lines, 1):
        start = re.match(pattern_of(lines[:count]), printed)
        if not start:
            return beside(printed[place:].split("\n")[0], line), place
        place = start.end()
    return f"prints {short(printed[place:])!r}, which is not shown", place


def ranks(printed: str) -> bool | str:
    """Returns True if a table that pandas prints is that of the guide's report, ranked."""
    rows = sorted(
        csv.DictReader(text_of("examples/spare_part.csv").splitlines()),
        key=lambda row: int(row["total"]),
    )
    hundredths = [
        (row["policy"], int(100 * Fraction(row["per_period"]))) for row in rows
    ]
    wanted = "".join(
        rf".*\b{policy}\b.*\s{it // 100}\.{it % 100:02}[0-9]*\b.*\n"
        for policy, it in hundredths
    )
    return re.search(wanted, printed) is not None or f"prints {printed!r}"


class Page:
    """A page whose commands are run in a folder. Each part yields cases, by name and verdict."""

    def __init__(self, name: str, folder: Folder) -> None:
        """Takes a page, and the folder in which its commands are run."""
        self.name, self.folder = name, folder
        # The block whose output is still to be shown: its kind, and its commands with what each has printed.
        self.waiting: tuple[str, list[tuple[str, str]]] = ("", [])

    def run(
        self, kind: str, command: str, printed: list[tuple[str, str]]
    ) -> Iterator[Case]:
        """Runs a command, and adds it with what it prints to a list."""
        name, key = short(command), " ".join(command.split())
        reason = next((NOT_RUN[it] for it in NOT_RUN if re.fullmatch(it, key)), None)
        if reason is not None:
            yield name, bool(
                reason
            ) or "it is not to be run, and NOT_RUN does not say why"
            return
        status, text = self.folder.run(kind, command)
        printed.append((name, text))
        yield name, status == 0 or f"ends with {status}: {text[-200:].strip()!r}"

    def unshown(self) -> Iterator[Case]:
        """Checks that a block printed nothing if the page shows nothing. What pandas prints is not shown."""
        kind, printed = self.waiting
        self.waiting = "", []
        for name, text in printed:
            right = (
                ranks(text)
                if kind != "sh"
                else not text or f"prints {short(text)!r}, which is not shown"
            )
            yield f"{name}: what it prints", right

    def run_block(self, kind: str, text: str) -> Iterator[Case]:
        """Runs the commands of a block."""
        yield from self.unshown()
        printed: list[tuple[str, str]] = []
        for command in commands_of(kind, text):
            yield from self.run(kind, command, printed)
        self.waiting = kind, printed

    def compare(self, text: str) -> Iterator[Case]:
        """Compares a block without a kind with what was printed."""
        if any(
            page == self.name and text.startswith(start) for page, start in NOT_PRINTED
        ):
            return
        _, printed = self.waiting
        self.waiting = "", []
        wrong, place = unlike("".join(it for _, it in printed), text)
        names = [name for name, it in printed for _ in it]
        name = names[min(place, len(names) - 1)] if names else short(text)
        yield f"{name}: what it prints", wrong if names else "no command prints it"

    def cases(self) -> Iterator[Case]:
        """Goes through the page."""
        for piece in pieces_of(self.name):
            if piece.is_prose:
                for span in spans_of(piece.text):
                    if COMMAND.fullmatch(span) and not USAGE.fullmatch(span):
                        yield from self.run("sh", span, [])
            elif piece.kind in RUNNERS:
                yield from self.run_block(piece.kind, piece.text)
            elif piece.kind == "":
                yield from self.compare(piece.text)
            else:
                yield f"a block of the kind {piece.kind}", piece.kind in OTHER_KINDS
        yield from self.unshown()


@pytest.mark.timeout(600)
@pytest.mark.parametrize("page", RUN)
def test_commands(page: str, folder: Folder, check_all: Any) -> None:
    """The commands of a page end well, and print what it shows."""
    check_all(Page(page, folder).cases())


def test_exceptions_are_met() -> None:
    """Each exception to what is run and compared is met by a page."""
    lines = [
        line
        for page in RUN
        for line in [*text_of(page).splitlines(), *spans_of(prose_of(page))]
    ]
    assert [
        it
        for it in NOT_RUN
        if NOT_RUN[it] and not any(re.fullmatch(it, line) for line in lines)
    ] == []
    assert [
        it
        for it in NOT_PRINTED
        if not any(block.startswith(it[1]) for block in blocks_of(it[0]))
    ] == []
    assert OTHER_KINDS.keys() <= {
        piece.kind for page in RUN for piece in pieces_of(page)
    }


def options_of_crnplan() -> set[str]:
    """Returns the options of all commands of crnplan."""
    context = click.Context(cli.group)
    taken = (
        cli.group.get_command(context, name)
        for name in cli.group.list_commands(context)
    )
    return {
        flag
        for command in taken
        if command
        for option in command.params
        for flag in option.opts
    }


@pytest.mark.parametrize("page", [*FOR_PLANNERS, "examples/case/README.md"])
def test_options(page: str) -> None:
    """An option that a page for planners names is one that a command takes."""
    patterns = ("planner/src/**/*.py", "tests/theory/*.py", "tools/*", "conftest.py")
    sources = "".join(
        it.read_text("utf-8")
        for pattern in patterns
        for it in TOP.glob(pattern)
        if it.is_file()
    )
    options = {
        "--help",
        *re.findall(r"""["'/ |(](--[A-Za-z][\w-]*)""", sources),
        *options_of_crnplan(),
    }
    named = re.findall(
        r"(?<![\w-])--[A-Za-z][\w-]*", " ".join(spans_of(prose_of(page)))
    )
    assert sorted(set(named) - options) == []


def is_part(part: dict[str, Any], whole: dict[str, Any]) -> bool:
    """Returns whether a table says nothing but what another one says too."""
    return all(
        whole.get(key) == value
        or isinstance(value, dict)
        and is_part(value, whole.get(key, {}))
        for key, value in part.items()
    )


@pytest.mark.parametrize("page", RUN)
def test_blocks_of_toml(page: str) -> None:
    """A block of TOML on a page is a part of an example."""
    trees = [
        tomllib.loads(it.read_text("utf-8"))
        for it in TOP.glob("examples/**/*.toml")
        if it.name != "broken.toml"
    ]
    alone = [
        text
        for text in blocks_of(page, "toml")
        if not any(is_part(tomllib.loads(text), tree) for tree in trees)
    ]
    assert not alone
