"""Tests the manual pages that tools/manual.py makes of help texts, as mandoc shows and judges them."""
from __future__ import annotations

import re
from pathlib import Path

import pytest

from .machine import Machine
from .program import PROGRAM


@pytest.fixture
def pages(machine: Machine, top: Path) -> dict[str, str]:
    """Returns the pages of a program, by name, as they are shown."""
    machine.fake("crnsim", PROGRAM)
    ran = machine.run(
        top / "tools" / "manual.py", machine.folder / "bin" / "crnsim", machine.folder
    )
    assert (ran.returncode, ran.stderr) == (0, "")
    return {Path(it).name: shown(machine, it) for it in ran.stdout.splitlines()}


def shown(machine: Machine, page: str) -> str:
    """Returns a page as it is shown, but for marks of bold letters."""
    return re.sub(
        ".\b", "", machine.run("mandoc", "-Tutf8", "-O", "width=100", page).stdout
    )


def section_of(page: str, heading: str) -> str:
    """Returns what stands below a heading, without the first margin."""
    found = re.search(rf"^{heading}\n(.*?)(?=^\S|\Z)", page, re.MULTILINE | re.DOTALL)
    return re.sub("^ {1,7}", "", found[1], flags=re.MULTILINE).rstrip() if found else ""


def test_each_command_has_a_page(pages: dict[str, str]) -> None:
    assert list(pages) == ["crnsim.1", "crnsim-run.1", "crnsim-leg.1", "crnsim-words.1"]


@pytest.mark.parametrize(
    "page, heading, text",
    [
        (
            "crnsim.1",
            "NAME",
            "crnsim - Compares (s,S) inventory policies by common random numbers",
        ),
        ("crnsim.1", "SYNOPSIS", "crnsim [COMMAND]"),
        (
            "crnsim.1",
            "DESCRIPTION",
            "Compares (s,S) inventory policies by common random numbers: every policy meets the very same\n"
            "demands and delivery times.\n\nWithout a command it runs a scenario, as by `run`.",
        ),
        ("crnsim.1", "OPTIONS", "-h, --help\n       Print help"),
        ("crnsim.1", "EXAMPLE", "    crnsim < examples/two_policies.toml > report.csv"),
        (
            "crnsim.1",
            "EXIT STATUS",
            "Where it is not 0 a line on standard error says why:\n\n0      all is written\n\n"
            "2      these words are refused",
        ),
        ("crnsim.1", "SEE ALSO", "crnsim-run(1), crnsim-leg(1), crnsim-words(1)"),
        (
            "crnsim-leg.1",
            "NAME",
            "crnsim-leg - Runs a scenario's blocks 0 to N - 1 and writes a checkpoint of it",
        ),
        ("crnsim-leg.1", "DESCRIPTION", "Writes it.\n\n'.dots' and \\slashes"),
        ("crnsim-words.1", "SYNOPSIS", "crnsim words <K0> <N>"),
        (
            "crnsim-words.1",
            "ARGUMENTS",
            "<K0>   A word of the key: 16 digits 0-9a-f\n\n"
            "<N>    The number of the block, in decimal",
        ),
        (
            "crnsim-words.1",
            "EXAMPLE",
            "Block 0 of the zero key:\n\n    crnsim words 0000000000000000 0000000000000000 \\\n"
            "        0000000000000000 0000000000000000 0",
        ),
        ("crnsim-words.1", "SEE ALSO", "crnsim(1)"),
    ],
    ids=lambda it: it if it.isupper() or it.endswith(".1") else "",
)
def test_section_says_what_the_help_says(
    pages: dict[str, str], page: str, heading: str, text: str
) -> None:
    assert section_of(pages[page], heading) == text


def test_numbered_list_keeps_its_order_and_lines_that_go_on(
    pages: dict[str, str]
) -> None:
    rules = section_of(pages["crnsim.1"], "RULES OF A SCENARIO")
    assert re.findall(r"^(\d+) ", rules, re.MULTILINE) == ["1", "6", "10"]
    assert "four texts of 16 digits 0-9a-f" in " ".join(rules.split())


def test_pages_of_crnplan_and_of_the_program_have_no_fault(
    machine: Machine, top: Path, program: Path
) -> None:
    for name, path in (
        ("crnplan", top / ".venv" / "bin" / "crnplan"),
        ("crnsim", program),
    ):
        machine.fake(name, f'exec "{path}" "$@"')
        ran = machine.run(
            top / "tools" / "manual.py", machine.folder / "bin" / name, machine.folder
        )
        assert (ran.returncode, ran.stderr) == (0, "")
        pages = ran.stdout.splitlines()
        judged = machine.run("mandoc", "-Tlint", "-W", "style", *pages)
        assert (judged.returncode, judged.stdout) == (0, "")
        usages = {page: section_of(shown(machine, page), "SYNOPSIS") for page in pages}
        assert [
            page
            for page, usage in usages.items()
            if not usage.startswith(Path(page).stem.replace("-", " "))
        ] == []


def test_program_without_help_is_refused(machine: Machine, top: Path) -> None:
    machine.fake("crnsim", "echo 'no such word' >&2; exit 2")
    ran = machine.run(
        top / "tools" / "manual.py", machine.folder / "bin" / "crnsim", machine.folder
    )
    assert ran.returncode == 1
    assert (
        ran.stderr
        == f"tools/manual.py: {machine.folder}/bin/crnsim --help failed: no such word\n\n"
    )
