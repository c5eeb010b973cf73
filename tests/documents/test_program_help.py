"""The examples of the program's help run as they stand there, and write what they should."""
from __future__ import annotations

import re
from typing import Any

from crnplan import formats

from tests.documents.conftest import Ask
from tests.documents.markdown import blocks_of, text_of
from tests.documents.page_folder import Folder
from tests.documents.test_formats import FORMATS, limits_in

# A file that is there for an example, as kept from an older crnsim.
KEPT = {"old_cut.csv": "tests/program/five_periods_cut_1.csv"}
NAMES = ["", *(it.split()[0] for it in formats.COMMANDS if it != "help")]


def examples_of(text: str) -> list[str]:
    """Returns the commands of a help's text: what is set in below a line `Example ..:`."""
    parts = re.findall(r"^Example.*:\n((?:  .*\n?)+)", text, re.MULTILINE)
    return ["\n".join(line[2:] for line in part.splitlines()) for part in parts]


def is_written(command: str, text: str) -> bool:
    """Returns whether an example writes what it should.

    A report is that of the example's scenario. Another text begins as a block of FORMATS does.
    """
    if text.startswith(formats.HEADER):
        named = re.search(r"examples/\w+", command)
        return named is not None and text == text_of(f"{named[0]}.csv")
    begins = {tuple(re.split("[ ,]", it)[:2]) for it in blocks_of(FORMATS)}
    return tuple(re.split("[ ,]", text)[:2]) in begins


def test_examples(ask: Ask, folder: Folder, check_all: Any) -> None:
    """The help of each command has an example. They are run in order, since one reads what another has written."""
    for name, kept in KEPT.items():
        (folder.path / name).write_text(text_of(kept), "utf-8")

    def cases() -> Any:
        for name in NAMES:
            examples = examples_of(ask(f"help {name}").output)
            yield f"help {name}: it has an example", len(examples) == 1
            for command in examples:
                status, printed = folder.run("sh", command)
                yield command, status == 0 or printed
                written = re.search(r" > (\S+)$", command)
                text = (
                    (folder.path / written[1]).read_text("utf-8")
                    if written
                    else printed
                )
                yield f"{command}: what it writes", is_written(
                    command, text
                ) or f"it writes {text[:100]!r}"

    check_all(cases())


def test_limits(ask: Ask) -> None:
    """The limits that a help names are those of the sections of FORMATS that name its command."""
    sections = text_of(FORMATS).split("\n## ")
    for name in NAMES:
        allowed = limits_in("".join(it for it in sections if f"crnsim {name}" in it))
        assert (
            name is not None
            and limits_in(ask(f"help {name}").output.split("\nExample")[0]) - allowed
            == set()
        )
