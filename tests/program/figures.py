"""What runs of the program take: python -m tests.program.figures PROGRAM writes the table anew.

The runs are those of bounds.toml, and bounds.csv has their figures:

- allocations, and the bytes that they ask for; what is left of them, not freed, at the end; the threads that are
  started; the calls that read and write (counted by tests/preload.c; what the C library takes for a thread's start is
  not among them);
- yields and sleeps of threads that wait for one another, and the instructions of the program itself, without those of
  the libraries, as callgrind counts them. All three depend on how threads happen to run side by side. So they are
  taken only if a run has no more blocks than its ring has slots: then each thread can be held until the producer has
  published all and joins it. Nothing has to wait, and all figures are the same each time, beside other work too.
"""
from __future__ import annotations

import argparse
import os
import platform
import re
import shutil
import tempfile
import tomllib
from collections.abc import Iterator, Mapping
from pathlib import Path

from tests import preload
from tests.program.cases import HERE, Case, text_of, words_of
from tests.runs import Shown, difference, library, refused, run

# How the program is called, by a link in the folder where it runs: it reads its path, whose length must not count.
CALLED = "./crnsim"
TABLE = HERE / "bounds.csv"
HEAD = """# What runs of the program take. figures.py says what each column has, and bounds.toml which runs these are.
# A figure changes only by a commit that says why: python -m tests.program.figures PROGRAM
"""
COUNTED = ("allocations", "bytes", "left", "threads", "reads", "writes")
HELD = ("yields", "sleeps")
INSTRUCTIONS = "instructions"
COLUMNS = (*COUNTED, *HELD, INSTRUCTIONS)
# After so many seconds a run counts as one that does not end.
SECONDS = 100
# Stands for a figure that depends on how threads happen to run.
NO_FIGURE = "-"
# Keeps the C library from copying by string instructions: callgrind takes a byte at a time then, for minutes.
NO_STRINGS = {
    "GLIBC_TUNABLES": ":".join(
        f"glibc.cpu.x86_rep_{it}sb_threshold=1000000000" for it in ("mov", "sto")
    )
}
CALLGRIND = (
    "valgrind",
    "-q",
    "--tool=callgrind",
    "--compress-strings=no",
    "--compress-pos=no",
    "--callgrind-out-file=callgrind",
)


class Unfit(Exception):
    """A run whose figures cannot be taken; the text says why."""


def cases() -> Iterator[tuple[str, Case]]:
    """Yields the name of each run, and its case."""
    for group in tomllib.loads((HERE / "bounds.toml").read_text("utf-8"))["group"]:
        for each in group["cases"]:
            case = {**group, **each}
            found = re.match(r"leg \d+|\w+", case["args"])
            words = case.get("label") or (found[0] if found else "")
            place = f" from block {case['cut']}" if "cut" in case else ""
            fault = f": {case['fault']}" if "fault" in case else ""
            yield f"{group['name']}: {words}{place}{fault}", case


def shown_of(
    case: Case,
    words: list[str],
    room: Path,
    before: tuple[str, ...] = (),
    environment: Mapping[str, str] | None = None,
) -> Shown:
    """Runs the program with these words, behind others before it, in a folder where FILE is, and returns what it shows.

    Its input is a file, which is read in the same pieces each time.
    """
    (room / "INPUT").write_bytes(text_of(case, "input") or b"")
    command = [*before, CALLED, *words]
    with open(room / "INPUT", "rb") as file:
        return run(
            command[0],
            command[1:],
            file,
            cwd=room,
            environment=environment,
            seconds=SECONDS,
        )


def checked(case: Case, shown: Shown) -> None:
    """Raises Unfit if a run has not ended as the case says. What it writes is compared elsewhere."""
    wanted = refused(case["fault"]) if "fault" in case else Shown(shown.output, b"", 0)
    if shown != wanted or not (shown.output or "fault" in case):
        raise Unfit(difference(shown, wanted) or "the run writes nothing")


def put_file(case: Case, room: Path) -> None:
    """Puts the case's FILE into a folder."""
    text = text_of(case, "file")
    if "cut" in case:
        text = shown_of(case, ["leg", str(case["cut"])], room).output
    if text is not None:
        (room / "FILE").write_bytes(text)


def instructions_in(file: Path, program: Path, function: str = "") -> int:
    """Returns the instructions of the program itself that callgrind has written to a file, or of a function by its
    begin.

    Each function's object is named above its lines, which have a place and a count. The line behind a call counts what
    was called, which has lines too.
    """
    count, is_own, is_call, is_asked = 0, False, False, True
    with open(file, encoding="utf-8", errors="replace") as lines:
        for line in lines:
            if line.startswith("ob="):
                is_own = line.rstrip() == f"ob={program}"
            elif line.startswith("fn="):
                is_asked = line.startswith(f"fn={function}")
            elif is_own and is_asked and not is_call and line[0].isdigit():
                count += int(line.split()[1])
            is_call = line.startswith("calls=")
    return count


def can_count_instructions() -> bool:
    """Returns whether valgrind is there, and the processor is of the kind whose instructions the table has."""
    return shutil.which("valgrind") is not None and platform.machine() == "x86_64"


def figures_of(
    program: Path, case: Case, built: Path, room: Path
) -> dict[str, int | str]:
    """Returns the figures of a run by their columns, without the instructions if they cannot be counted.

    Raises Unfit if the run does not end as it should.
    """
    if not (room / CALLED).exists():
        (room / CALLED).symlink_to(program.resolve())
    put_file(case, room)
    is_held, words = case.get("held", False), [
        str(it) for it in words_of(case, Path("."))
    ]
    environment = preload.environment(
        built, room / "counts", **({"hold_threads": 1} if is_held else {})
    )
    checked(case, shown_of(case, words, room, environment=environment))
    counts = preload.counts_of(room / "counts")
    if counts is None:
        raise Unfit(
            "the run did not get to its end: the library of preload.c has written no counts"
        )
    figures: dict[str, int | str] = {it: getattr(counts, it) for it in COUNTED}
    figures |= {it: getattr(counts, it) if is_held else NO_FIGURE for it in HELD}
    if not is_held:
        return {**figures, INSTRUCTIONS: NO_FIGURE}
    if not can_count_instructions():
        return figures
    checked(case, shown_of(case, words, room, CALLGRIND, {**environment, **NO_STRINGS}))
    return {
        **figures,
        INSTRUCTIONS: instructions_in(room / "callgrind", program.resolve()),
    }


def stored_rows() -> dict[str, dict[str, str]]:
    """Returns the stored figures of each run by its name."""
    header, *rows = (
        it.split(";")
        for it in TABLE.read_text("ascii").splitlines()
        if not it.startswith("#")
    )
    return {row[0]: dict(zip(header[1:], row[1:], strict=True)) for row in rows}


def main() -> None:
    """Writes the table anew."""
    words = argparse.ArgumentParser(
        description=__doc__, formatter_class=argparse.RawDescriptionHelpFormatter
    )
    words.add_argument(
        "program", metavar="PROGRAM", type=lambda it: Path(os.path.abspath(it))
    )
    program, rows = words.parse_args().program, []
    with tempfile.TemporaryDirectory(prefix="crnsim-") as room:
        built = library(HERE.parent / "preload.c", Path(room))
        for name, case in cases():
            try:
                figures = figures_of(program, case, built, Path(room))
            except Unfit as why:
                words.error(f"{name}: {why}")
            if INSTRUCTIONS not in figures:
                words.error("valgrind on x86_64 is needed")
            rows.append(";".join([name, *(str(figures[it]) for it in COLUMNS)]))
    TABLE.write_text(
        HEAD + "\n".join([";".join(["run", *COLUMNS]), *rows]) + "\n", "ascii"
    )


if __name__ == "__main__":
    main()
