"""Judges what the program says of a text: a second reader says which fault it has, and the program must say the same.

The program knows TOML 1.1, and Python's reader 1.0: texts that only the newer one may take are left out (is_for_both).
"""
from __future__ import annotations

from collections.abc import Iterator, Sequence
from pathlib import Path
from random import Random
from typing import Any, NamedTuple

from crnplan import formats

from tests.hostile import changed
from tests.hostile import second_reader as reader
from tests.hostile.known import READS, run, unlike, usages_with, words_of
from tests.runs import Shown, refused
from tests.stored import stored, swapped

LONG_LEADS = b"""\
version = 1
key = ["0123456789abcdef", "0000000000000000", "0000000000000000", "0000000000000001"]
periods = 10
replications = 3
initial = 30
ring = 2
costs = { setup = 7, unit = 2, holding = 1, backlog = 4 }
demand = { values = [2, 5, 9], weights = [1, 2, 1] }
lead = { values = [1, 2, 3, 4, 5, 6], weights = [1, 1, 1, 1, 1, 1] }
policy = [{ name = "A", s = 38, S = 40 }, { name = "B", s = 25, S = 30 }]
"""
WITH_RETURNS = swapped(
    LONG_LEADS,
    b"version = 1",
    b"version = 2\nreturns = { values = [0, 3], weights = [2, 1] }",
)
# What checkpoints are cut from, and at which blocks.
CUTS = {
    "long_leads": (LONG_LEADS, (0, 1, 2, 3, 4, 8, 9)),
    "with_returns": (WITH_RETURNS, (0, 1, 2, 5, 9)),
    "five_periods": (stored("tests/program/five_periods.toml"), (0, 1, 2, 3, 4)),
    "spare_part": (stored("examples/spare_part.toml"), (27,)),
}
SCENARIOS = [
    stored(it)
    for it in (
        "examples/two_policies.toml",
        "examples/spare_part.toml",
        "examples/mail_order.toml",
        "tests/program/five_periods.toml",
    )
]
# The commands that read a checkpoint, and those that say what they read of a scenario.
FILE_USAGES = usages_with(file="checkpoint")
SAYING_USAGES = [it for it in usages_with(input="scenario", file="") if READS[it].shown]


class Case(NamedTuple):
    """A run and what is wanted of it: a fault, the whole output, the beginnings of its lines, or any output.

    `rule` names the answer.
    """

    rule: str
    words: Sequence[str]
    data: bytes
    file: bytes | None = None
    fault: Shown | None = None
    output: bytes | list[str] | None = None

    def is_answered(self, shown: Shown) -> bool:
        """Returns whether a run shows what is wanted."""
        if self.fault:
            return shown == self.fault
        if shown.status != 0 or shown.errors:
            return False
        if self.output is None or isinstance(self.output, bytes):
            return self.output in (None, shown.output)
        lines = shown.output.decode("latin-1").split("\n")
        return len(lines) == len(self.output) + 1 and all(
            map(str.startswith, lines, self.output)
        )

    def verdict(self, program: Path, room: Path) -> bool | str:
        """Runs the program, and returns the verdict on what it shows. FILE is written into a folder."""
        if self.file is not None:
            (room / "FILE").write_bytes(self.file)
        shown = run(
            program,
            [str(room / "FILE") if it == "FILE" else it for it in self.words],
            self.data,
        )
        return self.is_answered(shown) or f"wanted {self.rule}: {unlike(shown)}"


class Cut(NamedTuple):
    """A scenario's text, its tree, and its checkpoint at some block."""

    text: bytes
    scenario: reader.Tree
    checkpoint: reader.Checkpoint


def cut_of(program: Path, text: bytes, block: int) -> Cut:
    """Returns the checkpoint that the program cuts at a block, which the second reader must read in the same way."""
    _, scenario = reader.scenario_of(text)
    made = run(program, ["leg", str(block)], text)
    checkpoint = reader.checkpoint_of(made.output)
    assert scenario and checkpoint and checkpoint.block == block and made.status == 0
    assert reader.checkpoint_fault(checkpoint, [reader.NEWEST], 0, scenario) == 0
    assert reader.text_of(checkpoint) == made.output
    return Cut(text, scenario, checkpoint)


# ---- what is wanted


def name_of(usage: str, kind: str) -> str:
    """Returns how answers to a text are named: those to the input by its kind, those to FILE by the command."""
    return kind if kind == READS[usage].input else usage.split()[0]


def faults_in(
    usage: str, data: bytes, file: bytes, count: int
) -> Iterator[tuple[str, int, Any]]:
    """Yields the faults of what a command reads, in the order in which it reads.

    Of each text: its kind, the number of its fault, 0 if there is none, and what it says. A schedule is for `count`
    readers.
    """
    reads, scenario = READS[usage], None
    if reads.input == "scenario":
        fault, scenario = reader.scenario_of(data)
        yield "scenario", fault, scenario
    if reads.input == "schedule":
        fault, turns = reader.schedule_of(data, count)
        yield "schedule", fault, (turns, count)
    if reads.file == "checkpoint":
        checkpoint = reader.checkpoint_of(file)
        yield "checkpoint", reader.checkpoint_fault(
            checkpoint, reads.versions, reads.number, scenario
        ), checkpoint


def case_with(
    usage: str, data: bytes = b"", file: bytes = b"", count: int = 1, **values: str
) -> Case:
    """Returns a command with its texts: it refuses the first that has a fault, or shows what it makes of all."""
    words, said = words_of(usage, READERS=str(count), **values), {}
    for kind, fault, said[kind] in faults_in(usage, data, file, count):
        if fault:
            return Case(
                f"{name_of(usage, kind)} {fault}",
                words,
                data,
                file,
                refused(f"{kind} {fault}"),
            )
    reads = READS[usage]
    rule = f"{name_of(usage, reads.file or reads.input)} taken"
    return Case(
        rule, words, data, file, output=reads.shown(said) if reads.shown else None
    )


def rules_of(kind: str) -> set[str]:
    """Returns the answers that there are to texts of a kind."""
    rules, all_reads = set(), (
        (usage, reads) for usage, reads in READS.items() if reads.shown
    )
    for usage, reads in (
        (usage, reads)
        for usage, reads in all_reads
        if kind in (reads.input, reads.file)
    ):
        if kind == "checkpoint":
            numbers = {1, 2 if reads.input else 1, reads.number}
        else:
            numbers = set(formats.RULES.values()) if kind == "scenario" else {1, 2}
        taken = (
            {f"{name_of(usage, kind)} taken"}
            if kind == (reads.file or reads.input)
            else set()
        )
        rules |= {f"{name_of(usage, kind)} {it}" for it in numbers} | taken
    return rules


# ---- cases


def scenario_case(chance: Random, text: bytes) -> Case:
    """Returns a case of a scenario: a fault is any command's, and without one a command says what it has read."""
    if reader.scenario_of(text)[0]:
        return case_with(
            chance.choice(usages_with(input="scenario")),
            text,
            N=chance.choice(["0", "99999999"]),
        )
    return case_with(chance.choice(SAYING_USAGES), text)


def ends_of(checkpoint: reader.Checkpoint) -> list[int]:
    """Returns numbers at the ends of the ranges that a checkpoint's amounts have."""
    total, each = reader.blocks_of(checkpoint.scenario)
    done = 4 * (checkpoint.block % each)
    items, each_period, cost = (
        formats.MOST_ITEMS,
        reader.MOST_A_PERIOD,
        formats.MOST_COST,
    )
    near = [
        -each_period * done,
        items + each_period * done,
        -each_period,
        items,
        done,
        done + formats.MOST_LEAD - 1,
        total,
        cost * done,
        cost * checkpoint.scenario["periods"],
    ]
    return [it + step for it in near for step in (-1, 0, 1)]


def changed_file(chance: Random, cut: Cut, spelling: int) -> bytes:
    """Returns the checkpoint of a cut in a spelling, or sometimes in another, with changes."""
    others = [it for it in formats.CHECKPOINT_VERSIONS if it != spelling]
    spelling = spelling if chance.randrange(5) < 4 else chance.choice(others)
    text = reader.text_of(cut.checkpoint._replace(spelling=spelling))
    return changed.changed_checkpoint(chance, text, ends_of(cut.checkpoint))


def file_case(chance: Random, cuts: Sequence[Cut]) -> Case:
    """Returns a case of a changed checkpoint, sometimes beside a scenario that is changed."""
    usage = chance.choice(FILE_USAGES)
    version = chance.choice(READS[usage].versions)
    cut = chance.choice(
        [it for it in cuts if version in reader.versions_of(it.scenario)]
    )
    data = (
        changed.with_other_number(chance, cut.text)
        if chance.random() < 0.15
        else cut.text
    )
    return case_with(
        usage, data if READS[usage].input else b"", changed_file(chance, cut, version)
    )


def schedule_case(chance: Random) -> Case:
    """Returns a case of a changed schedule."""
    count, usage = chance.choice([1, 2, 16]), chance.choice(
        usages_with(input="schedule")
    )
    size, total = str(2 ** chance.randint(0, 4)), str(chance.choice([0, 1, 2, 65536]))
    return case_with(
        usage,
        changed.changed_schedule(chance, count),
        count=count,
        SIZE=size,
        TOTAL=total,
    )


def file_cases(cut: Cut, checkpoint: reader.Checkpoint) -> Iterator[Case]:
    """Yields each command that reads a checkpoint, with this one of a cut in each version that it takes."""
    for usage in FILE_USAGES:
        for version in set(READS[usage].versions) & set(
            reader.versions_of(cut.scenario)
        ):
            text = reader.text_of(checkpoint._replace(spelling=version))
            yield case_with(usage, cut.text if READS[usage].input else b"", text)
