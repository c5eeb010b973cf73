"""The commands of the program as these tests use them: what each reads, and each with an input and the right bytes.

READS and COMMANDS are the only places of these tests that know a command. Right bytes are stored reports and
checkpoints, or texts worked by hand.
"""
from __future__ import annotations

import os
import subprocess
from collections.abc import Callable, Iterable, Sequence
from dataclasses import dataclass, replace
from functools import cached_property
from pathlib import Path
from typing import Any, NamedTuple

from crnplan import formats

from tests.hostile import second_reader as reader
from tests.program import oracle
from tests.runs import SECONDS, Shown, refused
from tests.stored import CUTS, stored, swapped

# The longest input.
LIMIT = formats.MOST_BYTES
# The policies of the scenario of five periods, A and B, and the last row of a checkpoint.
POLICIES = (b'{ name = "%s", s = 5, S = 10 }', b'{ name = "%s", s = 4, S = 10 }')
END = b"end,-,-,-,-\n"


MEMORY, THREAD, READING, WRITING = map(
    refused, ("memory", "thread", "reading", "writing")
)


def run(
    program: Path,
    words: Sequence[str],
    data: bytes | int = b"",
    *,
    before: Sequence[str] = (),
    environment: dict[str, str] | None = None,
    **how: Any,
) -> Shown:
    """Runs the program on an input, bytes or an open file, and returns what it shows.

    `before` has the words of a command that becomes the program. How else it is started is up to subprocess.
    """
    how = {"stdout": subprocess.PIPE, "stderr": subprocess.PIPE, **how}
    how["input" if isinstance(data, bytes) else "stdin"] = data
    how |= {"env": {**os.environ, **environment}} if environment else {}
    try:
        ran = subprocess.run(
            [*before, program, *words], timeout=SECONDS, check=False, **how
        )
    except subprocess.TimeoutExpired:
        return Shown(b"", b"", None)
    return Shown(ran.stdout or b"", ran.stderr, ran.returncode)


def unlike(shown: Shown) -> str:
    """Returns the verdict on a run that shows what it must not."""
    ended = "no end in time" if shown.status is None else f"status {shown.status}"
    return f"{ended}, {shown.errors[:80]!r}, {len(shown.output)} bytes of output that begin {shown.output[:60]!r}"


# ---- what each command reads


def start_text(said: dict[str, Any]) -> bytes:
    """Returns the checkpoint at block 0, in which the scenario stands."""
    return reader.text_of(reader.start_of(said["scenario"]))


def report_lines(said: dict[str, Any]) -> list[str]:
    """Returns the beginnings of a report's lines."""
    return [
        formats.HEADER,
        *(f"{it['name']},{it['s']},{it['S']}," for it in said["scenario"]["policy"]),
    ]


def newest_text(said: dict[str, Any]) -> bytes:
    """Returns the checkpoint in the newest version."""
    return reader.text_of(said["checkpoint"]._replace(spelling=reader.NEWEST))


def trace_lines(said: dict[str, Any]) -> list[str]:
    """Returns the beginnings of a trace's lines: each turn has one, which begins with the turn itself."""
    turns, count = said["schedule"]
    return [
        *(f"{it.decode()} " for it in turns),
        "published ",
        *(f"reader {it} taken " for it in range(count)),
    ]


class Reads(NamedTuple):
    """What a command reads: the kind of its input and that of FILE, empty if there is none.

    It takes checkpoints of these versions, and refuses others with a number. `shown` makes of what the texts say, by
    their kinds, the whole output or the beginnings of its lines. Without `shown` any output is right.
    """

    input: str = ""
    file: str = ""
    versions: Sequence[int] = ()
    number: int = 0
    shown: Callable[[dict[str, Any]], bytes | list[str]] | None = None


# By the words of each command. A run of any scenario takes too long to be judged.
READS = {
    "": Reads("scenario"),
    "run": Reads("scenario"),
    "lanes": Reads("scenario"),
    "leg N": Reads("scenario", shown=start_text),
    "resume FILE": Reads(
        "scenario", "checkpoint", formats.CHECKPOINT_VERSIONS[-1:], 4, report_lines
    ),
    "migrate FILE": Reads(
        "", "checkpoint", formats.CHECKPOINT_VERSIONS[:-1], 5, newest_text
    ),
    "words K0 K1 K2 K3 N": Reads(),
    "replay SIZE READERS TOTAL": Reads("schedule", shown=trace_lines),
    "help": Reads(),
}
# What stands for the names in these words, if a test has nothing else.
VALUES = {
    "N": "0",
    "SIZE": "1",
    "READERS": "1",
    "TOTAL": "0",
    **{f"K{it}": "0" * 16 for it in range(4)},
}


def usages_with(**kinds: str) -> list[str]:
    """Returns the words of the commands that read texts of these kinds."""
    return [
        it
        for it in READS
        if all(getattr(READS[it], place) == kind for place, kind in kinds.items())
    ]


def words_of(usage: str, **values: str) -> list[str]:
    """Returns the words of a command, with values for the names in them. FILE stays if it has none."""
    return [{**VALUES, **values}.get(it, it) for it in usage.split()]


# ---- each command with an input and the right bytes


@dataclass(frozen=True)
class Command:
    """A command with its input. FILE in its words stands for the path of a file with the bytes `file`.

    The right output is `output`, or if that is None a text with all of `parts`; or the command is refused with
    `fault`. It starts so many threads.
    """

    name: str
    words: Sequence[str]
    data: bytes = b""
    output: bytes | None = None
    parts: tuple[bytes, ...] = ()
    file: bytes | None = None
    starts: int = 0
    fault: str = ""

    @cached_property
    def reads(self) -> Reads:
        """Returns what the command reads."""
        return next(READS[it] for it in READS if it.split()[:1] == list(self.words[:1]))

    def in_room(self, room: Path) -> Command:
        """Writes FILE into a folder, and returns the command with its path."""
        if self.file is None:
            return self
        (room / "FILE").write_bytes(self.file)
        return replace(
            self,
            words=[str(room / "FILE") if it == "FILE" else it for it in self.words],
        )

    def is_right(self, shown: Shown) -> bool:
        """Returns whether a run shows the right bytes, and nothing else."""
        if self.fault:
            return shown == refused(self.fault)
        if shown.errors or shown.status != 0:
            return False
        return (
            all(it in shown.output for it in self.parts)
            if self.output is None
            else shown.output == self.output
        )

    def verdict(self, shown: Shown) -> bool | str:
        """Returns the verdict on a run that is to show the right bytes."""
        return self.is_right(shown) or unlike(shown)


def of_policies(count: int) -> tuple[bytes, bytes, bytes]:
    """Returns the scenario of five periods with so many policies, its report, and its checkpoint at block 1.

    The policies are A and B by turns under names of their own. Each has the rows of the stored texts, since these do
    not depend on the other policies.
    """
    scenario, report, cut = (
        stored(f"tests/program/five_periods{it}")
        for it in (".toml", ".csv", "_cut.csv")
    )
    header, *rows = report.splitlines(keepends=True)
    head, *states = cut.removesuffix(END).split(b"policy,")
    names = [b"P%d" % number for number in range(1, count + 1)]
    listed = swapped(
        scenario,
        b", ".join([POLICIES[0] % b"A", POLICIES[1] % b"B"]),
        b", ".join(POLICIES[at % 2] % name for at, name in enumerate(names)),
    )
    counted = swapped(head, b"sizes,10,1,1,2\n", b"sizes,10,1,1,%d\n" % count)
    return (
        listed,
        header + b"".join(name + rows[at % 2][1:] for at, name in enumerate(names)),
        counted
        + b"".join(
            b"policy," + name + states[at % 2][1:] for at, name in enumerate(names)
        )
        + END,
    )


def runs_of_policies(count: int) -> list[Command]:
    """Returns `run`, `lanes`, `leg` and `resume` of so many policies. Each but `lanes` starts as many threads."""
    scenario, report, cut = of_policies(count)
    return [
        Command(f"run-of-{count}", ["run"], scenario, report, starts=count),
        Command(f"lanes-of-{count}", ["lanes"], scenario, report),
        Command(f"leg-of-{count}", ["leg", "1"], scenario, cut, starts=count),
        Command(
            f"resume-of-{count}",
            ["resume", "FILE"],
            scenario,
            report,
            file=cut,
            starts=count,
        ),
    ]


def base_commands() -> list[Command]:
    """Returns `run`, `leg` and `resume` of README's scenario, from its checkpoint at block 0 by the oracle."""
    scenario, report = stored("examples/two_policies.toml"), stored(
        "examples/two_policies.csv"
    )
    start, end = (
        oracle.checkpoint(scenario.decode(), block).encode() for block in (0, 1)
    )
    return [
        Command("run-of-the-base", ["run"], scenario, report, starts=2),
        Command("leg-of-the-base", ["leg", "1"], scenario, end, starts=2),
        Command(
            "resume-of-the-base",
            ["resume", "FILE"],
            scenario,
            report,
            file=start,
            starts=2,
        ),
    ]


# A schedule and its trace, worked by hand.
REPLAY = Command(
    "replay",
    ["replay", "1", "2", "0"],
    b"r0\np\nr1\nl0\ne\nr0\n",
    b"""\
r0 R1 0 0000000000000000
p P3 0 0000000000000001
r1 R1 0 0000000000000001
l0 R3 1 8000000000000000
e - - -
r0 - - -
published 0 ended 1
reader 0 taken 0 left 1 ended 0
reader 1 taken 0 left 0 ended 1
""",
)


def all_commands() -> list[Command]:
    """Returns each command once, with its right bytes. The words of the zero key are the oracle's."""
    words = Command(
        "words",
        words_of("words K0 K1 K2 K3 N"),
        output=oracle.words_text((0, 0, 0, 0), 0).encode(),
    )
    *olds, new = map(stored, CUTS)
    migrations = [
        Command(f"migrate-of-{version}", ["migrate", "FILE"], output=new, file=old)
        for version, old in enumerate(olds, 1)
    ]
    help_text = Command(
        "help",
        ["help"],
        parts=tuple(f"\n  {it.split()[0]} ".encode() for it in formats.COMMANDS),
    )
    scenario, report = stored("crates/crnsim/stdin"), stored("crates/crnsim/stdout")
    base = Command("run-of-the-stored-run", ["run"], scenario, report, starts=2)
    return [*runs_of_policies(2), base, *migrations, words, REPLAY, help_text]


COMMANDS = all_commands()


def refused_commands() -> list[Command]:
    """Returns commands whose words, input or file is refused."""
    scenario, _, cut = of_policies(2)
    broken = swapped(scenario, b"initial = 10\n", b"initial = -1\n")
    return [
        Command("run-on-a-broken-rule", ["run"], broken, fault="scenario 6"),
        Command("lanes-on-a-broken-rule", ["lanes"], broken, fault="scenario 6"),
        Command(
            "leg-on-no-document", ["leg", "1"], scenario + b"[", fault="scenario 1"
        ),
        Command(
            "resume-on-no-checkpoint",
            ["resume", "FILE"],
            scenario,
            file=cut + b"end",
            fault="checkpoint 1",
        ),
        Command(
            "resume-on-another-scenario",
            ["resume", "FILE"],
            scenario.replace(b'"P2"', b'"P3"'),
            file=cut,
            fault="checkpoint 2",
        ),
        Command(
            "migrate-on-a-new-version",
            ["migrate", "FILE"],
            file=cut,
            fault="checkpoint 5",
        ),
        Command(
            "replay-on-a-reader-too-many",
            ["replay", "1", "2", "0"],
            b"p\nr2\n",
            fault="schedule 2",
        ),
        Command("leg-past-the-end", ["leg", "5"], scenario, fault="command line"),
        Command("no-command", ["walk"], fault="command line"),
        Command("resume-without-a-file", ["resume", "none"], scenario, fault="reading"),
    ]


Case = tuple[str, object]
CheckAll = Callable[[Iterable[Case]], None]


def named(command: Command) -> str:
    """Returns the name of a command, for the id of a test."""
    return command.name
