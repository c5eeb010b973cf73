"""Texts of 1,048,576 bytes that are made to cost time or memory.

Each is answered within a second of processor time and 128 MB, by each command that reads texts of its kind. Scenarios
of many small tables are beyond that, as the program's reader of TOML takes a kilobyte for each table, and a table needs
two bytes. They have limits of their own.
"""
from __future__ import annotations

import subprocess
import sys
from collections.abc import Callable, Iterator
from pathlib import Path
from typing import NamedTuple

import pytest
from crnplan import formats

from tests.hostile.known import LIMIT, READS, words_of
from tests.stored import CUTS, stored

# Seconds and megabytes that a text may take.
MOST = (1.0, 128.0)
MOST_OF_TABLES = (5.0, 768.0)
# Measures a run from a separate small process: the system also counts the memory that a process had before its program.
COST = Path(__file__).with_name("cost.py")
RING = {"SIZE": "1024", "READERS": "16", "TOTAL": "65536"}
GOOD = stored("tests/program/five_periods.toml")


class Text(NamedTuple):
    """A text, as a function that makes it, the fault with which it is refused (empty if none), and what it may take.

    `values` are for the words of the command that gets it.
    """

    make: Callable[[], bytes]
    fault: str = ""
    most: tuple[float, float] = MOST
    values: dict[str, str] = {}


def filled(piece: bytes, start: bytes = b"", end: bytes = b"") -> Callable[[], bytes]:
    """Returns what makes a text of the most bytes: a start, a piece as often as it fits whole, and an end."""
    return lambda: start + piece * ((LIMIT - len(start) - len(end)) // len(piece)) + end


def listed(
    piece_of: Callable[[int], bytes], start: bytes = b"", end: bytes = b""
) -> Callable[[], bytes]:
    """Returns what makes a text of nearly the most bytes: a start, the pieces of the numbers from 0 on, and an end."""

    def make() -> bytes:
        pieces, size, number = [], len(start) + len(end), 0
        while size + len(piece := piece_of(number)) <= LIMIT:
            pieces.append(piece)
            size, number = size + len(piece), number + 1
        return start + b"".join(pieces) + end

    return make


def nested(
    opening: bytes, closing: bytes, start: bytes = b"a = "
) -> Callable[[], bytes]:
    """Returns what makes a text of as many levels as there is room for."""
    count = (LIMIT - len(start) - 1) // (len(opening) + len(closing))
    return lambda: start + opening * count + closing * count


def no_documents() -> dict[str, Callable[[], bytes]]:
    """Returns texts that are no TOML documents."""
    front = GOOD.split(b"policy = ")[0]
    return {
        "lists in lists": nested(b"[", b"]"),
        "lists that are not closed": filled(b"[", b"a = "),
        "tables in tables": nested(b"{a=", b"}", b"a = {b="),
        "lists and tables in each other": nested(b"[{a=", b"}]"),
        "a dotted key of many parts": filled(b"a.", end=b"a = 1\n"),
        "a header of many parts": filled(b"a.", b"[", b"a]\n"),
        "many headers below each other": listed(lambda it: b"[" + b"a." * it + b"a]\n"),
        "a million digits": filled(b"1", b"version = ", b"\n"),
        "a million digits and underscores": filled(b"1_", b"version = ", b"1\n"),
        "a text that is not closed": filled(b'""', GOOD + b'name = """'),
        "no bytes but zeros": filled(b"\0"),
        "no UTF-8": filled(b"\xff"),
        "policies that are no list": filled(b"[", front + b"policy = "),
    }


def no_scenarios() -> dict[str, Callable[[], bytes]]:
    """Returns documents whose version is none of a scenario."""
    return {
        "many dotted keys of fifty parts": listed(
            lambda it: b"a." * 50 + b"b%d = 1\n" % it
        ),
        "a million digits of a fraction": filled(b"1", b"version = 0.", b"\n"),
        "many keys": listed(lambda it: b"k%d=1\n" % it),
        "many keys that begin alike": listed(lambda it: b"k" * 1000 + b"%d=1\n" % it),
        "many keys from the last on": listed(lambda it: b"k%06d=1\n" % (999999 - it)),
        "many tables": listed(lambda it: b"[k%d]\n" % it),
        "many tables of one list": filled(b"[[a]]\n"),
        "many tables of a table": listed(lambda it: b"[a.b.c.k%d]\n" % it),
        "many words of the key": filled(b'"%s",' % (b"0" * 16), b"key = [", b"]\n"),
    }


def faulty_scenarios() -> dict[str, tuple[int, Callable[[], bytes]]]:
    """Returns documents with the rule that each breaks."""
    front = GOOD.split(b"policy = ")[0]
    tables, a_table = front + b"\n", b'[[policy]]\nname = "p%d"\ns = 1\nS = 2\n'
    before, mark, after = GOOD.partition(b"values = [")
    inline = front + b"policy=["
    name = tables + b'[[policy]]\ns = 1\nS = 1\nname = "'
    return {
        "many policies": (13, listed(a_table.__mod__, tables)),
        "many policies of one name": (11, filled(a_table % 1, tables)),
        "many empty policies": (4, filled(b"{},", inline, b"]\n")),
        "many policies in a list": (
            13,
            listed(b'{name="%x",s=0,S=0},'.__mod__, inline, b"]\n"),
        ),
        "a policy with many keys": (
            3,
            listed(b"k%d=1\n".__mod__, tables + a_table % 1),
        ),
        "a key of a million bytes": (3, filled(b"k", GOOD, b" = 1\n")),
        "a quoted key of a million escapes": (
            3,
            filled(b"\\n", GOOD + b'"', b'" = 1\n'),
        ),
        "a name of a million bytes": (11, filled(b"n", name, b'"\n')),
        "a text of many lines": (3, filled(b"\n", GOOD + b'name = """', b'"""\n')),
        "many demands": (7, filled(b"0,", before + mark, after)),
        "many quoted names": (
            11,
            listed(lambda it: b'{name="\\u004%d",s=1,S=1},' % (it % 10), inline, b"]"),
        ),
    }


def scenario_texts() -> Iterator[tuple[str, Text]]:
    """Yields scenarios, each with its least fault if it is a document."""
    for name, make in no_documents().items():
        yield name, Text(make, "scenario 1")
    for name, make in no_scenarios().items():
        yield name, Text(make, "scenario 2")
    for name, (rule, make) in faulty_scenarios().items():
        yield name, Text(make, f"scenario {rule}")
    yield "many comments", Text(filled(b"#\n", end=GOOD))
    yield "one long comment", Text(filled(b"#", end=b"\n" + GOOD))
    yield "many empty lines", Text(filled(b"\n", end=GOOD))
    yield "many spaces", Text(filled(b" ", end=GOOD))
    yield "many carriage returns", Text(filled(b"\r\n", end=GOOD))


def table_texts() -> Iterator[tuple[str, Text]]:
    """Yields scenarios of many small tables. A document has 80 levels at most, so these go to seventy."""
    texts = {
        "many tables of a key": filled(b"{a=0},", b"a = [", b"]\n"),
        "many policies of a wrong key": filled(
            b"{a=0},", b"version = 1\npolicy = [", b"]\n"
        ),
        "tables of seventy levels": filled(
            b"{a=" * 70 + b"0" + b"}" * 70 + b",", b"a = [", b"]\n"
        ),
        "tables of seventy dots": filled(
            b"{" + b"a." * 70 + b"a=0},", b"a = [", b"]\n"
        ),
        "lists of seventy levels": filled(
            b"[" * 70 + b"]" * 70 + b",", b"a = [", b"]\n"
        ),
        "lists and tables of seventy levels": filled(
            b"[{a=" * 35 + b"0" + b"}]" * 35 + b",", b"a = [", b"]\n"
        ),
        "many lists of one": filled(b"[0],", b"a = [", b"]\n"),
        "many dotted keys": listed(lambda it: b"%x.a=1\n" % it),
        "many dotted keys of seventy parts": listed(
            lambda it: b"%x." % it + b"a." * 70 + b"a=1\n"
        ),
        "many headers of three parts": listed(lambda it: b"[%x.a.a]\n" % it),
        "headers below tables of a list": filled(b"[[a]]\n[a.b.b.b.b.b]\n"),
    }
    for name, make in texts.items():
        yield name, Text(
            make, "scenario 3" if "policies" in name else "scenario 2", MOST_OF_TABLES
        )


def wrong_checkpoints(good: bytes) -> dict[str, Callable[[], bytes]]:
    """Returns texts made from a good checkpoint: none of them is one."""
    spelling, end = good.split(b",")[1], b"end,-,-,-,-\n"
    head, state = good.partition(b"demand,")[0], good.partition(b"state,")[0]
    policies = state.rpartition(b"policy,")[0]
    demand, one_demand = b"demand,%d,1,-,-\n".__mod__, b",1,1,2\n"
    policy = b"policy,P%d,1,1,-\n"
    many = head.replace(one_demand, b",60000,1,2\n")
    beyond = head.replace(one_demand, b",4294967295,1,2\n")
    block = b"checkpoint," + spelling + b","
    return {
        "many demand rows": listed(demand, head),
        "many demand rows that are counted": listed(demand, many),
        "many policy rows": listed(policy.__mod__, state),
        "many policies with states": listed(
            (policy + b"state,0,0,0,0\n").__mod__, policies, end
        ),
        "many due rows": listed(
            b"due,%d,1,-,-\n".__mod__, state + b"state,4,35,99999,0\n"
        ),
        "many cost rows": listed(
            b"cost,%d,1,-,-\n".__mod__, state + b"state,4,35,0,99999\n"
        ),
        "many whole checkpoints": filled(good),
        "many end rows": filled(end, good),
        "many empty lines behind": filled(b"\n", good),
        "empty lines alone": filled(b"\n"),
        "commas alone": filled(b","),
        "rows of commas": filled(b",,,,\n"),
        "quotes alone": filled(b'"'),
        "a quoted field": filled(b"\n", b'checkpoint,"', b'",1,5,2\n'),
        "a field of a million digits": filled(b"1", b"checkpoint,", b",1,5,2\n"),
        "a block of a million digits": filled(b"0", block, b"1,5,2\n"),
        "a name of a million bytes": filled(b"n", policies + b"policy,", b",4,10,-\n"),
        "counts beyond all rows": filled(b"demand,3,1,-,-\n", beyond),
    }


def checkpoint_texts(good: bytes) -> Iterator[tuple[str, Text]]:
    """Yields wrong checkpoints with their fault."""
    for name, make in wrong_checkpoints(good).items():
        yield name, Text(make, "checkpoint 1")


def schedule_texts() -> Iterator[tuple[str, Text]]:
    """Yields schedules, of which a good one has a trace of up to thirty times its size."""
    readers = b"".join(b"r%d\n" % it for it in range(16))
    yield "a producer alone", Text(filled(b"p\n"), values=RING)
    yield "readers by turns", Text(filled(readers), values=RING)
    yield "producer and readers by turns", Text(filled(b"p\n" + readers), values=RING)
    yield "readers that leave", Text(
        filled(b"".join(b"l%d\n" % it for it in range(16))), values=RING
    )
    yield "ends", Text(filled(b"e\n"))
    yield "an actor of a million digits", Text(filled(b"1", b"r", b"\n"), "schedule 1")
    yield "a reader that is not there, at last", Text(
        filled(b"p\n", end=b"r1"), "schedule 2"
    )
    yield "a line of another form, at last", Text(
        filled(b"p\n", end=b"r4294967296"), "schedule 1"
    )
    yield "many empty turns", Text(filled(b"\n"), "schedule 1")
    yield "many high readers", Text(filled(b"r4294967295\n"), "schedule 2")


def inputs() -> Iterator[object]:
    """Yields each command with each text that it reads as its input. The file beside it is good."""
    texts = {
        "scenario": [*scenario_texts(), *table_texts()],
        "schedule": [*schedule_texts()],
    }
    for usage, reads in READS.items():
        for name, text in texts.get(reads.input, []) if usage else []:
            yield pytest.param(
                usage, text, id=f"{usage.split()[0]}-{name.replace(' ', '_')}"
            )


def files() -> Iterator[object]:
    """Yields each command with each text that it reads as its file. The input beside it is good."""
    for usage, reads in READS.items():
        for version in reads.versions:
            for name, text in checkpoint_texts(stored(CUTS[version - 1])):
                yield pytest.param(
                    usage,
                    text,
                    id=f"{usage.split()[0]}-version_{version}-{name.replace(' ', '_')}",
                )


def check_cost(program: Path, room: Path, usage: str, text: Text, data: bytes) -> None:
    """Checks the fault of a text, and what the run takes."""
    (room / "input").write_bytes(data)
    words = [
        sys.executable,
        "-S",
        str(COST),
        str(room / "input"),
        str(room / "errors"),
        str(program),
        *words_of(usage, FILE=str(room / "FILE"), **text.values),
    ]
    took = subprocess.run(words, capture_output=True, check=True).stdout.split()
    line = f"crnsim: {text.fault}\n".encode() if text.fault else b""
    assert (int(took[2]), (room / "errors").read_bytes()) == (
        formats.status_of(text.fault),
        line,
    )
    # The least that is seen as its megabytes are those of cost.py, some ten.
    seconds, megabytes = float(took[0]), int(took[1]) / 1024
    assert seconds <= text.most[0], f"{seconds:.2f} seconds of processor time"
    assert megabytes <= text.most[1], f"{megabytes:.0f} MB"


def made(text: Text) -> bytes:
    """Makes a text, which has nearly the most bytes."""
    its = text.make()
    assert LIMIT - 2000 < len(its) <= LIMIT
    return its


@pytest.mark.parametrize("usage, text", inputs())
def test_costly_input(program: Path, room: Path, usage: str, text: Text) -> None:
    """An input is answered within what it may take."""
    cuts = [stored(CUTS[it - 1]) for it in READS[usage].versions]
    (room / "FILE").write_bytes(cuts[-1] if cuts else b"")
    check_cost(program, room, usage, text, made(text))


@pytest.mark.parametrize("usage, text", files())
def test_costly_file(program: Path, room: Path, usage: str, text: Text) -> None:
    """A file is answered within what it may take."""
    (room / "FILE").write_bytes(made(text))
    check_cost(program, room, usage, text, GOOD if READS[usage].input else b"")
