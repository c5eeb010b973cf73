"""Streams and files that are closed, slow, full, cut off, of another kind, or just as long as they may be."""
from __future__ import annotations

import ctypes
import fcntl
import os
import subprocess
import termios
import threading
import time
from collections.abc import Callable, Iterator
from dataclasses import replace
from pathlib import Path
from typing import Any

import pytest
from crnplan import formats

from tests.hostile import second_reader as reader
from tests.hostile.known import (
    COMMANDS,
    LIMIT,
    READING,
    REPLAY,
    WRITING,
    Case,
    CheckAll,
    Command,
    named,
    run,
    unlike,
)
from tests.runs import SECONDS, Shown, as_wanted, refused, written

# Each of so many bytes is the last one that goes out in a test.
BYTES = 200
# So many prefixes of an input are tested, from none of it on.
PREFIXES = 24
LINUX_PR_CAPBSET_DROP, LINUX_CAP_DAC_OVERRIDE, LINUX_CAP_DAC_READ_SEARCH = 24, 1, 2
READING_COMMANDS = [it for it in COMMANDS if it.data]
FILE_COMMANDS = [it for it in COMMANDS if it.file is not None]
Answer = Callable[..., Shown]


@pytest.fixture
def answer(program: Path, room: Path) -> Answer:
    """Returns a function that runs a command, also on another input, or started in another way."""

    def ask(command: Command, data: bytes | int | None = None, **how: Any) -> Shown:
        its = command.in_room(room)
        return run(program, its.words, its.data if data is None else data, **how)

    return ask


# ---- standard input


def dribble(text: bytes, end: int) -> None:
    """Writes a text to a pipe byte by byte, each when the one before it was read, and closes the pipe.

    It ends no later than the time in which the reader's run must end.
    """
    waiting, latest = bytearray(4), time.monotonic() + SECONDS
    try:
        for byte in text:
            os.write(end, bytes([byte]))
            while (
                fcntl.ioctl(end, termios.FIONREAD, waiting) == 0
                and any(waiting)
                and time.monotonic() < latest
            ):
                time.sleep(0)
    except BrokenPipeError:
        pass
    finally:
        os.close(end)


@pytest.mark.parametrize("command", COMMANDS, ids=named)
@pytest.mark.parametrize("kind", ["closed", "a_folder"])
def test_input_that_cannot_be_read(
    answer: Answer, top: Path, command: Command, kind: str
) -> None:
    """A command that reads its input fails; another does not care."""
    if kind == "closed":
        shown = answer(command, subprocess.DEVNULL, preexec_fn=lambda: os.close(0))
    else:
        folder = os.open(top, os.O_RDONLY)
        shown = answer(command, folder)
        os.close(folder)
    assert (
        as_wanted(shown, READING) is True if command.data else command.is_right(shown)
    ), unlike(shown)


@pytest.mark.parametrize("command", READING_COMMANDS, ids=named)
def test_input_byte_by_byte(answer: Answer, command: Command) -> None:
    """An input that comes byte by byte is read as one that comes at once."""
    read_end, write_end = os.pipe()
    writer = threading.Thread(target=dribble, args=(command.data, write_end))
    writer.start()
    try:
        shown = answer(command, read_end)
    finally:
        os.close(read_end)
        writer.join()
    assert command.is_right(shown), unlike(shown)


@pytest.mark.parametrize("command", READING_COMMANDS, ids=named)
def test_input_that_is_cut_off(
    answer: Answer, check_all: CheckAll, command: Command
) -> None:
    """A prefix of an input has the fault that the second reader finds."""

    def cases() -> Iterator[Case]:
        kind = command.reads.input
        for part in range(PREFIXES):
            prefix = command.data[: len(command.data) * part // PREFIXES]
            fault = (
                reader.schedule_of(prefix, 2)
                if kind == "schedule"
                else reader.scenario_of(prefix)
            )[0]
            # A prefix of a schedule that ends with a whole line is a schedule, with a trace of its own.
            if fault:
                yield f"cut at byte {len(prefix)}", as_wanted(
                    answer(command, prefix), refused(f"{kind} {fault}")
                )

    check_all(cases())


# ---- standard output


def is_prefix(
    whole: bytes, size: int, shown: Shown, may_all_be_taken: bool
) -> bool | str:
    """Returns the verdict on a run of whose output so many bytes were taken: if there are others, that is reported."""
    ends = [(WRITING.errors, WRITING.status)] if size < len(whole) else [(b"", 0)]
    if may_all_be_taken:
        ends = [(WRITING.errors, WRITING.status), (b"", 0)]
    return (
        shown.output == whole[:size] and (shown.errors, shown.status) in ends
    ) or unlike(shown)


def run_to_leaver(program: Path, command: Command, room: Path, count: int) -> Shown:
    """Returns what a run shows, with the output that its reader got, who leaves after so many bytes, or before."""
    (room / "input").write_bytes(command.data)
    read_end, write_end = os.pipe()
    if count == 0:
        os.close(read_end)
    with open(room / "input", "rb") as data:
        process = subprocess.Popen(
            [program, *command.words],
            stdin=data,
            stdout=write_end,
            stderr=subprocess.PIPE,
        )
    os.close(write_end)
    late = threading.Timer(SECONDS, process.kill)
    late.start()
    got = b""
    while len(got) < count and (more := os.read(read_end, count - len(got))):
        got += more
    if count:
        os.close(read_end)
    errors = process.communicate()[1]
    late.cancel()
    return Shown(got, errors, process.returncode)


@pytest.mark.parametrize("command", COMMANDS, ids=named)
@pytest.mark.parametrize("kind", ["full", "closed"])
def test_output_that_cannot_be_written(
    answer: Answer, command: Command, kind: str
) -> None:
    """The failure is reported."""
    if kind == "closed":
        shown = answer(command, preexec_fn=lambda: os.close(1))
    else:
        with open("/dev/full", "wb") as full:
            shown = answer(command, stdout=full)
    assert as_wanted(shown, WRITING) is True


@pytest.mark.parametrize("command", COMMANDS, ids=named)
def test_output_to_a_file_that_is_full(
    answer: Answer, room: Path, check_all: CheckAll, command: Command
) -> None:
    """A file takes the first bytes of the output, and then no more."""

    def of_size(size: int) -> Shown:
        # Python ignores the signal that a file is too long, and so does the program if it is not restored.
        limit = {"before": ["prlimit", f"--fsize={size}"], "restore_signals": False}
        with open(room / "output", "w+b") as output:
            shown = answer(command, stdout=output, **limit)
            output.seek(0)
            return shown._replace(output=output.read())

    # No text of the help is stored, so its prefixes are those of what was found to have the right parts.
    whole = command.output or answer(command).output
    check_all(
        (f"to a file of {size} bytes", is_prefix(whole, size, of_size(size), False))
        for size in range(min(BYTES, len(whole)) + 1)
    )


@pytest.mark.parametrize("command", COMMANDS, ids=named)
def test_output_whose_reader_leaves(
    program: Path, room: Path, answer: Answer, check_all: CheckAll, command: Command
) -> None:
    """A pipe takes a short text whole, unless its reader has left before: then either end is right."""
    its, whole = command.in_room(room), command.output or answer(command).output
    check_all(
        (
            f"leaves after {size} bytes",
            is_prefix(whole, size, run_to_leaver(program, its, room, size), size > 0),
        )
        for size in range(min(BYTES, len(whole)) + 1)
    )


def test_long_output_whose_reader_leaves(
    program: Path, room: Path, check_all: CheckAll
) -> None:
    """A trace that no pipe holds cannot be written if its reader leaves."""
    turns = 50_000
    whole = b"e P3 0 0000000000000001\n" + b"e - - -\n" * (turns - 1)
    replay = replace(
        REPLAY, words=["replay", "1", "1", "0"], data=b"e\n" * turns, output=whole
    )
    check_all(
        (
            f"leaves after {size} bytes",
            is_prefix(whole, size, run_to_leaver(program, replay, room, size), False),
        )
        for size in range(BYTES + 1)
    )


@pytest.mark.parametrize("redirection", ["2>&-", "2>/dev/full"], ids=["closed", "full"])
def test_errors_that_cannot_be_written(program: Path, redirection: str) -> None:
    """If the line of a fault can't be written, its status is still right."""
    shown = run(
        program,
        ["run"],
        b"version = 0\n",
        before=["sh", "-c", f'exec "$0" "$@" {redirection}'],
    )
    assert shown == Shown(b"", b"", formats.status_of("scenario"))


# ---- files


def without_rights() -> None:
    """Takes from the process, and the program that it becomes, the right to read what it may not."""
    for right_to in (LINUX_CAP_DAC_OVERRIDE, LINUX_CAP_DAC_READ_SEARCH):
        if ctypes.CDLL(None).prctl(LINUX_PR_CAPBSET_DROP, right_to, 0, 0, 0):
            os._exit(99)


@pytest.mark.parametrize("command", FILE_COMMANDS, ids=named)
@pytest.mark.parametrize("kind", ["missing", "a_folder", "unreadable"])
def test_file_that_cannot_be_read(
    program: Path, room: Path, command: Command, kind: str
) -> None:
    """A file that cannot be read is reported."""
    file = {"missing": room / "none", "a_folder": room, "unreadable": room / "FILE"}[
        kind
    ]
    prepare = without_rights if kind == "unreadable" and os.geteuid() == 0 else None
    command.in_room(room)
    if kind == "unreadable":
        file.chmod(0)
    assert (
        as_wanted(
            run(
                program, [command.words[0], str(file)], command.data, preexec_fn=prepare
            ),
            READING,
        )
        is True
    )


@pytest.mark.parametrize("command", FILE_COMMANDS, ids=named)
def test_file_that_is_a_pipe(program: Path, room: Path, command: Command) -> None:
    """A file may be a pipe that gives single bytes."""
    pipe = room / "pipe"
    os.mkfifo(pipe)
    # Opened to be read as well, so that it waits for no reader. The program sees its end when this end is closed.
    writer = threading.Thread(
        target=dribble, args=(command.file, os.open(pipe, os.O_RDWR))
    )
    writer.start()
    shown = run(program, [command.words[0], str(pipe)], command.data)
    writer.join()
    assert command.is_right(shown), unlike(shown)


@pytest.mark.parametrize("command", FILE_COMMANDS, ids=named)
@pytest.mark.parametrize("more", [0, 1], ids=["most_bytes", "a_byte_more"])
def test_longest_file(answer: Answer, command: Command, more: int) -> None:
    """A file of the most bytes is read, and one of a byte more is not."""
    assert command.file is not None
    shown = answer(replace(command, file=command.file.ljust(LIMIT + more, b"x")))
    assert (
        as_wanted(shown, READING if more else refused(f"{command.reads.file} 1"))
        is True
    )


# ---- sizes


@pytest.mark.parametrize(
    "command", [it for it in COMMANDS if it.reads.input == "scenario"], ids=named
)
def test_longest_scenario(answer: Answer, command: Command) -> None:
    """An input of the most bytes is read, and one of a byte more is not. The scenario stands behind comments."""
    text = (b"#" * 99 + b"\n") * (LIMIT // 100)
    text = text[: LIMIT - len(command.data) - 1] + b"\n" + command.data
    assert command.is_right(answer(command, text))
    assert as_wanted(answer(command, b"\n" + text), READING) is True


def test_longest_schedule(program: Path) -> None:
    """A schedule of the most bytes is read, and one of a byte more is not. The turn that counts stands at its end."""
    turns, words = LIMIT // 2 - 1, ["replay", "1", "1", "0"]
    trace = b"e P3 0 0000000000000001\n" + b"e - - -\n" * (turns - 1) + b"p - - -\n"
    trace += b"published 0 ended 1\nreader 0 taken 0 left 0 ended 0\n"
    schedule = b"e\n" * turns + b"p\n"
    assert as_wanted(run(program, words, schedule), written(trace)) is True
    assert as_wanted(run(program, words, schedule + b"p"), READING) is True
