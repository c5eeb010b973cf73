"""Runs the program from outside, and says what a run shows."""
from __future__ import annotations

import contextlib
import os
import resource
import subprocess
from collections.abc import Callable, Iterator, Mapping, Sequence
from pathlib import Path
from typing import IO, Any, NamedTuple

from crnplan import formats

TOP = Path(__file__).resolve().parent.parent
# After so many seconds a run counts as one that does not end. Beside other work a ring of one slot can take ten.
SECONDS = 60
Words = Sequence["str | bytes | os.PathLike[str]"]


class Shown(NamedTuple):
    """What a run shows. Status None: it did not end in time. A negative one: a signal ended it."""

    output: bytes
    errors: bytes
    status: int | None


def refused(fault: str) -> Shown:
    """Returns what a run shows that ends with a fault, with the status of its line, and has written nothing."""
    return Shown(b"", f"crnsim: {fault}\n".encode(), formats.status_of(fault))


def written(output: bytes) -> Shown:
    """Returns what a run shows that ends well with this output."""
    return Shown(output, b"", 0)


def difference(shown: Shown, wanted: Shown) -> str:
    """Returns in what a run differs from what is wanted, in a line."""
    if shown.status is None:
        return "the run does not end"
    at = len(os.path.commonprefix([shown.output, wanted.output]))
    parts = (
        [f"status {shown.status}, not {wanted.status}"]
        if shown.status != wanted.status
        else []
    )
    parts += (
        [f"standard error {shown.errors[:200]!r}, not {wanted.errors!r}"]
        if shown.errors != wanted.errors
        else []
    )
    parts += (
        [
            f"from byte {at} on {shown.output[at:at + 60]!r}, not {wanted.output[at:at + 60]!r}"
        ]
        if shown.output != wanted.output
        else []
    )
    return "; ".join(parts)


def as_wanted(shown: Shown, wanted: Shown) -> bool | str:
    """Returns the verdict on a run: True, or in what it differs from what is wanted."""
    return shown == wanted or difference(shown, wanted)


@contextlib.contextmanager
def silent() -> Iterator[int]:
    """Yields a standard input that says nothing and doesn't end."""
    read_end, write_end = os.pipe()
    try:
        yield read_end
    finally:
        os.close(read_end)
        os.close(write_end)


def library(source: Path, folder: Path) -> Path:
    """Builds the library of a C file in a folder, to be loaded before a program, and returns its path."""
    made = folder / f"{source.stem}.so"
    subprocess.run(
        ["cc", "-O1", "-shared", "-fPIC", "-o", made, source, "-ldl"], check=True
    )
    return made


def prepared(closed: bool, kilobytes: int | None) -> Callable[[], None] | None:
    """Returns what a new process does before it becomes the program: it closes its output, or limits its address space.

    If there is nothing to do, a process starts without a copy of this one, which takes less time.
    """

    def prepare() -> None:
        if kilobytes:
            resource.setrlimit(resource.RLIMIT_AS, (1024 * kilobytes, 1024 * kilobytes))
        if closed:
            os.close(1)

    return prepare if closed or kilobytes else None


def run(
    program: Path | str,
    words: Words,
    data: bytes | int | IO[bytes] | None = None,
    *,
    to: str | None = None,
    cwd: Path = TOP,
    kilobytes: int | None = None,
    environment: Mapping[str, str] | None = None,
    seconds: float = SECONDS,
) -> Shown:
    """Runs the program in a folder, and returns what it shows. A run that does not end in time is killed.

    Its input is a text, an open file, or one that is silent for ever (None). Its output goes to the file `to` if there
    is one; `closed` is no output at all. Its address space may have a limit.
    """
    with contextlib.ExitStack() as stack:
        closed = to == "closed"
        output = (
            stack.enter_context(open(to, "wb"))
            if to and not closed
            else subprocess.PIPE
        )
        if not isinstance(data, bytes):
            given: dict[str, Any] = {
                "stdin": stack.enter_context(silent()) if data is None else data
            }
        else:
            given = {"input": data}
        try:
            ran = subprocess.run(
                [program, *words],
                stdout=output,
                stderr=subprocess.PIPE,
                cwd=cwd,
                timeout=seconds,
                check=False,
                env={**os.environ, **environment} if environment else None,
                preexec_fn=prepared(closed, kilobytes),
                **given,
            )
        except subprocess.TimeoutExpired:
            return Shown(b"", b"", None)
    return Shown(ran.stdout or b"", ran.stderr, ran.returncode)
