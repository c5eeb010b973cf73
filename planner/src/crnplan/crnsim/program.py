"""Finds the program crnsim and runs it. What that writes is exact and proved for its stream; this module is not."""
from __future__ import annotations

import contextlib
import ctypes
import os
import select
import shutil
import subprocess
import tomllib
from collections.abc import Iterable, Iterator, Sequence
from concurrent.futures import ThreadPoolExecutor
from dataclasses import dataclass
from pathlib import Path
from typing import IO

from ..arguments import judged
from ..errors import ProgramError, ProgramFailed, argument
from ..formats import STATUSES, status_of
from ..store.interrupts import interrupted_later
from . import BUILT, INSIDE

VARIABLE = "CRNSIM"
STREAMS = "input", "output", "errors"
JOBS = 4  # runs at a time: a run itself may use several processors
# Statuses with which no input is to blame.
FAILURES = {
    STATUSES[line] for line in ("reading", "writing", "thread", "gate", "memory")
}
# A run that takes longer never ends: the largest one takes some 30 ms on four processors.
RUN_SECONDS = 100.0
C_LIBRARY = ctypes.CDLL(None)


def _named(path: str | Path, how: str) -> Path:
    """Returns the absolute path of a program that is named: a path, or a plain name that is searched on PATH."""
    program = shutil.which(path)
    if program is None:
        fault = f"there is no program {path}"
        if os.path.exists(path):
            fault = f"{path} can't be run"
        raise ProgramError(
            f"{how}: {fault}; build crnsim, or name it with {argument('program')}"
        )
    return Path(os.path.abspath(program))


def program_and_reason(named: str | Path | None = None) -> tuple[Path, str]:
    """Returns the absolute path of the program, and how it was found.

    It is the first of these that there is: the named one; that of the variable CRNSIM; the one inside an installed
    package; the repository's build, if the package stands in the repository; crnsim on PATH. Raises ProgramError.
    """
    if named is not None:
        return _named(named, argument("program")), "named"
    if os.environ.get(VARIABLE):
        return _named(os.environ[VARIABLE], VARIABLE), f"the variable {VARIABLE}"
    if INSIDE.exists():
        return _named(INSIDE, "crnplan"), "the one inside crnplan"
    for folder in Path(__file__).resolve().parents:
        build = folder / "crates/crnsim/out/crnsim"
        if os.access(build, os.X_OK):
            return build, "the build of the repository"
    if shutil.which("crnsim"):
        return _named("crnsim", "PATH"), "PATH"
    raise ProgramError(
        f"crnsim was not found; build it, put it on PATH, or name it with {argument('program')} or the "
        f"variable {VARIABLE}"
    )


@dataclass(frozen=True)
class Build:
    """What an installed package is built of: the commit of the repository, and the digest of the program inside, by
    SHA-256. Its pages and examples are in a folder, which is named from that of crnplan.
    """

    commit: str
    program: str
    pages: str

    @property
    def folder(self) -> Path:
        """Returns the folder of the pages and examples."""
        return (BUILT.parents[1] / self.pages).resolve()


def build_of_package() -> Build | None:
    """Returns what the package is built of; None in a checkout of the repository."""
    if not BUILT.exists():
        return None
    return Build(**tomllib.loads(BUILT.read_text("utf-8")))


@judged("common")
def find_program(program: str | Path | None = None) -> Path:
    """Returns the absolute path of the program crnsim.

    It is the first of these that there is: the named one; that of the variable CRNSIM; the one inside an installed package;
    the repository's build, if the package stands in the repository; crnsim on PATH.

    Parameters
    ----------
    program : str or Path, optional
        A path, or a plain name that is searched on PATH.

    Returns
    -------
    Path
        The absolute path.

    Raises
    ------
    ProgramError
        If there is none, or it can't be run.

    Examples
    --------
    >>> crn.find_program().name
    'crnsim'
    """
    return program_and_reason(program)[0]


def program_for(named: str | Path | None, cluster: object) -> str:
    """Returns the program's path. The workers of a cluster may have a named one even if this machine has not."""
    if cluster is None or named is None:
        return str(find_program(named))
    return os.path.abspath(named) if os.sep in str(named) else str(named)


@contextlib.contextmanager
def own_processor() -> Iterator[None]:
    """Starts programs on the processor of this thread alone, if this is one of several processes that plan side by
    side: on several processors the threads of a short run wait for one another, which takes twice as long.
    """
    from multiprocessing import parent_process

    if parent_process() is None or not hasattr(os, "sched_setaffinity"):
        yield
        return
    allowed = os.sched_getaffinity(0)
    os.sched_setaffinity(0, {C_LIBRARY.sched_getcpu()})
    try:
        yield
    finally:
        os.sched_setaffinity(0, allowed)


class ProgramRuns:
    """The runs of the program that are under way, perhaps in several threads."""

    def __init__(self) -> None:
        self.under_way, self.is_over = set[subprocess.Popen[bytes]](), False

    def status_of(
        self,
        program: Path,
        words: Sequence[str],
        given: IO[bytes],
        output: IO[bytes],
        errors: IO[bytes],
    ) -> int:
        """Runs the program, and returns its status. It is ended if it takes too long, or if an error is raised
        meanwhile. Raises ProgramFailed."""
        with contextlib.ExitStack() as stack:
            with own_processor(), interrupted_later():
                run = stack.enter_context(
                    subprocess.Popen(
                        [program, *words], stdin=given, stdout=output, stderr=errors
                    )
                )
                stack.callback(self.under_way.discard, run)
                stack.callback(run.kill)
                self.under_way.add(run)
            if not self.is_over and has_ended(run):
                return run.wait()
        raise ProgramFailed(
            f"{program}: a run has not ended in {RUN_SECONDS:g} seconds, and was ended",
            "look for processes and memory of this machine, and run again",
        )

    def end(self) -> None:
        """Ends all runs, and begins no more."""
        self.is_over = True
        for run in [*self.under_way]:
            run.kill()


def has_ended(run: subprocess.Popen[bytes]) -> bool:
    """Waits until a run has ended, and returns whether it has in time."""
    try:
        ending = os.pidfd_open(run.pid)
    except OSError:  # an old kernel, on which waiting with a limit looks every 50 ms
        with contextlib.suppress(subprocess.TimeoutExpired):
            run.wait(RUN_SECONDS)
        return run.returncode is not None
    try:
        poll = select.poll()
        poll.register(ending, select.POLLIN)
        return bool(poll.poll(1_000 * RUN_SECONDS))
    finally:
        os.close(ending)


def run_program(
    program: Path, text: str, *words: str, together: ProgramRuns | None = None
) -> str:
    """Runs the program with words on a text, perhaps together with other runs, and returns its standard output. Raises
    ProgramError with its line.

    Its streams are files in memory: pipes would wake both processes in turn.
    """
    with contextlib.ExitStack() as stack:
        # In files in memory: a pipe that nobody reads meanwhile would fill, and stop the program.
        given, output, errors = (
            stack.enter_context(open(os.memfd_create(name), "w+b", 0))
            for name in STREAMS
        )
        given.write(text.encode())
        given.seek(0)
        try:
            status = (together or ProgramRuns()).status_of(
                program, words, given, output, errors
            )
        except OSError as fault:
            raise ProgramError(
                f"{program}: {fault.strerror}; build crnsim, or name it with "
                f"{argument('program')}"
            ) from fault
        for file in (output, errors):
            file.seek(0)
        written, said = output.read(), errors.read()
    _check_status(program, status, said.decode(errors="replace"))
    return written.decode()


def _check_status(program: Path, status: int, said: str) -> None:
    """Raises ProgramError, with what the program has said, if its status is not 0."""
    line = "; ".join(said.splitlines()) or f"no output, status {status}"
    # Below 0 it is the number of a signal that has ended the program.
    if status < 0 or status in FAILURES:
        raise ProgramFailed(
            f"{program}: {line}",
            "look for memory and processes of this machine, and run again",
        )
    hint = "; crnplan run says why" * (status == status_of("scenario"))
    if status:
        raise ProgramError(f"{program}: {line}{hint}")


def run_all(
    program: Path, runs: Iterable[tuple[str, ...]], jobs: int = JOBS
) -> list[str]:
    """Runs the program several times at once, each time on a text with words, and returns the outputs in order."""
    given = list(runs)
    if len(given) == 1:
        # As for most items of a catalogue: threads would take longer than the run.
        return [run_program(program, *given[0])]
    together = ProgramRuns()
    with ThreadPoolExecutor(jobs) as pool:
        try:
            # When one has failed, the map begins no more runs.
            return [
                *pool.map(
                    lambda run: run_program(program, *run, together=together), given
                )
            ]
        except BaseException:
            together.end()
            raise


def writes_known_report(program: Path) -> bool:
    """Returns whether the program writes the known report on a small scenario. Raises ProgramError if it fails."""
    folder = Path(__file__).parent
    scenario = (folder / "example.toml").read_text("utf-8")
    return run_program(program, scenario) == (folder / "example.csv").read_text("utf-8")
