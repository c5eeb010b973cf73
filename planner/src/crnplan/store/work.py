"""Has workers answer questions, and keeps each answer as it comes: so a run goes on where another one was broken off.

This process hands out batches of questions, and writes what comes back. Only so many batches are under way as there are
workers, twice. What grows with the questions is little: nothing is kept in memory but what waits for its turn.
"""
from __future__ import annotations

import contextlib
import sys
import time
import warnings
from collections import deque
from collections.abc import Callable, Generator, Iterable, Iterator, Sequence
from contextvars import ContextVar
from dataclasses import dataclass, field
from typing import Any, Generic, NamedTuple, TypeVar

from .jobs import BATCH, Workers, batched
from ..remarks import Remark
from .stored import NamedDigest, Sealed, Store, sealed

AHEAD = 2  # batches of each worker that are under way
MANY_BATCHES = 8  # of each worker, before batches get larger
LOOKED_AT = 1_000  # questions at a time, whether they have answers
MOST_WAITING = 2_000  # of what was asked, with answers that came before others
MOST_LINES = 10  # of progress, in a log
Row = TypeVar("Row")


class Known(NamedTuple):
    """An answer that needs no worker."""

    answer: Any


class Answered(NamedTuple):
    """A question whose answer is kept, and what was asked of workers: None if that was in an earlier run, or if too much
    would have to wait."""

    name: str
    digest: str
    asked: Any = None


def answer_batch(
    kind: type[Row],
    function: Callable[..., Row | Remark],
    batch: Sequence[tuple[NamedDigest, Any]],
    *words: Any,
) -> list[Sealed]:
    """Returns the answers to some questions as they are kept."""
    answers = list[Sealed]()
    for question, asked in batch:
        answers.append(sealed(kind, *question, function(asked, *words)))
    return answers


@dataclass
class Work(Generic[Row]):
    """Which questions are answered into a store, and how.

    `questions` returns them in order of names, each time anew. `ask` returns what is asked of a name, or what is known.
    Workers call `function` with what is asked and with `words`; it returns the answer. A `batch` has so many questions, or
    as many as workers take. Before workers begin, this process calls `load` for what they are to have from the start.
    `kept` counts the answers that need no worker, and `now` the others.
    """

    store: Store[Row]
    questions: Callable[[], Iterable[NamedDigest]]
    ask: Callable[[str], Any]
    function: Callable[..., Row | Remark]
    words: Sequence[Any] = ()
    unit: str = "items"
    batch: int | None = None
    load: Callable[[], object] | None = None
    total: int = field(default=0, init=False)
    kept: int = field(default=0, init=False)

    def __post_init__(self) -> None:
        self.store.renew()
        for block in batched(self.questions(), LOOKED_AT):
            self.total += len(block)
            self.kept += len(block) - len(self.store.lacking(block))

    @property
    def now(self) -> int:
        return self.total - self.kept

    def finish(
        self,
        workers: contextlib.AbstractContextManager[Workers],
        facts: dict[str, str] | None = None,
        *,
        shown: bool,
    ) -> None:
        """Answers all questions, and makes them those that were asked last, with facts."""
        for _ in self.answered(workers, shown=shown):
            pass
        self.store.finish(self.questions(), facts or {})

    def answered(
        self, workers: contextlib.AbstractContextManager[Workers], *, shown: bool
    ) -> Generator[Answered, None, None]:
        """Yields all questions in order, each once its answer and all before it are kept. If all are, no worker is
        asked. If it is not run to its end, it has to be closed, so that the workers end.
        """
        turns = _Turns()
        if self.now:
            if self.load:
                self.load()
            with progress(
                self.total, shown, self.unit, self.kept
            ) as done, workers as running:
                done.add(0)
                batches = self._batches(turns, done, running)
                for questions, answers in running.answers(answer_batch, batches, AHEAD):
                    self.store.keep(answers)
                    done.add(len(answers))
                    turns.end(questions)
                    yield from turns.ready()
        else:
            for question in self.questions():
                yield Answered(*question)
        yield from turns.ready()

    def _batches(
        self, turns: _Turns, done: Progress, running: Workers
    ) -> Iterator[tuple[Any, Sequence[Any]]]:
        """Yields the questions of each batch with the words of `answer_batch`."""
        words = running.share(self.words)
        many = self.now // (MANY_BATCHES * running.most)
        size = self.batch or min(running.largest, max(BATCH, many))
        for batch in batched(self._left(turns, done), size):
            questions = [question for question, _ in batch]
            yield questions, [self.store.kind, self.function, batch, *words]

    def _left(self, turns: _Turns, done: Progress) -> Iterator[tuple[NamedDigest, Any]]:
        """Yields the questions that workers have to answer, each with what is asked. What is known is kept."""
        for block in batched(self.questions(), LOOKED_AT):
            left = {*self.store.lacking(block)}
            for question in block:
                asked = self.ask(question[0]) if question in left else None
                if question in left and not isinstance(asked, Known):
                    turns.begin(question, asked)
                    yield question, asked
                    continue
                if isinstance(asked, Known):
                    self.store.keep([sealed(self.store.kind, *question, asked.answer)])
                    self.kept += 1
                    done.add(1, 1)
                turns.add(question)


class _Turns:
    """Questions in order, of which some wait for their answers."""

    def __init__(self) -> None:
        self._order, self._waiting = deque[Answered](), set[NamedDigest]()

    def add(self, question: NamedDigest, asked: Any = None) -> None:
        if len(self._order) >= MOST_WAITING:
            asked = None
        self._order.append(Answered(*question, asked))

    def begin(self, question: NamedDigest, asked: Any) -> None:
        self._waiting.add(question)
        self.add(question, asked)

    def end(self, questions: Iterable[NamedDigest]) -> None:
        self._waiting.difference_update(questions)

    def ready(self) -> Iterator[Answered]:
        while self._order and self._order[0][:2] not in self._waiting:
            yield self._order.popleft()


class Progress:
    """How many of a total are done, of which some are `kept` from before. It is shown as a bar on a terminal and in a
    notebook; in a log, on standard error, as a line at once, and whenever a further ninth of them is done.
    """

    def __init__(
        self, total: int, unit: str, kept: int, show: Callable[[Progress], object]
    ) -> None:
        self.total, self.unit, self.done, self.kept, self.show = (
            total,
            unit,
            kept,
            kept,
            show,
        )
        self.start, self.ninths = time.monotonic(), set[int]()

    def add(self, done: int, kept: int = 0) -> None:
        """Counts and shows more that are done, of which some are kept from before."""
        self.done += done
        self.kept += kept
        self.show(self)

    @property
    def left(self) -> str:
        """Returns the time that is left, as 01:48; empty if that is not known."""
        from tqdm import tqdm

        new, passed = self.done - self.kept, time.monotonic() - self.start
        if not new:
            return ""
        return str(tqdm.format_interval((self.total - self.done) * passed / new))

    def log(self) -> None:
        """Writes a line if a further ninth is done: how many are done and kept, and the time that is left."""
        ninth = self.done * (MOST_LINES - 1) // max(1, self.total)
        if ninth in self.ninths:
            return
        self.ninths.add(ninth)
        line = f"{self.done} of {self.total} {self.unit} ({self.kept} kept)"
        left = f", {self.left} left" if self.left else ""
        print(line + left, file=sys.stderr, flush=True)


def hide(progress: Progress) -> None:
    """Shows nothing."""


def in_notebook() -> bool:
    """Returns whether this process works for a notebook."""
    shell = getattr(sys.modules.get("IPython"), "get_ipython", lambda: None)()
    return "IPKernelApp" in getattr(shell, "config", ())


def bar_of(total: int, unit: str, kept: int) -> Any:
    """Returns a bar: on standard error; in a notebook one that goes when it is full, as text if there are no widgets, on
    standard output, since a notebook shows the other in red."""
    words: dict[str, Any] = {"total": total, "initial": kept, "unit": f" {unit}"}
    if not in_notebook():
        from tqdm import tqdm

        return tqdm(file=sys.__stderr__, dynamic_ncols=True, **words)
    with warnings.catch_warnings():  # that there are no widgets
        warnings.simplefilter("ignore")
        from tqdm.auto import tqdm as its_bar

    return its_bar(file=sys.stdout, leave=False, **words)


_shown_by: ContextVar[Callable[[Progress], object] | None] = ContextVar(
    "shown_by", default=None
)


@contextlib.contextmanager
def shown_by(show: Callable[[Progress], object]) -> Iterator[None]:
    """Has a function show within the block how much is done, in place of a bar or lines."""
    token = _shown_by.set(show)
    try:
        yield
    finally:
        _shown_by.reset(token)


@contextlib.contextmanager
def progress(total: int, shown: bool, unit: str, kept: int = 0) -> Iterator[Progress]:
    """Gives what counts how much is done, and shows it from the first call of `add` on, if it is to be shown. If work
    ends early, it says how much is kept then."""
    with contextlib.ExitStack() as stack:
        bars = list[Any]()

        def move(counted: Progress) -> None:
            if not bars:
                bars.append(stack.enter_context(bar_of(total, unit, kept)))
            bars[0].set_description(f"{counted.kept} kept", refresh=False)
            bars[0].update(counted.done - bars[0].n)

        usual = move if sys.stderr.isatty() or in_notebook() else Progress.log
        show = _shown_by.get() or usual
        counted = Progress(total, unit, kept, show if shown else hide)
        try:
            yield counted
        except BaseException:
            stack.close()
            if shown and counted.done:
                print(
                    f"{counted.done:,} of {total:,} {unit} are done and kept; run again to go on",
                    file=sys.stderr,
                )
            raise
