"""Runs batches of work in this process, or in others.

A batch that takes too long is given to another worker as well; what comes first counts.
"""
from __future__ import annotations

import contextlib
import itertools
import queue
import time
from collections.abc import Callable, Iterable, Iterator, Sequence
from concurrent import futures
from dataclasses import dataclass, field
from typing import Any, Generic, TypeVar

from ..errors import Failed, Refused, argument
from .files import KEPT
from .interrupts import interrupted_later
from .processes import SharedValue, Worker, end_with_programs

# Items of a batch. So much of each worker is lost at most if all ends by force. A cluster takes some milliseconds for a
# batch, so if there are many items, they are sent in larger ones.
BATCH, LARGE_BATCH = 8, 64
# A batch of items takes seconds. After so many it is given to a further worker, and after so many workers all ends.
LIMIT_SECONDS, MOST_TRIES = 900.0, 3
LOOKS = 8  # for late batches, in that time
MOST_ENDS = 4  # of processes by force while they had the same batch
Key = TypeVar("Key")
Value = TypeVar("Value")


def batched(values: Iterable[Value], most: int) -> Iterator[list[Value]]:
    """Yields values in lists of at most so many."""
    rest = iter(values)
    while some := [*itertools.islice(rest, most)]:
        yield some


class Workers:
    """What runs functions: this process, or others. Those that are others take all batches at once."""

    most, are_others = 1, False
    largest = BATCH  # items of a batch

    def share(self, words: Sequence[Any]) -> Sequence[Any]:
        """Returns words as they are sent to many functions."""
        return words

    def submit(
        self,
        function: Callable[..., Any],
        words: Sequence[Any],
        late: Sequence[Any] = (),
    ) -> Any:
        """Begins to run a function, not where it is late, and returns the future."""
        future: futures.Future[Any] = futures.Future()
        future.set_result(function(*words))
        return future

    def begun(self, waiting: Iterable[Any]) -> list[Any]:
        """Returns those of some futures that a worker has."""
        return [future for future in waiting if future.running()]

    def silent(self, waiting: Iterable[Any]) -> list[Any]:
        """Returns those of some futures whose worker is not heard of any more. Raises Failed if no worker is."""
        return []

    @property
    def look_seconds(self) -> float:
        """Returns after how many seconds batches are looked at."""
        return LIMIT_SECONDS / LOOKS

    def result(self, future: Any) -> Any:
        """Returns the result of a future that is done. Raises what the function has raised, and a stranger's error."""
        result = future.result()
        if isinstance(result, Refused):
            raise result
        return result

    def answers(
        self,
        function: Callable[..., Any],
        batches: Iterable[tuple[Key, Sequence[Any]]],
        ahead: int = 1,
    ) -> Iterator[tuple[Key, Any]]:
        """Yields the key of each batch of words with what a function returns for these, as it comes. Each of other
        processes has `ahead` batches under way, this one has one. Raises Failed."""
        run = _Run[Key](self, function)
        rest = itertools.starmap(_Batch[Key], batches)
        try:
            while True:
                for batch in itertools.islice(rest, run.room(ahead)):
                    run.begin(batch)
                if not run.under_way:
                    return
                if done := run.next_done():
                    yield done.key, done.result
                    # Else a result stays in memory while the next one is waited for.
                    del done
        finally:
            run.under_way.clear()  # A cluster drops what nobody waits for.

    def in_order(
        self,
        function: Callable[..., Any],
        many: Iterable[Sequence[Any]],
        ahead: int = 1,
    ) -> Iterator[Any]:
        """Yields what a function returns for each of many words, in their order, as `answers` does."""
        results, place = dict[int, Any](), 0
        for at, result in self.answers(function, enumerate(many), ahead):
            results[at] = result
            while place in results:
                yield results.pop(place)
                place += 1


@dataclass(eq=False)
class _Batch(Generic[Key]):
    """A batch that is under way: its futures, one for each worker that has it, since when the latest one may, and how
    many processes have ended by force with it."""

    key: Key
    words: Sequence[Any]
    futures: list[Any] = field(default_factory=list)
    since: float = 0.0
    ends: int = 0
    result: Any = None


class _Run(Generic[Key]):
    """The batches that are under way: by future, of which those that are done stand in a queue."""

    def __init__(self, workers: Workers, function: Callable[..., Any]) -> None:
        self.workers, self.function = workers, function
        self.under_way, self.done = dict[Any, _Batch[Key]](), queue.SimpleQueue[Any]()
        self.due = time.monotonic() + workers.look_seconds

    def room(self, ahead: int) -> int:
        """Returns how many more batches are given."""
        each = ahead if self.workers.are_others else 1
        return max(0, self.workers.most * each - len(self.under_way))

    def begin(self, batch: _Batch[Key], late: Sequence[Any] = ()) -> None:
        """Gives a batch to a worker, not where it is late."""
        future = self.workers.submit(self.function, batch.words, late)
        batch.futures.append(future)
        self.under_way[future] = batch
        future.add_done_callback(self.done.put)

    def next_done(self) -> _Batch[Key] | None:
        """Returns a batch that is done, with its result; None if that takes a while, or another worker was first."""
        if time.monotonic() >= self.due:
            self._give_late()
        try:
            future = self.done.get(timeout=max(0.0, self.due - time.monotonic()))
        except queue.Empty:
            return None
        batch = self.under_way.pop(future, None)
        return batch and self._ended(batch, future)

    def _ended(self, batch: _Batch[Key], future: Any) -> _Batch[Key] | None:
        """Returns a batch with its result; None if its process has ended by force, and another one gets the batch."""
        try:
            batch.result = self.workers.result(future)
        except futures.BrokenExecutor:
            batch.ends += 1
            if batch.ends == MOST_ENDS:
                raise
            batch.futures.remove(future)
            self.begin(batch)
            return None
        for each in batch.futures:
            self.under_way.pop(each, None)
        return batch

    def _give_late(self) -> None:
        """Gives each batch that takes too long to a further worker. Raises Failed if enough of them have it."""
        now, under_way = time.monotonic(), self.under_way
        self.due = now + self.workers.look_seconds
        silent = {*self.workers.silent(under_way)}
        for batch in {under_way[future] for future in self.workers.begun(under_way)}:
            # Its time begins when a worker is first seen to have it: before, it waits.
            batch.since = batch.since or now
            is_late = now - batch.since >= LIMIT_SECONDS
            if not is_late and not silent.issuperset(batch.futures):
                continue
            if len(batch.futures) == MOST_TRIES:
                raise Failed(
                    f"a batch has taken longer than {LIMIT_SECONDS:g} seconds on each of {MOST_TRIES} workers",
                    f"{KEPT}; look at these workers, and run again",
                )
            batch.since = now
            self.begin(batch, batch.futures)


class Processes(Workers):
    """So many processes of this machine, each of which a thread sends one batch at a time. One that ends by force is
    begun anew with the next batch."""

    are_others = True

    def __init__(self, most: int) -> None:
        self.most, self.workers = most, list[Worker]()
        self.idle = queue.SimpleQueue[Worker | None]()
        self.threads = futures.ThreadPoolExecutor(most)

    def share(self, words: Sequence[Any]) -> Sequence[Any]:
        return [*map(SharedValue, words)]

    def submit(
        self,
        function: Callable[..., Any],
        words: Sequence[Any],
        late: Sequence[Any] = (),
    ) -> Any:
        if len(self.workers) < self.most:  # as many as there are batches at most
            with interrupted_later():
                self.workers.append(worker := Worker())
            self.idle.put(worker)
        return self.threads.submit(self._call, function, words)

    def _call(self, function: Callable[..., Any], words: Sequence[Any]) -> Any:
        """Has a process that does nothing call a function. Raises BrokenExecutor if the process ends by force."""
        worker = self.idle.get()
        if worker is None:
            raise futures.CancelledError
        try:
            return worker.call(function, words)
        except futures.BrokenExecutor:
            self.workers.remove(worker)
            raise
        finally:
            if worker in self.workers:
                self.idle.put(worker)

    def end(self) -> None:
        """Ends all processes, whatever they do, and all threads."""
        self.threads.shutdown(wait=False, cancel_futures=True)
        end_with_programs([worker.process for worker in [*self.workers]])
        for _ in range(self.most):
            # A thread may wait for an idle process.
            self.idle.put(None)
        self.threads.shutdown()


@contextlib.contextmanager
def processes(jobs: int) -> Iterator[Workers]:
    """Gives so many processes of this machine. With one, all runs in this one."""
    if jobs == 1:
        yield Workers()
        return
    workers = Processes(jobs)
    try:
        yield workers
    except futures.BrokenExecutor as fault:
        raise Failed(
            f"worker processes have ended by force {MOST_ENDS} times (was there enough memory?)",
            f"{KEPT}; run again, with fewer {argument('jobs')} if memory is short",
        ) from fault
    finally:
        with interrupted_later():
            workers.end()
