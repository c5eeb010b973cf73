"""Tests that answers are the same for any workers and interruptions, that none is asked for twice, and none is lost."""
from __future__ import annotations

import contextlib
import os
import resource
import signal
import time
from collections.abc import Callable, Iterator, Sequence
from dataclasses import dataclass
from pathlib import Path
from typing import Any
from unittest.mock import Mock

import pytest

from crnplan.store import jobs, work
from crnplan.store.digests import digest_of
from crnplan.errors import Failed
from crnplan.store.jobs import BATCH
from crnplan.plan.answer import Correction
from crnplan.remarks import Remark
from crnplan.store.stored import NamedDigest, Store
from crnplan.store.work import Known, Work

NAMES = sorted(f'{place:02} "ä",' for place in range(40))
KNOWN = NAMES[7]
NUMBERS = [number for number in range(40) if number != 7]
Squares = Store[Correction]


@dataclass(frozen=True)
class Asking:
    """Asks for the squares of the numbers in names, to which a number is added. One of them is known."""

    names: Sequence[str] = tuple(NAMES)
    added: int = 0

    def questions(self) -> Iterator[NamedDigest]:
        for name in self.names:
            yield name, digest_of(name, self.added)

    def ask(self, name: str) -> int | Known:
        return (
            Known(Correction(-1.0, self.added, 0.0)) if name == KNOWN else int(name[:2])
        )

    def wanted(self) -> dict[str, Correction | Remark]:
        return {
            name: Correction(-1.0, self.added, 0.0)
            if name == KNOWN
            else square(int(name[:2]), self.added)
            for name in self.names
        }


def square(number: int, added: int) -> Correction | Remark:
    return (
        Remark("odd", {"number": number})
        if number % 9 == 5
        else Correction(float(number**2), added, 0.0)
    )


def squares(number: int, folder: Path, added: int) -> Correction | Remark:
    """Notes what is asked."""
    with (folder / "asked").open("a") as file:
        file.write(f"{number}\n")
    return square(number, added)


def once(folder: Path) -> bool:
    """Returns whether this is the first call."""
    with contextlib.suppress(FileExistsError):
        (folder / "once").touch(exist_ok=False)
        return True
    return False


def hanging(number: int, folder: Path, added: int) -> Correction | Remark:
    """Hangs at the first number of all, or of a batch as long as a file is there."""
    while once(folder) or number == 17 and (folder / "hangs").exists():
        time.sleep(60)
    return squares(number, folder, added)


def killing(number: int, folder: Path, added: int) -> Correction | Remark:
    """Kills its process at the first number of a batch, once or each time."""
    if number == 25 and ((folder / "always").exists() or once(folder)):
        (folder / f"killed {os.getpid()}").touch()
        os.kill(os.getpid(), signal.SIGKILL)
    return squares(number, folder, added)


def asked(folder: Path) -> list[int]:
    """Returns what was asked for since the last call."""
    path = folder / "asked"
    numbers = [*map(int, path.read_text().split())] if path.exists() else []
    path.unlink(missing_ok=True)
    return sorted(numbers)


@pytest.fixture
def store(tmp_path: Path) -> Iterator[Squares]:
    with contextlib.closing(Store(tmp_path / "kept", Correction)) as kept:
        yield kept


def work_of(
    store: Squares, function: Callable[..., Any] = squares, asking: Asking = Asking()
) -> Work[Correction]:
    return Work(
        store, asking.questions, asking.ask, function, (store.path.parent, asking.added)
    )


def done(
    store: Squares,
    function: Callable[..., Any] = squares,
    count: int = 1,
    asking: Asking = Asking(),
) -> int:
    """Answers all, and returns how many were kept from before. The answers are those that they should be."""
    running, wanted = work_of(store, function, asking), asking.wanted()
    running.finish(jobs.processes(count), {"a": "fact"}, shown=False)
    assert [(name, answer) for name, _, answer in store.answers()] == [*wanted.items()]
    assert [*store.digests()] == [*asking.questions()]
    assert store.fact("a") == "fact"
    assert {name: store.answer(name) for name in wanted} == wanted
    assert store.answer("none") is None
    assert running.now + running.kept == len(wanted)
    return running.kept


@pytest.mark.parametrize("count", [1, 3])
@pytest.mark.parametrize("size", [1, 7, 256])
def test_any_batches_and_workers(
    store: Squares, monkeypatch: pytest.MonkeyPatch, size: int, count: int
) -> None:
    """The answers are the same, and nothing is asked twice. Other questions are asked, and but for those that changed,
    no item is asked again."""
    for name in ("BATCH", "LOOKED_AT"):
        monkeypatch.setattr(work, name, size)
    folder = store.path.parent
    assert done(store, count=count) == 1
    assert asked(folder) == NUMBERS
    assert done(store, count=count) == 40
    assert asked(folder) == []
    assert done(store, count=count, asking=Asking((*NAMES[1:], "90"))) == 39
    assert asked(folder) == [90]
    assert done(store, count=count, asking=Asking(added=1)) == 1
    assert asked(folder) == NUMBERS


def test_large_batches(store: Squares) -> None:
    """Workers for which a batch costs time get larger ones, if there are many items for each."""
    sizes = list[int]()

    class Far(jobs.Workers):
        """This process, as if it were far away."""

        largest = 3 * BATCH

        def submit(self, function: Any, words: Any, late: Any = ()) -> Any:
            sizes.append(len(words[2]))
            return super().submit(function, words, late)

    for times, wanted in ((1, BATCH), (10, 10), (99, 3 * BATCH)):
        names = [
            f"{place:02} {place // 100}" for place in range(times * work.MANY_BATCHES)
        ]
        asking = Asking(sorted(names), added=times)
        work_of(store, asking=asking).finish(contextlib.nullcontext(Far()), shown=False)
        assert max(sizes) == wanted
        sizes.clear()


def test_a_worker_that_hangs(store: Squares, monkeypatch: pytest.MonkeyPatch) -> None:
    """Another one gets its batch. If that hangs on all, nothing is lost that was done, and the last answers stay."""
    monkeypatch.setattr(jobs, "LIMIT_SECONDS", 1.0)
    with monkeypatch.context() as patient:  # as slow as the machine may be
        patient.setattr(jobs, "MOST_TRIES", 999)
        assert done(store, hanging, 2) == 1
    folder, before = store.path.parent, [*store.answers()]
    asked(folder)
    (folder / "hangs").touch()
    others = 40 - BATCH - 1

    def now() -> float:
        """Returns the time, which stands still until all batches are done but the one that hangs."""
        path = folder / "asked"
        count = len(path.read_text().split()) if path.exists() else 0
        return time.monotonic() if count == others else 0.0

    monkeypatch.setattr(jobs, "time", Mock(monotonic=now))
    with pytest.raises(
        Failed, match="has taken longer than 1 seconds on each of 3 workers"
    ):
        done(store, hanging, 4, Asking(added=1))
    assert [*store.answers()] == before
    numbers = {*asked(folder)}
    assert len(numbers) == others
    assert not numbers & {*range(17, 24)}
    (folder / "hangs").unlink()
    assert done(store, squares, 1, Asking(added=1)) == 1 + len(numbers)


def test_a_worker_that_is_killed(store: Squares) -> None:
    """Another one gets its batch. If each one ends, the run does, and what others did is kept."""
    folder = store.path.parent
    assert done(store, killing, 2) == 1
    assert asked(folder) == NUMBERS
    (folder / "always").touch()
    with pytest.raises(
        Failed, match="have ended by force 4 times .was there enough memory"
    ):
        done(store, killing, 2, Asking(added=1))
    assert len([*folder.glob("killed *")]) == 1 + 4
    numbers = {*asked(folder)}
    assert {*range(16)} - {7} <= numbers
    assert 25 not in numbers
    (folder / "always").unlink()
    most = 2 * work.AHEAD * BATCH
    assert (
        1 + len(numbers) - most
        <= done(store, killing, 2, Asking(added=1))
        <= 1 + len(numbers)
    )


def test_a_full_disk(store: Squares) -> None:
    """The error of the disk ends the run, and what was kept before it is not asked again."""
    folder, limits = store.path.parent, resource.getrlimit(resource.RLIMIT_FSIZE)

    def filling(number: int, room: Path, added: int) -> Correction | Remark:
        if number == 25 and once(room):
            resource.setrlimit(resource.RLIMIT_FSIZE, (100, limits[1]))
        if resource.getrlimit(resource.RLIMIT_FSIZE) == limits:
            return squares(number, folder, added)
        return square(number, added)

    try:
        with pytest.raises(Exception, match="disk I/O error|full"):
            done(store, filling)
    finally:
        resource.setrlimit(resource.RLIMIT_FSIZE, limits)
    before = {*asked(folder)}
    assert {*range(24)} - {7} <= before
    assert done(store) == 1 + len(before)
    assert not before & {*asked(folder)}


def test_answers_come_in_order(store: Squares) -> None:
    """Names come in order, each once its answer and all before it are kept, with what was asked now. An early end keeps
    what is done, but not as the answers that are read."""

    class Turned(jobs.Workers):
        """Is done with the last batches first."""

        def answers(self, *words: Any) -> Iterator[Any]:
            yield from [*super().answers(*words)][::-1]

    workers = contextlib.nullcontext(Turned())
    with contextlib.closing(work_of(store).answered(workers, shown=False)) as answered:
        first = next(answered)
        assert first[:2] == next(Asking().questions())
        assert first.asked == 0
        assert store.found(*first[:2]) == Correction(0.0, 0, 0.0)
        assert [*store.answers()] == []
    answered = work_of(store).answered(workers, shown=False)
    assert [(name, digest) for name, digest, _ in answered] == [*Asking().questions()]
    assert work_of(store).kept == len(NAMES)
    assert [*store.answers()] == []


def test_what_waits_is_not_kept_in_memory(
    store: Squares, monkeypatch: pytest.MonkeyPatch
) -> None:
    """If too many answers wait for one before them, what was asked is not held."""
    monkeypatch.setattr(work, "MOST_WAITING", 10)
    answered = work_of(store).answered(jobs.processes(2), shown=False)
    found = [asked for name, _, asked in answered if name != KNOWN]
    assert len(found) == 39
    for place, number in enumerate(found):
        assert number in (None, place + (place > 6))


def test_answers_of_another_version(store: Squares) -> None:
    """Answers with other columns are none, and stay until they are made again."""
    done(store)
    store.base.execute("ALTER TABLE answers RENAME COLUMN aim TO goal")
    with contextlib.closing(Store(store.path, Correction)) as other:
        assert not other.is_ours
        assert [*other.answers()] == []
        assert other.answer(NAMES[0]) is None
        assert other.base.execute("SELECT count(*) FROM answers").fetchone() == (40,)
        assert done(other) == 1


def counts(line: str) -> str:
    """Returns a line of a log without its rate and the time that is left."""
    return line.split(",")[0]


@pytest.mark.parametrize("total", [1, 2, 8, 9, 10, 11, 100, 12345])
def test_lines_begin_and_end(capsys: pytest.CaptureFixture[str], total: int) -> None:
    """Checks the first and the last line, and that there are at most ten, for each kept number of a few."""
    for kept in {0, total // 2, total}:
        with work.progress(total, True, "scenarios", kept) as done:
            done.add(0)
            for _ in range(kept + 1, total + 1):
                done.add(1)
        shown = capsys.readouterr().err.splitlines()
        assert shown[0] == f"{kept} of {total} scenarios ({kept} kept)"
        assert len(shown) <= 10
        assert counts(shown[-1]) == f"{total} of {total} scenarios ({kept} kept)"
    with work.progress(total, False, "scenarios") as done:
        done.add(total)
    assert capsys.readouterr() == ("", "")
