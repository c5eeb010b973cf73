"""Has the workers of a Dask cluster run batches of work.

An answer is the same wherever it comes from: workers say which crnplan and crnsim they have, and others than here are
refused.
"""
from __future__ import annotations

import contextlib
import importlib
import itertools
import math
import operator
import shutil
import time
from collections.abc import Callable, Iterable, Iterator, Mapping, Sequence
from concurrent import futures
from pathlib import Path
from typing import TYPE_CHECKING, Any, Union

from ..errors import Failed, Refused, argument
from .digests import sha256
from .files import KEPT, package_digest
from .jobs import LARGE_BATCH, LOOKS, Workers

if TYPE_CHECKING:
    from distributed import Client

# A worker that nobody has heard of for so long does nothing more. Most send a sign each second.
LOST_SECONDS = 60.0
CONNECT_SECONDS, WORKER_SECONDS = 10, 30
COUNT_SECONDS = 1.0  # after which the processors of a cluster are counted again
# A Dask scheduler: its address, or a client of it.
Scheduler = Union[str, "Client"]


def identity(program: str) -> dict[str, str]:
    """Returns the digests of what makes figures here: of crnplan, and of a program, empty if it is not there."""
    path = shutil.which(program) if program else None
    return {
        "crnplan": package_digest(),
        "crnsim": sha256(Path(path).read_bytes()) if path else "",
    }


def stranger(worker: str, own: Mapping[str, str], answer: object) -> Refused | None:
    """Returns the error of a worker of a cluster that would give other figures, by its `identity` or why it has none,
    beside what is here; None if it would not."""
    what = [f"can't say which crnplan it has ({answer})"]
    if isinstance(answer, Mapping):
        what.clear()
        for name, digest in own.items():
            if answer[name] != digest:
                what.append(f"has {'another' if answer[name] else 'no'} {name}")
    if not what:
        return None
    return Refused(
        f"the worker {worker} {' and '.join(what)}, and would give other figures",
        f"{KEPT}; give all workers the crnplan and the crnsim of this machine",
    )


def run_as_here(
    function: Callable[..., Any], own: Mapping[str, str], program: str, *words: Any
) -> Any:
    """Returns what a function returns on the worker of a cluster that this runs on. A stranger does not call it, and
    its error is returned: one that is raised would have the scheduler try another worker.
    """
    worker: Any = importlib.import_module("distributed").get_worker()
    name = f"{worker.name} ({worker.address})"
    return stranger(name, own, identity(program)) or function(*words)


class Cluster(Workers):
    """The workers of a Dask scheduler that have the crnplan and the program of this machine. Some may end, and others
    may come."""

    are_others, largest = True, LARGE_BATCH

    def __init__(self, client: Any, program: str) -> None:
        """Asks all workers that are there what they have. Raises Refused if one has something else."""
        client.wait_for_workers(1, WORKER_SECONDS)
        self.client, self.program, self.own = client, program, identity(program)
        self.signs, self.heard = dict[str, tuple[Any, float]](), time.monotonic()
        # When processors were counted, and how many there were.
        self.counted = -math.inf, 1
        answers = client.run(identity, program, on_error="return")
        workers = client.scheduler_info()["workers"]
        known = [
            answer["crnsim"] for answer in answers.values() if type(answer) is dict
        ]
        # This machine need not have crnsim: then all workers must have the same one.
        if known and not self.own["crnsim"]:
            self.own["crnsim"] = known[0]
        for address, answer in answers.items():
            name = f"{workers.get(address, {}).get('id')} ({address})"
            if fault := stranger(name, self.own, answer):
                raise fault

    @property
    def most(self) -> int:  # type: ignore[override]
        """Returns how many processors the workers have that are there now, or were there less than a second ago."""
        now = time.monotonic()
        if now - self.counted[0] > COUNT_SECONDS:
            self.counted = now, max(1, int(sum(self.client.ncores().values())))
        return self.counted[1]

    def share(self, words: Sequence[Any]) -> Sequence[Any]:
        """Returns words that go to each worker once. What is scattered is lost with the worker that has it; these are
        results, which the scheduler makes anew."""
        submit = self.client.submit
        return [submit(operator.getitem, [word], 0, pure=False) for word in words]

    def submit(
        self,
        function: Callable[..., Any],
        words: Sequence[Any],
        late: Sequence[Any] = (),
    ) -> Any:
        """Begins to run a function on a worker, not on those where it is late, if there are others."""
        keys, others = {future.key for future in late}, list[str]()
        busy = self.client.processing() if late else {}
        for address, running in busy.items():
            if keys.isdisjoint(running):
                others.append(address)
        return self.client.submit(
            run_as_here,
            function,
            self.own,
            self.program,
            *words,
            pure=False,
            retries=2,
            workers=others or None,
        )

    @property
    def look_seconds(self) -> float:
        return min(super().look_seconds, LOST_SECONDS / LOOKS)

    def silent(self, waiting: Iterable[Any]) -> list[Any]:
        now, signs = time.monotonic(), self.client.scheduler_info()["workers"]
        for address, sign in signs.items():
            if self.signs.get(address, ("", 0.0))[0] != sign.get("last_seen"):
                self.signs[address], self.heard = (sign.get("last_seen"), now), now
        if now - self.heard > LOST_SECONDS:
            raise Failed(
                f"no worker has been heard of for {LOST_SECONDS:g} seconds",
                f"{KEPT}; look at the workers, and run again",
            )
        running, keys = self.client.processing(), set[str]()
        for address in signs:
            if now - self.signs[address][1] > LOST_SECONDS:
                keys.update(running.get(address, ()))
        return [future for future in waiting if future.key in keys]

    def begun(self, waiting: Iterable[Any]) -> list[Any]:
        keys = {*itertools.chain.from_iterable(self.client.processing().values())}
        return [future for future in waiting if future.key in keys]


@contextlib.contextmanager
def client_of(scheduler: Scheduler) -> Iterator[Any]:
    """Gives the client of a Dask scheduler. One that was given stays open. Raises Refused if the scheduler can't be
    reached."""
    try:
        distributed: Any = importlib.import_module("distributed")
    except ImportError as fault:
        raise Refused(
            f"{argument('cluster')} needs distributed, which is missing here",
            "install it (on Debian: apt-get install python3-distributed)",
        ) from fault
    if isinstance(scheduler, distributed.Client):
        yield scheduler
        return
    try:
        client = distributed.Client(scheduler, timeout=CONNECT_SECONDS)
    except (OSError, ValueError, TypeError) as fault:
        # a TypeError for tls:// without certificates
        raise Refused(f"{argument('cluster', str(scheduler))}: {fault}") from fault
    try:
        yield client
    finally:
        with contextlib.suppress(Exception):
            client.close(timeout=0.5)


@contextlib.contextmanager
def cluster(scheduler: Scheduler, program: str = "") -> Iterator[Cluster]:
    """Gives the workers of a Dask scheduler. `program` is what they run; they need it at the same path.

    Raises Refused if the scheduler can't be reached, and for workers with another crnplan or program; Failed if it is
    lost.
    """
    with client_of(scheduler) as client:
        address = scheduler if isinstance(scheduler, str) else client.scheduler.address
        place = argument("cluster", address)
        killed = importlib.import_module("distributed").scheduler.KilledWorker
        try:
            yield Cluster(client, program)
        except Refused as fault:
            raise Refused(f"{place}: {fault.what}", fault.advice) from fault
        except (OSError, futures.CancelledError, ImportError, killed) as fault:
            what = str(fault)
            if isinstance(fault, futures.CancelledError):
                what = "a batch was cancelled (has the scheduler ended?)"
            advice = f"{KEPT}; run again when the cluster works"
            raise Failed(f"{place}: {what}", advice) from fault
