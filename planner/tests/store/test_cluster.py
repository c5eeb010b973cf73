"""Tests work on a cluster: workers that end, hang, or are not as this machine; a scheduler that ends or isn't there."""
from __future__ import annotations

import contextlib
import os
import signal
import sqlite3
import subprocess
import sys
from collections.abc import Iterator, Sequence
from concurrent.futures import Future, ThreadPoolExecutor
from pathlib import Path
from threading import Event
from types import SimpleNamespace
from typing import Any

import pytest

import crnplan as crn
from crnplan.store import clusters, jobs
from crnplan.store.means import Means
from planner.tests.conftest import Answer, Command, script, write_inputs
from planner.tests.decide.answers import priced
from planner.tests.store.clusters import (
    LOOPBACK,
    SECONDS,
    WORKERS,
    Cluster,
    changed_package,
)
from planner.tests.store.sweeping import REPORTS, SCENARIOS, swept

# Says which worker begins a run and ends it. The second run of each waits until it may go on, and not for ever.
HOLDING = """echo "$CRNSIM_WORKER begins" >> "{room}/taken"
if [ "$(grep -c "^$CRNSIM_WORKER begins" "{room}/taken")" -eq 2 ]; then
    left=600
    until [ -e "{room}/go_on" ] || [ "$left" -eq 0 ]; do sleep 0.1; left=$((left - 1)); done
fi
"{program}"
status=$?
echo "$CRNSIM_WORKER ends" >> "{room}/taken"
exit $status
"""
# Hangs in each run of a worker, or of all, until it may go on.
HANGING = """echo "$CRNSIM_WORKER begins" >> "{room}/taken"
case "{hangs}" in "$CRNSIM_WORKER"|both) until [ -e "{room}/go_on" ]; do sleep 0.1; done;; esac
"{program}"
echo "$CRNSIM_WORKER ends" >> "{room}/taken"
"""


@pytest.fixture
def cluster(
    shared_cluster: Cluster, room: Path, program: Path, monkeypatch: pytest.MonkeyPatch
) -> Iterator[Cluster]:
    """Returns a cluster, and makes a base and a program that waits. At the end all that waits goes on."""
    (room / "base.toml").write_text(
        priced(room / "examples/two_policies.toml", 3), "utf-8"
    )
    script(room / "holding", HOLDING.format(room=room, program=program))
    monkeypatch.setenv("PATH", shared_cluster.environment["PATH"])
    shared_cluster.restore(room)
    yield shared_cluster
    (room / "go_on").touch()


def taken(room: Path, worker: str) -> tuple[int, int]:
    """Returns how many runs a worker has begun, and how many it has ended."""
    path = room / "taken"
    lines = path.read_text("utf-8").splitlines() if path.exists() else []
    return lines.count(f"{worker} begins"), lines.count(f"{worker} ends")


def start(cluster: Cluster, *words: str) -> None:
    """Starts a sweep over the cluster, of two workers or three."""
    line = f"-m planner.tests.store.sweeping base.toml --cluster {cluster.address}"
    cluster.start("sweep", *line.split(), *words)


def ended(cluster: Cluster) -> Answer:
    status = cluster.wait_for_end("sweep")
    output, errors = (cluster.room / f"sweep.{it}" for it in ("out", "errors"))
    return Answer(status, output.read_text("utf-8"), errors.read_text("utf-8"))


def kept(folder: Path) -> list[tuple[str, str]]:
    """Returns the reports that a sweep has kept, by a look from outside."""
    try:
        with contextlib.closing(
            sqlite3.connect(f"file:{folder}/{REPORTS}?mode=ro", uri=True)
        ) as base:
            return base.execute(
                "SELECT item, report FROM answers ORDER BY item"
            ).fetchall()
    except sqlite3.OperationalError:  # it is not there yet
        return []


def test_a_worker_that_leaves_changes_nothing(
    cluster: Cluster, room: Path, program: Path
) -> None:
    """Ends a worker in the middle of its second run, when the other one is in the middle of its own."""
    start(cluster, "--program", "./holding", "--out", "kept_by_cluster")
    cluster.wait_until(
        "the second run of each",
        lambda: all(taken(room, it)[0] == 2 for it in WORKERS),
        "sweep",
    )
    cluster.end("leaves")
    (room / "go_on").touch()
    told = ended(cluster)
    here = swept("base.toml", program=program, out="kept_here")
    assert (told.status, told.output) == (0, here), told.errors[-1000:]
    begun, finished = taken(room, "stays")
    assert taken(room, "leaves") == (2, 1)
    assert begun == finished >= SCENARIOS - 1
    by_cluster = kept(room / "kept_by_cluster")
    assert len(by_cluster) == SCENARIOS
    assert by_cluster == kept(room / "kept_here")


def test_a_client(
    cluster: Cluster, room: Path, program: Path, monkeypatch: pytest.MonkeyPatch
) -> None:
    """A client of one's own does the same, stays open, and is named by the address of its scheduler."""
    import distributed

    with distributed.Client(cluster.address, timeout=SECONDS) as client:
        here = swept("base.toml", program=program, jobs=1)
        assert swept("base.toml", program=program, cluster=client) == here
        monkeypatch.setattr(
            clusters, "stranger", lambda *words: crn.Refused("it is strange")
        )
        with pytest.raises(
            crn.Refused, match=f"^cluster={cluster.address}: it is strange"
        ):
            swept("base.toml", program=program, cluster=client)
        assert client.submit(pow, 2, 3).result() == 8


def test_a_program_that_fails(cluster: Cluster) -> None:
    """Its line comes back from the worker."""
    with pytest.raises(crn.ProgramError, match="no output, status 1"):
        swept("base.toml", cluster=cluster.address, program="/bin/false")


def test_a_scheduler_that_ends(cluster: Cluster, room: Path) -> None:
    """What is done is kept and said, with status 3; with status 2 if the scheduler is not there from the first."""
    for status in (3, 2):
        start(cluster, "--program", "./holding", "--out", "kept")
        if status == 3:
            cluster.wait_until(
                "two reports", lambda: len(kept(room / "kept")) == 2, "sweep"
            )
            cluster.end("scheduler")
        told = ended(cluster)
        assert (
            told[:2] == (status, "")
            and f"crnplan: --cluster {cluster.address}: " in told.errors
        ), told
        assert "2 of 8 scenarios are done and kept; run again to go on" in told.errors
    assert len(kept(room / "kept")) == 2
    assert "Traceback" not in told.errors


@pytest.mark.parametrize("hangs", ["leaves", "both"])
def test_a_batch_that_hangs(
    cluster: Cluster,
    room: Path,
    program: Path,
    monkeypatch: pytest.MonkeyPatch,
    hangs: str,
) -> None:
    """A batch that takes too long goes to another worker, with the same result. If it hangs on all, the sweep ends."""

    hanging = script(
        room / "hanging", HANGING.format(room=room, program=program, hangs=hangs)
    )
    others: dict[str, Any] = {"cluster": cluster.address, "out": room / "kept"}
    monkeypatch.setattr(jobs, "LIMIT_SECONDS", 1.0)
    if hangs == "both":
        said = "has taken longer than 1 seconds on each of 3 workers"
        with pytest.raises(crn.Failed, match=said):
            swept("base.toml", program=hanging, **others)
        return
    # Other batches may take as long on a busy machine, and are then given to others too.
    monkeypatch.setattr(jobs, "MOST_TRIES", 999)
    found = swept("base.toml", program=hanging, **others)
    assert found == swept("base.toml", program=program)
    begun, finished = taken(room, "leaves")
    assert finished < begun


@pytest.mark.parametrize("how", [signal.SIGKILL, signal.SIGSTOP])
def test_no_worker_is_left(
    cluster: Cluster, room: Path, monkeypatch: pytest.MonkeyPatch, how: signal.Signals
) -> None:
    """If all workers have ended or have stopped, the work ends, with what to do."""
    monkeypatch.setattr(clusters, "LOST_SECONDS", 3.0)
    wait = f"until [ -e {room}/go_on ]; do sleep 0.1; done"
    with pytest.raises(
        crn.Failed,
        match="no worker has been heard of for 3 seconds; what was done before is kept",
    ):
        with clusters.cluster(cluster.address) as workers:
            answers = workers.answers(
                subprocess.getoutput, ((place, [wait]) for place in range(3)), 2
            )
            for name in WORKERS:
                os.killpg(cluster.processes[name].pid, how)
            next(answers)
    for name in WORKERS:
        cluster.end(name)


def test_a_worker_that_stops(
    cluster: Cluster, room: Path, monkeypatch: pytest.MonkeyPatch
) -> None:
    """What a worker has that is not heard of any more is given to another one."""
    monkeypatch.setattr(clusters, "LOST_SECONDS", 10.0)
    wait = (
        f'echo "$CRNSIM_WORKER begins" >> {room}/taken; until [ -e {room}/go_on ]; do sleep 0.1; done; '
        'echo "$CRNSIM_WORKER"'
    )
    with clusters.cluster(cluster.address) as workers:
        answers = workers.answers(
            subprocess.getoutput, ((place, [wait]) for place in range(2))
        )

        def stop() -> None:
            cluster.wait_until(
                "a batch of each", lambda: all(taken(room, name)[0] for name in WORKERS)
            )
            os.killpg(cluster.processes["leaves"].pid, signal.SIGSTOP)
            (room / "go_on").touch()

        with ThreadPoolExecutor(1) as thread:
            stopped = thread.submit(stop)
            assert {*answers} == {(0, "stays"), (1, "stays")}
            stopped.result()
    cluster.end("leaves")


class Slow(jobs.Workers):
    """One thread as three workers, which begin once they have so many batches."""

    are_others, most = True, 3

    def __init__(self, enough: int) -> None:
        self.enough, self.is_enough = enough, Event()
        self.given, self.counts = list[Future[Any]](), list[int]()
        self.thread = ThreadPoolExecutor(1)

    def submit(
        self, function: Any, words: Sequence[Any], late: Sequence[Any] = ()
    ) -> Future[Any]:
        self.given.append(
            self.thread.submit(
                lambda: self.is_enough.wait(SECONDS) and function(*words)
            )
        )
        self.counts.append(sum(not future.done() for future in self.given))
        if len(self.given) == self.enough:
            self.is_enough.set()
        return self.given[-1]


@pytest.mark.parametrize("ahead", [1, 2])
def test_so_many_batches_are_under_way(ahead: int) -> None:
    """Gives so many batches at a time, by default as many as there are processors, and each answer once."""
    workers = Slow(3 * ahead)
    answers = workers.answers(
        str.upper, ((place, [name]) for place, name in enumerate("abcdefghij")), ahead
    )
    assert sorted(answers) == [*enumerate("ABCDEFGHIJ")]
    assert max(workers.counts) == 3 * ahead
    workers.thread.shutdown()


def test_workers_that_are_asked_for() -> None:
    """Without a number there is a process for each processor."""
    for count, most in ((3, 3), (None, os.cpu_count())):
        with Means(count).workers() as workers:
            assert workers.most == most


def test_what_workers_have(
    cluster: Cluster, room: Path, program: Path, monkeypatch: pytest.MonkeyPatch
) -> None:
    """Workers give the digest of a program that is not here. One that is here is not asked of them."""
    own = clusters.identity(str(program))["crnsim"]
    assert Means(cluster=cluster.address).program_digest("crnsim") == own != ""
    monkeypatch.setenv("PATH", os.defpath)
    assert Means(cluster=cluster.address).program_digest("crnsim") == own
    assert Means(cluster=None).program_digest("crnsim") == ""
    mine = script(room / "own/mine", "exit 0")
    monkeypatch.setenv("PATH", str(mine.parent))
    with pytest.raises(crn.Refused, match=f"{cluster.address}: .* has no crnsim"):
        with clusters.cluster(cluster.address, "mine"):
            pass


@pytest.mark.parametrize(
    "others, said",
    [
        ({"crnplan": "other"}, "has another crnplan"),
        ({"crnsim": "one"}, "has no crnsim"),
        (
            {"crnplan": "other", "crnsim": "one"},
            "has another crnplan and has no crnsim",
        ),
    ],
    ids=["crnplan", "crnsim", "both"],
)
def test_a_worker_unlike_this_machine(
    cluster: Cluster, others: dict[str, str], said: str
) -> None:
    """It calls nothing, and says what it has."""
    with clusters.cluster(cluster.address) as workers:
        workers.own |= others
        future = workers.submit(pytest.fail, ["it was called"])
        with pytest.raises(crn.Refused, match=rf"\(tcp://{LOOPBACK}:\d+\) {said}, and"):
            workers.result(future)


def test_a_worker_that_says_nothing() -> None:
    fault = str(clusters.stranger("late", clusters.identity(""), OSError("gone")))
    assert "late can't say which crnplan it has (gone), and would" in fault


def test_a_stranger_that_comes_later(cluster: Cluster, room: Path) -> None:
    """Refuses a worker with another crnplan that joins in the middle, and keeps what the others did."""
    start(cluster, "--program", "./holding", "--out", "kept")
    cluster.wait_until("two reports", lambda: len(kept(room / "kept")) == 2, "sweep")
    cluster.join("late", PYTHONPATH=changed_package(room))
    cluster.wait_for(3)
    cluster.end("leaves")
    told = ended(
        cluster
    )  # Its batch is given to the late one, which has none, while the other one waits.
    assert told[:2] == (2, "")
    assert "the worker late (tcp://" in told.errors
    assert "has another crnplan" in told.errors
    assert len(kept(room / "kept")) >= 2


def test_a_worker_that_joins_late(cluster: Cluster, room: Path) -> None:
    """Gets the batches that are left, while others wait."""
    wait = f'[ "$CRNSIM_WORKER" = late ] || until [ -e {room}/go_on ]; do sleep 0.1; done; echo "$CRNSIM_WORKER"'
    with clusters.cluster(cluster.address) as workers:
        answers = workers.answers(
            subprocess.getoutput, ((place, [wait]) for place in range(9)), 2
        )
        cluster.join("late")
        first = next(answers)
        (room / "go_on").touch()
        found = [first, *answers]
    assert first[1] == "late"
    assert sorted(place for place, _ in found) == [*range(9)]


def test_shared_words_outlive_their_workers(cluster: Cluster) -> None:
    """What was learned is there for a worker that comes when all others have ended."""
    with clusters.cluster(cluster.address) as workers:
        shared = workers.share(["words"])
        assert workers.result(workers.submit(str.upper, shared)) == "WORDS"
        for name in WORKERS:
            cluster.end(name)
        cluster.join("late")
        assert workers.result(workers.submit(str.upper, shared)) == "WORDS"


@pytest.mark.parametrize("part", ["crnsim", "crnplan"])
def test_a_stranger_from_the_beginning(cluster: Cluster, room: Path, part: str) -> None:
    """Refuses a worker with another program or crnplan, and no other, before anything is run. Without it, all is."""
    script(room / "other/crnsim", f"exec '{cluster.home}/bin/crnsim'")
    cluster.join(
        "late",
        **(
            {"PATH": f"{room / 'other'}:{os.environ['PATH']}"}
            if part == "crnsim"
            else {"PYTHONPATH": changed_package(room)}
        ),
    )
    cluster.wait_for(3)
    for status, reports in ((2, 0), (0, SCENARIOS)):
        start(cluster, "--program", "crnsim", "--out", "kept")
        told = ended(cluster)
        assert told.status == status and len(kept(room / "kept")) == reports, told
        assert (
            "the worker late (tcp://" in told.errors
            and f"has another {part}" in told.errors
        ) == (status == 2)
        assert "stays" not in told.errors
        assert "Traceback" not in told.errors
        cluster.end("late")
        cluster.wait_for(len(WORKERS))


@pytest.mark.parametrize(
    "address, part",
    [
        (LOOPBACK, "needs distributed, which is missing here; install it (on Debian"),
        (f"tls://{LOOPBACK}:1", f"--cluster tls://{LOOPBACK}:1: TLS expects"),
    ],
)
def test_no_way_to_a_cluster(
    room: Path,
    crnplan: Command,
    monkeypatch: pytest.MonkeyPatch,
    address: str,
    part: str,
) -> None:
    """Refuses a cluster without distributed, and an address that needs certificates, in a line that says what to do."""
    monkeypatch.setenv("DASK_CONFIG", str(room / "no_settings"))
    if address == LOOPBACK:
        monkeypatch.setitem(sys.modules, "distributed", None)
    write_inputs(room)
    words = "plan demand.csv items.csv --out plan --cluster"
    told = crnplan(*words.split(), address)
    assert told[:2] == (2, "")
    (line,) = (it for it in told.errors.splitlines() if it.startswith("crnplan: "))
    assert part in line


pytestmark = pytest.mark.timeout(2 * SECONDS)


def test_a_worker_judges_itself(monkeypatch: pytest.MonkeyPatch) -> None:
    """A worker answers if it has this crnplan and this program, and else says who it is."""
    worker = SimpleNamespace(name="w1", address="tcp://127.0.0.1:1")
    monkeypatch.setattr("distributed.get_worker", lambda: worker)
    own = clusters.identity("")
    assert clusters.run_as_here(abs, own, "", -3) == 3
    refused = clusters.run_as_here(abs, {**own, "crnplan": "other"}, "", -3)
    assert isinstance(refused, crn.Refused)
    assert "w1 (tcp://127.0.0.1:1) has another crnplan" in str(refused)
