"""The scripts of the examples run where each warning is an error, and what they print is right."""
from __future__ import annotations

import io
import os
import subprocess
import sys
from collections.abc import Iterator
from pathlib import Path

import numpy as np
import pandas as pd
import pytest

from planner.tests.store.clusters import Cluster
from tests.runs import TOP

EXAMPLES = TOP / "examples"
SECONDS = 200
TIMEOUTS = [f"DASK_DISTRIBUTED__COMM__TIMEOUTS__{name}" for name in ("CONNECT", "TCP")]
# What asyncio says if Dask is closed at the very moment at which a wait of its sender has ended, whose end is then seen by
# nobody (`_background_send` of distributed/batched.py).
ENDED_WAIT = """\
Future exception was never retrieved
future: <Future finished exception=TimeoutError('Timeout')>
TimeoutError: Timeout
"""
WEEKS = 200_000  # of a simulated policy


def printed(script: str, *words: object) -> pd.DataFrame:
    """Returns the table that a script of the examples prints, under `python -W error`."""
    command = [sys.executable, "-W", "error", EXAMPLES / script, *map(str, words)]
    # On a loaded machine Dask may give up a connection sooner, and say so.
    slow = dict.fromkeys(TIMEOUTS, f"{SECONDS}s")
    run = subprocess.run(
        command,
        env={**os.environ, **slow},
        capture_output=True,
        text=True,
        timeout=SECONDS,
    )
    assert (run.returncode, run.stderr.replace(ENDED_WAIT, "")) == (0, "")
    return pd.read_fwf(io.StringIO(run.stdout))


def cost_of(
    demands: np.ndarray, lead: int, levels: tuple[int, int], rates: pd.Series
) -> float:
    """Returns the mean cost of a week of a policy, simulated from the definition: an order that is placed in a week, after
    the demand of the week before, arrives so many weeks later, before the demand of that week.
    """
    s, S = levels
    drawn = np.random.default_rng(5).choice(demands, WEEKS)
    stock, position, cost = S, S, 0.0
    due = np.zeros(WEEKS + lead + 1, int)
    for week, demand in enumerate(drawn.tolist()):
        stock += due[week]
        if position < s:
            due[week + lead] += S - position
            position, cost = S, cost + rates["setup"]
        stock, position = stock - demand, position - demand
        cost += rates["holding"] * stock if stock > 0 else -rates["backlog"] * stock
    return cost / WEEKS


@pytest.mark.timeout(2 * SECONDS)
def test_comparison_of_forecasts(
    program: Path, monkeypatch: pytest.MonkeyPatch
) -> None:
    """Both plans cost less than today's policies, and what today's cost is what a simulation counts."""
    monkeypatch.setenv("CRNSIM", str(program))
    costs = printed("compare_forecasts.py").set_index("item")
    assert list(costs) == ["today", "own", "forecast"] and len(costs) == 20
    assert costs.loc["sum", "own"] < costs.loc["sum", "today"]
    sales = pd.read_csv(EXAMPLES / "catalogue/demand.csv").dropna()
    came = sales[(sales["date"] >= "2026-01-05") & (sales["date"] < "2026-11-16")]
    days = pd.to_datetime(came["date"]) - pd.Timestamp("2026-01-05")
    sums = came.groupby(["item", days.dt.days // 7])["quantity"].sum()
    masters = pd.read_csv(EXAMPLES / "catalogue/items.csv").set_index("item")
    for item in ("K-102", "K-121"):
        master = masters.loc[item]
        weeks = sums[item].reindex(range(45), fill_value=0).to_numpy().astype(int)
        levels = int(master["s"]), int(master["S"])
        simulated = cost_of(weeks, int(master["lead weeks"]), levels, master)
        assert costs.loc[item, "today"] == pytest.approx(simulated, rel=0.03)


@pytest.fixture
def cluster(
    program: Path, tmp_path: Path, monkeypatch: pytest.MonkeyPatch
) -> Iterator[Cluster]:
    """Returns a cluster of two workers on this machine."""
    monkeypatch.setenv("CRNSIM", str(program))
    (tmp_path / "home").mkdir()
    cluster = Cluster(tmp_path / "home")
    try:
        cluster.restore(tmp_path / "home")
        yield cluster
    finally:
        cluster.end_all()


@pytest.mark.timeout(3 * SECONDS)
def test_weekly_job(cluster: Cluster, tmp_path: Path) -> None:
    """Each order goes up to S from a position below s, and a second run gives the same orders from the plans that are
    kept."""
    folder = tmp_path / "plans"
    folder.mkdir()
    table = printed("weekly_job.py", folder, cluster.address)
    orders = pd.read_csv(folder / "orders.csv")
    assert table["item"].to_list() == orders["item"].to_list() != []
    position = orders["stock"] + orders["on_order"] - orders["owed"]
    assert (position < orders["s"]).all()
    assert (orders["placed"] == orders["S"] - position).all()
    before = (folder / "orders.csv").read_bytes()
    assert {*pd.read_csv(EXAMPLES / "catalogue/items.csv")["supplier"]} == {
        path.name for path in folder.iterdir() if path.is_dir()
    }
    printed("weekly_job.py", folder, cluster.address)
    assert (folder / "orders.csv").read_bytes() == before
