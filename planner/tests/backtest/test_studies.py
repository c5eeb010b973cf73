"""Tests the studies of real series: how they are read, laws are swapped and codes compared; and parts of made ones."""
from __future__ import annotations

import math
import shutil
from pathlib import Path
from typing import Any

import click
import numpy as np
import pandas as pd
import pytest

from crnplan.demand.borrowing import fit_demand
from planner.studies import (
    broken,
    correction,
    correction_sets,
    real_series,
    walk_forward,
)
from planner.studies.kept_plans import HOLDS, TIME, UNSURE, shuffled
from planner.studies.level_spread_tail import (
    Ratios,
    on_lattice,
    ratios_of,
    sets_of,
    swapped,
)
from planner.studies.real_series import Series, parse
from planner.tests.backtest.test_sums import made
from planner.tests.demand.made import chances_of
from planner.tests.plan.items import item_of

DEMAND = np.random.default_rng(3).negative_binomial(12, 0.375, 52).tolist()


def test_lines_of_the_script() -> None:
    """A line has the data set, the series and the counts; data sets of one kind are one set."""
    text = (
        "juice,store 2 brand 1,129,96,60,\ncases momo,momo 1,3,0,2,\ncases m1,m1 1,7,\n"
    )
    assert parse(text) == {
        "juice": [Series("store 2 brand 1", (129, 96, 60))],
        "cases": [Series("momo 1", (3, 0, 2)), Series("m1 1", (7,))],
    }


def test_without_r_there_is_no_series(monkeypatch: pytest.MonkeyPatch) -> None:
    monkeypatch.setattr(shutil, "which", lambda name: None)
    assert real_series.real_series() == {}
    with pytest.raises(click.ClickException, match="no real series: install R"):
        [*sets_of(["juice"], (), 3)]


def test_masters_by_hand() -> None:
    """An order of two periods' demand is best: the setup cost is holding times the mean times 4 over 2."""
    _, masters = walk_forward.tables_of([Series("a", (4, 8, 100))], {"fill": 0.95}, 2)
    row: dict[str, Any] = masters.iloc[0].to_dict()
    assert (row["setup"], row["s"], row["S"], row["fill"]) == (12, 18, 31, 0.95)


def test_halves_by_hand() -> None:
    """Of a demand of 10 a period 5% is promised unmet. The first item misses in the second half alone, by 5 points."""
    tests = [
        made([0] * 26 + [1] * 26, 0),
        made([0] * 52, 1),
        made([1] * 52, 2),
    ]
    assert walk_forward.halves(tests) == ([False, False, True], [True, False, True])


def test_shuffled_has_the_same_periods() -> None:
    """A random order keeps the demand of each period with what came back, and follows from the seed."""
    item = item_of(4, returns=tuple(range(60)))
    other = shuffled(item, 1)
    pairs = [sorted(zip(one.counts, one.returns)) for one in (item, other)]
    assert pairs[0] == pairs[1]
    assert other.counts != item.counts
    assert other == shuffled(item, 1) != shuffled(item, 2)


@pytest.mark.parametrize(
    "kind, verdicts", [("steady", {HOLDS, UNSURE}), ("shift", {TIME})]
)
def test_small_part(kind: str, verdicts: set[str]) -> None:
    """Independent demand keeps its promise, and demand whose level grows by half does not, by time."""
    assert walk_forward.made_verdict(kind, 0) in verdicts


def test_points_on_the_lattice() -> None:
    """A point is shared by the whole numbers beside it, what is below 0 counts there, and the mean is as asked for."""
    law = on_lattice(np.array([-2.0, 1.25, 3.0]), np.array([0.25, 0.5, 0.25]), 1.375)
    assert chances_of(law) == pytest.approx([0.25, 0.375, 0.125, 0.25], abs=1e-4)
    assert float(
        on_lattice(np.array([0.0, 10.0]), np.array([0.5, 0.5]), 7.0).mean
    ) == pytest.approx(7, abs=1e-3)


@pytest.mark.parametrize(
    "parts, mean, deviation",
    [
        ("level", 1.5, 1.5),
        ("spread", 1.0, 0.8),
        ("level, spread", 1.5, 0.8),
        ("normal", 1.0, 1.0),
        ("all", 1.5, 0.8),
    ],
)
def test_swapped_parts(parts: str, mean: float, deviation: float) -> None:
    """A law has the smoothed level and spread where these are swapped, else its own mean, and what was seen elsewhere."""
    law = fit_demand(DEMAND)
    assert law.figures.variance
    found = chances_of(swapped(law, parts, Ratios(1.5, 0.8)))
    cells = np.arange(len(found))
    variance = found @ cells**2 - (found @ cells) ** 2
    seen = parts in ("normal", "all")
    expected = (np.mean(DEMAND) if seen else law.figures.mean) * mean
    spread = (
        np.std(DEMAND, ddof=1)
        if seen or "spread" in parts
        else law.figures.variance**0.5
    )
    assert found @ cells == pytest.approx(expected, rel=0.01)
    assert variance**0.5 == pytest.approx(spread * deviation, rel=0.06)


def test_ratios_by_hand() -> None:
    assert ratios_of([2, 4, 6], (8.0, 16.0)) == pytest.approx((2, 2))
    assert ratios_of([0, 0], (1.0, 4.0)) == (1, 1)


def test_difference_within_sets() -> None:
    """The difference is that of a regression with a constant for each set, and its error the sandwich of clusters."""
    random = np.random.default_rng(4)
    rows = pd.DataFrame(
        {
            "set": random.choice(["a", "b", "c"], 90),
            "95": random.integers(0, 2, 90),
            "cluster": random.choice([*"pqrstu"], 90),
        }
    )
    has = pd.Series(random.random(90) < 0.4)
    columns = np.column_stack([has, *(rows["set"] == name for name in "abc")]).astype(
        float
    )
    inverse = np.linalg.inv(columns.T @ columns)
    coefficients = inverse @ columns.T @ rows["95"]
    residuals = rows["95"] - columns @ coefficients
    sums = [
        columns[own].T @ residuals[own]
        for own in (rows["cluster"] == name for name in "pqrstu")
    ]
    variance = (
        inverse @ np.add.reduce([np.outer(it, it) for it in sums]) @ inverse * 6 / 5
    )
    assert broken.difference(rows, has, "95") == pytest.approx(
        (coefficients[0], variance[0, 0] ** 0.5)
    )


def test_clusters() -> None:
    """Items of a brand move together, and so do those of a data set of cases, and of each other set."""
    names = [
        ("juice", "store 5 brand 3"),
        ("cases", "momo momo 2"),
        ("cheese", "ALBANY   PRICE CHOPPER"),
    ]
    assert [broken.cluster_of(*its) for its in names] == ["juice 3", "momo", "cheese"]


def test_small_part_of_broken_promises(top: Path) -> None:
    """A small part has the stored rows, and so has each real set."""
    stored = pd.read_csv(
        top / "planner/studies/broken.csv", keep_default_na=False
    ).set_index(["set", "item"])
    for row in broken.study(**broken.SMALL).to_dict("records"):
        own = stored.loc[(row["set"], row["item"])]
        assert [own[name] for name in ("codes", *broken.FILLS)] == [
            row[name] for name in ("codes", *broken.FILLS)
        ]
    assert {*broken.SETS} < {*stored.index.get_level_values("set")}


def test_small_part_of_corrections() -> None:
    """The figures of a small set are the stored ones."""
    keys = ["policy", "wanted", "way", "by"]
    stored = (
        pd.read_csv(correction.STORED).query("set == @correction.SMALL").set_index(keys)
    )
    (catalogue,) = correction_sets.catalogues(True)
    rows = pd.DataFrame(
        correction.rows_of(catalogue, correction.tests_of(catalogue))
    ).set_index(keys)
    for figure in ("least", "most", "fill", "error", "stock"):
        assert rows[figure].to_numpy() == pytest.approx(
            stored.loc[rows.index, figure].to_numpy(), abs=2e-3
        ), figure


def test_passes_by_hand() -> None:
    """A way plans from periods that come before those on which it is tried."""
    assert correction.half(26) == [correction.Pass((((0, 13), 13, 26),))]
    assert [one.stretches for one in correction.walk(16)] == [
        (((0, start), start, start + 2),) for start in (8, 10, 12, 14)
    ]
    assert correction.refitted(52, 70).stretches == (
        ((0, 52), 52, 65),
        ((13, 65), 65, 70),
    )


def test_between_two_rates_by_hand() -> None:
    """Between 97% and 98% the middle is where sqrt(0.03 * 0.02) is unmet."""
    values = np.array([[9.0, 8.0, 7.0, 5.0, 4.0, 3.0, 2.0, 1.0, 0.0]])
    assert correction.at(values, 1 - math.sqrt(0.03 * 0.02)) == pytest.approx([6.0])
    assert correction.at(values, 0.98) == pytest.approx([5.0])


def test_judged_by_hand() -> None:
    """Of two items that weigh alike one meets half of its demand, the other all of it. Their mean stocks are those of
    two and of six periods."""

    def tested(asked: float, unmet: float, stock: float) -> correction.Tested:
        runs = correction.Runs(
            0, np.full(8, asked), np.full((8, 9), unmet), np.full((8, 9), stock)
        )
        return correction.Tested((1,), asked, {}, {"kept": runs})

    done = correction.judged(
        [tested(2.0, 1.0, 4.0), tested(10.0, 0.0, 60.0)], "kept", [0.95, 0.98]
    )
    assert (done.fill, done.stock) == (0.75, 4.0)


def test_runs_by_hand() -> None:
    """From a stock of 5, with s = 3 and S = 5, demands of 4 leave 3 unmet in the second period. Then all is unmet: of
    what the order of that period brings two periods later, 7 are owed."""
    through = correction.Pass((((0, 1), 1, 4),))
    runs = correction.runs_of((4, 4, 4, 4), through, {(0, 1): [(3, 5)] * 9}, 1.0)
    assert runs.unmet[:, 0].tolist() == [3.0, 4.0, 4.0]
    assert runs.stock[:, 0].tolist() == [0.0, 0.0, 0.0]
