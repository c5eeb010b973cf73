"""Tests plans at the level of the last periods on the past: of items whose level has moved, by hand, and of steady ones."""
from __future__ import annotations

import dataclasses
from pathlib import Path

import numpy as np
import pandas as pd
import pytest

import crnplan as crn
from crnplan.demand.learning import Prior
from crnplan.plan.backtest.methods import (
    FOLLOWED,
    PLANNED,
    STILL,
    Walk,
    Walked,
    Way,
    levelled,
)
from crnplan.plan.backtest.one import Backtest
from crnplan.plan.choice import choice_of
from crnplan.plan.following import Following
from crnplan.plan.how import NONE, Settings
from crnplan.plan.question import question_of
from planner.tests.backtest.test_tested_again import WAYS
from planner.tests.plan.items import item_of

ITEMS, WEEKS = 24, 130
OWN, SETTINGS = Prior(NONE), Settings(fit="empirical", borrow=NONE)
FOLLOWING = Following({"": 0.8})


def shifted(random: np.random.Generator, factor: float) -> list[int]:
    """Draws demand whose level is so many times as high from some week of the record's second half on."""
    means = np.full(WEEKS, 12.0)
    means[random.integers(40, 74) :] *= factor
    return [*map(int, 1 + random.poisson(means))]


def write(folder: Path, factor: float) -> list[Path]:
    """Writes the tables of items that want 95%."""
    random, rows, masters = np.random.default_rng(6), [], []
    days = pd.date_range("2020-01-06", periods=WEEKS, freq="7D").date
    for place in range(ITEMS):
        name = f"I-{place:02}"
        rows += [(name, *row) for row in zip(days, shifted(random, factor))]
        masters.append((name, 20, 1, 0.95, "1 week"))
    paths = [folder / "demand.csv", folder / "items.csv"]
    headings = "item,date,quantity", "item,setup,holding (week),fill,lead"
    for path, heading, table in zip(paths, headings, (rows, masters)):
        pd.DataFrame(table, columns=heading.split(",")).to_csv(path, index=False)
    return paths


@pytest.mark.parametrize("follow, other", [("none", "followed"), ("auto", "still")])
@pytest.mark.parametrize("factor", [2.0, 1.0])
def test_catalogue(follow: str, other: str, factor: float, tmp_path: Path) -> None:
    """A plan that does not follow the level is tested with it, and one that does without, if the level of items has doubled:
    then following needs less stock for as much. If it stands still, there is no other way.
    """
    walk = {"record": 78, "every": 4, "jobs": 1}
    tests = crn.backtest(*write(tmp_path, factor), **walk, **WAYS, follow=follow)
    every = [one for _, one in tests.tested.items if isinstance(one, Backtest)]
    assert len(every) == ITEMS
    both = {"followed", "still"}
    there = {code for code in both for one in every if getattr(one, code)}
    assert there == ({other} if factor > 1 else set())
    whole = tests.tested.whole
    assert whole
    if factor > 1:
        spent = whole.equal[other].spent.value
        assert spent < 0 if follow == "none" else spent > 0


def test_levels_by_hand() -> None:
    """Each plan has the levels of its law at the level of its periods; one of a short record those of the law. A plan that
    follows has these without."""
    counts = shifted(np.random.default_rng(2), 2.0)[:110]
    item, walk = item_of(counts=tuple(counts), leads=(1,)), Walk(52, 20, 30)
    plain = Way(SETTINGS, OWN)
    way = Way(dataclasses.replace(SETTINGS, following=FOLLOWING), OWN)
    walked = Walked(item, walk, {PLANNED: plain, FOLLOWED: way})
    run = walked.run(levelled(walked, way))
    assert len(run.levels) == 110 and len(run.aims) == 5
    for start, stop, end in ((0, 52, 72), (42, 72, 92), (62, 92, 110)):
        asked = question_of(item.part(start, stop), way.settings, OWN)
        assert asked.level
        assert {*run.levels[stop:end]} == {choice_of(asked).levels}
    moved = Walked(item, walk, {PLANNED: way, STILL: plain})
    assert moved.run(moved.planned) == run
    assert moved.run(levelled(moved, plain)) == walked.run(walked.planned) != run
    short = Walked(item, Walk(20, 20, 20), {PLANNED: plain})
    assert short.run(levelled(short, way)) == short.run(short.planned)
