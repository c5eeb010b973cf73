"""Tests catalogues whose level moves: what is learned and kept, plans at the level, and words on it."""
from __future__ import annotations

import datetime
import shutil
from pathlib import Path
from typing import Any

import numpy as np
import pandas as pd
import pytest

import crnplan as crn
from crnplan.demand.level import BlockSums, factor_of, weight_of
from crnplan.plan.answer import Answer
from crnplan.plan.catalogue import planned_folder
from crnplan.plan.item import Depth
from crnplan.plan.learned import FOLLOWING
from crnplan.plan.what_ifs import asked_figures
from crnplan.show.item_plots import history_plot
from planner.tests.conftest import Command, shared
from planner.tests.plan.items import SHORT, START, item_of, tables_of
from planner.tests.planned_tables import whole_table

ITEMS, WEEKS = 24, 80
FILES = "decisions.csv", "details.csv", "summary.txt", "report.html"
WORDS: dict[str, Any] = {"every": "week", "jobs": 1, "borrow": "none", **SHORT}


def counts_of(place: int) -> tuple[int, ...]:
    """Returns demand whose level is twice as high after some weeks, of each second item."""
    random = np.random.default_rng([7, place])
    means = np.full(WEEKS, 5.0)
    if place % 2:
        means[random.integers(5, WEEKS) :] *= 2
    return tuple((1 + random.poisson(means)).tolist())


COUNTS = [counts_of(place) for place in range(ITEMS)]


@pytest.fixture(scope="module")
def room(tmp_path_factory: pytest.TempPathFactory, program: Path) -> Path:
    """Returns a folder with the tables, whose class b moves, their plan in `plan`, without a word, and that at the mean in
    `mean`."""

    def make(folder: Path) -> None:
        items = [item_of(place, counts=counts) for place, counts in enumerate(COUNTS)]
        for name, table in zip(("demand", "items"), tables_of(items)):
            table.to_csv(folder / f"{name}.csv", index=False)
        tables = folder / "demand.csv", folder / "items.csv"
        words: dict[str, Any] = {**WORDS, "program": program}
        crn.plan(*tables, out=folder / "plan", **words)
        crn.plan(*tables, out=folder / "mean", follow="none", **words)

    return shared(tmp_path_factory, "following", make)


def test_plans_at_the_level(room: Path) -> None:
    """Items of the class that moves have laws of as many times their mean, and say so; the others are as they were."""
    plan, mean = whole_table(room / "plan"), whole_table(room / "mean")
    moved = plan["class"] == "b"
    pd.testing.assert_frame_equal(plan[~moved], mean[~moved])
    weight = weight_of([BlockSums.of(counts) for counts in COUNTS[1::2]])
    assert weight > 0.5
    laws = list[list[float]]()
    for name, weights in (("plan", {"b": weight}), ("mean", None)):
        with planned_folder(room / name) as planned:
            answers = [answer for _, answer in planned.answers()]
            following = planned.settings.following
        laws.append([one.law.mean for one in answers if isinstance(one, Answer)])
        assert (following and following.classes) == weights
    for place, name in [*enumerate(plan.index)][1::2]:
        factor = factor_of(COUNTS[place], weight)
        assert laws[0][place] / laws[1][place] == pytest.approx(factor, rel=2e-3)
        assert f"at {factor:.2f} times the mean" in plan.loc[name, "warnings"]
    assert not mean["codes"].fillna("").str.contains("level followed").any()


def test_one_law_wherever_it_is_shown(room: Path, program: Path) -> None:
    """The day's orders, a what-if that changes nothing, and the picture have the law and the levels of the plan."""
    with planned_folder(room / "plan") as planned:
        item, answer = [*planned.answers()][1]
        assert isinstance(answer, Answer)
        asked = asked_figures(item, answer, planned.settings, None, None, None)
        depth = Depth(planned.question(item), answer, str(program))
    s, S = answer.chosen.levels
    stock = pd.DataFrame({"item": [item.name], "stock": [s - 1]})
    day = START + datetime.timedelta(weeks=WEEKS)
    today = crn.open_plan(room / "plan").orders_today(stock, date=day)
    order, *_ = today.frame.itertuples()
    assert order.placed == S - s + 1
    assert order.weeks == pytest.approx((s - 1) / answer.law.mean, rel=2e-3)
    assert asked["chosen"].cost == pytest.approx(answer.chosen.cost)
    plot = history_plot(depth, [], "week")
    assert plot.lines[0].name == f"mean of the law: {answer.law.mean:.2f} a week"


def test_command(room: Path, tmp_path: Path, crnplan: Command) -> None:
    """The command plans as Python does, by several processes; another word is refused."""
    tables = [room / "demand.csv", room / "items.csv"]
    config = tmp_path / "short.toml"
    config.write_text("[catalogue]\nperiods = 64\nreplications = 4\n")
    words = "--every", "week", "--set", "borrow=none", "--config", config
    folder = tmp_path / "plan"
    follow = "--set", "follow=none", "--jobs", 2
    assert crnplan("plan", *tables, "--out", folder, *words, *follow).status == 0
    for name in FILES:
        assert (folder / name).read_bytes() == (room / "mean" / name).read_bytes()
    assert 'follow = "none"' in (folder / "found.toml").read_text()
    ran = crnplan("plan", *tables, "--out", folder, *words, "--set", "follow=x")
    assert ran.status == 2


def test_what_is_kept(room: Path, tmp_path: Path, program: Path) -> None:
    """Weights are learned once, and again only on request."""
    folder = Path(shutil.copytree(room / "plan", tmp_path / "plan"))
    demand = pd.read_csv(room / "demand.csv")
    sales = tmp_path / "demand.csv"
    moved = whole_table(folder).query("`class` == 'b'").index
    demand[~demand["item"].isin(moved)].to_csv(sales, index=False)
    words: dict[str, Any] = {**WORDS, "program": program, "out": folder}
    with planned_folder(folder) as planned:
        text = planned.store.fact(FOLLOWING)
    crn.plan(sales, room / "items.csv", **words)
    with planned_folder(folder) as planned:
        assert planned.store.fact(FOLLOWING) == text
    crn.plan(sales, room / "items.csv", learn_again=True, **words)
    with planned_folder(folder) as planned:
        assert planned.settings.following and not planned.settings.following.classes
