"""Tests which policies stay after an earlier plan though another costs less: by costs of a Markov chain, and law by law."""
from __future__ import annotations


from collections.abc import Mapping
from dataclasses import replace
from pathlib import Path
from typing import Any

import pandas as pd
import pytest

from crnplan.plan.choice import allowed_by
from crnplan.plan.one import plan_one
from crnplan.plan.how import Settings
from crnplan.plan.question import Levels, question_of
from crnplan.read.item import Item
from crnplan.policies import Policy
from crnplan.theory.many_laws import figures_of_laws
from planner.tests.plan.items import alone, several
from planner.tests.theory.chain import by_chain

from planner.tests.catalogue.months import LEVELS, OWN, Month, of_frame


def costed(item: Item, settings: Settings, levels: Levels) -> tuple[float, float]:
    """Returns cost, in money, and fill of a policy by the law of an item, by a Markov chain: without a backlog cost,
    setup and holding alone."""
    question = question_of(item, settings, OWN)
    backlog = question.rates.get("backlog", 0)
    cost, fill, _, stock, orders, _ = by_chain(
        question.scenario(backlog).with_policies([Policy("p", *levels)])
    )
    return cost / float(question.scale), fill


@pytest.fixture(scope="module")
def costs(month: Month, dozen: Mapping[str, Item]) -> dict[str, Any]:
    """Returns by item cost and fill of the earlier and of the best policy, by a Markov chain."""
    settings, found = alone(fit="empirical", every="week"), {}
    for name, row in month.changes().iterrows():
        before, after = (row.s_before, row.S_before), (row.s_after, row.S_after)
        levels = [(int(s), int(S)) for s, S in (before, after)]
        item = dozen[str(name)]
        found[str(name)] = levels, [costed(item, settings, each) for each in levels]
    return found


@pytest.mark.parametrize("least", [0.001, 0.01, 0.1])
def test_damping_rule(
    month: Month, dozen: Mapping[str, Item], costs: dict[str, Any], least: float
) -> None:
    """A policy stays if and only if the best one costs less by under this share of its cost, and it keeps the wanted
    fill rate: by costs and fill rates of a Markov chain. All else is as without."""
    plain, changes, given_up = month.changes(), month.changes(least), 0.0
    for name, ((before, after), (old, new)) in costs.items():
        gain, now = old[0] - new[0], changes.loc[name]
        is_kept = old[1] >= (dozen[name].fill or 0)
        stays = before != after and gain < least * old[0] and is_kept
        assert now.change == ("damped" if stays else plain.change[name])
        assert (now.s_after, now.S_after) == (before if stays else after)
        if stays:
            assert (now.s_best, now.S_best) == after
            assert now.gain == pytest.approx(gain, abs=1e-6)
            given_up += gain
    damped = changes.index[changes.change == "damped"]
    said = f"gains less than {100 * least:g}%: {len(damped)}, which costs {given_up:.2f} a week"
    assert said in month.planned(least).text
    codes = of_frame(month.planned(least).details).codes
    assert {*codes.index[codes.str.contains("damped")]} == {*damped}


def test_damping_happens_and_spares_wanted_fills(month: Month) -> None:
    """In these tables some policies stay, and some with a wanted fill rate move since they no longer keep it."""
    changes = month.changes(0.1)
    assert {"damped", "moved"} <= {*changes.change}
    wanted = month.masters.set_index("item").fill.reindex(changes.index)
    moved = changes[(changes.change == "moved") & wanted.notna()]
    assert len(moved) and (moved.fill_before < wanted[moved.index]).all()


def test_a_confidence_is_kept(month: Month, dozen: Mapping[str, Item]) -> None:
    """With a confidence a policy stays only if it keeps the wanted fill rate under this share of the laws too, counted
    law by law. Without a backlog cost these are counted in steps, and a policy between two steps may move.
    """
    confidence, kinds = 0.7, set[str]()
    changes = of_frame(month.plan(least_gain=0.9, confidence=confidence).changes)
    for name, row in changes[changes.change != "same"].iterrows():
        question = question_of(
            dozen[str(name)],
            alone(fit="empirical", every="week", confidence=confidence),
            OWN,
        )
        if question.item.fill is not None:
            laws = allowed_by(question)
            policy = Policy("p", int(row.s_before), int(row.S_before))
            fills = figures_of_laws(question.scenario(), laws, [policy]).fill[:, 0]
            keeps = (
                row.fill_before >= question.item.fill
                and (fills >= float(question.item.fill)).mean() >= confidence
            )
            assert (
                keeps
                if row.change == "damped"
                else not keeps or not question.has_backlog
            )
            kinds.add(str(row.change))
    assert kinds == {"damped", "moved"}


@pytest.mark.parametrize("least", [None, 0.2])
def test_taken_over_is_what_would_be_planned(
    least: float | None, program: Path
) -> None:
    """An answer that is taken over is the one that the item would get if it was planned after its own plan."""
    settings = alone(least_gain=least)
    for item in several(8):
        first = plan_one(question_of(item, settings, OWN), str(program))
        higher = first.chosen.point + 1, first.chosen.level + 1
        for before in (first.chosen.levels, higher):
            earlier = plan_one(question_of(item, settings, OWN, before), str(program))
            again = plan_one(
                question_of(item, settings, OWN, earlier.chosen.levels), str(program)
            )
            assert again == replace(earlier, before=earlier.chosen)


def test_damped_policies_are_taken_over_by_the_same_gain_alone(
    month: Month, tmp_path: Path
) -> None:
    """A policy that stayed stays if nothing changes, and is planned anew with another least gain."""
    first = month.plan(least_gain=0.1, out=tmp_path / "first")
    same = month.plan(after=tmp_path / "first", least_gain=0.1)
    pd.testing.assert_frame_equal(first.decisions[LEVELS], same.decisions[LEVELS])
    for plan in (first, same):
        assert (plan.changes.change == "damped").sum() > 0
    free = month.plan(after=tmp_path / "first").decisions[LEVELS]
    pd.testing.assert_frame_equal(free, month.planned().decisions[LEVELS])
