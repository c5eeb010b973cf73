"""Tests the fair comparison of ways of planning: what levels come to beside another simulator, and sums by hand."""
from __future__ import annotations

import numpy as np
import pytest

from crnplan.crnsim.periods import Realization, periods_of
from planner.studies.fair import (
    BEFORE,
    LEAD,
    Curve,
    Estimate,
    Member,
    Moving,
    all_met,
    at_fill,
    compared,
    met_by,
    of_cheese,
    of_juice,
    samples_of,
    walked,
)

RECORD = 30


def test_levels_come_to_what_the_periods_of_a_past_do() -> None:
    """Also if levels move while orders are on their way."""
    counts = np.random.default_rng(0).poisson(3, 60)
    levels = np.tile(np.array([[5, 12], [9, 20], [14, 15]]), (RECORD, 1, 1))
    levels[10:, 0] = (8, 30)
    met = met_by(counts, RECORD, levels)
    first = RECORD - BEFORE
    demands = counts[first:].tolist()
    past = Realization(demands, [0] * len(demands), [LEAD] * len(demands))
    for share in range(3):
        own = [levels[max(0, period - RECORD), share] for period in range(first, 60)]
        pairs = [(int(s), int(S)) for s, S in own]
        periods = [*periods_of(past, pairs, pairs[0][1])][BEFORE:]
        assert met.unmet[share] == sum(period.unmet for period in periods)
        assert met.stock[share] == sum(max(period.stock, 0) for period in periods)
        assert met.orders[share] == sum(period.ordered > 0 for period in periods)
    assert met.asked == counts[RECORD:].sum()
    assert met.periods == 30


def test_amounts_at_a_fill_by_hand() -> None:
    """Halfway between unmet shares of 1 and 4 in 100 by logarithms is 2 in 100, where the stock is the geometric mean.
    A fill that falls counts as the one before."""
    fill = np.array([[0.96, 0.99], [0.96, 0.95], [0.5, 0.97]])
    stock = np.array([[3.0, 12.0], [3.0, 12.0], [1.0, 2.0]])
    assert at_fill(fill, stock, 0.98) == pytest.approx([6, np.nan, np.nan], nan_ok=True)


def moving_of(*counts: list[int]) -> Moving:
    """Returns items with a record of one period, in two clusters and one group."""
    members = []
    for place, demand in enumerate(counts):
        cluster = "even" if place % 2 == 0 else "odd"
        members.append(Member(f"{place}", cluster, "all", np.array(demand)))
    return Moving("made", tuple(members), 1, 2, 2)


def test_plans_are_made_again_and_see_no_later_period() -> None:
    """A plan sees the last two periods, and costs of the record."""
    moving = moving_of([3, 4, 5, 6, 7])
    asked = []

    def plan(member: Member, setup: float) -> list[tuple[int, int]]:
        asked.append((member.first, member.counts.tolist(), setup))
        return [(len(asked), 10)]

    (levels,) = walked(moving, plan)
    assert asked == [(0, [3], 24), (1, [4, 5], 24)]
    assert levels[:, 0].tolist() == [[1, 10], [1, 10], [2, 10], [2, 10]]


def test_levels_stay_where_nothing_is_asked_for() -> None:
    """The first ones are then by the whole record."""
    moving = Moving("made", moving_of([3, 0, 0, 0, 0, 0]).members, 3, 1, 2)
    (levels,) = walked(moving, lambda member, setup: [(int(member.counts.sum()), 9)])
    assert levels[:, 0].tolist() == [[3, 9]] * 3


def test_items_of_a_cluster_are_drawn_together() -> None:
    weights = samples_of(moving_of([1, 1], [1, 1], [1, 1], [1, 1]))
    assert (weights[0] == 1).all()
    assert (weights[:, 0] == weights[:, 2]).all()
    assert (weights[:, 1] == weights[:, 3]).all()
    assert {*weights[1:, :2].sum(axis=1)} == {2}
    assert weights[1:, 0].mean() == pytest.approx(1, abs=0.1)


def test_sums_of_a_curve_by_hand() -> None:
    """With s = S = 4 an order of 1 and one of 2 are placed, all is met, and 1 and 0 are left; with s = S = 1 nothing is
    met, since orders take 2 periods. The mean demand is 4/3."""
    moving = moving_of([1, 2, 1])
    levels = [np.array([[[1, 1], [4, 4]]] * 2)]
    met = all_met(moving, {"": levels})[""]
    curve = Curve.of(moving, met, np.ones((1, 1)))
    assert curve.fill[0] == pytest.approx([0, 1])
    assert curve.stock[0] == pytest.approx([0, 0.375])
    assert curve.cost[0] == pytest.approx([8, 8.375])


def test_errors_are_those_of_samples() -> None:
    """A figure that few samples have has none."""
    assert Estimate.of(np.array([5.0, 4.0, 6.0])) == (5, 1)
    assert np.isnan(Estimate.of(np.array([5.0, 4.0, np.nan])).error)


def test_a_way_beside_itself() -> None:
    """It needs no more stock, exactly; one with twice its stock needs more."""
    source = np.random.default_rng(5)
    moving = moving_of(*source.poisson(4, (6, 40)).tolist())
    moving = Moving("made", moving.members, 20, 4, 20)
    levels = np.array([(4 + 3 * step, 8 + 3 * step) for step in range(11)])
    plain = walked(moving, lambda member, setup: levels.tolist())
    dear = [own + 12 for own in plain]
    rows = [*compared(moving, {"plain": plain, "dear": dear}, "plain", ["plain"])]
    assert {row["way"] for row in rows} == {"plain", "dear"}
    for row in rows:
        if row["way"] == "plain" and not np.isnan(float(row["more"])):
            assert (row["more"], row["more_error"]) == (0, 0)
        assert ("realized" in row) == (row["way"] == "plain" and row["fill"] != 0.9)


def test_names_of_series() -> None:
    assert of_juice("store 2 brand 11") == ("2", "11")
    assert of_cheese("LOS ANGELES   LUCKY") == ("LOS ANGELES", "LUCKY")
