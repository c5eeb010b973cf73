"""Tests the sums of many items: errors of clusters computed another way, and verdicts on planted pasts."""
from __future__ import annotations

import math
from collections.abc import Sequence
from types import SimpleNamespace
from typing import Any

import numpy as np
import pytest

from crnplan.plan.backtest.catalogue import remarks_of_stated
from crnplan.plan.backtest.estimates import Estimate, error_of
from crnplan.plan.backtest.one import Backtest
from crnplan.plan.backtest.outcomes import Traced
from crnplan.plan.backtest.sums import (
    ALL_ITEMS,
    BLOCK,
    FEW,
    HOLDS,
    LITTLE,
    MUCH,
    UNSURE,
    TestGroup,
    Sums,
    sums_of,
)
from crnplan.remarks import Remark

PERIODS, DEMAND = 52, 10


def outcome(unmet: Sequence[int], cost: float = 5.0, **changed: Any) -> Traced:
    """Returns an outcome of a policy that promised to meet 95%, and a cost of 4."""
    facts: dict[str, Any] = {
        "point": 1,
        "level": 2,
        "promised_cost": 4.0,
        "promised_fill": 0.95,
        "cost": cost,
        "fill": 1 - sum(unmet) / (DEMAND * len(unmet)),
        "stock": 3.0,
        "orders": 0.5,
        "changes": 0,
        "costs": (cost,) * len(unmet),
        "unmet": (*unmet,),
        "stocks": (3,) * len(unmet),
        "unmet_by_aim": (),
        "stocks_by_aim": (),
    }
    return Traced(**facts | changed)


def made(unmet: Sequence[int], place: int, **changed: Any) -> Backtest:
    """Returns an item's test by what was unmet of a demand of 10 in each period."""
    planned = changed.get("planned") or outcome(unmet)
    facts: dict[str, Any] = {
        "name": f"I-{place}",
        "group": "",
        "record": 52,
        "first": 52,
        "mean": float(DEMAND),
        "setup": 10.0,
        "holding": 2.0,
        "demands": (DEMAND,) * len(unmet),
        "today": outcome([0] * len(unmet), 7.5),
        "planned": planned,
        **dict.fromkeys(("alike", "seasonless", "followed", "still")),
        **dict.fromkeys(("averaged", "smoothed", "cover"), planned),
    }
    return Backtest(**facts | changed)


# What a plan at one aim comes to whose stock is 3, at that and at a higher one.
AIMED: dict[str, Any] = {
    "unmet_by_aim": ((1,) * PERIODS, (0,) * PERIODS),
    "stocks_by_aim": ((3,) * PERIODS, (6,) * PERIODS),
}


def catalogue(
    share: float, items: int = 40, seed: int = 1, **changed: Any
) -> list[Backtest]:
    """Returns tests of independent items that miss this share of their demand, period by period. They have the plan alone."""
    source, tests = np.random.default_rng(seed), list[Backtest]()
    others = dict.fromkeys(("today", "averaged", "smoothed", "cover"))
    for place in range(items):
        unmet = (DEMAND * (source.random(PERIODS) < share)).tolist()
        tests.append(
            made(unmet, place, planned=outcome(unmet, **AIMED), **others, **changed)
        )
    return tests


@pytest.mark.parametrize("asked", [(10, 10), (4, 16)], ids=["steady", "in turn"])
def test_figures_by_hand(asked: tuple[int, int]) -> None:
    """Of a mean demand of 10 in 52 periods, 1 is unmet: 10%, 5 points more than promised. A period costs 5 for a promised
    4, and 7.5 by today's policy."""
    demands = asked * (PERIODS // 2)
    sums = Sums.of("", [made([1] * PERIODS, it, demands=demands) for it in range(12)])
    assert sums.promised == pytest.approx(0.95)
    assert sums.unmet["planned"].value == pytest.approx(0.1)
    for name, value in {"missed": 0.05, "dearer": 0.25}.items():
        assert getattr(sums, name).value == pytest.approx(value)
        assert getattr(sums, name).error == pytest.approx(0, abs=1e-9)
    assert sums.beside["today"].value == pytest.approx(0.5)
    assert sums.beside["averaged"].value == 0
    assert (sums.items, sums.broken) == (12, 12)


def test_items_with_a_stated_law_are_counted() -> None:
    """Those count that were tested, and nothing is said without one."""
    stated, other = SimpleNamespace(law="its law"), SimpleNamespace(law=None)
    tested, left_out = made([0], 0), Remark("short record", {})
    items: Any = [(stated, tested), (other, tested), (stated, left_out)]
    assert [it.facts for it in remarks_of_stated(items)] == [{"items": 1}]
    assert [*remarks_of_stated(items[1:])] == []


def test_ways_whose_levels_change() -> None:
    """Says how often levels change of each way that plans anew; today's stay."""
    unmet, moved = [1] * PERIODS, outcome([1] * PERIODS, changes=3)
    anew = {"planned", "alike", "seasonless", "followed", "still"}
    anew |= {"averaged", "smoothed", "cover"}
    tests = [made(unmet, it, **dict.fromkeys(anew, moved)) for it in range(2)]
    often = dict.fromkeys(anew, 3 / PERIODS) | {"today": 0}
    assert Sums.of("", tests).changes == pytest.approx(often)


def test_sums_of_todays_policies_are_of_the_items_that_have_one() -> None:
    """Of two items, one without a policy today costs twice as much by the plan, and counts beside it alone."""
    unmet, dear = [1] * PERIODS, outcome([2] * PERIODS, 10.0)
    other = outcome(unmet)
    tests = [
        made(unmet, 0),
        made([2] * PERIODS, 1, today=None, planned=dear, smoothed=other),
    ]
    sums = Sums.of("", tests)
    assert (sums.unmet["today"].value, sums.unmet["planned"].value) == pytest.approx(
        (0, 0.15)
    )
    assert sums.beside["today"].value == pytest.approx(0.5)
    assert sums.beside["smoothed"].value == pytest.approx(-1 / 3)
    assert "today" not in Sums.of("", tests[1:]).unmet


def test_demand_counts_in_units_of_the_item() -> None:
    """An item of a hundred times the demand weighs no more than another one."""
    small, large = made([1] * PERIODS, 0), made([3] * PERIODS, 1)
    times: dict[str, Any] = {
        "demands": tuple(100 * it for it in large.demands),
        "planned": outcome([300] * PERIODS),
    }
    larger = made([3] * PERIODS, 1, mean=100.0 * DEMAND, **times)
    for tests in ([small, large], [small, larger]):
        sums = Sums.of("", tests)
        assert sums.unmet["planned"].value == pytest.approx(0.2)
        assert sums.missed.value == pytest.approx(0.15)


@pytest.mark.parametrize("values, unmet", [((1.0, 3.0), 0.25), ((1.0, None), 0.2)])
def test_demand_counts_by_value_together(
    values: tuple[float | None, ...], unmet: float
) -> None:
    """Of items that are planned together 1 in 10 and 3 in 10 are unmet, of which the second are worth three times as much:
    10 in 40. If one is planned by itself, both weigh alike."""
    lost = [1] * PERIODS, [3] * PERIODS
    tests = [made(lost[it], it, value=value) for it, value in enumerate(values)]
    assert Sums.of("", tests).unmet["planned"].value == pytest.approx(unmet)


def test_error_of_independent_items() -> None:
    """Without blocks the error of a mean is the textbook's, of a sample of items."""
    values = np.array([1.0, 4.0, 2.0, 9.0, 5.0])
    items, blocks = np.arange(5), np.full(5, -1)
    error, *_ = error_of((values - values.mean()) / 5, items, blocks)
    assert error == pytest.approx(values.std(ddof=1) / math.sqrt(5))


def test_error_of_items_that_move_together() -> None:
    """If all items are the same, many say no more than one: the error is that of the means of blocks."""
    source = np.random.default_rng(3)
    unmet = source.integers(0, 3, PERIODS).tolist()
    errors = [
        TestGroup([made(unmet, place) for place in range(count)])
        .missed()
        .estimate.error
        for count in (10, 40, 160)
    ]
    means = np.array(unmet).reshape(-1, BLOCK).mean(axis=1) / DEMAND
    expected = means.std(ddof=1) / math.sqrt(len(means))
    assert errors[2] == pytest.approx(expected, rel=0.02)
    assert errors == sorted(errors)
    assert errors[0] > 0.9 * expected


def test_error_is_that_of_repeated_catalogues() -> None:
    """Over many catalogues of independent items the error is on average as the figure spreads."""
    groups = (TestGroup(catalogue(0.08, seed=seed)) for seed in range(200))
    missed = [group.missed().estimate for group in groups]
    spread = np.std([it.value for it in missed])
    assert np.mean([it.error for it in missed]) == pytest.approx(spread, rel=0.15)


@pytest.mark.parametrize(
    "share, verdict",
    [(0.05, HOLDS), (0.045, HOLDS), (0.15, LITTLE), (0.01, MUCH), (0.0, MUCH)],
)
def test_verdicts_on_planted_pasts(share: float, verdict: str) -> None:
    """The promise is to miss 5%. Twice that is less, and a fifth is more: both are said."""
    assert Sums.of("", catalogue(share)).verdict.code == verdict


def test_verdict_by_chance() -> None:
    """Two items that miss half of their demand beside nine that meet all may be chance."""
    lost = [[5] * PERIODS] * 2 + [[0] * PERIODS] * 9
    plans = [outcome(own, **AIMED) for own in lost]
    tests = [made(lost[it], it, planned=plan) for it, plan in enumerate(plans)]
    assert Sums.of("", tests).verdict.code == UNSURE


def test_few_items_have_no_verdict() -> None:
    assert Sums.of("", catalogue(0.5, items=9)).verdict.code == FEW
    assert Sums.of("", catalogue(0.5, items=10)).verdict.code == LITTLE


def test_false_alarms_are_rare() -> None:
    """Of catalogues that keep their promise to a point, at most 5% are said not to; of those that break it, most are
    found."""

    def verdicts(share: float, seeds: int) -> list[str]:
        made_so = (catalogue(share, items=15, seed=seed) for seed in range(seeds))
        return [Sums.of("", tests).verdict.code for tests in made_so]

    alarms = [code for code in verdicts(0.055, 300) if code not in (HOLDS, UNSURE)]
    assert len(alarms) <= 15
    assert verdicts(0.10, 50).count(LITTLE) >= 40


def test_excess_by_hand() -> None:
    """With stocks of 3 and 6 a plan misses 10% and nothing; 5% by 3 and more, as its curve says. Its own stock of 6 is
    above that by so much, in money."""
    planned = outcome([0] * PERIODS, **AIMED, stocks=(6,) * PERIODS)
    sums = Sums.of("", [made([0] * PERIODS, it, planned=planned) for it in range(12)])
    logs = math.log(0.1 + 0.0025), math.log(0.0025), math.log(0.05 + 0.0025)
    needed = 3 + 3 * (logs[0] - logs[2]) / (logs[0] - logs[1])
    assert sums.excess
    assert sums.excess.value == pytest.approx(6 / needed - 1)
    facts = sums.verdict.facts
    assert (facts["points"], facts["excess"]) == pytest.approx(
        (5, 100 * (6 / needed - 1))
    )


def test_sums_are_of_all_and_of_classes() -> None:
    """Items without demand are in no sum."""
    tests = [
        *catalogue(0.05, items=12, group="a"),
        *catalogue(0.05, items=11, group="b"),
        *catalogue(0.05, items=3),
        made([0] * PERIODS, 91, mean=0.0),
    ]
    assert [(sums.group, sums.items) for sums in sums_of(tests)] == [
        (ALL_ITEMS, 26),
        ("a", 12),
        ("b", 11),
    ]
    silent = made([0] * PERIODS, 92, demands=(0,) * PERIODS)
    assert sums_of([]) == sums_of([silent]) == []


def test_records_of_other_lengths() -> None:
    """Items that came later have fewer periods, in the blocks of their own time."""
    early, late = made([1] * PERIODS, 0), made([1] * 20, 1, first=84)
    group = TestGroup([early, late])
    assert group.blocks.tolist() == [
        *(np.arange(PERIODS) // BLOCK),
        *((32 + np.arange(20)) // BLOCK),
    ]
    assert group.missed().value == pytest.approx(0.05)
