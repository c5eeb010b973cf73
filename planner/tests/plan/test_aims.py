"""Tests where plans aim by the past of their catalogue: by hand, and against simulations that are written here."""
from __future__ import annotations

import dataclasses
import json
import math
from fractions import Fraction
from types import SimpleNamespace
from typing import Any

import numpy as np
import pytest

from crnplan.chances import Floats
from crnplan.demand.learning import Prior
from crnplan.errors import Refused
from crnplan.plan.aims import FILLS, Aims, Trial, Tried
from crnplan.plan.correction import BLOCKS, blocks_of, levels_of, trial_of
from crnplan.plan.how import NONE, Settings
from crnplan.plan.question import Levels
from crnplan.read.item import Item
from crnplan.theory.long_run import Candidate, LongRun
from crnplan.store.trees import value_of
from planner.tests.plan.items import item_of, unmet_of

LEAD, WEEKS, ITEMS, LONG = 2, 20, 60, 500
OWN = Settings(fit="empirical", borrow=NONE)


def test_aim_by_hand() -> None:
    """Policies for 98% left 5% unmet, and those for 97% left 8%. So 95% is met at 98%. 6.5% are left half way between
    both by the logarithm: at 1 - sqrt(0.03 * 0.02)."""
    some = Tried(9, 400, (0.3, 0.2, 0.08, 0.05, 0.04, 0.03, 0.02, 0.015, 0.01))
    assert some.aim(0.95) == pytest.approx(0.98)
    assert some.aim(0.935) == pytest.approx(1 - math.sqrt(0.03 * 0.02))
    assert some.met(0.98) == pytest.approx(0.95)
    assert some.met(1 - math.sqrt(0.03 * 0.02)) == pytest.approx(0.935)


def test_limits_of_an_aim() -> None:
    """An aim is never below the wanted fill rate, and at most 99.9% if that is less."""
    assert Tried(9, 400, (0.01,) * 9).aim(0.95) == 0.95
    assert Tried(9, 400, (0.5,) * 9).aim(0.95) == 0.999
    assert Tried(9, 400, (0.5,) * 9).aim(0.9993) == 0.9993


def test_all_items_weigh_alike() -> None:
    """A trial counts as its periods, whatever its demand."""
    trials = [Trial(1.0, 10, (1.0,) * 9), Trial(100.0, 30, (1.0,) * 9)]
    assert Tried.of(trials) == Tried(2, 40, (0.05,) * 9)


def test_classes_by_hand() -> None:
    """Of 30 items the 15 with the lower means are slow. With 28, no class is large enough to be one."""
    trials = [
        Trial(float(place), 10, (0.5 if place < 15 else 1.5,) * 9)
        for place in range(30)
    ]
    aims = Aims.of(trials)
    assert (aims.speed, aims.classes) == (
        14.5,
        (Tried(15, 150, (0.05,) * 9), Tried(15, 150, (0.15,) * 9)),
    )
    assert [aims.aim(counts, 0.9) for counts in ((14, 15), (14, 16))] == [0.9, 0.999]
    assert {tried.items for tried in Aims.of(trials[1:-1]).classes} == {28}
    assert value_of(Aims, json.loads(json.dumps(dataclasses.asdict(aims)))) == aims


def test_blocks_by_hand() -> None:
    assert [*blocks_of(10)] == [(0, 2), (2, 5), (5, 8), (8, 10)]
    item = item_of(counts=(1, 2, 3, 4), returns=(0, 1, 0, 0)).without(range(1, 3))
    assert (item.counts, item.returns) == ((1, 4), ())


def drawn(random: np.random.Generator, periods: int) -> list[int]:
    """Draws demand of mean 4 and variance 28 / 3."""
    return [*map(int, random.negative_binomial(3, 3 / 7, periods))]


def made(place: int) -> Item:
    counts = tuple(drawn(np.random.default_rng([1, place]), WEEKS))
    return Item(
        f"I-{place}",
        counts,
        (LEAD,),
        (0, 1),
        Fraction(8),
        Fraction(1),
        fill=Fraction(19, 20),
    )


def test_trials_say_what_comes(monkeypatch: pytest.MonkeyPatch) -> None:
    """What trials leave unmet is what the same plans leave unmet in the long run, but for chance: a quarter that a plan
    has not seen is like all that comes. By laws of 15 weeks that is several points more than in weeks that they have
    seen."""
    fresh, plans = drawn(np.random.default_rng(2), LONG), list[list[Levels]]()

    def kept(theory: LongRun) -> list[Levels]:
        plans.append(levels_of(theory))
        return plans[-1]

    monkeypatch.setitem(trial_of.__globals__, "levels_of", kept)
    share, rows = float(np.mean(fresh)), list[Floats]()
    for item in map(made, range(ITEMS)):
        trial = trial_of(item, OWN, Prior(NONE))
        coming = [
            sum(
                sum(unmet_of(policies[place], fresh, LEAD, policies[place][1]))
                for policies in plans[-BLOCKS:]
            )
            / (BLOCKS * LONG * share)
            for place in range(len(FILLS))
        ]
        rows.append(np.array(trial.unmet) * trial.mean / (share * WEEKS) - coming)
    assert len(plans) == BLOCKS * ITEMS
    off, error = np.mean(rows, axis=0), np.std(rows, axis=0, ddof=1) / math.sqrt(ITEMS)
    assert (abs(off) < 3 * error).all()
    assert error.max() < 0.02


def test_what_has_no_trial() -> None:
    """An item without demand has none, nor one of which no policy meets a tried fill rate."""
    with pytest.raises(Refused, match="it has no demand"):
        trial_of(item_of(counts=(0,) * WEEKS), OWN, Prior(NONE))
    theory: Any = SimpleNamespace(
        best=lambda fill: Candidate(math.inf, 0, 0), gap_of=lambda point, level: 0
    )
    with pytest.raises(Refused, match="no policy meets a tried fill rate"):
        levels_of(theory)


@pytest.mark.parametrize("months, has_trial", [(7, False), (6, True)])
def test_an_item_that_has_become_quiet_is_not_tried(
    months: int, has_trial: bool
) -> None:
    """After so many months with demand it was quiet for as many: by chance alone, one of 3,432 active items is with 7, and
    one of 924 with 6. Of a record without dates nothing is known of months."""
    item = item_of(counts=(5, *(4, 6, 5, 5) * months, *(0,) * 4 * months))
    dated = dataclasses.replace(OWN, every="week")
    if has_trial:
        assert trial_of(item, dated, Prior(NONE)).periods == len(item.counts)
        return
    with pytest.raises(Refused, match="hardly asked for any longer"):
        trial_of(item, dated, Prior(NONE))
    assert trial_of(item, OWN, Prior(NONE)).periods == len(item.counts)
