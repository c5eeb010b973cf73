"""Tests what changes since an earlier plan come to: gains and sums by hand."""
from __future__ import annotations

import random
from collections.abc import Sequence
from dataclasses import replace

import pytest

from crnplan.plan import changes
from crnplan.plan.answer import Figures, LawFacts, YearPart
from crnplan.plan.backtest.outcomes import Outcome
from crnplan.plan.changes import Change, ChangeSums, PlannedTwice, Since, SinceSums
from crnplan.plan.how import Settings
from crnplan.remarks import Remark
from planner.tests.show.made_catalogue import made_pair

LAW = LawFacts("poisson", 0.5, None, 5.0, 2.0)  # 5 items a period
EARLIER = Figures(3, 9, 10.0, 0.75, 0.1, 4.0, 0.5)
DEAR, CHEAP = (
    replace(EARLIER, cost=12.0, fill=0.875),
    replace(EARLIER, cost=7.5, fill=0.625),
)


def change_of(
    after: Figures | None,
    undamped: Figures | None = None,
    price: float = 0.0,
    before: Figures | None = EARLIER,
    law: LawFacts | None = LAW,
    kind: str = "moved",
    reasons: Sequence[str] = (),
) -> Change:
    """Returns what has changed of an item."""
    remarks = tuple(map(Remark, reasons))
    return Change(
        "it", kind, EARLIER, before, after, undamped, law, remarks, None, price
    )


@pytest.mark.parametrize(
    "change, gain",
    [
        # Without a price the costs alone count: 10 - 12, and 10 - 7.5.
        (change_of(DEAR), -2),
        (change_of(CHEAP), 2.5),
        # An eighth of 5 items more are met at once, or less, each of which is worth 8.
        (change_of(DEAR, price=8), -2 + 8 * 5 / 8),
        (change_of(CHEAP, price=8), 2.5 - 8 * 5 / 8),
        # The policy that would be chosen counts, if the earlier one stays.
        (change_of(EARLIER, CHEAP), 2.5),
        (change_of(EARLIER, DEAR, price=8), 3),
        (change_of(EARLIER), 0),
        (change_of(None), None),
        (change_of(DEAR, before=None), None),
        (change_of(DEAR, law=None), None),
    ],
)
def test_gain_by_hand(change: Change, gain: float | None) -> None:
    assert change.gain == gain


def test_sums_of_changes() -> None:
    """What moved items gain is added up, and what damped ones give up; no other counts. A reason counts once an item."""
    several = [
        change_of(CHEAP, reasons=["new rows", "other law", "new rows"]),
        change_of(DEAR, reasons=["other law"]),
        change_of(EARLIER, CHEAP, kind="damped"),
        change_of(EARLIER, DEAR, price=8, kind="damped"),
        change_of(CHEAP, kind="same"),
        change_of(None, before=None, kind="gone"),
    ]
    sums = ChangeSums.of(several)
    assert (sums.gained, sums.given_up) == (2.5 - 2, 2.5 + 3)
    assert sums.kinds == {"moved": 2, "damped": 2, "same": 1, "gone": 1}
    assert sums.reasons == {"new rows": 1, "other law": 2}
    assert sums.since is None


def since(
    mean: float,
    demands: Sequence[int],
    unmet: Sequence[int],
    costs: Sequence[float],
    promised: tuple[float, float],
) -> Since:
    """Returns what came in periods from 7 on, beside a cost and a fill rate that were promised."""
    figures = 0.0, None, 0.0, 0.0, 0
    came = Outcome(3, 9, *promised, *figures, tuple(costs), tuple(unmet))
    return Since(7, mean, tuple(demands), came)


def test_sums_of_what_came_since() -> None:
    """Items weigh alike: in units of their means, 2 and 4, the first ones ask for 1 and 2, and for 1. Of these 4 units a half
    was not met at once; by the promises a quarter of 3 was not to be. It cost 13, and 4, 4 and 2 were promised. Nobody has
    asked for the last item, which is in no sum."""
    known = [
        since(2, (2, 4), (1, 0), (3, 7), (4, 0.75)),
        since(4, (4,), (0,), (3,), (2, 1)),
        since(0, (0, 0, 0), (0, 0, 0), (9, 9, 9), (1, 0.5)),
    ]
    sums = SinceSums.of(known)
    assert sums is not None
    assert (sums.items, sums.periods) == (2, 2)
    assert sums.promised == pytest.approx(1 - 0.25 * 3 / 4)
    assert sums.unmet.value == pytest.approx(0.5 / 4)
    assert sums.missed.value == pytest.approx((0.5 - 0.25 * 3) / 4)
    assert sums.dearer.value == pytest.approx((13 - 10) / 10)


def test_nothing_was_asked_for_since() -> None:
    """There are no sums without demand since, nor of items that nobody has asked for."""
    quiet = since(2, (0, 0), (0, 0), (3, 3), (4, 0.75))
    unasked = replace(quiet, mean=0.0)
    assert SinceSums.of([]) is None
    assert SinceSums.of([quiet, unasked]) is None


@pytest.mark.parametrize("levels, kind", [((3, 11), "same"), ((4, 13), "moved")])
def test_kind_of_a_season(levels: tuple[int, int], kind: str) -> None:
    """The record ends before period 1060: what is chosen now is compared with the earlier levels of that period's month, and
    not of the month before."""
    item, answer = made_pair(random.Random(1), "it")
    item = replace(item, counts=(0, 3, 1) * 20, first=1000)
    months = YearPart(1055, 1060, 4, 13, 1.0), YearPart(1060, 1065, 3, 11, 1.0)
    chosen = replace(answer.chosen, point=levels[0], level=levels[1])
    pair = PlannedTwice(
        (item, replace(answer, calendar=months)),
        (item, replace(answer, chosen=chosen, calendar=months)),
        None,
    )
    change = changes.change_of(pair, Settings(), 1060, ())
    assert (change.kind, change.since) == (kind, None)


@pytest.mark.parametrize("levels, is_earlier", [((3, 9), 1), ((3, 8), 0)])
def test_policy_of_today_by_hand(levels: tuple[int, int], is_earlier: int) -> None:
    """It is said whether today's policy has become that of the earlier plan. Lead times have their means."""
    item, _ = made_pair(random.Random(1), "it")
    old = replace(item, levels=(1, 5), leads=(1, 2, 6))
    new = replace(item, levels=levels, leads=(4, 5))
    today = {"s": levels[0], "S": levels[1], "earlier": is_earlier}
    assert [*changes.masters_of(old, new, (3, 9))] == [
        Remark("other lead times", {"before": 3, "after": 4.5, "seen": 2}),
        Remark("other policy today", today),
    ]
