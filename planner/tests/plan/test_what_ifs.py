"""Tests what policies come to if a lead time or the wanted share differs, with scenarios that are made anew."""
from __future__ import annotations

from dataclasses import replace
from fractions import Fraction
from typing import Any

import pytest

import crnplan as crn
from crnplan.plan.answer import Laws
from crnplan.plan.how import Settings
from crnplan.plan.question import Terms, terms_of
from crnplan.plan.prices import Price, Prices
from crnplan.plan.what_ifs import what_if
from crnplan.read.item import Item

LAW = {0: 5, 2: 3, 4: 2, 9: 1}
COSTS = {
    "setup": Fraction("22.5"),
    "holding": Fraction("0.3"),
    "backlog": Fraction("4.5"),
}


def terms(
    demand: dict[int, int] = LAW,
    lead: dict[int, int] = {2: 1, 3: 1},
    returns: dict[int, int] | None = None,
    **facts: Any,
) -> Terms:
    item = Item(
        **{"name": "it", "counts": (1,), "leads": (2,), "levels": (3, 9), **COSTS}
        | facts
    )
    laws = Laws(
        1, crn.Law.of(demand), crn.Law.of(lead), returns and crn.Law.of(returns)
    )
    return terms_of(item, laws, Settings())


@pytest.mark.parametrize(
    "lead, share", [(None, None), (5, None), (None, 0.9), (4, 0.97)]
)
def test_what_if(lead: int | None, share: float | None) -> None:
    """Figures are those of a scenario that is made anew with the lead time, and the best policy is the cheapest of all that
    meet the share."""
    policies = [(3, 9), (4, 30)]
    made = terms(backlog=None, fill=Fraction(4, 5))
    *given, best = what_if(made, policies, lead, share)
    scenario = crn.Scenario.of(
        LAW, [lead] if lead else {2: 1, 3: 1}, setup=22.5, holding=0.3, backlog=4.5
    )
    every = [(s, S) for s in range(40) for S in range(s, s + 60)]
    frame = scenario.theory([*policies, *every]).frame
    frame["cost"] = 22.5 * frame["orders"] + 0.3 * frame["stock"]
    meeting = frame[frame["fill"] >= (share or 0.8)]
    assert best.cost == pytest.approx(meeting["cost"].min(), rel=1e-6)
    for policy, figures in zip(policies, given, strict=True):
        assert figures.levels == policy
        (row,) = (
            frame[(frame["s"] == policy[0]) & (frame["S"] == policy[1])]
            .head(1)
            .to_dict("records")
        )
        for name in ("cost", "fill", "stock", "orders"):
            assert getattr(figures, name) == pytest.approx(row[name], rel=1e-6)


def test_what_if_of_an_item_that_is_planned_together() -> None:
    """If a share is asked for, an item that is planned with others is planned by itself."""
    alone = terms(backlog=None, fill=Fraction(0.9))
    settings = Settings(
        together={"": 0.99}, prices=Prices({"": Price(0.99, 7.0, 0.99, 1)})
    )
    group = replace(terms(backlog=None, price=Fraction(3)), settings=settings)
    assert group.together is not None
    assert what_if(group, [], share=0.9) == what_if(alone, [])
