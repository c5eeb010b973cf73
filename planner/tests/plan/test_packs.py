"""Tests that packs and a smallest order round orders, in theory as on a day, and leave s and S as they are."""
from __future__ import annotations

import dataclasses
import math
from fractions import Fraction
from pathlib import Path
from typing import Any

import numpy as np
import pytest

from crnplan.demand.learning import Prior
from crnplan.plan.backtest.outcomes import Happened
from crnplan.plan.binding import remarks_of_lot
from crnplan.plan.choice import choice_of
from crnplan.money import Currency
from crnplan.plan.how import NONE
from crnplan.plan.item import Depth
from crnplan.plan.offers import past_of
from crnplan.plan.question import Question
from crnplan.read.bounds import OrderBounds
from crnplan.read.overrides import Override
from crnplan.show.item_page import ItemWords, item_page
from crnplan.sentences import sentence
from planner.tests.plan.items import alone
from planner.tests.plan.test_bounds import FILL, SEEN, answer_of, asked
from planner.tests.plan.test_today import standing_of

# A demand of 1 a week on average, in packs of 100.
SLOW = (0, 1, 2, 1) * 16
# A demand of 0, 4,000 or 16,000 a week, which is counted in boxes.
LARGE: dict[str, Any] = {
    "counts": tuple(4_000 * count for count in SEEN),
    "holding": Fraction(1, 4_000),
    "backlog": Fraction(19, 4_000),
}
PACK = OrderBounds(pack=100)
FOUR = OrderBounds(order_min=40)


def ordered(position: int, S: int, bounds: OrderBounds) -> int:
    """Returns an order, which grows item by item until it can be placed."""
    order = S - position
    while order % bounds.pack or order < (bounds.order_min or 0):
        order += 1
    return order


def by_positions(question: Question, s: int, S: int) -> tuple[float, float]:
    """Returns the cost in money and the fill of levels, by the chain of the position after a review, and the law of the
    demand of three weeks."""
    values, rates = question.demand.chances, question.rates
    top = S + ordered(0, 1, question.bounds)
    moves, orders = np.zeros((top - s + 1,) * 2), np.zeros(top - s + 1)
    for start in range(s, top + 1):
        for demand, chance in values.items():
            after, share = start - demand, float(chance)
            if after < s:
                orders[start - s] += share
                after += ordered(after, S, question.bounds)
            moves[start - s, after - s] += share
    size = len(moves)
    equations = np.vstack([moves.T - np.eye(size), np.ones(size)])
    law = np.linalg.lstsq(equations, np.eye(size + 1)[-1], rcond=None)[0]
    one = np.zeros(max(values) + 1)
    one[[*values]] = [float(chance) for chance in values.values()]
    lead, mean = np.convolve(one, one), np.arange(len(one)) @ one
    left = np.arange(s, top + 1)[:, None] - np.arange(3 * len(one) - 2)
    stock = (np.maximum(left, 0) @ np.convolve(lead, one)) @ law
    owed = (np.maximum(-left, 0) @ np.convolve(lead, one)) @ law
    before = np.arange(s, top + 1)[:, None] - np.arange(2 * len(one) - 1)
    unmet = owed - (np.maximum(-before, 0) @ lead) @ law
    backlog = rates["backlog"] if question.has_backlog else 0
    cost = rates["setup"] * (orders @ law) + rates["holding"] * stock + backlog * owed
    return float(cost / question.scale), float(1 - unmet / mean)


@pytest.mark.parametrize("bounds", [PACK, FOUR, OrderBounds(7, 9)], ids=str)
@pytest.mark.parametrize("wanted", [{}, FILL], ids=["backlog", "fill"])
def test_rounded_orders_leave_the_levels(
    bounds: OrderBounds, wanted: dict[str, Any]
) -> None:
    """s and S are the cheapest of all pairs whose orders are rounded, with their figures, by a second computation."""
    question = asked(bounds, counts=SLOW, **wanted)
    levels = choice_of(question).levels
    least = 1 if wanted else 0
    pairs = {
        (s, s + gap): by_positions(question, s, s + gap)
        for s in range(least, 9)
        for gap in range(14)
    }
    own = question.figures(levels)
    assert pairs[levels] == pytest.approx((own.cost, own.fill), rel=1e-8)
    costs = [cost for cost, fill in pairs.values() if not wanted or fill >= 0.95]
    assert own.cost == pytest.approx(min(costs), rel=1e-8)


def test_a_thousand_slow_items() -> None:
    """An item that needs s of 1 has that in packs of 100. So only what has run out is ordered, a pack each: not all that
    has less than a pack, as if s were one too."""
    slow = (0, 0, 0, 1) * 16
    question = asked(PACK, counts=slow, **FILL)
    assert choice_of(question).levels == (1, 1)
    stocks = np.random.default_rng(90).integers(0, 7, 1_000).tolist()
    total = sum(standing_of(it, s=1, S=1, pack=100).planned for it in stocks)
    rounded = sum(standing_of(it, s=100, S=100, pack=100).planned for it in stocks)
    assert total == 100 * stocks.count(0) and 100 < stocks.count(0) < 200
    assert rounded == 100_000


@pytest.mark.parametrize(
    "pack, least, position, placed, said",
    [
        (1, None, 4, 16, None),
        (5, None, 4, 20, "rounded up to 20: packs of 5, at least 5"),
        (1, 18, 4, 18, "rounded up to 18: packs of 1, at least 18"),
        (5, 18, 4, 20, "rounded up to 20: packs of 5, at least 20"),
        (5, 22, 4, 25, "rounded up to 25: packs of 5, at least 25"),
        (1, 18, -1, 21, None),
    ],
)
@pytest.mark.parametrize("is_set", [False, True], ids=["planned", "set"])
def test_one_order_whoever_has_set_the_levels(
    pack: int, least: int | None, position: int, placed: int, said: str, is_set: bool
) -> None:
    """It goes up to an S of 20, and is rounded up alike for levels of a plan and of a planner, and says so."""
    facts = {"override": Override("levels", 9, 20)} if is_set else {}
    standing = standing_of(position, pack=pack, least=least, **facts)
    assert standing.planned == standing.placed == placed
    reasons = {reason.code: sentence(reason) for reason in standing.reasons}
    assert reasons.get("rounded up") == said
    assert ("by override" in reasons) == is_set


def test_an_order_of_more_than_a_year_is_said() -> None:
    """With 2 items a week, 105 last longer than 52 weeks. The reason before says why they are so many."""
    for least, said in ((104, []), (105, ["that is 52 weeks of mean demand"])):
        standing = standing_of(0, least=least)
        below, why, *more = map(sentence, standing.reasons)
        assert why.startswith(f"rounded up to {least}: ")
        assert more == said


def test_nothing_stands_above_what_an_order_reaches() -> None:
    """An order in packs of 12 leaves up to 11 items above S, and a smallest one of 30 up to 18 with S - s of 11."""
    for words, spare in (({}, 0), ({"pack": 12}, 11), ({"least": 30}, 18)):
        reached = max(
            20 - wanted + ordered(0, wanted, OrderBounds(**renamed(words)))
            for wanted in range(12, 60)
        )
        assert reached == 20 + spare
        assert standing_of(20 + spare, **words).above == 0
        assert standing_of(21 + spare, **words).above == 1


def renamed(words: dict[str, int]) -> dict[str, int]:
    return {name.replace("least", "order_min"): it for name, it in words.items()}


def test_the_past_is_ordered_in_packs() -> None:
    """With (2, 4) and one item a week, each third week orders 3. Rounded up to 10, one order in ten weeks is enough."""
    item = asked(counts=(1,) * 45, leads=(1,)).item
    for bounds, sizes, orders in (
        (OrderBounds(), {3}, 14),
        (OrderBounds(pack=10), {10}, 4),
        (OrderBounds(order_min=10), {10}, 4),
    ):
        happened = Happened(item, bounds.lot, asked().lead, 1, 5)
        past = [it.ordered for it in happened.periods([(2, 4)] * 45)]
        assert {*past} - {0} <= sizes
        assert sum(map(bool, past)) == pytest.approx(orders, abs=1)


def test_trials_of_prices_order_in_packs() -> None:
    """What a pack brings beyond S leaves less unmet. Something is, as it would not be if s were a pack."""
    unmet = []
    settings = alone(fit="empirical", together={"": 0.9})
    for bounds in (OrderBounds(), PACK):
        facts = FILL | {"price": Fraction(3), "bounds": bounds}
        item = asked(counts=SLOW, **facts).item
        offer = past_of(item, settings, Prior(NONE), {"": (0.05, 1.0)})
        unmet.append(offer.unmet)
    for exact, rounded in zip(*unmet):
        assert 0 < rounded < exact / 2


def test_the_page_of_an_item_in_packs(program: Path) -> None:
    """Its figures are theory's. The run beside them orders up to S exactly, and agrees with theory that does."""
    question = asked(OrderBounds(pack=28_000), **LARGE)
    answer, remarks = answer_of(question, program)
    assert question.item.box > 1 and "rounded orders" in remarks
    assert answer.source == "theory" and answer.run
    exact = dataclasses.replace(
        question, item=dataclasses.replace(question.item, bounds=OrderBounds())
    )
    levels = (
        answer.chosen.point // question.item.box,
        answer.chosen.level // question.item.box,
    )
    cost = exact.figures(levels).cost
    assert answer.run.cost_chosen == pytest.approx(cost, rel=0.2)
    assert answer.chosen.cost != pytest.approx(cost, rel=0.001)
    depth = Depth(question, answer, str(program), laws=4)
    page = item_page(ItemWords(depth, "week", Currency()))
    assert "Orders are rounded up, in theory alone" in page


def test_what_is_said_of_packs() -> None:
    """It is said of each item whose orders can't all be placed as they are, in boxes as in items."""
    (remark,) = remarks_of_lot(asked(OrderBounds(7, 20)))
    assert sentence(remark) == (
        "orders are rounded up, in theory alone: packs of 7, at least 21"
    )
    for pack, times in ((1, 1), (6, 6), (2, 6)):
        item = asked(OrderBounds(pack=pack), counts=tuple(times * it for it in SLOW))
        assert not [*remarks_of_lot(item)]
    assert math.isclose(asked(PACK).theory.spare, 99)
