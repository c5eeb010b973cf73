"""Tests what items offer that are planned together: by brute force over all policies, and beside their plans."""
from __future__ import annotations

import dataclasses
from fractions import Fraction
from typing import Any

import numpy as np
import pytest

from crnplan.demand.learning import Prior
from crnplan.formats import MOST_ITEMS
from crnplan.plan.choice import best_of
from crnplan.plan.how import NONE, Settings
from crnplan.plan.offers import ByPrice, offer_of, past_of
from crnplan.plan.prices import REST, Price, Prices
from crnplan.plan.question import NoPolicy, Question, question_of
from crnplan.read.bounds import OrderBounds
from crnplan.read.item import Item
from planner.tests.plan.items import item_of

OWN = Settings(fit="empirical", borrow=NONE)
WANTED = 0.9


def small(place: int, demands: tuple[int, ...], price: int) -> Item:
    """Returns an item with few policies that may be best."""
    return item_of(
        place,
        counts=demands * 5,
        setup=Fraction(4),
        holding=Fraction(price, 50),
        price=Fraction(price),
        backlog=None,
        fill=Fraction(1, 2),
    )


SMALL = (
    small(0, (0, 1, 0, 2), 10),
    small(1, (1, 2, 3, 2), 30),
    small(2, (0, 0, 0, 5), 90),
)


def pairs_of(question: Question) -> np.ndarray[Any, Any]:
    """Returns s, S, what orders and stock cost, and the demand that is not met at once, of all policies of a small item."""
    rows, mean = list[tuple[float, ...]](), float(question.demand.mean)
    for s in range(1, 30):
        for S in range(s, 45):
            figures = question.figures((s, S))
            rows.append((s, S, figures.cost, mean * (1 - figures.fill)))
    return np.array(rows)


def priced(price: float, **words: Any) -> Settings:
    """Returns settings by which all items have a price of a unit of value."""
    groups = {REST: Price(0.99, price, 0.99, len(SMALL))}
    known = {"together": {REST: 0.99}, "prices": Prices(groups), **words}
    return dataclasses.replace(OWN, **known)


@pytest.mark.parametrize("least", [None, 0.3, 0.8, 0.95])
@pytest.mark.parametrize("price", [0.2, 1.0, 7.0])
@pytest.mark.parametrize("item", SMALL, ids=lambda item: item.name)
def test_best_policy_by_brute_force(
    item: Item, price: float, least: float | None
) -> None:
    """No pair costs less with what it does not meet at once, by the price. If that pair has less than the least fill
    rate, none that has it costs less in orders and stock."""
    question = question_of(item, priced(price, at_least=least))
    pairs = pairs_of(question)
    costs = pairs[:, 2] + price * float(item.price or 0) * pairs[:, 3]
    fills = 1 - pairs[:, 3] / float(question.demand.mean)
    if fills[costs.argmin()] < (least or 0):
        costs = np.where(fills >= (least or 0), pairs[:, 2], np.inf)
    (best, *_) = best_of(question)
    own = (pairs[:, :2] == best.levels).all(axis=1)
    assert costs[own] == pytest.approx(costs.min(), rel=1e-9)
    tried = question_of(item, priced(price, at_least=least, prices=None))
    assert ByPrice(tried, [price]).pairs == [best.levels]


def test_offers_by_brute_force() -> None:
    """An offer has what the best of all pairs leave unmet, by value."""
    settings = dataclasses.replace(OWN, together={REST: WANTED})
    prices = (0.1, 0.5, 3.0, 40.0)
    for item in SMALL:
        value = float(item.price or 0)
        offer = offer_of(item, settings, Prior(NONE), {REST: prices})
        pairs = pairs_of(question_of(item, settings))
        for price, unmet in zip(prices, offer.unmet):
            whole = pairs[:, 2] + price * value * pairs[:, 3]
            assert unmet == pytest.approx(value * pairs[whole.argmin(), 3], abs=1e-9)
        assert offer.asked == pytest.approx(value * np.mean(item.counts))


def test_bounds_that_leave_few_policies() -> None:
    """If no policy has the least fill rate, the item has the one that meets most, by its plan and by its offer; there is
    no plan if no pair is within the bounds."""
    item = dataclasses.replace(
        SMALL[1], bounds=OrderBounds(s_min=1, coverage=Fraction(3))
    )
    question = question_of(item, priced(0.01, at_least=0.98))
    best, is_bounded = best_of(question)
    fullest = question.theory.fullest()
    assert is_bounded and best.levels == fullest.levels
    settings = dataclasses.replace(question.settings, prices=None)
    offer = offer_of(item, settings, Prior(NONE), {REST: (0.01,)})
    figures = question.figures(fullest.levels)
    asked_for = float(question.demand.mean) * float(item.price or 0)
    assert offer.unmet == pytest.approx([(1 - figures.fill) * asked_for])
    none = dataclasses.replace(item, bounds=OrderBounds(s_min=MOST_ITEMS + 1))
    with pytest.raises(NoPolicy):
        best_of(question_of(none, priced(1.0)))
    with pytest.raises(NoPolicy):
        ByPrice(question_of(none, priced(1.0)), [1.0])


def test_demand_in_boxes() -> None:
    """Large demands are counted in boxes of two: as half as many items of twice the price and holding cost."""
    counts = tuple(6_000 * count for count in (0, 1, 0, 2) * 5)
    item = dataclasses.replace(SMALL[0], counts=counts, setup=Fraction(9_000))
    half = dataclasses.replace(
        item,
        counts=tuple(count // 2 for count in counts),
        holding=2 * item.holding,
        price=2 * (item.price or 0),
    )
    assert (item.box, half.box) == (2, 1)
    levels = [best_of(question_of(it, priced(0.8)))[0].levels for it in (item, half)]
    assert levels[0] == levels[1]
    settings = dataclasses.replace(OWN, together={REST: WANTED})
    asked = {REST: (0.1, 0.8)}
    offers = [offer_of(it, settings, Prior(NONE), asked) for it in (item, half)]
    for one, other in zip(*map(dataclasses.astuple, offers)):
        assert one == pytest.approx(other)
    past = [past_of(it, settings, Prior(NONE), asked) for it in (item, half)]
    assert past[0].unmet == pytest.approx(past[1].unmet, rel=1e-3)


KINDS: tuple[dict[str, Any], ...] = (
    {},
    {"leads": (1, 3, 2)},
    {"leads": (1, 3), "returns": (1, 0, 0) * 20},
    {"bounds": OrderBounds(pack=6, order_min=20, coverage=Fraction(12))},
    {"counts": tuple(item_of(1).counts[place] * 991 for place in range(60))},
)


@pytest.mark.parametrize("place", range(len(KINDS)))
def test_offers_are_those_of_plans(place: int) -> None:
    """By each price an item is planned with the policy that its offer has, and with its figures."""
    facts = {"price": Fraction(30), "backlog": None, "fill": Fraction(19, 20)}
    item = item_of(place, **facts | KINDS[place])
    prices = [0.02, 0.3, 4.0]
    offered = ByPrice(question_of(item, priced(1.0, prices=None)), prices)
    for each, price in enumerate(prices):
        question = question_of(item, priced(price))
        levels = best_of(question)[0].levels
        figures, mean = question.figures(levels), float(question.demand.mean)
        assert offered.pairs[each] == levels
        assert offered.unmet[each] == pytest.approx((1 - figures.fill) * mean)
