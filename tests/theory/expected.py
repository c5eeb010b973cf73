"""Computes what a replication of a scenario costs on average, exactly but for rounding, by the theory of inventories.

It shares no line with crnsim, with tests/program/oracle.py or with crnplan. All demand is met in the end, so two facts
do (Zipkin, Foundations of Inventory Management, 2000, chapter 9): the position before each review is a Markov chain;
and if m is the longest lead time, all orders of the reviews up to period t - m have arrived in period t. So the stock
at the end of period t follows from the position before the first of the last m reviews, and from which of the orders
placed since then are late.
"""
from __future__ import annotations

from collections.abc import Callable, Mapping
from functools import lru_cache
from itertools import accumulate
from typing import Any

Chances = dict[int, float]


def chances_of(table: Mapping[str, Any]) -> Chances:
    """Returns the chance of each value of a table of values and weights."""
    total = sum(table["weights"])
    return {
        value: weight / total
        for value, weight in zip(table["values"], table["weights"])
        if weight
    }


def added(left: Chances, right: Chances) -> Chances:
    """Returns the chances of the sum of two independent numbers."""
    total: Chances = {}
    for value, chance in left.items():
        for other, its_chance in right.items():
            total[value + other] = total.get(value + other, 0) + chance * its_chance
    return total


def common_chances(
    demand: Mapping[str, Any], lead: Mapping[str, Any]
) -> dict[tuple[int, ...], float]:
    """Returns the chance of each demand with each lead time if both are drawn with the same word: a wrong theory."""
    chances, ends = {}, [
        (table, list(accumulate(table["weights"]))) for table in (demand, lead)
    ]
    places = sorted({end / its_ends[-1] for _, its_ends in ends for end in its_ends})
    below = 0.0
    for place in places:
        pair = tuple(
            next(
                value
                for value, end in zip(table["values"], its_ends)
                if end / its_ends[-1] > (below + place) / 2
            )
            for table, its_ends in ends
        )
        chances[pair] = chances.get(pair, 0) + place - below
        below = place
    return chances


class Expected:
    """The expected costs of one policy of a scenario."""

    def __init__(
        self,
        tree: Mapping[str, Any],
        policy: Mapping[str, Any],
        common_words: bool = False,
    ) -> None:
        """Takes a scenario and the levels of a policy."""
        self.costs, self.periods, self.initial = (
            tree["costs"],
            tree["periods"],
            tree["initial"],
        )
        self.point, self.level = policy["s"], policy["S"]
        returns = tree.get("returns", {"values": [0], "weights": [1]})
        back = {-value: chance for value, chance in chances_of(returns).items()}
        demand, lead = chances_of(tree["demand"]), chances_of(tree["lead"])
        self.longest, self.has_one_lead = max(lead), len(lead) == 1
        pairs = (
            common_chances(tree["demand"], tree["lead"])
            if common_words
            else {
                (value, its_lead): chance * other
                for value, chance in demand.items()
                for its_lead, other in lead.items()
            }
        )
        self.net = added(demand, back)
        # Of each net demand: its chance, and the chance of both it and a lead time above 0, 1, .. periods.
        self.steps = {
            net: [chance, [0.0] * self.longest] for net, chance in self.net.items()
        }
        for (value, its_lead), chance in pairs.items():
            for returned, other in back.items():
                late = self.steps[value + returned][1]
                for age in range(its_lead):
                    late[age] += chance * other
        self.stock_cost = lru_cache(maxsize=None)(self.stock_cost)
        self.general_cost = lru_cache(maxsize=None)(self.general_cost)
        self.sums = [{0: 1.0}]

    def stock_cost(self, stock: int) -> float:
        """Returns the cost of the stock at the end of a period."""
        return (
            self.costs["holding"] * stock
            if stock >= 0
            else self.costs["backlog"] * -stock
        )

    def general_cost(self, reviews: int, position: int, late: int) -> float:
        """Returns the expected cost of stock at the end of the period of the last of some reviews.

        It follows from the position before the first of them, and the amount ordered before that is late then.
        """
        order = self.level - position if position < self.point else 0
        total = 0.0
        for net, (chance, lates) in self.steps.items():
            share = lates[reviews - 1] if order else 0.0
            for part, amount in ((chance - share, late), (share, late + order)):
                if part > 0:
                    total += part * (
                        self.general_cost(reviews - 1, position + order - net, amount)
                        if reviews > 1
                        else self.stock_cost(position + order - net - amount)
                    )
        return total

    def one_lead_cost(self, reviews: int, position: int) -> float:
        """Returns the same with one lead time: no order of these reviews has arrived."""
        while len(self.sums) <= reviews:
            self.sums.append(added(self.sums[-1], self.net))
        return sum(
            chance * self.stock_cost(position - net)
            for net, chance in self.sums[reviews].items()
        )

    def end_cost(self, reviews: int, position: int) -> float:
        """Returns the expected cost of stock after some reviews, by the shorter way where there is one."""
        return (
            self.one_lead_cost(reviews, position)
            if self.has_one_lead
            else self.general_cost(reviews, position, 0)
        )

    def order_cost(self, position: int) -> float:
        """Returns the cost of the order that a review places."""
        return (
            self.costs["setup"] + self.costs["unit"] * (self.level - position)
            if position < self.point
            else 0
        )

    def cost(self, end_cost: Callable[[int, int], float] | None = None) -> float:
        """Returns the expected cost of a replication."""
        end_cost = end_cost or lru_cache(maxsize=None)(self.end_cost)
        positions, total = {self.initial: 1.0}, 0.0
        for period in range(min(self.longest - 1, self.periods)):
            total += end_cost(period + 1, self.initial)
        for period in range(self.periods):
            after = {}
            for position, chance in positions.items():
                total += chance * self.order_cost(position)
                if period + self.longest <= self.periods:
                    total += chance * end_cost(self.longest, position)
                reviewed = self.level if position < self.point else position
                for net, its_chance in self.net.items():
                    after[reviewed - net] = (
                        after.get(reviewed - net, 0) + chance * its_chance
                    )
            positions = after
        return total
