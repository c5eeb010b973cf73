"""Computes figures of the long run, and of a run's periods, by a Markov chain of the stock and all that is under way.

A period goes through docs/FORMATS.md, "What happens in a period", step by step. This shares no code with the theory.
"""
from __future__ import annotations

import functools
import itertools
from typing import NamedTuple

import numpy as np
import scipy.sparse

from crnplan.law import Law
from crnplan.policies import Lot, Policy
from crnplan.runs import Scenario

State = tuple[int, ...]  # the stock, and what arrives in the next periods
ROUNDS = 20_000
# Returns lift the position further than this above S with next to no chance in these tests.
MOST_HEIGHT = 90
NONE = Law((0,), (1,))


class Counted(NamedTuple):
    """What one period counts, or its mean: orders, items ordered, in stock, owed and met, whether short, the position
    before the review."""

    orders: float
    items: float
    stock: float
    owed: float
    met: float
    short: float
    position: float

    def cost(self, scenario: Scenario, unit: int = 0) -> float:
        """Returns what the period costs, with this price of an item."""
        costs = scenario.costs
        held = costs.holding * self.stock + costs.backlog * self.owed
        return costs.setup * self.orders + unit * self.items + held


def period(
    state: State,
    policy: Policy,
    demand: int,
    lead: int,
    back: int,
    has_review: bool = True,
    lot: Lot = Lot(),
) -> tuple[State, Counted]:
    """Returns the state after a period, and what is counted in it. An order is as large as it must be, item by item."""
    stock, due = state[0] + state[1], [*state[2:], 0]
    position = stock + sum(due)
    order = policy.S - position if has_review and position < policy.s else 0
    while order and (order < lot.least or order % lot.pack):
        order += 1
    due[lead - 1] += order
    stock += back
    met = min(max(stock, 0), demand)
    stock -= demand
    held, owed = max(stock, 0), max(-stock, 0)
    counted = Counted(order > 0, order, held, owed, met, stock < 0, position)
    return (stock, *due), counted


def steps_of(
    scenario: Scenario, initial: int
) -> tuple[scipy.sparse.csr_matrix, np.ndarray]:
    """Returns the chances to move from each reachable state (column) to each (row), and what each counts on average.

    The first state has this stock and a review, and nothing is under way. A state has its place between two reviews.
    """
    policy, laws = scenario.policies[0], (scenario.demand, scenario.lead)
    draws, chances = [], []
    for drawn in itertools.product(
        *(it.chances.items() for it in (*laws, scenario.returns or NONE))
    ):
        values, its = zip(*drawn)
        draws.append(values)
        chances.append(np.prod(its))
    start = (initial, *[0] * scenario.lead.values[-1])
    first = (0, start)
    numbers, states, to, counts = {first: 0}, [first], [], []
    for place, state in states:
        for values in draws:
            after, counted = period(state, policy, *values, place == 0, scenario.lot)
            counts.append(counted)
            high = max(policy.S, initial) + scenario.lot.pack + scenario.lot.least
            if sum(after) > high + MOST_HEIGHT:
                after = state
            placed = ((place + 1) % scenario.review, after)
            if placed not in numbers:
                numbers[placed] = len(numbers)
                states.append(placed)
            to.append(numbers[placed])
    size = len(states)
    places = to, np.repeat(np.arange(size), len(draws))
    steps = scipy.sparse.csr_matrix((np.tile(chances, size), places), (size, size))
    return steps, chances @ np.array(counts, float).reshape(size, len(draws), -1)


@functools.cache
def by_chain(scenario: Scenario) -> list[float]:
    """Returns cost, fill, short, stock, orders and mean position of the first policy in the long run.

    In half of the periods the chain stays, which changes no mean of the long run and ends cycles.
    """
    steps, counts = steps_of(scenario, scenario.policies[0].S)
    law = np.zeros(len(counts))
    law[0] = 1.0
    for _ in range(ROUNDS):
        before, law = law, (law + steps @ law) / 2
        if abs(law - before).sum() < 1e-13:
            break
    its = Counted(*(law @ counts))
    fill = its.met / float(scenario.demand.mean)
    return [its.cost(scenario), fill, its.short, its.stock, its.orders, its.position]


def expected(scenario: Scenario) -> list[float]:
    """Returns the expected cost of each period of the first policy, from the law of all states."""
    steps, counts = steps_of(scenario, scenario.initial)
    law, costs = np.zeros(len(counts)), []
    law[0] = 1.0
    for _ in range(scenario.periods):
        counted = Counted(*(law @ counts))
        costs.append(counted.cost(scenario, scenario.costs.unit))
        law = steps @ law
    return costs
