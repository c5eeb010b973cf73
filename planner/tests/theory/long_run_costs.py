"""Computes long-run costs of (s,S) policies a second time: it shares no code with the theory of crnplan.

The depth is S less the position after a review. For one gap S - s it is a Markov chain on 0 .. S - s, and below 0 if
returns have lifted the position above S. All starts from its law in the long run. After the longest lead time m all
orders from before have arrived. So m steps are taken with the joint law of the depth and of what was ordered in these
steps and is then still under way. The stock at the end is S less the depth, what is under way and the net demand of
that period. The law of this shortfall is the same for every S, so the best S for a gap is a quantile of it.
"""
from __future__ import annotations

import math
from typing import NamedTuple

import numpy as np

from crnplan.law import Law
from crnplan.runs import Scenario
from planner.tests.demand.made import chances_of

LEAST_CHANCE = 1e-12


class Shortfall(NamedTuple):
    """The chances of S less the stock at the end of a period, from the least on, and the orders per period. `before` is
    the same just before the demand, after what came back."""

    least: int
    chances: np.ndarray
    orders: float
    before: np.ndarray


class Best(NamedTuple):
    """A policy with its cost per period, without `unit`."""

    cost: float
    point: int
    level: int


def net_demand(scenario: Scenario) -> tuple[int, np.ndarray]:
    """Returns the least net demand of a period, and the chance of each from there on."""
    back = chances_of(scenario.returns or Law((0,), (1,)))
    return 1 - len(back), np.convolve(chances_of(scenario.demand), back[::-1])


def moves_of(least: int, net: np.ndarray, gap: int) -> tuple[int, np.ndarray]:
    """Returns how far the depth can be below 0, and the matrix from each depth to those before the next order.

    A depth that returns would lift further stays at the end, where the law has next to nothing.
    """
    above = 0
    if least < 0:
        steps = least + np.arange(len(net))
        above = -least + math.ceil(14 * net @ steps**2 / (net @ steps))
    count = above + gap + 1
    moves = np.zeros((count, count + least + len(net) - 1))
    for start in range(count):
        ends = np.maximum(start + least + np.arange(len(net)), 0)
        np.add.at(moves[start], ends, net)
    return above, moves


def stationary(moves: np.ndarray, above: int) -> np.ndarray:
    """Returns the long-run law of the depth after a review."""
    count = len(moves)
    chain = moves[:, :count].copy()
    chain[:, above] += moves[:, count:].sum(axis=1)
    equations = np.vstack([(chain.T - np.eye(count))[1:], np.ones(count)])
    return np.linalg.solve(equations, np.eye(count)[-1])


def drawn(law: np.ndarray, least: int, net: np.ndarray) -> np.ndarray:
    """Returns the joint law after one demand, before an order: each depth by a transform of the sum."""
    size = 1 << (len(law) + len(net)).bit_length()
    sums = np.fft.irfft(
        np.fft.rfft(law, size, axis=0) * np.fft.rfft(net, size)[:, None], size, axis=0
    )
    after = sums[-least : len(law) + len(net) - 1]
    after[0] += sums[:-least].sum(axis=0)
    return after


def stepped(
    law: np.ndarray, least: int, net: np.ndarray, above: int, late: float
) -> np.ndarray:
    """Returns the joint law of the depth and of what is under way after one more review, whose order may be late."""
    after = drawn(law, least, net)
    kept, ordered = after[: len(law)], after[len(law) :]
    wide = np.zeros((len(kept), law.shape[1] + len(after) - above))
    wide[:, : law.shape[1]] = kept
    wide[above, : law.shape[1]] += (1 - late) * ordered.sum(axis=0)
    for place, row in enumerate(ordered, len(kept) - above):
        wide[above, place : place + len(row)] += late * row
    used = np.nonzero(wide.sum(axis=0) > LEAST_CHANCE)[0][-1] + 1
    return wide[:, :used]


def shortfall_of(scenario: Scenario, gap: int) -> Shortfall:
    """Returns the law of S less the stock at the end of a period, and the orders per period."""
    least, net = net_demand(scenario)
    above, moves = moves_of(least, net, gap)
    law = stationary(moves, above)[:, None]
    orders = float((law[:, 0] @ moves[:, len(moves) :]).sum())
    lead = chances_of(scenario.lead)
    for age in range(len(lead) - 2, -1, -1):
        law = stepped(law, least, net, above, float(lead[age + 1 :].sum()))
    chances = np.zeros(sum(law.shape) - 1)
    for depth, row in enumerate(law):
        chances[depth : depth + len(row)] += row
    back = chances_of(scenario.returns or Law((0,), (1,)))
    return Shortfall(
        least - above,
        np.convolve(chances, net),
        orders,
        np.convolve(chances, back[::-1]),
    )


def fills_of(scenario: Scenario, short: Shortfall, levels: np.ndarray) -> np.ndarray:
    """Returns the share of demand that is met at once with each order-up-to level S."""
    stock = np.maximum(levels[:, None] - short.least - np.arange(len(short.before)), 0)
    met = sum(
        chance * np.minimum(stock, asked) @ short.before
        for asked, chance in enumerate(chances_of(scenario.demand))
    )
    return met / float(scenario.demand.mean)


def held_of(short: Shortfall, levels: np.ndarray) -> np.ndarray:
    """Returns the share of periods that end with nothing owed with each order-up-to level S."""
    below = short.least + np.arange(len(short.chances)) <= levels[:, None]
    return below @ short.chances


def costs_of(scenario: Scenario, short: Shortfall, levels: np.ndarray) -> np.ndarray:
    stock, costs = (
        levels[:, None] - short.least - np.arange(len(short.chances)),
        scenario.costs,
    )
    rates = np.where(stock > 0, costs.holding * stock, -costs.backlog * stock)
    return costs.setup * short.orders + rates @ short.chances


def cost_of(scenario: Scenario, short: Shortfall, level: int) -> float:
    return float(costs_of(scenario, short, np.array([level]))[0])


def best_of_gap(scenario: Scenario, gap: int) -> Best:
    """Returns the best policy of a gap S - s, with s at least 0."""
    short, costs = shortfall_of(scenario, gap), scenario.costs
    ratio = costs.backlog / (costs.backlog + costs.holding)
    level = max(
        gap, short.least + int(np.searchsorted(np.cumsum(short.chances), ratio))
    )
    return Best(cost_of(scenario, short, level), level - gap, level)


def best_of_all(scenario: Scenario) -> Best:
    """Returns the best policy that a search finds.

    It goes from the best of three gaps about the economic order quantity to a neighbour while one is cheaper, in steps
    that halve.
    """
    least, net = net_demand(scenario)
    costs, mean = scenario.costs, float(net @ (least + np.arange(len(net))))
    step = max(1, int(math.sqrt(2 * costs.setup * mean / costs.holding)) // 2)
    found = {gap: best_of_gap(scenario, gap) for gap in (step, 2 * step, 3 * step)}
    gap = min(found, key=found.__getitem__)
    while step > 0:
        for near in (gap - step, gap + step):
            if near >= 0 and near not in found:
                found[near] = best_of_gap(scenario, near)
        step //= 1 if found[gap] > min(found.values()) else 2
        gap = min(found, key=found.__getitem__)
    return found[gap]
