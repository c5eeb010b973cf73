"""Long runs of the oracle, with numpy: all policies in all replications at once.

Stock and position are carried from period to period, which the oracle does not do. The first and the last policy are
computed in both ways in the first and the last replication, and must be equal.
"""
from __future__ import annotations

import functools
from collections.abc import Collection
from typing import Any

import numpy as np
import numpy.typing as npt

from crnplan import formats

from tests.program import oracle

Whole = npt.NDArray[np.int64]


def draws_of(scenario: oracle.Scenario, stream: str) -> Whole:
    """Returns what the periods of all replications draw from a stream: a row for each replication."""
    if stream not in scenario.spreads:
        return np.zeros((scenario.replications, scenario.periods), np.int64)
    numbers = np.arange(scenario.total, dtype=np.uint64)
    words = np.stack(
        oracle.threefry(scenario.key, [numbers, oracle.STREAMS.index(stream), 0, 0]),
        axis=1,
    )
    spread = np.array(scenario.spreads[stream])
    # The upper 64 of the 128 bits of a word times the sum of weights, which has at most 17 bits.
    count, low = np.uint64(len(spread)), np.uint64(32)
    places = (
        (words >> low) * count + ((words & np.uint64(2**32 - 1)) * count >> low)
    ) >> low
    drawn: Whole = spread[places].reshape(scenario.replications, -1)[
        :, : scenario.periods
    ]
    return drawn


class LongRun(oracle.Run):
    """Keeps whole histories for some replications of a run, and only the costs for the others."""

    def __init__(self, text: str, kept: Collection[int]) -> None:
        """Runs the scenario of a text, and keeps the histories of these replications, the first and the last."""
        self.scenario = scenario = oracle.Scenario(text)
        self.kept = sorted(
            {it for it in kept if it < scenario.replications}
            | {0, scenario.replications - 1}
        )
        self.draws = [draws_of(scenario, it) for it in oracle.STREAMS]
        orders, stocks, self.spent = self.periods()
        self.histories = [
            {
                it: self.history(
                    orders[:, policy, place],
                    stocks[:, policy, place],
                    self.spent[:, policy, it],
                    it,
                )
                for place, it in enumerate(self.kept)
            }
            for policy in range(len(scenario.policies))
        ]
        for policy, replication in (
            (policy, replication)
            for policy in (0, -1)
            for replication in (0, self.kept[-1])
        ):
            draws = [it[replication].tolist() for it in self.draws]
            if self.histories[policy][replication] != oracle.history(
                scenario, scenario.policies[policy], draws
            ):
                raise ValueError(
                    f"two histories of policy {policy} in replication {replication} differ"
                )

    def periods(self) -> tuple[Whole, Whole, Whole]:
        """Returns orders and stocks by period, policy and kept replication, and what each replication spends."""
        scenario, (demands, leads, returned) = self.scenario, self.draws
        costs, shape = scenario.costs, (len(scenario.policies), scenario.replications)
        low, high = (
            np.array([[it[level]] for it in scenario.policies]) for level in ("s", "S")
        )
        position = np.full(shape, scenario.tree["initial"])
        stock, arriving = position.copy(), np.zeros(
            (scenario.periods + formats.MOST_LEAD, *shape), np.int64
        )
        orders, stocks, spent = [], [], []
        for period in range(scenario.periods):
            order = np.where(position < low, high - position, 0)
            arriving[
                period + leads[:, period], :, np.arange(scenario.replications)
            ] += order.T
            change = returned[:, period] - demands[:, period]
            position += order + change
            stock += arriving[period] + change
            spent.append(
                np.where(order > 0, costs["setup"] + costs["unit"] * order, 0)
                + np.where(
                    stock >= 0, costs["holding"] * stock, -costs["backlog"] * stock
                )
            )
            orders.append(order[:, self.kept])
            stocks.append(stock[:, self.kept])
        return np.array(orders), np.array(stocks), np.array(spent)

    def history(
        self, orders: Whole, stocks: Whole, spent: Whole, replication: int
    ) -> tuple[list[Any], ...]:
        """Returns a policy's history in a replication, as the oracle has it."""
        arrivals = np.arange(len(orders)) + self.draws[1][replication]
        return (
            list(zip(orders.tolist(), arrivals.tolist())),
            stocks.tolist(),
            spent.tolist(),
        )

    def costs(self, policy: int) -> list[int]:
        """Returns the cost of each replication of a policy, by its number."""
        costs: list[int] = self.spent[:, policy].sum(axis=0).tolist()
        return costs


@functools.lru_cache(maxsize=1)
def long_run_of(text: str, blocks: tuple[int, ...]) -> LongRun:
    """Returns the run of a long scenario's text, with the state of each policy at each of the blocks."""
    each = oracle.Scenario(text).blocks
    return LongRun(text, {block // each for block in blocks})
