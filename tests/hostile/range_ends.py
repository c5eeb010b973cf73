"""Scenarios and checkpoints with each number at the ends of its range and one beyond, which chance may miss."""
from __future__ import annotations

import copy
from collections.abc import Iterator
from typing import Any

from crnplan import formats

from tests.hostile import second_reader as reader
from tests.hostile.second_reader import MOST_A_PERIOD, Checkpoint, State, Tree
from tests.shapes import SHAPES, Shape, least_scenario

MOST_LETTERS, MOST_WEIGHT, MOST_ITEMS = (
    formats.MOST_LETTERS,
    formats.MOST_WEIGHT,
    formats.MOST_ITEMS,
)
NAMES = [
    "",
    "a",
    "a" * MOST_LETTERS,
    "a" * (MOST_LETTERS + 1),
    "B",
    "b",
    "A B",
    "azAZ09_-",
    "\u00e4",
    "a\n",
    ".",
]
WORDS = [
    "0" * 16,
    "0" * 15,
    "0" * 17,
    "g" + "0" * 15,
    "F" * 16,
    "f" * 16,
    "-" + "0" * 15,
    " " + "0" * 15,
]
WEIGHTS = [
    [0, 0],
    [0, 1],
    [MOST_WEIGHT, 0],
    [MOST_WEIGHT - 1, 1],
    [MOST_WEIGHT, 1],
    [MOST_WEIGHT + 1, 0],
    [-1, 2],
    [1],
    [1, 1, 1],
    [],
]


def a_scenario(version: int) -> Tree:
    """Returns a scenario of a version: two values in each list, costs that differ, and two policies."""
    tree = least_scenario(version)
    for table in (it for it in formats.DRAWS if it in tree):
        low = tree[table]["values"][0]
        tree[table] = {"values": [low, low + 3], "weights": [2, 1]}
    tree["costs"] = {it: place for place, it in enumerate(tree["costs"], 1)}
    policy = {**tree["policy"][0], "s": 5, "S": 10}
    return {
        **tree,
        "key": ["0123456789abcdef"] * 4,
        "periods": 5,
        "replications": 2,
        "initial": 10,
        "ring": 2,
        "policy": [policy, {**policy, "name": "B", "s": 0, "S": MOST_ITEMS}],
    }


SCENARIO = a_scenario(formats.VERSIONS[-1])


def around(low: int, high: int) -> list[int]:
    """Returns the numbers at the ends of a range, and one on either side."""
    return [low - 1, low, low + 1, high - 1, high, high + 1]


def with_value(tree: Tree, path: list[Any], value: Any) -> Tree:
    """Returns a copy of a tree with another value at a place."""
    tree = copy.deepcopy(tree)
    holder: Any = tree
    for key in path[:-1]:
        holder = holder[key]
    holder[path[-1]] = value
    return tree


def table_ends(tree: Tree, path: list[Any], keys: Shape) -> Iterator[Tree]:
    """Yields the tree with each number of a table at its ends."""
    for key, (kind, *more) in keys.items():
        place = [*path, key]
        if kind == "number":
            yield from (with_value(tree, place, it) for it in around(*more))
        elif kind in ("table", "draws"):
            yield from table_ends(tree, place, more[0])
        elif key == "values":
            yield from (
                with_value(tree, place, it)
                for it in ([], [1, 1], [2, 1], [1], [1, 2, 3])
            )
            yield from (with_value(tree, [*place, 0], it) for it in around(*more)[:3])
            yield from (with_value(tree, [*place, 1], it) for it in around(*more)[3:])
        elif key == "weights":
            yield from (with_value(tree, place, it) for it in WEIGHTS)


def scenario_ends() -> Iterator[Tree]:
    """Yields trees of scenarios with one number, name, word, list or count at an end."""
    for version in formats.VERSIONS:
        tree, shape = a_scenario(version), SHAPES[version]
        yield tree
        yield from table_ends(tree, [], shape)
        yield from (
            with_value(tree, ["version"], it) for it in around(version, version)
        )
        for place in range(len(tree["policy"])):
            yield from table_ends(tree, ["policy", place], shape["policy"][1])
    yield from (with_value(SCENARIO, ["policy", 0, "s"], it) for it in (9, 10, 11))
    yield from (with_value(SCENARIO, ["policy", 0, "name"], it) for it in NAMES)
    yield from (with_value(SCENARIO, ["key", 3], it) for it in WORDS)
    yield from (with_value(SCENARIO, ["key"], ["0" * 16] * it) for it in (0, 3, 4, 5))
    yield from (
        with_value(SCENARIO, ["ring"], it + step)
        for size in formats.RING_SIZES
        for it in (size, 2 * size)
        for step in (-1, 0, 1)
    )
    policy = SCENARIO["policy"][0]
    for count in around(*formats.POLICIES):
        yield with_value(
            SCENARIO, ["policy"], [{**policy, "name": f"P{it}"} for it in range(count)]
        )
    for first in SCENARIO:
        yield {it: SCENARIO[it] for it in SCENARIO if it != first}


def damaged(text: bytes) -> Iterator[bytes]:
    """Yields each proper prefix of a text, and the text with each of its bytes set to `0`."""
    yield from (text[:size] for size in range(len(text)))
    yield from (text[:at] + b"0" + text[at + 1 :] for at in range(len(text)))


def due_ends(stock: int, period: int, top: int) -> list[list[tuple[int, int]]]:
    """Returns outstanding orders that may stand beside a stock, or nearly."""
    last = period + formats.MOST_LEAD - 1
    near: list[list[tuple[int, int]]] = [
        [],
        [(period, 1)],
        [(last, 1)],
        [(last + 1, 1)],
        [(period - 1, 1)],
        [(period, 0)],
        [(period, -1)],
        [(period, 1), (period, 1)],
        [(period + 1, 1), (period, 1)],
        [(period, 1), (last, 1)],
    ]
    return near + [
        [(period, it - stock)]
        for it in [*around(-MOST_A_PERIOD, MOST_ITEMS), top, top + 1]
    ]


def state_ends(state: State, scenario: Tree, period: int) -> Iterator[State]:
    """Yields a state with each of its amounts at its ends, before a period of a replication."""
    top = MOST_ITEMS + (MOST_A_PERIOD * period if "returns" in scenario else 0)
    for stock in [
        *around(-MOST_A_PERIOD * period, top),
        *around(-MOST_A_PERIOD, MOST_ITEMS),
        state.stock,
    ]:
        yield from (
            state._replace(stock=stock, due=due) for due in due_ends(stock, period, top)
        )
    yield from (state._replace(cost=it) for it in around(0, formats.MOST_COST * period))
    most = formats.MOST_COST * scenario["periods"]
    yield from (state._replace(costs=[*state.costs[:-1], it]) for it in around(0, most))
    yield from (
        state._replace(costs=it) for it in (state.costs[:-1], [*state.costs, 0])
    )


def checkpoint_ends(cut: Checkpoint) -> Iterator[Checkpoint]:
    """Yields a checkpoint with the first state's amounts at their ends, and at the last block and beyond."""
    scenario, states = cut.scenario, cut.states
    total, each = reader.blocks_of(scenario)
    for first in state_ends(states[0], scenario, 4 * (cut.block % each)):
        yield cut._replace(states=[first, *states[1:]])
    for block in (0, cut.block - 1, cut.block + 1, total - 1, total, total + 1):
        yield cut._replace(block=block)
    ended = State(scenario["initial"], 0, [], [0] * scenario["replications"])
    yield cut._replace(block=total, states=[ended] * len(states))
    for periods in (1, 3, 4, 8, 9, 12, *around(*formats.limits("", "periods"))[4:]):
        yield cut._replace(scenario={**scenario, "periods": periods})
