"""A second reader of scenarios, checkpoints and schedules: which fault a text has, and what it says.

It is written from docs/FORMATS.md and shares no line with crnsim. Keys, ranges and versions are those of
`crnplan.formats`.
"""
from __future__ import annotations

import math
import re
import tomllib
from collections.abc import Callable, Collection, Iterator, Sequence
from typing import Any, NamedTuple

from crnplan import formats

from tests.shapes import SHAPES, Shape

Tree = dict[str, Any]

MARK = b"\xef\xbb\xbf"
NEWEST = formats.CHECKPOINT_VERSIONS[-1]
MOST_A_PERIOD = formats.limits("demand", "values")[1]
MOST_ROWS = formats.WEIGHT_SUMS[1]
INTEGER = re.compile(r"0|-?[1-9][0-9]*")
# What counts when levels are counted, and texts and comments, in which nothing does.
PIECE = re.compile(
    r'"""(?:\\.|[^\\])*?"{3,5}|\'\'\'.*?\'{3,5}|"(?:\\.|[^"\\])*"|\'[^\']*\'|#[^\n]*|[][{}.=,\n]',
    re.DOTALL,
)
# What TOML 1.1 takes and 1.0, which Python's reader knows, does not: a comma or a line's end before the end of an
# inline table, two escapes, and a time without seconds.
NEWER = re.compile(rb",\s*}|{[^}]*\n|\\[ex]|[0-9]{2}:[0-9]{2}")


# ---- documents


class NoDocument(ValueError):
    """What is no document, though Python's reader takes it."""


def is_integer(value: object) -> bool:
    """Returns whether a value of a document is an integer. True and False are none."""
    return type(value) is int


def has_huge_integer(value: object) -> bool:
    """Returns whether an integer beyond 64 bits stands anywhere in a tree."""
    left = [value]
    while left:
        value = left.pop()
        if isinstance(value, (dict, list)):
            left += value.values() if isinstance(value, dict) else value
        elif type(value) is int and not -(2**63) <= value < 2**63:
            return True
    return False


def double_of(spelt: str) -> float:
    """Reads a number with a point or an exponent. Raises NoDocument if it is beyond all doubles."""
    value = float(spelt)
    if math.isinf(value) and "inf" not in spelt:
        raise NoDocument
    return value


def levels_of(text: str) -> int:
    """Returns the most levels of a document: lists and inline tables within each other, or parts of one key."""
    most, inner, parts = 0, 0, 1
    for piece in PIECE.findall(text):
        inner += (piece in "[{") - (piece in "]}")
        # A number has one point at most, so that no value has more than two parts.
        parts = parts + 1 if piece == "." else 1 if piece in "[]{}=,\n" else parts
        most = max(most, inner, parts)
    return most


def tree_of(data: bytes) -> Tree | None:
    """Returns the tree of a TOML document. None if the bytes are none."""
    try:
        text = data.removeprefix(MARK).decode("utf-8")
        tree = tomllib.loads(text, parse_float=double_of)
    except (ValueError, RecursionError):
        return None
    return (
        None
        if has_huge_integer(tree) or levels_of(text) > formats.MOST_LEVELS
        else tree
    )


def is_for_both(data: bytes) -> bool:
    """Returns whether both versions of TOML say the same of a text, as far as can be told."""
    return tree_of(data) is not None or not NEWER.search(data)


# ---- scenarios


def rises(values: Sequence[int]) -> bool:
    """Returns whether each value is above the one before it."""
    return all(low < high for low, high in zip(values, values[1:]))


def range_faults(numbers: Sequence[int], low: int, high: int) -> set[int]:
    """Returns fault 6 if one of the numbers is out of its range."""
    return set() if all(low <= it <= high for it in numbers) else {6}


def list_faults(value: Any, is_entry: Callable[[Any], bool]) -> set[int]:
    """Returns fault 5 if a value is no list, or has an entry of another kind."""
    return set() if isinstance(value, list) and all(map(is_entry, value)) else {5}


def key_faults(value: Any) -> set[int]:
    """Returns the faults of the key of random numbers."""
    if list_faults(value, lambda it: isinstance(it, str)):
        return {5}
    return (
        set()
        if len(value) == formats.WORDS_OF_KEY
        and all(map(formats.WORD.fullmatch, value))
        else {6}
    )


def policies_faults(value: Any, keys: Shape) -> set[int]:
    """Returns the faults of a list of policies, each by itself."""
    if not isinstance(value, list):
        return {5}
    least, most = formats.POLICIES
    faults: set[int] = set().union(
        *(table_faults(it, keys) for it in value if isinstance(it, dict))
    )
    faults |= set() if least <= len(value) <= most else {13}
    return faults | list_faults(value, lambda it: isinstance(it, dict))


def value_faults(value: Any, kind: str, *more: Any) -> set[int]:
    """Returns the faults of one value by itself."""
    match kind:
        case "version":
            return set()
        case "number":
            return range_faults([value], *more) if is_integer(value) else {5}
        case "numbers":
            return list_faults(value, is_integer) or (
                range_faults(value, *more) if value else {6}
            )
        case "key":
            return key_faults(value)
        case "ring":
            return (
                {5}
                if not is_integer(value)
                else set()
                if value in formats.RING_SIZES
                else {12}
            )
        case "name":
            return (
                {5}
                if not isinstance(value, str)
                else set()
                if formats.NAME.fullmatch(value)
                else {11}
            )
        case "table" | "draws":
            return table_faults(value, *more) if isinstance(value, dict) else {5}
    return policies_faults(value, *more)


def table_faults(table: Tree, keys: Shape) -> set[int]:
    """Returns the faults of a table's keys and of their values."""
    faults = {3} if table.keys() - keys.keys() else set()
    faults |= {4} if keys.keys() - table.keys() else set()
    return faults.union(
        *(value_faults(table[it], *keys[it]) for it in keys.keys() & table.keys())
    )


def draw_faults(draws: Tree) -> set[int]:
    """Returns the faults of values beside their weights."""
    values, weights = draws["values"], draws["weights"]
    faults = {7} if len(values) != len(weights) else set()
    faults |= set() if rises(values) else {8}
    least, most = formats.WEIGHT_SUMS
    return faults | (set() if least <= sum(weights) <= most else {9})


def policy_faults(policies: list[Tree]) -> set[int]:
    """Returns the faults of policies beside each other."""
    names = [it["name"] for it in policies]
    faults = {10} if any(it["s"] > it["S"] for it in policies) else set()
    return faults | ({11} if len(set(names)) < len(names) else set())


def scenario_of(data: bytes) -> tuple[int, Tree | None]:
    """Returns the least fault of a scenario's text, 0 if it has none, and its tree."""
    tree = tree_of(data)
    if tree is None:
        return 1, None
    if not is_integer(tree.get("version")) or tree["version"] not in formats.VERSIONS:
        return 2, None
    faults = table_faults(tree, SHAPES[tree["version"]])
    # Values are compared with each other only if each is of its kind. The faults up to 5 are below those that this
    # finds.
    if not faults & {3, 4, 5}:
        faults |= policy_faults(tree["policy"])
        faults = faults.union(
            *(draw_faults(tree[it]) for it in formats.DRAWS if it in tree)
        )
    return min(faults, default=0), tree


# ---- checkpoints


class State(NamedTuple):
    """The state of a policy: stock, running cost, outstanding orders by period, and costs of replications."""

    stock: int
    cost: int
    due: list[tuple[int, int]]
    costs: list[int]


class Checkpoint(NamedTuple):
    """What a checkpoint's text says: its version, its block, the scenario without ring, and a state for each policy."""

    spelling: int
    block: int
    scenario: Tree
    states: list[State]


class NoCheckpoint(Exception):
    """A text is no checkpoint's."""


def demand_that(holds: object) -> None:
    """Ends the reading of a text that is no checkpoint's."""
    if not holds:
        raise NoCheckpoint


def number_of(field: str, low: int, high: int) -> int:
    """Reads the number that a field spells, which is in a range."""
    demand_that(
        INTEGER.fullmatch(field) and len(field) <= 20 and low <= int(field) <= high
    )
    return int(field)


def blocks_of(scenario: Tree) -> tuple[int, int]:
    """Returns how many blocks the run of a scenario takes, and how many each replication."""
    each = (scenario["periods"] + 3) // 4
    return each * scenario["replications"], each


class Rows:
    """The rows of a checkpoint's text, which are taken one by one."""

    def __init__(self, data: bytes) -> None:
        """Splits a text into rows."""
        demand_that(data.endswith(b"\n") and data.isascii())
        self.rows = [it.split(",") for it in data.decode("ascii")[:-1].split("\n")]
        self.place = 0

    def take(self, kind: str, count: int) -> list[str]:
        """Returns the fields of the next row after its kind: so many, and then none but `-`."""
        demand_that(self.place < len(self.rows))
        row = self.rows[self.place]
        self.place += 1
        demand_that(
            len(row) == 5 and row[0] == kind and row[count + 1 :] == ["-"] * (4 - count)
        )
        return row[1 : count + 1]

    def numbers(self, kind: str, *ranges: tuple[int, int]) -> list[int]:
        """Returns the numbers of the next row, each in its range."""
        return [
            number_of(field, *it)
            for field, it in zip(self.take(kind, len(ranges)), ranges)
        ]


def draws_of(rows: Rows, kind: str, count: int, table: str) -> Tree:
    """Reads values with their weights, a row each."""
    limits = [formats.limits(table, it) for it in ("values", "weights")]
    pairs = [rows.numbers(kind, *limits) for _ in range(count)]
    draws = {"values": [it[0] for it in pairs], "weights": [it[1] for it in pairs]}
    demand_that(pairs and not draw_faults(draws))
    return draws


def state_of(rows: Rows, scenario: Tree, done: int, periods: int) -> State:
    """Reads the state of a policy, after so many replications and so many periods of the next one."""
    top = formats.MOST_ITEMS + (MOST_A_PERIOD * periods if "returns" in scenario else 0)
    low, most = -MOST_A_PERIOD * periods, formats.MOST_LEAD
    stock, cost, count, _ = rows.numbers(
        "state", (low, top), (0, formats.MOST_COST * periods), (0, most), (done, done)
    )
    due = []
    for _ in range(count):
        period, amount = rows.numbers(
            "due", (periods, periods + most - 1), (1, top - low)
        )
        due.append((period, amount))
    demand_that(
        rises([it[0] for it in due])
        and -MOST_A_PERIOD <= stock + sum(it[1] for it in due) <= top
    )
    demand_that(periods or (stock, cost, due) == (scenario["initial"], 0, []))
    costs = [
        rows.numbers("cost", (it, it), (0, formats.MOST_COST * scenario["periods"]))[1]
        for it in range(done)
    ]
    return State(stock, cost, due, costs)


def policy_of(rows: Rows) -> Tree:
    """Reads the policy of the next row."""
    name, low, high = rows.take("policy", 3)
    demand_that(formats.NAME.fullmatch(name))
    limits = {it: formats.limits("policy", it) for it in "sS"}
    return {
        "name": name,
        "s": number_of(low, *limits["s"]),
        "S": number_of(high, *limits["S"]),
    }


def scenario_rows(rows: Rows) -> tuple[int, int, int, Tree]:
    """Reads the rows before the policies: the version, the block, how many policies come, and the scenario."""
    spelling, block, periods, replications = rows.numbers(
        "checkpoint",
        (1, NEWEST),
        (0, 2**64),
        formats.limits("", "periods"),
        formats.limits("", "replications"),
    )
    scenario: Tree = {
        "version": 1,
        "periods": periods,
        "replications": replications,
        "key": rows.take("key", 4),
    }
    demand_that(all(map(formats.WORD.fullmatch, scenario["key"])))
    rates = rows.numbers(
        "costs", *(formats.limits("costs", it) for it in formats.COSTS)
    )
    scenario["costs"] = dict(zip(formats.COSTS, rates))
    scenario["initial"], demands, leads, count = rows.numbers(
        "sizes",
        formats.limits("", "initial"),
        (1, MOST_ROWS),
        (1, MOST_ROWS),
        formats.POLICIES,
    )
    # In the older spelling there are no rows of returns.
    returned = rows.numbers("returns", (0, MOST_ROWS))[0] if spelling > 1 else 0
    for table, kind, size in zip(
        formats.DRAWS, formats.DRAW_ROWS, (demands, leads, returned)
    ):
        scenario |= {table: draws_of(rows, kind, size, table)} if size else {}
    return (
        spelling,
        block,
        count,
        {**scenario, "version": formats.version_with(scenario), "policy": []},
    )


def checkpoint_of(data: bytes) -> Checkpoint | None:
    """Returns what a checkpoint's text says. None if it is none."""
    try:
        rows = Rows(data)
        spelling, block, count, scenario = scenario_rows(rows)
        total, each = blocks_of(scenario)
        demand_that(block <= total)
        states = []
        for _ in range(count):
            scenario["policy"].append(policy_of(rows))
            states.append(state_of(rows, scenario, block // each, 4 * (block % each)))
        demand_that(not policy_faults(scenario["policy"]))
        rows.take("end", 0)
        demand_that(rows.place == len(rows.rows))
        return Checkpoint(spelling, block, scenario, states)
    except NoCheckpoint:
        return None


def start_of(scenario: Tree) -> Checkpoint:
    """Returns what stands at block 0 of a scenario's run: initial stocks, and nothing due."""
    scenario = {it: scenario[it] for it in scenario if it != "ring"}
    return Checkpoint(
        NEWEST,
        0,
        scenario,
        [State(scenario["initial"], 0, [], [])] * len(scenario["policy"]),
    )


def text_of(checkpoint: Checkpoint) -> bytes:
    """Writes a checkpoint in its spelling."""
    scenario = checkpoint.scenario
    lists: list[Tree] = [
        scenario.get(it, {"values": [], "weights": []}) for it in formats.DRAWS
    ]
    rows: list[Sequence[object]] = [
        (
            "checkpoint",
            checkpoint.spelling,
            checkpoint.block,
            scenario["periods"],
            scenario["replications"],
        ),
        ("key", *scenario["key"]),
        ("costs", *(scenario["costs"][it] for it in formats.COSTS)),
        (
            "sizes",
            scenario["initial"],
            *(len(it["values"]) for it in lists[:2]),
            len(scenario["policy"]),
        ),
    ]
    rows += [("returns", len(lists[2]["values"]))] if checkpoint.spelling > 1 else []
    for kind, draws in zip(formats.DRAW_ROWS, lists):
        rows += [(kind, *it) for it in zip(draws["values"], draws["weights"])]
    for policy, (stock, cost, due, costs) in zip(scenario["policy"], checkpoint.states):
        rows += [
            ("policy", policy["name"], policy["s"], policy["S"]),
            ("state", stock, cost, len(due), len(costs)),
        ]
        rows += [("due", *it) for it in due] + [
            ("cost", *it) for it in enumerate(costs)
        ]
    return "".join(
        ",".join([*map(str, it), *["-"] * (5 - len(it))]) + "\n"
        for it in [*rows, ("end",)]
    ).encode()


def versions_of(scenario: Tree) -> list[int]:
    """Returns the versions in which there are checkpoints of a scenario."""
    return [
        it for it in formats.CHECKPOINT_VERSIONS if it > 1 or "returns" not in scenario
    ]


def checkpoint_fault(
    checkpoint: Checkpoint | None,
    versions: Collection[int],
    number: int,
    scenario: Tree | None = None,
) -> int:
    """Returns the number with which a command refuses a checkpoint, 0 if it takes it.

    The command takes these versions, and refuses others with this number. It may read a scenario too.
    """
    if checkpoint is None:
        return 1
    if scenario is not None and checkpoint.scenario != start_of(scenario).scenario:
        return 2
    return 0 if checkpoint.spelling in versions else number


# ---- schedules


def schedule_of(data: bytes, readers: int) -> tuple[int, list[bytes]]:
    """Returns the fault of a schedule for so many readers, 0 if it has none, and its lines."""
    lines = data.removesuffix(b"\n").split(b"\n") if data else []
    matches = [re.fullmatch(rb"[pe]|[rl](0|[1-9][0-9]{0,9})", it) for it in lines]
    numbers = [int(it[1]) for it in matches if it and it[1]]
    if not all(matches) or any(it > 4294967295 for it in numbers):
        return 1, []
    return (2, []) if any(it >= readers for it in numbers) else (0, lines)
