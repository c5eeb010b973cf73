"""Amounts that no run comes to: checkpoints with states and costs that amounts.toml and pairs.csv say."""
from __future__ import annotations

import tomllib
from collections.abc import Iterator
from pathlib import Path
from typing import Any

import pytest
from crnplan import formats

from tests.program import oracle
from tests.program.cases import on_file
from tests.runs import Shown, as_wanted, refused, written

HERE = Path(__file__).resolve().parent
PERIODS_OF_A_BLOCK = 4
NO_CHECKPOINT = refused("checkpoint 1")
SCENARIO = """version = {version}
key = ["0000000000000000", "0000000000000000", "0000000000000000", "0000000000000000"]
periods = {periods}
replications = {replications}
initial = {initial}
ring = 2
costs = {{ setup = 7, unit = 2, holding = 1, backlog = 4 }}
demand = {{ values = [3], weights = [1] }}
lead = {{ values = [1], weights = [1] }}
"""
RETURNS = "returns = {{ values = [{}], weights = [1] }}\n"
POLICY = '[[policy]]\nname = "{}"\ns = 5\nS = 10\n'
Verdicts = Iterator[tuple[str, object]]


def scenario(sizes: dict[str, int], names: str, returned: int | None = None) -> str:
    """Returns a scenario of these sizes, with policies of these letters, and so many items returned in each period."""
    head = SCENARIO.format(version=1 if returned is None else 2, **sizes)
    returns = "" if returned is None else RETURNS.format(returned)
    return head + returns + "".join(map(POLICY.format, names))


# ---- amounts of states


def state_of(row: list[Any], periods: int) -> oracle.State:
    """Returns the state of a row: its stock, running cost, items due by their periods, and costs."""
    block, stock, coming, running, count, cost = row
    each = coming.get("each")
    due = (
        {it: each for it in range(formats.MOST_LEAD)}
        if each
        else {int(it): amount for it, amount in coming.items()}
    )
    blocks = -(-periods // PERIODS_OF_A_BLOCK)
    first = block % blocks * PERIODS_OF_A_BLOCK
    return (
        stock,
        running,
        {first + it: amount for it, amount in due.items()},
        [cost] * count,
    )


def is_taken(shown: Shown) -> bool | str:
    """Returns the verdict on a resumed run that is to end well with a report of one policy."""
    is_report = shown.output.startswith(b"policy,") and shown.output.count(b"\n") == 2
    return shown[1:] == (b"", 0) and is_report or f"{shown.errors!r}, {shown.status}"


def of_row(
    program: Path, room: Path, group: dict[str, Any], row: list[Any]
) -> Verdicts:
    """Yields the verdicts on a row: whether it is taken, and by `migrate` with each of its amounts."""
    text = scenario(group["sizes"], "A", group.get("returned"))
    tree, file = tomllib.loads(text), str(room / "FILE")
    state = state_of(row, tree["periods"])
    new = oracle.checkpoint_text(tree, row[0], [state]).encode()
    is_refused = group.get("is_refused", False)
    shown = on_file(program, room, ["resume", file], new, text.encode())
    right = as_wanted(shown, NO_CHECKPOINT) if is_refused else is_taken(shown)
    yield f"resume {row}", right
    if "returned" not in group:
        old = oracle.checkpoint_text(tree, row[0], [state], 1).encode()
        wanted = NO_CHECKPOINT if is_refused else written(new)
        shown = on_file(program, room, ["migrate", file], old)
        yield f"migrate {row}", as_wanted(shown, wanted)


@pytest.mark.parametrize(
    "group",
    tomllib.loads((HERE / "amounts.toml").read_text("ascii"))["group"],
    ids=lambda it: it["name"],
)
def test_amounts(
    program: Path, room: Path, check_all: Any, group: dict[str, Any]
) -> None:
    """Each row of a group is taken as it stands, or is no checkpoint."""
    check_all(it for row in group["rows"] for it in of_row(program, room, group, row))


# ---- costs of pairs


def pairs() -> list[list[str]]:
    """Returns the rows of pairs.csv."""
    lines = (HERE / "pairs.csv").read_text("ascii").splitlines()
    return [it.split(";") for it in lines if not it.startswith("#")][1:]


def figures_of(program: Path, room: Path, costs: list[list[int]]) -> list[str]:
    """Returns the paired differences of the last of two policies that have come to these costs."""
    replications = len(costs[0])
    sizes = {"periods": 1024, "replications": replications, "initial": 10}
    text = scenario(sizes, "AB")
    end = replications * sizes["periods"] // PERIODS_OF_A_BLOCK
    states: list[oracle.State] = [(10, 0, {}, it) for it in costs]
    file = oracle.checkpoint_text(tomllib.loads(text), end, states).encode()
    words = ["resume", str(room / "FILE")]
    shown = on_file(program, room, words, file, text.encode())
    assert shown[1:] == (b"", 0), shown
    return shown.output.decode().splitlines()[-1].split(",")[-4:]


def test_pairs(program: Path, room: Path, check_all: Any) -> None:
    """The report has the figures of each pair of lists of costs."""

    def cases() -> Verdicts:
        for costs, first, *wanted in pairs():
            lists = [[int(it) for it in text.split()] for text in (first, costs)]
            found = figures_of(program, room, lists)
            yield costs[:40], found == wanted or f"{found}, not {wanted}"

    check_all(cases())
