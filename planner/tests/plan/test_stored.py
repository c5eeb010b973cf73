"""Tests that answers are kept as they are, that changed files are named, and that sums and rates are right."""
from __future__ import annotations

import math
import sqlite3
from collections import Counter
from dataclasses import dataclass
from fractions import Fraction
from pathlib import Path

import numpy as np
import pytest
from hypothesis import given, settings, strategies as some, strategies as st

from crnplan import formats
import crnplan as crn
from crnplan.chances import Floats
from crnplan.errors import Refused
from crnplan.money import rounded_costs
from crnplan.law import Law
from crnplan.plan.answer import Answer
from crnplan.plan.totals import Totals
from crnplan.plan.question import finest
from crnplan.read.item import Item
from crnplan.remarks import Remark
from crnplan.store.stored import StoredColumns, Damaged, Store, reading, sealed

FLOATS = some.floats(allow_nan=False)
WHOLE = some.integers(-(2**80), 2**80)
REMARKS = some.builds(
    Remark,
    some.text(),
    some.dictionaries(some.text(), some.none() | WHOLE | FLOATS | some.text()),
)
for kind, values in (
    (float, FLOATS),
    (int, WHOLE),
    (Fraction, some.fractions()),
    (Remark, REMARKS),
    (Law, some.lists(some.integers(0, 9), min_size=1).map(Law.of_numbers)),
):
    some.register_type_strategy(kind, values)


@settings(max_examples=50)
@given(some.from_type(Answer) | some.from_type(Item))
def test_columns_give_back_what_they_are_given(value: Answer | Item) -> None:
    """Each field comes back as it was, of any size, through SQLite's own columns."""
    columns = StoredColumns(type(value))
    base = sqlite3.connect(":memory:")
    base.execute(
        f"CREATE TABLE kept ({', '.join(f'c{place}' for place in range(len(columns.names)))})"
    )
    base.execute(
        f"INSERT INTO kept VALUES ({', '.join('?' * len(columns.names))})",
        columns.cells(value),
    )
    assert columns.value(base.execute("SELECT * FROM kept").fetchone()) == value


def item(name: str) -> Item:
    return Item(name, (1, 2), (3,), (4, 5), Fraction(1, 3), Fraction(2))


def keep(store: Store[Item], *answers: tuple[str, str, Item | Remark]) -> None:
    """Keeps answers, which are those to the questions that were asked last."""
    store.keep(sealed(Item, *answer) for answer in answers)
    store.finish(((name, digest) for name, digest, _ in answers), {"one": "text"})
    store.close()


def test_a_store_keeps_answers_and_faults(tmp_path: Path) -> None:
    """Answers come back by name with what they depend on. A file with other bytes, or cut in its middle, is named."""
    path, fault = tmp_path / "kept", Remark("none", {"x": 1})
    keep(Store(path, Item), ("b", "2", item("b")), ("a", "1", fault))
    keep(Store(path, Item), ("b", "3", item("c")), ("a", "1", fault))
    again = Store(path, Item)
    assert [*again.answers()] == [("a", "1", fault), ("b", "3", item("c"))]
    assert [*again.answers("b", "b")][0][0] == "b"
    assert [*again.digests()] == [("a", "1"), ("b", "3")]
    assert again.digest_for("b") == "3"
    assert again.digest_for("c") is None
    assert again.answer("b") == again.found("b", "3") == item("c")
    assert again.answer("c") is again.found("b", "2") is None
    assert [*again.cells("holding")] == [("a", fault, None), ("b", None, "2")]
    assert again.lacking([("a", "1"), ("b", "2")]) == [("b", "2")]
    assert again.lacking([]) == []
    assert (again.fact("one"), again.fact("two")) == ("text", None)
    again.replace("b", "4", item("d"))
    assert again.found("b", "3") is None
    assert again.found("b", "4") == item("d")
    again.close()
    path.write_bytes(b"no store" * 999)
    with pytest.raises(Damaged, match="kept: "):
        Store(path, Item)
    path.unlink()
    keep(
        Store(path, Item), *((f"{place:04}", "1", item("a")) for place in range(2_000))
    )
    data = path.read_bytes()
    path.write_bytes(
        data[: len(data) // 2] + bytes(4_096) + data[len(data) // 2 + 4_096 :]
    )
    with pytest.raises(Damaged, match="kept: "):
        [*Store(path, Item).answers()]


@pytest.mark.parametrize(
    "change",
    [
        "UPDATE answers SET holding = 3",
        "UPDATE answers SET seal = 'x'",
        "UPDATE answers SET digest = 'x'",
        "DELETE FROM answers",
    ],
)
def test_a_changed_answer_is_damaged(tmp_path: Path, change: str) -> None:
    """An answer that is not as it was kept, or is missing, is named, with what to do."""
    keep(Store(tmp_path / "kept", Item), ("a", "1", item("a")))
    store = Store(tmp_path / "kept", Item)
    with store.base:
        store.base.execute(change)
    with pytest.raises(
        Damaged, match="kept: the answer to 'a' is not as it was kept: .* remove it"
    ):
        store.answer("a")


@dataclass(frozen=True)
class Arrays:
    """Values of which numpy has the bytes."""

    data: bytes
    numbers: Floats


def test_arrays_and_bytes(tmp_path: Path) -> None:
    """Arrays come back with their form and type, also from a file that is only read, beside which nothing is written."""
    value = Arrays(b"\0\xff", np.array([[1.5, -0.0, np.inf]] * 2))
    store = Store(tmp_path / "kept", Arrays)
    store.keep([sealed(Arrays, "a", "1", value)])
    store.close()
    read = Store(tmp_path / "kept", Arrays, is_read=True)
    found = read.found("a", "1")
    assert isinstance(found, Arrays)
    assert found.data == value.data
    assert found.numbers.tobytes() == value.numbers.tobytes()
    assert found.numbers.shape == (2, 3)
    assert [path.name for path in tmp_path.iterdir()] == ["kept"]


@given(some.lists(some.floats(-1e15, 1e15), max_size=50), some.integers(1, 100))
def test_sums_are_exact(numbers: list[float], times: int) -> None:
    """Numbers that cancel one another leave the others whole, in any number, order and groups."""
    many = [*numbers, *([1e16, 0.1, -1e16] * 12)] * times
    totals = Totals(verdicts=Counter("ab"), corrected=Counter({0.95: 2}), priced=1)
    for number in many:
        totals.add_to("x", number)
    read = Totals.parse(totals.json)
    assert read["x"] == math.fsum(many) == float(sum(map(Fraction, many)))
    assert read == totals
    assert read["y"] == 0
    assert "y" not in read.parts


COSTS = st.fractions(Fraction(1, 10_000), 10_000, max_denominator=10_000)


@settings(max_examples=40)
@given(COSTS, COSTS, st.fractions(0, 10**6, max_denominator=100))
def test_whole_rates(holding: Fraction, backlog: Fraction, setup: Fraction) -> None:
    """Has whole rates in range that are within half a unit of the costs, and holding exact."""
    costs = {"setup": setup, "holding": holding, "backlog": backlog}
    try:
        rates, scale, error = rounded_costs(costs, "holding")
    except Refused as why:
        assert "too far apart" in str(why)
        assert setup > 10**8 * holding or backlog > 10**4 * holding
        return
    assert rates["holding"] == holding * scale > 0
    for it in costs:
        assert abs(rates[it] - costs[it] * scale) <= Fraction(1, 2)
    assert all(
        low <= rates[it] <= high
        for it in costs
        for low, high in [formats.limits("costs", it)]
    )
    worst = max(abs(rates[it] / (costs[it] * scale) - 1) for it in costs if costs[it])
    assert abs(error - worst) < 1e-12


@settings(max_examples=40)
@given(st.integers(0, 10**8), st.integers(1, 10_000))
def test_finest_rates(setup: int, holding: int) -> None:
    """Takes the greatest power of ten that both ranges allow."""
    rates, scale = finest({"setup": setup, "holding": holding}, Fraction(3))
    times = scale / 3
    assert rates == {"setup": setup * times, "holding": holding * times}
    assert rates["setup"] <= 10**8
    assert rates["holding"] <= 10_000
    assert 10 * rates["setup"] > 10**8 or 10 * rates["holding"] > 10_000


def test_what_a_caller_refuses_is_no_damage(tmp_path: Path) -> None:
    with pytest.raises(crn.Refused, match="^no such item; name one$") as refused:
        with reading(tmp_path / "kept"):
            raise crn.Refused("no such item", "name one")
    assert not isinstance(refused.value, Damaged)
