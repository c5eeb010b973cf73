"""Tests scenarios as values: made from data, read, changed, written and run."""
from __future__ import annotations

import dataclasses
import json
import re
import tomllib
from decimal import Decimal
from fractions import Fraction
from pathlib import Path
from typing import Any

import numpy as np
import pandas as pd
import pytest
from hypothesis import given, settings, strategies as st

from crnplan import errors, formats
from crnplan.demand.borrowing import fit_demand
from crnplan.errors import ProgramError, Refused, ScenarioError
from crnplan.law import Law
from crnplan.named_policies import read_policies
from crnplan.policies import Policy, policies_of
from crnplan.money import Costs
from crnplan.runs import Scenario
from crnplan.toml.scenarios import faults_of
from planner.tests.conftest import Command, cases_beside
from planner.tests.decide.answers import report_of

TOP = Path(__file__).parents[2]
EXAMPLES = [
    TOP / f"examples/{it}.toml" for it in ("two_policies", "mail_order", "spare_part")
]
CASES = cases_beside(__file__)
AMOUNTS, WHOLE = ("setup", "holding", "backlog"), (int, np.int64)
COMMENTED = Path(__file__).with_name("commented.toml").read_text("utf-8")
LAW: dict[str, Any] = {
    "demand": [1, 2],
    "lead": [1],
    "setup": 32,
    "holding": 1,
    "backlog": 5,
    "today": (20, 40),
}


def made(**changes: Any) -> Scenario:
    its = {**LAW, **changes}
    return Scenario.of(its.pop("demand"), its.pop("lead"), **its)


@pytest.fixture
def scenario(two_policies: str) -> Scenario:
    return Scenario.parse(two_policies)


@pytest.mark.parametrize("path", EXAMPLES, ids=lambda path: path.stem)
def test_read_written_and_run(path: Path, program: Path) -> None:
    text = path.read_text("utf-8")
    read = Scenario.read(path)
    assert read.tree == tomllib.loads(text)
    assert read.toml() == text
    assert tomllib.loads(dataclasses.replace(read, source=None).toml()) == read.tree
    assert Scenario.parse(path.read_bytes()) == read == Scenario.of_tree(read.tree)
    assert read.run(program=program).text == path.with_suffix(".csv").read_text("utf-8")


def test_faults_have_places(tmp_path: Path, two_policies: str) -> None:
    """Checks file, line and column of all faults, and that there are no more than 20 in the text of the error."""
    path = tmp_path / "asked.toml"
    path.write_text(
        two_policies.replace("initial = 60", "initial = -1\n  colour = 1").replace(
            "s = 20", "s = 2.5"
        )
    )
    with pytest.raises(ScenarioError) as refused:
        Scenario.read(path)
    places = [(it.file, it.line, it.column) for it in refused.value.faults]
    assert places == [(str(path), 6, 3), (str(path), 25, 1), (str(path), 5, 1)]
    first = f"{path}:6:3: fault 3: colour: there should be no such key"
    assert str(refused.value).splitlines()[0] == first
    with pytest.raises(ScenarioError, match=f"^{path}:1:1: fault 1: ") as refused:
        Scenario.parse("= 1", str(path))
    with pytest.raises(ScenarioError) as refused:
        Scenario.parse(
            "\n".join(f"a{it} = 1" for it in range(40)) + f"\n{two_policies}"
        )
    assert len(refused.value.faults) == 40
    *first, last = str(refused.value).splitlines()
    assert len(first) == 20
    assert first[-1].endswith("; docs/FORMATS.md says what may stand there")
    assert last == "and 20 more faults"


TABLE = pd.DataFrame(
    {
        "policy": ["low", "high"],
        "s": [1, 3],
        "S": np.array([2, 4], dtype=np.int8),
        "cost": [0.5, 0.7],
    }
)
LAWS: dict[str, Any] = {
    "law": Law((1, 2, 5), (1, 2, 1)),
    "fitted": fit_demand([1, 2, 2, 5], method="empirical"),
    "mapping": {5: 1, 2: 2, 1: 1, 9: 0},
    "list": [5, 2, 1, 2],
    "array": np.array([5, 2, 1, 2], dtype=np.uint8),
    "floats": pd.Series([5.0, 2.0, 1.0, 2.0]),
    "series": pd.Series([5, 2, 1, 2], index=list("abcd")),
    "numpy-mapping": {np.int64(5): np.int32(1), 2: 2.0, 1: Fraction(1)},
    "iterator": (it for it in (5, 2, 1, 2)),
}


@pytest.mark.parametrize("name", LAWS)
def test_laws(name: str) -> None:
    table = made(demand=LAWS[name]).demand
    assert table == Law((1, 2, 5), (1, 2, 1))
    assert table.mean == Fraction(10, 4)
    assert {type(it) for it in (*table.values, *table.weights)} == {int}


def test_made() -> None:
    """Checks all that a made scenario has. Its key is what `printf 'part 7' | sha256sum` writes."""
    found = made(returns={0: 9, 1: 1}, initial=np.int64(7), key="part 7")
    assert found.tree == {
        "version": 2,
        "key": [
            "78236328fdc4d3ca",
            "6d37bf473843eca8",
            "8fed20763f2f4661",
            "8c7bd3e60d90ec09",
        ],
        "periods": 104,
        "replications": 64,
        "initial": 7,
        "ring": 1024,
        "costs": {"setup": 32, "unit": 0, "holding": 1, "backlog": 5},
        "demand": {"values": [1, 2], "weights": [1, 1]},
        "lead": {"values": [1], "weights": [1]},
        "returns": {"values": [0, 1], "weights": [9, 1]},
        "policy": [{"name": "today", "s": 20, "S": 40}],
    }
    assert made().version == 1
    assert made().initial == 30
    assert made().scale == 1
    assert not faults_of(made().tree)
    assert made(key=["0" * 16] * 4).key == ("0" * 16,) * 4


@pytest.mark.parametrize("amounts, costs, scale", CASES["money"], ids=str)
@pytest.mark.parametrize("kind", [*WHOLE, str, float, Decimal, Fraction, np.float32])
def test_money(kind: Any, amounts: list[str], costs: list[int], scale: str) -> None:
    """Amounts of any kind that has the value are exact. Whole numbers stay so."""
    if kind in WHOLE and not all(amount.isdigit() for amount in amounts):
        return
    found = made(**dict(zip(AMOUNTS, map(kind, amounts))))
    assert found.costs == Costs(costs[0], 0, *costs[1:])
    assert found.scale == Fraction(scale)
    heading = f"# Costs: {scale} for one unit of money\n\n" * (scale != "1")
    assert found.toml().startswith(f"{heading}version")
    assert Scenario.parse(found.toml()) == found.changed(initial=found.initial)


TABLE = pd.DataFrame(
    {
        "policy": ["low", "high"],
        "s": [1, 3],
        "S": np.array([2, 4], dtype=np.int8),
        "cost": [0.5, 0.7],
    }
)


def refuses(kind: str, message: str) -> Any:
    """Returns a context that expects an error of a kind, whose message begins so."""
    return pytest.raises(getattr(errors, kind), match=f"^{re.escape(message)}")


@pytest.mark.parametrize("name, value, kind, message", CASES["wrong"], ids=str)
def test_wrong(name: str, value: Any, kind: str, message: str) -> None:
    with refuses(kind, message):
        made(**{name: value})


@pytest.mark.parametrize("name, value, kind, message", CASES["wrong_changes"], ids=str)
def test_wrong_changes(
    scenario: Scenario, name: str, value: Any, kind: str, message: str
) -> None:
    with refuses(kind, message):
        scenario.changed(**{name: value})


@pytest.mark.parametrize("name", ["demand", "lead", "returns"])
@pytest.mark.parametrize(
    "law, what",
    [
        ("x", "entry 1"),
        ({1: "0.5"}, "weight of 1"),
        ({0.5: 1}, "value"),
        ([2, 1.5], "entry 2"),
        (np.array([True]), "entry 1"),
        ([None], "entry 1"),
    ],
    ids=str,
)
def test_wrong_laws(scenario: Scenario, name: str, law: Any, what: str) -> None:
    with refuses("Refused", f"{name}: {what}: "):
        scenario.changed(**{name: law})


def test_wrong_tables(scenario: Scenario) -> None:
    said = "policies: the table lacks the column s or S; name them policy, s and S"
    with refuses("Refused", said):
        scenario.changed(policies=TABLE[["s"]])
    with refuses("Refused", "costs: setup: 0.3333333333333333 has more than 8 deci"):
        made(setup=1 / 3)


def test_comments_at_the_top_are_kept() -> None:
    """A scenario that says what its source says is that text; another one has the comments at the top of it."""
    asked = Scenario.parse(COMMENTED)
    changed = asked.changed(initial=61, returns={0: 1, 1: 1}, policies=[(1, 2)])
    assert changed.source == asked.source
    assert changed.version == 2
    text = changed.toml()
    assert tomllib.loads(text) == changed.tree
    assert text.startswith("# A spare part.\nversion = 2\n")
    assert text.count("#") == 1
    back = changed.changed(initial=60, returns=None, policies=asked.policies)
    assert back.toml() == COMMENTED


@settings(max_examples=40)
@given(st.data())
def test_changed_text_has_the_tree(data: st.DataObject) -> None:
    law = st.dictionaries(
        st.integers(1, 32), st.integers(1, 99), min_size=1, max_size=4
    )
    pairs = st.tuples(st.integers(0, 9), st.integers(9, 20))
    fields: dict[str, st.SearchStrategy[Any]] = {
        "initial": st.integers(0, 10**6),
        "periods": st.integers(1, 1024),
        "demand": law,
        "lead": law,
        "returns": law | st.none(),
        "key": st.text(),
        "policies": st.dictionaries(st.sampled_from("ABCD"), pairs, min_size=1),
        "costs": st.dictionaries(
            st.sampled_from(formats.COSTS), st.integers(0, 10**4)
        ),
    }
    names = data.draw(st.sets(st.sampled_from([*fields])))
    changed = Scenario.parse(COMMENTED).changed(
        **{it: data.draw(fields[it]) for it in names}
    )
    again = Scenario.parse(changed.toml())
    assert again == changed
    assert again.toml() == changed.toml()
    assert changed.toml().startswith("# A spare part.\n")


LOW_HIGH = [Policy("low", 1, 2), Policy("high", 3, 4)]
NAMED_BY_LEVELS = [Policy("s1_S2", 1, 2), Policy("s3_S4", 3, 4)]


@pytest.mark.parametrize(
    "given_ones, wanted",
    [
        (LOW_HIGH, LOW_HIGH),
        ([(1, 2), (np.int64(3), 4.0)], NAMED_BY_LEVELS),
        (np.array([[1, 2], [3, 4]]), NAMED_BY_LEVELS),
        ({"low": (1, 2), "high": (3, 4)}, LOW_HIGH),
        (TABLE, LOW_HIGH),
        (TABLE.set_index("policy"), LOW_HIGH),
        (TABLE[["s", "S"]], NAMED_BY_LEVELS),
        ([(10**6, 10**6)], [Policy("s1000000S1000000", 10**6, 10**6)]),
    ],
)
def test_policies(given_ones: Any, wanted: list[Policy]) -> None:
    assert policies_of(given_ones) == wanted


def test_policies_of_words(tmp_path: Path) -> None:
    path = tmp_path / "policies.csv"
    path.write_text("\ufeffpolicy,cost,S,s\nlow,1,2,1\n,1,4,3\n")
    assert read_policies(str(path)) == [Policy("low", 1, 2), Policy("s3_S4", 3, 4)]
    assert read_policies(" 10, 30") == [Policy("s10_S30", 10, 30)]
    assert read_policies(str(TOP / "examples/two_policies.toml")) == [
        Policy("A", 20, 40),
        Policy("B", 60, 80),
    ]
    path.write_text("policy,s\nlow,1\n")
    with pytest.raises(
        Refused, match=f"{path}:1: there is no column S; name them policy, s and S"
    ):
        read_policies(str(path))
    path.write_text("s,S\n1,2\n1.5,2\n")
    with pytest.raises(
        Refused,
        match=f"{path}:3: column s: '1.5' is not a whole number; write the level in items",
    ):
        read_policies(str(path))
    path.write_bytes(b"s,S\n\xff,2\n")
    with pytest.raises(
        Refused,
        match=f"{path}: this is no table of policies: .*; save it as CSV in UTF-8",
    ):
        read_policies(str(path))


def test_many_policies(program: Path, scenario: Scenario) -> None:
    """Each of 40 pairs has the row that it has alone. What cannot be a policy is refused before any run."""
    pairs = [(low, low + 7) for low in range(40)]
    report = scenario.run([*pairs, (20, 40), *pairs[:3]], program=program)
    assert [it.policy for it in report.rows] == [
        "A",
        *(f"s{low}_S{high}" for low, high in pairs),
    ]
    for row in report.rows[1:]:
        alone = scenario.changed(
            policies=[scenario.policies[0], Policy(row.policy, row.s, row.S)]
        )
        assert (
            report_of(program, alone.toml())
            == dataclasses.replace(report, rows=(report.rows[0], row)).text
        )
    assert report.scenario.policies[0] == scenario.policies[0]
    assert len(report.scenario.policies) == 41
    assert report.decide().frame.shape[0] == 41
    for policies, message in (
        (
            {"A": (1, 2)},
            "fault 11: [policy] entry 2, name: 'A' is the name of policy 1 too",
        ),
        (
            {"a b": (1, 2)},
            "fault 11: [policy] entry 2, name: 'a b' is not 1 to 16",
        ),
        ([*((it, it) for it in range(30)), (2, 1)], "fault 10: [policy] entry 32: "),
    ):
        with pytest.raises(ScenarioError, match=f"^{re.escape(message)}"):
            scenario.run(policies, program="/bin/false")
    with pytest.raises(
        ProgramError,
        match="/bin/true: what it writes is no report of the scenario; name crnsim with",
    ):
        scenario.run(program="/bin/true")


def test_commands(
    program: Path, crnplan: Command, tmp_path: Path, two_policies: str
) -> None:
    path = TOP / "examples/two_policies.toml"
    out, words = tmp_path / "report.csv", ["run", path, "--program", program, "--out"]
    assert crnplan(*words, out).output.startswith("The coming 4 periods from a stock")
    assert out.read_bytes() == path.with_suffix(".csv").read_bytes()
    table = tmp_path / "policies.csv"
    table.write_text("policy,s,S\nlow,1,2\n")
    crnplan(*words, out, "--policies", "60,80", "--policies", table)
    lines = out.read_text("utf-8").splitlines()
    assert lines[2].startswith("s60_S80,60,80,296,74/1,74,74/1,-,-")
    assert lines[3].startswith("low,1,2,")
    answer = crnplan("run", path, "--program", program, "--json")
    rows = json.loads(answer.output)["policies"]
    assert [(it["policy"], it["diff"], it["low"]) for it in rows] == [
        ("A", 0.0, None),
        ("B", 74.0, None),
    ]
    read = crnplan("run", "-", "--program", program, data=two_policies.encode())
    assert read == crnplan("run", path, "--program", program)
    faults = crnplan("run", "-", data=b"version = 3")
    start = "crnplan: 1:1: fault 2: version: 3 is not 1 or 2"
    assert faults.status == 2
    assert faults.errors.startswith(start)
