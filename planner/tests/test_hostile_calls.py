"""Tests that each public call takes a hostile argument or refuses it by its name. Calls follow from the public names, and
arguments from signatures: a new one is tested as soon as it is there."""
from __future__ import annotations

import datetime
import inspect
from collections.abc import Callable, Iterator, Mapping
from decimal import Decimal
from pathlib import Path
from typing import Any

import numpy as np
import pandas as pd
import pytest

import crnplan as crn
from crnplan.options import word_of
from crnplan.read.frames import TABLE
from crnplan.vocabulary import NUMBER
from planner.tests.test_call_words import FAST, MASTERS, SALES, WEEKS
from planner.tests.test_options import OF_CALLS, within

# Makes values that few arguments take. A generator is used up, so each call gets its own.
HOSTILE: dict[str, Callable[[], Any]] = {
    "None": lambda: None,
    "nan": lambda: float("nan"),
    "inf": lambda: float("inf"),
    "nothing": lambda: "",
    "text": lambda: "abc",
    "half a character": lambda: "\ud800",
    "long": lambda: "x" * 5_000,
    "negative": lambda: -1,
    "part": lambda: 1.5,
    "flag": lambda: True,
    "huge": lambda: 10**400,
    "quiet": lambda: Decimal("sNaN"),
    "list": lambda: [],
    "lists": lambda: [[1, "x"], None],
    "dict": lambda: {},
    "odd dict": lambda: {"a": object()},
    "set": lambda: {1, 2},
    "generator": lambda: (it for it in [1]),
    "object": object,
    "bytes": lambda: b"abc",
    "date": lambda: datetime.date(2025, 3, 3),
    "no time": lambda: pd.NaT,
    "array": lambda: np.array([1, 2]),
    "two dimensions": lambda: np.ones((2, 2)),
    "Series": lambda: pd.Series([1, 2]),
    "no frame": pd.DataFrame,
    "twice": lambda: pd.DataFrame([[1, 2], [3, 4]], columns=["item", "item"]),
}
# Classes that users make; the others are made by the package alone.
MADE_BY_USERS = {"Costs", "Law", "Policy", "Reading", "Settings"}
INTERNAL = ":meta private:"
DEMAND = [1, 2, 0, 3, 1, 0, 2] * 5
COSTS = {"setup": 32, "holding": 1, "backlog": 5}
# What a refusal calls an argument that is not in its text, and what is no argument of a call that it may speak of.
SAID = {"name": "item", "best": "policy", "text": "prior", "table": "no column"}
SAID |= {"sales": "demand:1: ", "masters": "items:1: "}
UNTRIED = {("cluster", it) for it in ("text", "half a character", "long", "nothing")}
# Calls with the arguments of another one, which reads them in the same place; so few kinds are tried with them.
ALIKE = {"backtest": "plan", "read_catalogue": "plan", "Plan.curve": "exchange_curve"}
FEW = "nan", "huge", "object", "twice"
Call = Callable[..., Any]


def routines(found: type) -> Iterator[str]:
    """Yields the public methods of a class of crnplan."""
    for name, its in inspect.getmembers_static(found):
        homes = [home for home in found.__mro__ if name in vars(home)]
        function = getattr(its, "__func__", its)
        is_own = homes and homes[0].__module__.startswith("crnplan")
        if is_own and inspect.isfunction(function) and not name.startswith("_"):
            if INTERNAL not in (function.__doc__ or ""):
                yield name


def public() -> Iterator[str]:
    """Yields the public functions, what makes classes that users make, and the methods of all classes but errors."""
    for name in crn.__all__:
        found = getattr(crn, name)
        if inspect.isfunction(found):
            yield name
        elif inspect.isclass(found) and not issubclass(found, Exception):
            yield from [name] * (name in MADE_BY_USERS)
            yield from (f"{name}.{method}" for method in routines(found))


@pytest.fixture(scope="module")
def things(program: Path, tmp_path_factory: pytest.TempPathFactory) -> dict[str, Any]:
    """Returns an instance of each public class with methods, and by name sound values of arguments."""
    room = tmp_path_factory.mktemp("hostile")
    plan = crn.plan(SALES, MASTERS, out=room / "plan", program=program, **FAST)
    costs: Any = {**COSTS, "today": (20, 40)}
    scenario = crn.Scenario.of([1, 2], [1], periods=8, replications=2, **costs)
    two = scenario.changed(policies={"one": (20, 40), "two": (10, 30)})
    orders = pd.DataFrame({"ordered": WEEKS[:3], "received": WEEKS[2:5]})
    (room / "scenario.toml").write_text(scenario.toml(), "utf-8")
    histories = [DEMAND] * 30
    prior = crn.learn(histories, least=30)
    instances = {
        "Plan": plan,
        "PlannedItem": plan.item(1),
        "OrdersToday": plan.orders_today({1: 3}),
        "Scenario": scenario,
        "Law": scenario.demand,
        "FittedLaw": crn.fit_demand(DEMAND),
        "Prior": prior,
        "Report": scenario.run(program=program),
        "LongRunReport": scenario.long_run(keys=2, program=program),
        "Backtests": crn.backtest(SALES, MASTERS, fit="empirical", every=4, jobs=1),
    }
    sound = {
        **COSTS,
        "sales": SALES,
        "masters": MASTERS,
        "items": MASTERS,
        "folder": plan.path,
        "scenario": two,
        "history": DEMAND,
        "demand": DEMAND,
        "leads": [1, 2],
        "lead": [1],
        "histories": histories,
        "best": "two",
        "periods": 2,
        "s": 10,
        "S": 30,
        "unit": 0,
        "name": "A",
        "path": room / "scenario.toml",
        "data": scenario.toml(),
        "text": prior.text,
        "table": orders,
        "values": (0, 1),
        "weights": (1, 1),
        "chances": [0.5, 0.5],
        "numbers": [1, 2],
        "factor": 2,
        "random": np.random.default_rng(1),
        "count": 1,
    }
    return {"instances": instances, "sound": sound}


# Sound values of single calls, where others have another meaning under the name.
OWN: dict[str, dict[str, Any]] = {
    "Law.of": {"weights": {0: 1}},
    "Plan.item": {"name": 1},
    "Plan.to_excel": {"path": "plan.xlsx"},
    "OrdersToday.to_excel": {"path": "orders.xlsx"},
    "read_catalogue": {"demand": SALES},
    "learn": {"least": 30, "borrow": "class", "classes": ["A"] * 30},
    "plan": {"masters": MASTERS, **FAST},
    "backtest": {"masters": MASTERS, "every": 4, "fit": "empirical", "jobs": 1},
    "Scenario.long_run": {"keys": 2},
}


def called(name: str, things: Mapping[str, Any]) -> tuple[Call, dict[str, Any]]:
    """Returns a public call by its name, with sound values of the arguments that it needs."""
    home, _, method = name.partition(".")
    call: Call = getattr(crn, home)
    if method:
        thing = things["instances"].get(home, call)
        assert hasattr(thing, method), f"give `things` an instance of {home}"
        call = getattr(thing, method)
    given = {**OWN.get(name, {})}
    for part in inspect.signature(call).parameters.values():
        if part.name not in given and part.default is part.empty:
            if part.kind not in (part.VAR_KEYWORD, part.VAR_POSITIONAL):
                given[part.name] = things["sound"][part.name]
    return call, given


def arguments_of(call: Call) -> Iterator[str]:
    """Yields the arguments of a call, also those that it takes and does not show."""
    whole = getattr(inspect.unwrap(call), "__signature__", inspect.signature(call))
    for part in whole.parameters.values():
        if part.kind is not part.VAR_KEYWORD and part.name not in ("self", "cls"):
            yield part.name


def wrong_of(call: Call, given: Mapping[str, Any], argument: str, kind: str) -> str:
    """Returns what is wrong with how a call takes a hostile argument: nothing if it is refused by its name, or taken."""
    value = HOSTILE[kind]()
    try:
        call(**{**given, argument: value})
    except crn.CrnplanError as why:
        said = argument, SAID.get(argument, argument), str(value) or "nowhere"
        is_elsewhere = isinstance(why, (crn.ScenarioError, crn.ProgramError))
        if not is_elsewhere and not any(part in str(why) for part in said):
            return f"{argument} = {kind} is refused without its name: {why}"
    except Exception as why:
        return f"{argument} = {kind} raises {why!r}"
    return ""


@pytest.mark.parametrize("name", public())
def test_hostile_arguments(
    name: str,
    things: Mapping[str, Any],
    tmp_path: Path,
    monkeypatch: pytest.MonkeyPatch,
) -> None:
    """Nothing but errors of crnplan, with the name of the argument. No program is there, so that nothing is run."""
    monkeypatch.chdir(tmp_path)
    monkeypatch.setenv("CRNSIM", "/nowhere/crnsim")
    call, given = called(name, things)
    alike = [*arguments_of(called(ALIKE[name], things)[0])] if name in ALIKE else []
    wrong = []
    for argument in arguments_of(call):
        for kind in FEW if argument in alike else HOSTILE:
            if (argument, kind) not in UNTRIED:
                wrong.append(wrong_of(call, given, argument, kind))
    assert [*filter(None, wrong)] == []


def test_each_word_is_an_argument(things: Mapping[str, Any]) -> None:
    """Each word of calls alone is an argument of a public call, and its kind follows from the first table that has it."""
    taken = set[str]()
    for name in public():
        taken |= {*arguments_of(called(name, things)[0])}
    words = [word for table in OF_CALLS for word in within(table)]
    assert {word.name for word in words} <= taken
    own, of_calls = word_of("orders", ("curve", "call")), word_of("orders", ("call",))
    assert own and own.kind.read is NUMBER.read
    assert of_calls and of_calls.kind.read is TABLE.read
    assert word_of("level", ("curve",)) is None
