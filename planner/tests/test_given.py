"""Tests of the words that calls on a catalogue share: as a value, one by one, and said twice."""
from __future__ import annotations

import inspect
import pickle
from collections.abc import Callable
from fractions import Fraction
from pathlib import Path
from typing import Any

import pandas as pd
import pytest

import crnplan as crn
from crnplan.errors import Refused
from crnplan.given import COMMON, joined
from crnplan.vocabulary import words_of
from planner.tests.test_call_words import FAST, MASTERS, SALES

OWN = {name: value for name, value in FAST.items() if name != "jobs"}
LATER = {"start": "2025-03-03", "least": 5}


@pytest.mark.parametrize("is_all", [False, True], ids=["some", "all"])
def test_values_are_as_words(program: Path, is_all: bool) -> None:
    """A plan by values is that by the same words one by one."""
    words: dict[str, Any] = {"program": program, "jobs": 1}
    alone = crn.plan(SALES, MASTERS, **words, **OWN, **LATER)
    settings = crn.Settings(**OWN if is_all else {"periods": 8, "replications": 2})
    others = {} if is_all else {name: OWN[name] for name in OWN.keys() - settings.given}
    reading = crn.Reading(**LATER)
    plan = crn.plan(
        SALES, MASTERS, reading=reading, settings=settings, **words, **others
    )
    assert plan == alone and plan.controls.equals(alone.controls)
    read = crn.read_catalogue(SALES, MASTERS, reading=reading, jobs=1)
    assert read.fact("told") == {"from": "2025-03-03", "least": 5}


def test_tests_on_the_past_share_them() -> None:
    """A backtest takes the same values; its period is that of them, unless it says another one."""
    settings = crn.Settings(fit="empirical", season="none")
    reading = crn.Reading(every="week")
    words: dict[str, Any] = {"record": 30, "jobs": 1}
    alone = crn.backtest(SALES, MASTERS, fit="empirical", season="none", **words)
    tests = crn.backtest(SALES, MASTERS, settings=settings, reading=reading, **words)
    assert tests == alone and tests.tested.walk.window is None
    other = crn.backtest(SALES, MASTERS, window=26, settings=settings, **words)
    assert other.tested.walk.window == 26
    with pytest.raises(Refused, match="every is said by itself and in reading"):
        crn.backtest(SALES, MASTERS, period="week", reading=reading, **words)


def test_what_is_said_twice() -> None:
    """A word is said by itself or in a value: it is not guessed which one counts. None says nothing."""
    with pytest.raises(Refused) as refused:
        crn.plan(SALES, MASTERS, seed=3, settings=crn.Settings(seed=3))
    assert str(refused.value) == "seed is said by itself and in settings; leave one out"
    units = {"items": {"holding": "month", "backlog": "month"}}
    reading = crn.Reading(every="month", units=units)
    read = crn.read_catalogue(SALES, MASTERS, every=None, reading=reading, jobs=1)  # type: ignore[arg-type]
    assert read.fact("every") == "month"


def test_a_word_of_both_values() -> None:
    """`fill` is read into both values from one word: that counts as said once, and beside them it is said twice."""
    both: Any = {"reading": crn.Reading(fill=0.9), "settings": crn.Settings(fill=0.9)}
    assert joined({"seed": 3}, **both) == {"seed": 3, "fill": Fraction(9, 10)}
    with pytest.raises(Refused, match="fill is said by itself and in settings"):
        joined({"fill": 0.9}, settings=both["settings"])


def test_values_are_judged_and_compared() -> None:
    """A value refuses what the call would refuse, by its name; it is shown as it is made, equal by content, and pickled."""
    with pytest.raises(Refused, match="least: 0 is not from 1"):
        crn.Reading(least=0)
    with pytest.raises(TypeError, match="unexpected keyword argument 'levle'"):
        crn.Settings(levle=0.9)
    reading = crn.Reading(least=5, every="month")
    assert repr(reading) == "Reading(every='month', least=5)"
    assert (
        reading
        == crn.Reading(every="month", least=5)
        == pickle.loads(pickle.dumps(reading))
    )
    assert reading != crn.Reading(every="month")
    assert crn.Settings(season=None) == crn.Settings()  # type: ignore[arg-type]


def test_shown_words() -> None:
    """A call shows the common words, and takes all; a value shows each word once with its default."""
    shown = inspect.signature(crn.plan).parameters
    assert {*COMMON} <= shown.keys() and "replications" not in shown
    assert inspect.signature(crn.Settings).parameters["level"].default == 0.95
    assert "replications" in (crn.Settings.__doc__ or "")
    assert len(shown) < 30


# A value of each word of reading.
READING: dict[str, Any] = {
    "columns": {"demand": {"item": "item"}},
    "units": {"items": {"lead": "day"}},
    "where": {"plant": "1000"},
    "delimiter": ";",
    "encoding": "cp1252",
    "decimal": ",",
    "date_formats": ["%d.%m.%Y"],
    "every": "week",
    "names": {"demand": {"quantity": ["sold"]}},
    "start": "2025-01-06",
    "end": "2026-02-23",
    "today": "2026-02-23",
    "net": True,
    "negate": True,
    "empty": "none",
    "twice": "keep",
    "far": "keep",
    "least": 13,
    "lead_from": "both",
    "factors": {"KAR": 12},
    "statuses": {"Z3": "stopped"},
    "stopped": "as-stated",
    "setup": 45,
    "holding_rate": 0.2,
    "fill": 0.9,
    "no_shortage": "90%",
    "lead": "3 weeks",
    "review": 2,
    "service": {"A": 0.98},
    "currency": "EUR",
    "abc": (80, 95),
    "supplier_min": {"Bosch": 500},
    "written": {"demand": {"delimiter": ";"}},
}


@pytest.fixture(scope="module")
def read() -> crn.Catalogue:
    return crn.read_catalogue(SALES, MASTERS, jobs=1)


def refusal(call: Callable[..., Any], read: crn.Catalogue, **words: Any) -> str:
    with pytest.raises(Refused) as refused:
        call(read, **words)
    return str(refused.value)


@pytest.mark.parametrize("word", words_of(crn.Reading))
def test_words_beside_a_catalogue_that_was_read(word: str, read: crn.Catalogue) -> None:
    """A word of reading would change nothing of it, so it is refused by its name, also in a value."""
    said = (
        f"{word}: not for a catalogue that was read before; give it where that is read: "
        f"read_catalogue(.., {word}=..)"
    )
    own = {word: READING[word]}
    assert refusal(crn.plan, read, **own) == said
    assert refusal(crn.plan, read, reading=crn.Reading(**own)) == said
    assert refusal(crn.backtest, read, reading=crn.Reading(**own)) == said


def test_tables_beside_a_catalogue_that_was_read(
    read: crn.Catalogue, program: Path
) -> None:
    """So are its other tables; overrides are read as it was."""
    tables = {"masters": MASTERS, "orders": SALES, "out_of_stock": SALES}
    said = refusal(crn.plan, read, **tables, laws=SALES)
    assert said.startswith("laws, masters, orders, out_of_stock: not for a catalogue")
    assert said.endswith(
        "read_catalogue(.., items=.., laws=.., orders=.., out_of_stock=..)"
    )
    said = refusal(crn.backtest, read, **tables, period="week")
    assert said.startswith("masters, orders, out_of_stock, period: not for")
    assert said.endswith(
        "read_catalogue(.., every=.., items=.., orders=.., out_of_stock=..)"
    )
    columns = {"overrides": {"item": "part no"}}
    named = crn.read_catalogue(SALES, MASTERS, columns=columns, jobs=1)
    overrides = pd.DataFrame({"part no": [1], "s": 7, "S": 31})
    plan = crn.plan(named, overrides=overrides, program=program, **FAST)
    assert plan.details.loc[0, ["s_override", "S_override"]].to_list() == [7, 31]


WRITTEN = """
[catalogue]
every = "week"
from = "2025-01-06"
holding_rate = "20%"
seed = "own"
supplier_min = { ACME = 500 }

[catalogue.demand]
quantity = "sold"

[catalogue.units]
"items.lead" = "day"

[catalogue.written.demand]
delimiter = ";"
decimal = { quantity = "," }
"""


def test_words_of_a_file(tmp_path: Path) -> None:
    """crnplan.toml says in calls what it says in commands."""
    path = tmp_path / "crnplan.toml"
    path.write_text(WRITTEN, "utf-8")
    reading, settings = crn.read_config(path)
    assert reading == crn.Reading(
        every="week",
        start=pd.Timestamp("2025-01-06").date(),
        holding_rate="20%",
        columns={"demand": {"quantity": "sold"}},
        units={"items": {"lead": "day"}},
        written={"demand": {"delimiter": ";", "decimal": {"quantity": ","}}},
        supplier_min={"ACME": 500},
    )
    assert settings == crn.Settings(seed="own")


WEEKS = [day.date() for day in pd.date_range("2025-01-06", periods=20, freq="W-MON")]


def test_how_a_file_is_written(tmp_path: Path) -> None:
    """A decimal sign that is stated of a column decides what its cells leave open: 1,500 is 1500 or one and a half."""
    days = [f"1;{day};1,500\n" for day in WEEKS]
    path = tmp_path / "sales.csv"
    path.write_text(f"item;date;quantity\n{''.join(days)}", "utf-8")
    for sign, used in ((".", 20), (",", 0)):
        written = {"demand": {"decimal": {"quantity": sign}}}
        read = crn.read_catalogue(path, MASTERS, written=written, jobs=1)
        counts = read.counts["files"]["demand"]
        assert (counts["used"], counts["rejected"]) == (used, 20 - used)
    with pytest.raises(crn.Refused, match="written: 'demand' is no table"):
        crn.Reading(written="demand")  # type: ignore[arg-type]
    with pytest.raises(crn.Refused, match="demand.decimal.quantity: .* is not one of"):
        crn.read_catalogue(
            path, MASTERS, written={"demand": {"decimal": {"quantity": "'"}}}
        )


def test_a_file_that_is_wrong(tmp_path: Path) -> None:
    path = tmp_path / "crnplan.toml"
    path.write_text("[catalogue]\nevery = 'year'\nplanet = 1\n", "utf-8")
    with pytest.raises(crn.Refused, match="every.*\n.*planet"):
        crn.read_config(path)
    with pytest.raises(crn.Refused, match="nowhere.toml"):
        crn.read_config(tmp_path / "nowhere.toml")


def test_a_tab_is_a_sign() -> None:
    """A sign may be blank, and no value at all says nothing: that is refused."""
    assert crn.Reading(delimiter="\t").delimiter == "\t"
    with pytest.raises(crn.Refused, match="delimiter: '' is not known; leave it out"):
        crn.Reading(delimiter="")
