"""Tests how single amounts and shares are read, whatever stands in them."""
from __future__ import annotations

import math
import time
from decimal import Decimal
from fractions import Fraction
from pathlib import Path

import numpy as np
import pandas as pd
import pytest

import crnplan as crn
from crnplan.errors import Refused
from crnplan.money import exact
from crnplan.read.amounts import amount_of, share_of
from planner.tests.conftest import Command, cases_beside, write_inputs

CASES = cases_beside(__file__)
# Numbers whose exact value would take minutes or all memory to compute, or that no float can be. The last ones are of so
# many digits that Python doesn't read them.
ENDLESS = [*CASES["endless"], "1e" + "9" * 5_000, "9" * 5_000]
MOST_SECONDS = 2  # of processor time, for a catalogue of two items
# The same in TOML, where they are numbers without quotes.
IN_TOML = CASES["in_toml"]


@pytest.mark.parametrize("text", ENDLESS)
def test_no_number_is_computed_for_ever(text: str) -> None:
    """A number that no float can be is none, however it is given."""
    assert exact(text) is None
    for read in (amount_of, share_of):
        for given in (text, f"{text}%", f" {text} "):
            with pytest.raises(Refused):
                read(given)


@pytest.mark.parametrize("amount", [0, "0.00000001", "999999999999999.99999999", 1e14])
def test_amounts_in_range(amount: object) -> None:
    assert amount_of(amount) == Fraction(str(amount))


@pytest.mark.parametrize("amount", ["1e15", "1e300", 10**15, -1, "0.000000001"])
def test_amounts_out_of_range(amount: object) -> None:
    with pytest.raises(Refused, match="with at most 8 decimals"):
        amount_of(amount)


@pytest.mark.parametrize(
    "value",
    [
        0.1,
        5e-324,
        1.7976931348623157e308,
        -2.5e-7,
        0.0,
        np.float64(1e-300),
        np.float32(0.5),
    ],
)
def test_each_float_is_a_number(value: float) -> None:
    """All finite floats are numbers: what their shortest spelling says."""
    number = exact(value)
    assert number is not None
    assert float(number) == float(str(value))
    assert exact(Decimal("12.50")) == Fraction(25, 2)
    assert exact(math.inf) is exact(math.nan) is None


@pytest.fixture
def files(tmp_path: Path, monkeypatch: pytest.MonkeyPatch) -> Path:
    write_inputs(tmp_path)
    monkeypatch.chdir(tmp_path)
    return tmp_path


@pytest.mark.parametrize("text", ["1e-9999999", "1e9999999"])
@pytest.mark.parametrize("words", CASES["words"])
def test_words_of_commands(
    files: Path, crnplan: Command, words: str, text: str
) -> None:
    line = f"plan demand.csv items.csv --check {words.replace('X', text)}"
    assert crnplan(*line.split()).refuses(text)


@pytest.mark.parametrize("text", IN_TOML)
@pytest.mark.parametrize(
    "key", ["setup", "holding_rate", "fill", "supplier_min.Bosch", "service.A"]
)
def test_settings_of_a_catalogue(
    files: Path, crnplan: Command, key: str, text: str
) -> None:
    (files / "crnplan.toml").write_text(f"[catalogue]\n{key} = {text}\n", "utf-8")
    told = crnplan("plan", "demand.csv", "items.csv", "--check")
    assert told.refuses("crnplan.toml:2")


@pytest.mark.parametrize(
    "role", ["setup", "holding", "price", "lead (weeks)", "quantity"]
)
@pytest.mark.parametrize("text", ["1E-9999999", "1E-99999999999", "1E+9999999"])
def test_cells(files: Path, role: str, text: str) -> None:
    """A cell with such a text, or a frame's own number that shows it, is left out with its reason in no time."""
    for value in (text, Decimal(text)):
        sales, masters = pd.read_csv("demand.csv", dtype=object), pd.read_csv(
            "items.csv", dtype=object
        )
        for table in (sales, masters):
            if role in table:
                table.loc[0, role] = value
        begun = time.process_time()
        with crn.read_catalogue(sales, masters).opened() as base:
            assert any(out.text in (text, "inf") for out in base.rejects())
        assert time.process_time() - begun < MOST_SECONDS
