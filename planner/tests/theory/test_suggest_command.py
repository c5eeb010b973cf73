"""Tests crnplan suggest: its options, the tables, what it refuses, and how much time and memory it takes."""
from __future__ import annotations

import io
import json
import os
import subprocess
import sys
import tomllib
from pathlib import Path

import pandas as pd
import pytest

from planner.tests.conftest import Command
from planner.tests.decide.answers import changed, priced
from planner.tests.theory.scenarios import large

MOST_SECONDS, MOST_KILOBYTES = 20, 1_000_000
# The scenarios that took longest of some seventy hostile ones.
COSTLY = {
    "two lead times": large(range(1001), [10] * 1001, [1, 2], 10**8),
    "32 lead times": large(range(11), [10] * 11, range(1, 33), 10**8),
}


@pytest.fixture
def asked(tmp_path: Path, monkeypatch: pytest.MonkeyPatch) -> Path:
    """Returns the path of a scenario, asked.toml in the working folder, which a test writes."""
    monkeypatch.chdir(tmp_path)
    return Path("asked.toml")


@pytest.mark.parametrize(
    "words, initial, unit",
    [
        ([], 700, 20),
        (["--initial"], 40, 20),
        (["--unit-zero"], 700, 0),
        (["--initial", "--unit-zero"], 40, 0),
    ],
    ids=str,
)
def test_the_start_and_the_price(
    crnplan: Command, top: Path, asked: Path, words: list[str], initial: int, unit: int
) -> None:
    """By a chain of all positions, solved by itself, the mean position is 39.7746. The mean net demand is 4.15 - 1.30."""
    text = priced(top / "examples/mail_order.toml", 20)
    text = changed(text, "initial = 60", "initial = 700")
    asked.write_text(text, "utf-8")
    status, output, errors = crnplan("suggest", asked, *words)
    tree, wanted = tomllib.loads(output), tomllib.loads(text)
    wanted["costs"]["unit"] = unit
    wanted |= {"initial": initial, "policy": tree["policy"]}
    assert (status, tree) == (0, wanted)
    position = "mean position at the beginning of a period is 39.8"
    assert f"{position}; today's initial = 700 is 660.2 above it" in errors
    assert "\nunit: a run also pays it" in errors
    assert "without unit, which adds 57.00 to each policy" in errors


def test_the_table_in_other_forms(crnplan: Command, top: Path) -> None:
    path = top / "examples/spare_part.toml"
    shown = crnplan("suggest", path).errors.split("\n\n")[0].splitlines()
    status, output, notes = crnplan("suggest", "--csv", path)
    rows = pd.read_csv(io.StringIO(output))
    assert (status, notes.startswith("by this law of demand")) == (0, True)
    assert [*rows] == [*shown[0].split(), "reasons"]
    forms = (
        "{policy} {s} {S} {cost:.2f} {fill:.2%} {short:.2%} {stock:.1f} {orders:.4f}"
    )
    for line, row in zip(shown[1:], rows.to_dict("records"), strict=True):
        assert line.split() == forms.format(**row).split()
    status, output, errors = crnplan("suggest", path, "--json")
    told = json.loads(output)
    assert (status, errors, told["error"], told["step"]) == (0, "", None, 1)
    pd.testing.assert_frame_equal(pd.DataFrame(told["policies"]), rows, rtol=1e-9)
    assert told["initial"] == round(told["position"])
    errors = crnplan("suggest", top / "examples/mail_order.toml").errors
    assert "\nunit: " not in errors and "\ninitial: " in errors
    data = path.read_text("utf-8")
    assert crnplan("suggest", "-", data=data.encode()) == crnplan("suggest", path)
    free = changed(data, "holding = 2", "holding = 0").encode()
    told = crnplan("suggest", "-", data=free)
    assert told[:2] == (2, "")
    assert told.errors.startswith("crnplan: 14:1: the cost holding is 0, ")


@pytest.mark.serial
@pytest.mark.parametrize("name", COSTLY)
def test_time_and_memory(asked: Path, name: str) -> None:
    asked.write_text(COSTLY[name].toml(), "utf-8")
    words = [sys.executable, "-m", "crnplan", "suggest", str(asked)]
    quiet = {"stdout": subprocess.DEVNULL, "stderr": subprocess.DEVNULL}
    with subprocess.Popen(words, **quiet) as process:
        _, status, usage = os.wait4(process.pid, 0)
        process.returncode = os.waitstatus_to_exitcode(status)
    assert status == 0
    assert usage.ru_utime + usage.ru_stime < MOST_SECONDS
    assert usage.ru_maxrss < MOST_KILOBYTES
