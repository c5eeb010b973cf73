"""Fixtures that run crnplan's commands in a folder with the examples, changes of the examples, and made reports."""
from __future__ import annotations

import subprocess
from collections.abc import Mapping, Sequence
from fractions import Fraction
from itertools import combinations
from pathlib import Path

import pytest

from crnplan.crnsim.report import ReportRow
from planner.tests.conftest import Command


@pytest.fixture
def room(
    tmp_path: Path, top: Path, program: Path, monkeypatch: pytest.MonkeyPatch
) -> Path:
    """Returns a new folder, the working one, with the examples below `examples`. The program is the tested one."""
    (tmp_path / "examples").symlink_to(top / "examples")
    monkeypatch.chdir(tmp_path)
    monkeypatch.setenv("CRNSIM", str(program))
    return tmp_path


@pytest.fixture
def crnplan(room: Path, crnplan: Command) -> Command:
    return crnplan


def changed(text: str, *pairs: str) -> str:
    """Returns a text with each old text replaced by the new one behind it, all of which must be there."""
    for old, new in zip(pairs[::2], pairs[1::2]):
        assert old in text, f"the text that should be replaced is not there: {old!r}"
        text = text.replace(old, new)
    return text


def priced(path: Path, unit: int) -> str:
    """Returns an example, which leaves the price of an item out, with a price."""
    return changed(path.read_text("utf-8"), "\nunit = 0\n", f"\nunit = {unit}\n")


def report_of(program: Path, text: str, *words: str) -> str:
    """Returns what the program writes about a scenario."""
    return subprocess.run(
        [program, *words], input=text, capture_output=True, text=True, check=True
    ).stdout


def pairs_sum(first: Sequence[int], second: Sequence[int]) -> int:
    """Returns the sum over pairs of replications by which docs/FORMATS.md defines variances and covariances."""
    return sum(
        (first[i] - first[j]) * (second[i] - second[j])
        for i, j in combinations(range(len(first)), 2)
    )


def rows_of_costs(costs: Mapping[str, Sequence[int]], periods: int) -> list[ReportRow]:
    """Returns the report of the costs of each policy in each replication, the first policy as the base."""
    base = next(iter(costs.values()))
    count, rows = len(base), []
    for place, (name, own) in enumerate(costs.items()):
        differences = [a - b for a, b in zip(own, base)]
        variance = covariance = None
        if count > 1:
            variance = Fraction(
                pairs_sum(differences, differences), count**2 * (count - 1)
            )
            covariance = Fraction(pairs_sum(own, base), count * (count - 1))
        rows.append(
            ReportRow(
                name,
                place,
                place + 2,
                sum(own),
                Fraction(sum(own), count * periods),
                sum(differences),
                Fraction(sum(differences), count),
                variance,
                covariance,
            )
        )
    return rows
