"""Tests reports of several keys, which crnplan run pools, and what it refuses of them."""
from __future__ import annotations

import csv
import math
import re
import tomllib
from fractions import Fraction
from pathlib import Path

import pytest

from crnplan import formats
from planner.tests.conftest import Command, rows_of
from planner.tests.decide.answers import changed, pairs_sum, priced, report_of

KEYS = ["00000000000000a1", "00000000000000a2"]
OWN_KEY = "5eed000000000001"
COLUMNS = ("total", "per_period", "diff_total", "diff_mean", "diff_var", "cov")
CASES = tomllib.loads(Path(__file__).with_name("decisions.toml").read_text("utf-8"))[
    "reports"
]


def report(*rows: str) -> str:
    """Returns a report of these rows. In a column that is not pooled there is no figure."""
    count = formats.HEADER.count(",")
    return "".join(
        f"{row}{',-' * (count - row.count(','))}\n" for row in [formats.HEADER, *rows]
    )


def costs_of(
    program: Path, text: str, key: str, replications: int
) -> dict[str, list[int]]:
    """Returns the costs of each policy in each replication: runs of 1, 2, .. replications begin with the same ones."""
    totals: list[dict[str, int]] = [{}]
    for count in range(1, replications + 1):
        asked = re.sub(
            "replications = [0-9]+",
            f"replications = {count}",
            text.replace(OWN_KEY, key),
        )
        totals.append(
            {
                row["policy"]: int(row["total"])
                for row in csv.DictReader(report_of(program, asked).splitlines())
            }
        )
    pairs = list(zip(totals, totals[1:]))
    return {
        name: [after[name] - before.get(name, 0) for before, after in pairs]
        for name in totals[1]
    }


def pooled_figures(own: list[int], base: list[int]) -> list[Fraction]:
    """Returns the figures of a report of these costs by their definitions, in the order of COLUMNS."""
    count, differences = len(own), [a - b for a, b in zip(own, base)]
    figures = [
        Fraction(sum(own)),
        Fraction(sum(own), count * 104),
        Fraction(sum(differences)),
        Fraction(sum(differences), count),
    ]
    variance = Fraction(pairs_sum(differences, differences), count**2 * (count - 1))
    return [*figures, variance, Fraction(pairs_sum(own, base), count * (count - 1))]


@pytest.fixture
def part(room: Path, program: Path) -> str:
    """Writes a scenario, and its reports under two keys, and returns its text."""
    text = priced(room / "examples/spare_part.toml", 5)
    text = changed(text, "replications = 64", "replications = 5")
    (room / "part.toml").write_text(text, "utf-8")
    for place, key in enumerate(KEYS):
        other = report_of(program, changed(text, OWN_KEY, key))
        (room / f"{place}.csv").write_text(other, "utf-8")
    return text


def test_two_keys_are_all_their_replications(
    part: str, room: Path, program: Path, crnplan: Command
) -> None:
    first, second = (costs_of(program, part, key, 5) for key in KEYS)
    costs = {name: first[name] + second[name] for name in first}
    words = "run 0.csv 1.csv --scenario part.toml --level 0.85 --out pooled.csv"
    told = crnplan(*words.split())
    rows = rows_of(room / "pooled.csv", "policy")
    title, table, *_ = told.output.split("\n\n")
    assert title == "The coming 104 periods from a stock of 12"
    assert "replications: 10, comparisons with today: 3" in told.output
    heading, *lines = (line.split() for line in table.splitlines())
    shown = {line[0]: dict(zip(heading, line)) for line in lines}
    assert list(rows) == ["today", "lower", "smaller", "both"], told.errors
    for name, row in rows.items():
        wanted = pooled_figures(costs[name], costs["today"])
        assert [Fraction(row[it]) for it in COLUMNS] == wanted
        if name != "today":
            # Three intervals at 0.85 together: 0.975 on each side, for which tables have 2.26216 with 9 degrees of
            # freedom.
            half = 2.26216 * math.sqrt(wanted[4])
            ends = [float(wanted[3]) - half, float(wanted[3]) + half]
            found = [float(shown[name][it]) for it in ("low", "high")]
            assert found == pytest.approx(ends, abs=0.0006, rel=1e-5)
    again = crnplan("run", "pooled.csv", "--replications", "10", "--level", "0.85")
    assert again.output in told.output.replace(f"{title}\n\n", "")


@pytest.mark.parametrize(("level", "row"), CASES["verdicts"])
def test_two_reports_by_hand(
    room: Path, crnplan: Command, level: str, row: str
) -> None:
    for name, rows in zip("ab", CASES["reports"], strict=True):
        (room / f"{name}.csv").write_text(report(*rows), "utf-8")
    words = f"run a.csv b.csv --replications 2 --level {level} --out pooled.csv"
    told = crnplan(*words.split())
    assert told.status == 0, told.errors
    assert row.split() in [line.split() for line in told.output.splitlines()]
    assert (room / "pooled.csv").read_text("utf-8") == report(*CASES["pooled"])


def test_reports_that_are_not_of_one_scenario(
    part: str, room: Path, program: Path, crnplan: Command
) -> None:
    """Refuses a report twice, other policies, other periods, and a scenario among reports."""
    for name, pairs in {
        "named": ("both", "each"),
        "longer": ("periods = 104", "periods = 105"),
    }.items():
        other = report_of(program, changed(part, OWN_KEY, KEYS[1], *pairs))
        (room / f"{name}.csv").write_text(other, "utf-8")
    for file, said in {
        "0.csv": "0.csv: it is the report 0.csv again; take another key",
        "named.csv": "named.csv: it has other policies than 0.csv",
        "longer.csv": "longer.csv: it has another number of periods",
        "part.toml": "part.toml:1: this is no report of crnsim",
    }.items():
        assert crnplan("run", "0.csv", file, "--replications", "5").refuses(said)
