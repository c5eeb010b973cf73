"""The figures of the pages are those that come out: reports in round numbers, counts, periods."""
from __future__ import annotations

import csv
import math
import re
from fractions import Fraction
from math import sqrt
from typing import Any

import pytest
from crnplan import formats

from tests.documents.conftest import Ask
from tests.documents.markdown import blocks_of, rows_of, text_of
from tests.program import oracle

EXAMPLES = "examples/README.md"


def rounded(number: Fraction | int | float | str, places: int = 0) -> str:
    """Returns a number in round figures, halves away from zero, with commas between thousands."""
    number = Fraction(number)
    whole = math.floor(abs(number) * 10**places + Fraction(1, 2))
    sign = "-" if number < 0 and whole else ""
    rest = f".{whole % 10**places:0{places}}" if places else ""
    return f"{sign}{whole // 10**places:,}{rest}"


def report_of(text: str) -> dict[str, dict[str, Any]]:
    """Returns the rows of a report by their policies, with numbers for texts."""
    rows: dict[str, dict[str, Any]] = {
        row["policy"]: dict(row) for row in csv.DictReader(text.splitlines())
    }
    for row in rows.values():
        row |= {
            name: Fraction(row[name])
            for name, kind in formats.COLUMNS.items()
            if (kind == "fraction" or name in ("total", "diff_total"))
            and row[name] != "-"
        }
    return rows


def test_report_in_round_numbers() -> None:
    """A page shows the report of an example in round numbers."""
    wanted: list[list[str]] = []
    for policy, row in report_of(text_of("examples/mail_order.csv")).items():
        means = [
            rounded(it) if wanted else ""
            for it in (row["diff_mean"], sqrt(row["diff_var"]))
        ]
        wanted.append(
            [
                policy,
                row["s"],
                row["S"],
                rounded(row["per_period"], 2),
                *means,
                rounded(row["cov"]),
            ]
        )
    assert (
        rows_of(
            EXAMPLES,
            "policy",
            "s",
            "S",
            "cost a day",
            "`diff_mean`",
            "its standard error",
            "`cov`",
        )
        == wanted
    )


def test_counts_of_a_total(ask: Ask) -> None:
    """A page says what each total is made of: the counts of what each cost is paid for."""
    text = text_of("examples/spare_part.toml")
    counts: dict[str, list[str]] = {}
    rate = re.compile(rf"^({'|'.join(formats.COSTS)}) = .*$", re.MULTILINE)
    for cost in formats.COSTS:
        only = rate.sub(lambda it: f"{it[1]} = {int(it[1] == cost)}", text)
        for policy, row in report_of(ask("", only).output).items():
            counts.setdefault(policy, [policy]).append(rounded(row["total"]))
    assert rows_of(
        EXAMPLES,
        "policy",
        "orders (`setup`)",
        "items ordered (`unit`)",
        "item-weeks in stock (`holding`)",
        "items owed at weeks' ends (`backlog`)",
    ) == list(counts.values())


def test_periods_of_the_example() -> None:
    """FORMATS shows the periods of an example as the oracle has them: of each cell the last number."""
    run = oracle.run_of(text_of("examples/two_policies.toml"))
    placed, stocks, spent = run.histories[1][0]
    demands = run.scenario.draws(0, "demand")
    rows = rows_of(
        "docs/FORMATS.md",
        "Period",
        "Arrives",
        "Position at the review",
        "Ordered",
        "Demand",
        "Stock at the end",
        "Cost",
    )
    arrived = [
        sum(amount for amount, due in placed if due == period)
        for period in range(len(stocks))
    ]
    wanted = zip(
        range(len(stocks)),
        arrived,
        (amount for amount, _ in placed),
        demands,
        stocks,
        spent,
    )
    shown = [
        [int(re.findall("[0-9]+", row[it])[-1]) for it in (0, 1, 3, 4, 5, 6)]
        for row in rows
    ]
    assert shown == [list(it) for it in wanted]


# ---- README


@pytest.mark.parametrize("name", ["README.md", "examples/two_policies.toml"])
def test_report_of_readme(ask: Ask, name: str) -> None:
    """README's scenario, and that of the example, have the report of the example."""
    scenario = blocks_of(name, "toml")[0] if name.endswith(".md") else text_of(name)
    assert ask("", scenario) == (0, text_of("examples/two_policies.csv"), "")


def test_readme_prints_its_report() -> None:
    """README prints that report, and has a table of it."""
    report = text_of("examples/two_policies.csv")
    assert report in blocks_of("README.md")
    for row in report.splitlines()[1:]:
        policy, low, high, total = row.split(",")[:4]
        assert f"| {policy} | {low} | {high} | {total} |" in text_of("README.md")
