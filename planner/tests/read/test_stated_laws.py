"""Tests of the table of laws of demand that are stated for items: each form of it, and what is left out."""
from __future__ import annotations

import re
from collections.abc import Sequence
from fractions import Fraction
from pathlib import Path
from typing import Any

import numpy as np
import pandas as pd
import pytest
from scipy import stats

import crnplan as crn
from crnplan.read.item import STATED
from crnplan.read.law_forms import law_of_moments, law_of_quantiles, moments_of_paths
from crnplan.sentences import sentence
from planner.tests.conftest import Command
from planner.tests.read.catalogues import (
    MASTER,
    MASTERS,
    TODAY,
    WEEKS,
    cases_of,
    demand_of,
    items_of,
    masters_of,
    weekly,
)

CASES = cases_of("stated_laws")


def read(laws: Any, *history: str, **words: Any) -> crn.Catalogue:
    """Returns a catalogue of the items A and B, of which some have a history, with a table of laws."""
    masters = masters_of(MASTER, MASTER)
    words = {"today": TODAY, "laws": laws, **words}
    return crn.read_catalogue(demand_of(*history or ("B",)), masters, **words)


def table(columns: str, *rows: Sequence[object]) -> pd.DataFrame:
    return pd.DataFrame(rows, columns=columns.split(), dtype=object)


def law_of(laws: Any, **words: Any) -> crn.Law:
    """Returns the law of item A, which has no history."""
    item = items_of(read(laws, **words))["A"]
    assert item.law and item.past == STATED and item.counts == ()
    return item.law


def moments(law: crn.Law) -> tuple[float, float]:
    """Returns the mean and the variance of a law."""
    values, chances = np.array(law.values), np.array(law.weights) / law.size
    mean = float(values @ chances)
    return mean, float(chances @ (values - mean) ** 2)


def test_values_with_whole_weights_stay_as_they_are() -> None:
    laws = table("item value weight", ("A", 4, 3), ("A", 0, 10), ("A", 1, 7))
    assert law_of(laws) == crn.Law((0, 1, 4), (10, 7, 3))


@pytest.mark.parametrize("chances, weights", CASES["chances"])
def test_chances_are_weights_of_65536(chances: list[str], weights: list[int]) -> None:
    """The chance to be at least a value is rounded to parts of 65,536. Chances may be off 1 by 0.001."""
    rows = [("A", value, chance) for value, chance in enumerate(chances)]
    law = law_of(table("item demand probability", *rows))
    assert law == crn.Law(tuple(range(len(weights))), tuple(weights))


def test_weights_beyond_65536_are_rounded() -> None:
    """Ten million draws of three values are a law with weights of the whole of a scenario."""
    rows = ("A", 0, 5_000_000), ("A", 2, 2_500_000), ("A", 7, 2_500_000)
    law = law_of(table("item value weight", *rows))
    assert law == crn.Law((0, 2, 7), (32_768, 16_384, 16_384))


@pytest.mark.parametrize("mean, variance, family", CASES["moments"])
def test_a_mean_and_a_variance(mean: float, variance: float, family: str) -> None:
    """The law has them, and the chances of its family: by scipy."""
    own = table("item mean variance", ("A", mean, variance))
    law = law_of(own)
    assert moments(law) == pytest.approx((mean, variance), rel=2e-3, abs=1e-4)
    assert law == law_of(table("item forecast std", ("A", mean, variance**0.5)))
    excess = variance - mean
    known = None
    if family == "poisson":
        known = stats.poisson(mean)
    elif family == "nbinom":
        known = stats.nbinom(mean**2 / excess, mean / variance)
    elif family == "binom":
        known = stats.binom(round(-(mean**2) / excess), -excess / mean)
    if known is not None:
        chances = known.pmf(np.array(law.values))
        assert np.array(law.weights) / law.size == pytest.approx(chances, abs=2e-5)


@pytest.mark.parametrize("mean", [0.3, 1.0, 2.5, 7.75, 40.2])
def test_the_least_variance_of_whole_numbers(mean: float) -> None:
    """With a part f beside whole items it is f (1 - f): then all demands are the two whole numbers beside the mean."""
    part = mean % 1
    law = law_of_moments(mean, part * (1 - part))
    assert {*law.values} <= {int(mean), int(mean) + 1}
    assert moments(law)[0] == pytest.approx(mean, abs=1e-5)


def test_large_demands_are_counted_in_boxes() -> None:
    """A law beyond what a period of a scenario can have is of whole boxes: moments are as stated, but for half a box."""
    law = law_of_moments(200_000, 1e9)
    item = items_of(read(table("item mean sd", ("A", 200_000, 1e9**0.5))))["A"]
    assert item.law == law and item.box > 30
    assert not any(value % item.box for value in law.values)
    assert law.values[-1] <= 10_000 * item.box
    mean, variance = moments(law)
    assert 0 < mean - 200_000 < item.box and variance == pytest.approx(1e9, rel=0.01)


@pytest.mark.parametrize(
    "known",
    [
        stats.nbinom(2, 0.2),
        stats.poisson(7),
        stats.nbinom(0.4, 0.05),
        stats.norm(1_000, 10),
        stats.binom(200, 0.7),
    ],
    ids=["nbinom", "poisson", "lumpy", "sure", "binom"],
)
def test_a_law_of_quantiles_has_these(known: Any) -> None:
    """Each stated value is that quantile of the law, also where several are one value. Nine of them leave its mean within
    9%, and its spread within 12%."""
    shares = 0.05, 0.1, 0.25, 0.5, 0.75, 0.9, 0.95, 0.98, 0.99
    values = {Fraction(str(share)): Fraction(int(known.ppf(share))) for share in shares}
    law = law_of_quantiles(values)
    below = np.cumsum(law.weights) / law.size
    for share, value in values.items():
        assert law.values[int(np.searchsorted(below, float(share)))] == value
    mean, variance = moments(law)
    assert mean == pytest.approx(known.mean(), rel=0.09)
    assert variance**0.5 == pytest.approx(known.std(), rel=0.12)


def test_quantiles_by_hand() -> None:
    """Of 2, 4 and 8 as quartiles, with halves rounded up: lines between, and tails that halve as from one to the next."""
    law = law_of_quantiles(
        {
            Fraction(1, 4): Fraction(2),
            Fraction(1, 2): Fraction(4),
            Fraction(3, 4): Fraction(8),
        }
    )
    values, below = np.array(law.values), np.cumsum(law.weights) / law.size
    known = {0: 2 ** (-2 - 0.75), 3: 0.4375, 4: 0.53125, 7: 0.5 + 0.25 * 3.5 / 4}
    known |= {8: 1 - 2 ** (-2 - 0.125), 12: 1 - 2 ** (-2 - 1.125)}
    for value, share in known.items():
        assert below[values <= value][-1] == pytest.approx(share, abs=1e-5)


def test_fractions_as_quantiles() -> None:
    """Those of a forecast that is no whole number are rounded to the next: with 2.6 in the middle of 1.1 and 4.1, half of
    the law is up to 2.6, so a little less up to 2."""
    quarters = Fraction(1, 4), Fraction(1, 2), Fraction(3, 4)
    numbers = Fraction("1.1"), Fraction("2.6"), Fraction("4.1")
    law = law_of_quantiles(dict(zip(quarters, numbers)))
    below = np.cumsum(law.weights) / law.size
    assert below[law.values.index(2)] == pytest.approx(0.5 - 0.25 * 0.1 / 1.5, abs=1e-5)
    tied = Fraction("1.1"), Fraction("1.2"), Fraction("1.2")
    assert sum(law_of_quantiles(dict(zip(quarters, tied))).weights) == 65_536


def test_a_table_of_quantiles() -> None:
    """Shares may be in percent, if the column or the cell says so, and are the same in any order."""
    values = {Fraction(1, 10): 2, Fraction(1, 2): 6, Fraction(9, 10): 13}
    law = law_of_quantiles({share: Fraction(value) for share, value in values.items()})
    shares = table("item quantile value", ("A", 0.5, 6), ("A", 0.1, 2), ("A", 0.9, 13))
    cells = table(
        "item quantile value", ("A", "50%", 6), ("A", "10%", 2), ("A", "90 %", 13)
    )
    percent = table("item percentile value", ("A", 50, 6), ("A", 10, 2), ("A", 90, 13))
    assert [*map(law_of, (shares, cells, percent))] == [law] * 3


def test_sample_paths_by_hand() -> None:
    """Two paths of four periods; orders take 2 weeks, so three in a row count together: sums of 6, 9, 12 and 9, 9, 9 have
    the variance 20 / 6 - about 9 - times 2, as paths alone are independent, over 3 periods.
    """
    paths = np.array([[1.0, 2.0, 3.0, 7.0], [4.0, 2.0, 3.0, 4.0]])
    sums = [6, 12, 9, 9]
    mean, variance = moments_of_paths(paths, 3)
    assert mean == 26 / 8
    assert variance == pytest.approx(np.var(sums) * 2 / 3)
    rows = [
        ("A", f"run {path}", week + 5, paths[path, week])
        for path in range(2)
        for week in (2, 0, 3, 1)
    ]
    item = items_of(read(table("item path period value", *rows)))["A"]
    assert item.law == law_of_moments(mean, variance)
    facts = item.remarks[0].facts
    assert (facts["together"], facts["is_apart"], facts["ahead"]) == (3, 0, 4)
    assert "that of sums of 3 in a row, over their number" in sentence(item.remarks[0])


def test_paths_that_are_too_short_are_taken_apart() -> None:
    """Orders of 2 weeks and the next plan cover three weeks: paths of two have their periods taken one by one."""
    rows = [("A", path, week, value) for path, week, value in CASES["short paths"]]
    item = items_of(read(table("item path week value", *rows)))["A"]
    values = [value for _, _, value in CASES["short paths"]]
    assert item.law == law_of_moments(np.mean(values), np.var(values) * 3 / 2)
    (remark,) = (remark for remark in item.remarks if remark.facts.get("paths") == 3)
    assert remark.facts["is_apart"]
    words = "of which each is taken by itself, as 3 in a row lack"
    assert words in sentence(remark)


def test_correlated_paths_have_more_variance() -> None:
    """Paths whose periods move together vary as their sums do, by far more than periods taken apart."""
    random = np.random.default_rng(5)
    levels = random.gamma(4, 2.5, (4_000, 1))
    paths = random.poisson(levels, (4_000, 6)).astype(float)
    # Of a period, the variance is 10 + 25; of the sum of 3 it is 30 + 9 * 25.
    assert moments_of_paths(paths, 1)[1] == pytest.approx(35, rel=0.05)
    assert moments_of_paths(paths, 3)[1] == pytest.approx(10 + 3 * 25, rel=0.05)


def test_a_table_of_paths_with_a_column_for_each_period() -> None:
    """It is as one with a row for each; periods may be dates."""
    wide = table(
        "item path 2026-W36 2026-W37 2026-W38", ("A", 1, 2, 5, 3), ("A", 2, 4, 1, 0)
    )
    rows = [
        ("A", path, f"2026-09-{day:02}", value)
        for path, values in ((1, (2, 5, 3)), (2, (4, 1, 0)))
        for day, value in zip((1, 8, 15), values)
    ]
    assert law_of(wide) == law_of(table("item path date value", *rows))


@pytest.mark.parametrize("columns, why", CASES["headings"])
def test_columns_of_two_forms_or_of_none_are_refused(columns: str, why: str) -> None:
    """With both readings, and what to say."""
    heading = columns.split(";")
    laws = pd.DataFrame([["A", *[1] * (len(heading) - 1)]], columns=heading)
    with pytest.raises(crn.Refused, match=re.escape(why)) as refused:
        read(laws)
    assert "laws" in str(refused.value)


def test_a_column_that_does_not_count_is_left_out() -> None:
    laws = table("item mean variance value", ("A", 3, 4, 9))
    assert law_of(laws, columns={"laws": {"value": ""}}) == law_of_moments(3, 4)


@pytest.mark.parametrize("columns, rows, line, why", CASES["left out"])
def test_items_with_a_law_that_is_none_are_left_out(
    columns: str, rows: list[list[Any]], line: int, why: str
) -> None:
    """With the line and why: without its law, an item is not planned by its history either. Others are read."""
    laws = table(columns, *[("A", *row) for row in rows])
    wrong = read(laws, "A", "B")
    (reject,) = wrong.rejects[wrong.rejects.kind == "item"].itertuples()
    assert (reject.file, reject.line, reject.item) == ("laws", line, "A")
    assert why in f"{reject.reason}; {reject.advice}"
    assert [*items_of(wrong)] == ["B"] and not wrong.missing


def test_rejected_rows_are_named_and_counted() -> None:
    """A cell that is no number rejects its row, and leaves its item out."""
    laws = table("item value chance", ("A", 1, 0.5), ("A", "many", 0.5), ("B", 2, 1))
    wrong = read(laws, "A", "B")
    assert wrong.counts["files"]["laws"] | {"name": ""} == {
        "name": "",
        **{"read": 3, "blank": 0, "used": 1, "rejected": 1, "with_item": 1, "other": 0},
    }
    lines = {
        (reject.kind, reject.line): reject.reason
        for reject in wrong.rejects.itertuples()
    }
    assert lines == {
        ("row", 3): "'many' is not a number",
        ("item", 2): "rows of its stated law are rejected: 1",
    }


def test_an_item_without_a_master_is_rejected() -> None:
    laws = table("item mean variance", ("A", 3, 4), ("Z-9", 3, 4))
    (reject,) = read(laws).rejects.itertuples()
    assert (reject.file, reject.line, reject.item) == ("laws", 3, "Z-9")
    assert reject.advice == "add its row to the masters"


@pytest.mark.parametrize("every", ["week", "weekly", "period", "per week", ""])
def test_laws_of_the_periods_of_the_plan(every: str) -> None:
    """A column may say that, or nothing."""
    laws = table("item mean variance every", ("A", 3, 4, every))
    if every == "per week":
        laws = table("item mean variance", ("A", 3, 4))
        laws.columns = ["item", "mean per week", "variance"]
    assert law_of(laws) == law_of_moments(3, 4)


def test_a_history_is_kept_beside_a_law() -> None:
    """An item with both has its demand by period too, and is planned whatever that says: neither new nor stopped."""
    masters = masters_of(MASTER)
    demand = demand_of("A").head(3)
    laws = {"A": crn.Law.of({0: 3, 2: 1})}
    words: dict[str, Any] = {"today": TODAY, "end": "2026-08-30"}
    (item,) = items_of(crn.read_catalogue(demand, masters, laws=laws, **words)).values()
    assert item.counts == (2, 3, 4, *[0] * (WEEKS - 3))
    assert (item.law, item.past) == (crn.Law((0, 2), (3, 1)), STATED)
    ended = masters.assign(status="stopped")
    (item,) = items_of(crn.read_catalogue(demand, ended, laws=laws, **words)).values()
    assert item.past == "stopped"


def test_laws_of_python_are_a_table() -> None:
    """A dict or a Series of laws by item is read as a table of values and weights."""
    law = crn.Law((0, 3), (5, 2))
    laws = pd.Series({"A": law})
    frame = table("item value weight", ("A", 0, 5), ("A", 3, 2))
    assert law_of({"A": law}) == law_of(laws) == law_of(frame) == law


def test_an_item_that_succeeds_another_keeps_its_law() -> None:
    masters = masters_of(MASTER, MASTER).assign(status=["successor of B", ""])
    read_ = crn.read_catalogue(
        demand_of("B"), masters, today=TODAY, laws={"A": crn.Law((1,), (1,))}
    )
    item = items_of(read_)["A"]
    assert item.past == STATED and sum(item.counts) > 0 and item.law


def test_the_class_by_value_is_by_the_stated_mean() -> None:
    """An item without a history is A, B or C by the mean of its law: 20 of 23 items a week are 87% of the value."""
    masters = masters_of(MASTER, MASTER).assign(price="1")
    laws = {"A": crn.Law((20,), (1,))}
    items = items_of(
        crn.read_catalogue(demand_of("B"), masters, today=TODAY, laws=laws)
    )
    assert [items["A"].abc, items["B"].abc] == ["A", "B"]
    wrong = table("item mean variance", ("A", 20, -1))
    left = crn.read_catalogue(demand_of("B"), masters, today=TODAY, laws=wrong)
    assert [*items_of(left)] == ["B"]
    without = crn.read_catalogue(demand_of("B"), masters, today=TODAY)
    assert items_of(without)["A"].abc == ""


def test_the_command_takes_the_table(crnplan: Command, tmp_path: Path) -> None:
    """`crnplan plan` finds laws, and says its columns, and how many laws there are."""
    demand = f"item,date,quantity\n{weekly([3, 1, 4] * 8, 'B')}"
    (tmp_path / "demand.csv").write_text(demand)
    master = MASTERS.splitlines()[1].removeprefix("A")
    (tmp_path / "items.csv").write_text(f"{MASTERS}B{master}\n")
    (tmp_path / "laws.csv").write_text("Artikel;Prognose;Varianz\nA;2,5;4,25\n")
    status, output, errors = crnplan(
        *("plan", tmp_path / "demand.csv", tmp_path / "items.csv", "--check"),
        tmp_path / "laws.csv",
    )
    assert status == 0 and 'mean = "Prognose"' in errors, errors
    assert "for 1 items, 1 of them without a history" in errors
