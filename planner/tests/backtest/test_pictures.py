"""Tests the pictures of a test on the past by hand."""
from __future__ import annotations

from pathlib import Path
from typing import Any

import pytest

from crnplan.plan.backtest.sums import Sums
from crnplan.show import verdicts
from crnplan.show.backtest_page import curve_plot
from crnplan.show.backtest_tables import class_rows, first_line, past_line
from crnplan.show.verdicts import METHOD_WORDS
from crnplan.plan.backtest.catalogue import Past
from crnplan.plan.backtest.methods import METHODS
from planner.tests.backtest.test_curves import catalogue
from planner.tests.backtest.test_sums import PERIODS, made, outcome


def test_curves_by_hand() -> None:
    """Aims with half and all of the plan's stock of 10 meet 70% and 90%; what is beyond three times the stock is not
    drawn."""
    unmet = ((3,) * PERIODS, (1,) * PERIODS, (0,) * PERIODS)
    stocks = ((5,) * PERIODS, (10,) * PERIODS, (40,) * PERIODS)
    held: dict[str, Any] = {"stocks": (10,) * PERIODS}
    plan = outcome(unmet[1], unmet_by_aim=unmet, stocks_by_aim=stocks, **held)
    facts: dict[str, Any] = {"planned": plan, "today": None, "alike": plan}
    facts |= dict.fromkeys(("averaged", "smoothed", "cover"), outcome(unmet[1]))
    tests = [made(unmet[1], it, **facts) for it in range(2)]
    plot = curve_plot(tests, 0.95)
    assert "; alike: 70.0% with 50, 100.0% with 400." in plot.description
    names = [line.name for line in plot.lines]
    assert names == ["promised: 95.0%", "planned", "alike"]
    assert plot.lines[1].path.count("L") == 1
    assert plot.lines[1].path.startswith("M166.7 1000L333.3 ")


def test_each_method_has_a_line_of_its_own() -> None:
    """No two methods have one style of line, and the page has each."""
    folder = Path(verdicts.__file__).parents[1] / "templates"
    css = "".join((folder / it).read_text() for it in ("plots.css", "backtest.html"))
    styles = [METHOD_WORDS[method.code].style for method in METHODS]
    assert len({*styles}) == len(styles)
    assert all(f".{style} {{" in css for style in styles)


@pytest.mark.parametrize(
    "ratio, said",
    [
        (0.7, "; for as much exponential smoothing with a normal safety stock needs -"),
        (1.0, "; no way needs less than the plan beyond its error."),
        (1.5, " beyond its error, and these need more: smoothed +"),
    ],
)
def test_line_of_the_first_screen(ratio: float, said: str) -> None:
    """The line says what was met and promised, and which way needs less, or that none does and which need more; of few items
    only what was met."""
    sums = Sums.of("", catalogue(ratio, 7, items=160))
    line, met = first_line(sums), 100 * sums.met["planned"]
    assert line.startswith(f"On your own past the plan met {met:.1f}% at once of 95.0%")
    assert said in line
    spent = sums.equal["smoothed"].spent
    figure = f"{100 * spent.value:+.1f} ± {100 * spent.error:.1f}%"
    assert (figure in line) is (ratio != 1)
    few = first_line(Sums.of("", catalogue(ratio, 7, items=9)))
    assert few.endswith("95.0% promised.")


@pytest.mark.parametrize("planned, sign", [(1, "-"), (2, "+")])
def test_line_says_too_much_and_too_little(planned: int, sign: str) -> None:
    """Of a promised 95% a plan that meets 98% says how much more stock it had, as one that meets 90% how much less."""
    sums = Sums.of("", catalogue(1.0, 7, planned=planned, items=160))
    assert sums.excess
    figure = f"{100 * sums.excess.value:+.1f} ± {100 * sums.excess.error:.1f}%"
    assert figure.startswith(sign)
    said = f"promised, with {figure} stock beside what that needed; "
    assert said in first_line(sums)


def test_move_of_a_class() -> None:
    """What was met at once moves down if more is unmet; of a class that is not asked for in a half it is not known."""
    unmet, silent = [0] * 28 + [1] * 24, (10,) * 20 + (0,) * 32
    tests = [made(unmet, it) for it in range(12)]
    none = [made([0] * PERIODS, it, demands=silent) for it in range(12)]
    rows = class_rows([Sums.of(name, own) for name, own in (("", tests), ("b", none))])
    assert [(row[0], row[-1]) for row in rows[1:]] == [
        ("all", "-10.0 ± 0.0"),
        ("b", "-"),
    ]


def test_line_on_the_page_of_a_plan() -> None:
    sums = Sums.of("", catalogue(1.0, 7))
    assert past_line(Past(sums, False)) == first_line(sums)
    assert past_line(Past(None, False)) == "No item has a test on its own past."
