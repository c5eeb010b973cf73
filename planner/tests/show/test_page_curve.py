"""Tests the curve on the page of a catalogue, and what is said without one."""
from __future__ import annotations

import contextlib
import json
import random
import re
from dataclasses import replace
from fractions import Fraction
from pathlib import Path

import pytest
from hypothesis import given, strategies as st

import crnplan as crn
from crnplan.curve.pictures import clipped
from crnplan.plan.answer import Answer
from crnplan.plan.catalogue import ANSWERS
from crnplan.store.stored import Store
from planner.tests.show.made_catalogue import (
    made_folder,
    made_pair,
    page_of,
    without_today,
)
from planner.tests.show.page_reader import Page
from planner.tests.show.test_catalogue_page import large, large_page

__all__ = ["large", "large_page"]


CURVE = "Exchange curve: demand met at once against the value of the stock"


def test_curve(large: Path, large_page: Page) -> None:
    """The curve has the figures that are kept, and lies within its picture."""
    page = large_page
    with contextlib.closing(Store(large / ANSWERS, Answer)) as store:
        kept = json.loads(store.fact("curve") or "")["points"]
    named = [point for point in kept if point["name"]]
    points, said = page.tables["Points of the curve"][1:], page.pictures[CURVE]
    assert len(points) == len(named) == 4
    for (name, value, fill, orders, *_), point in zip(points, named):
        assert (name.strip(), orders) == (point["name"], f"{point['orders']:g}")
        assert (value, fill) == (f"{point['value']:,.0f}", f"{point['fill']:.2%}")
        assert f"{fill} met at once with a stock of {value}" in said
    assert 'y="0.0%" dy=".32em">100%</text>' in page.source
    (path,) = re.findall(r'class="line of-chosen" d="M([^"]+)"', page.source)
    places = [tuple(map(float, it.split())) for it in path.split("L")]
    assert len(places) > 5
    assert 0 <= min(map(min, places))
    assert max(map(max, places)) <= 1000
    assert places == sorted(places, key=lambda it: (it[0], -it[1]))


POINTS = st.tuples(
    st.floats(0, 1e6, allow_subnormal=False), st.floats(0, 100, allow_subnormal=False)
)


@given(st.lists(POINTS, min_size=1, max_size=8), st.floats(1, 1e6), st.floats(0, 99))
def test_curve_is_clipped(
    points: list[tuple[float, float]], right: float, bottom: float
) -> None:
    """What is left of a rising curve lies within the picture, and has each point of the curve that does."""
    curve = list(zip(*(sorted(its) for its in zip(*points))))
    left = clipped(curve, right, bottom)
    assert len(left) == 1 or all(
        value <= right and share >= bottom - 1e-6 for value, share in left
    )
    inside = {value for value, share in curve if value < right and share > bottom}
    assert inside <= {value for value, _ in left}
    assert left == sorted(left)


@pytest.mark.parametrize(
    "is_other, said",
    [
        (
            True,
            "The curve here is not that of this plan. Run crnplan curve FOLDER again",
        ),
        (
            False,
            "What stock is needed for more or less service is drawn by crnplan curve FOLDER, and then",
        ),
    ],
)
def test_no_curve(is_other: bool, said: str, tmp_path: Path) -> None:
    """If there is no curve, or that of other answers, the page says what to run."""
    folder = made_folder(tmp_path / "plan", 12, has_curve=is_other)
    if is_other:
        with contextlib.closing(Store(folder / ANSWERS, Answer)) as store:
            curve = json.loads(store.fact("curve") or "")
            store.keep_facts({"curve": json.dumps(curve | {"plan": "another"})})
    page = Page(crn.report(folder))
    assert said in page.words
    assert CURVE not in page.pictures and "Points of the curve" not in page.tables


def test_no_curve_without_prices_or_levels(tmp_path: Path) -> None:
    """Without prices the page says which column is missing. Without today's levels it says what draws the curve."""
    item, answer = made_pair(random.Random(1), "it")
    pair = replace(item, price=None), answer
    page = page_of(tmp_path / "plain", change=pair)
    assert "No item has a price, so its stock has no value" in page.words
    pair = replace(item, levels=None, price=Fraction(3)), without_today(answer)
    page = page_of(tmp_path / "new", change=pair)
    assert "is drawn by crnplan curve FOLDER" in page.words
