"""Tests what `plot` of each result draws, by the paths and texts of the picture, and how a picture is kept."""
from __future__ import annotations

import re
import xml.etree.ElementTree
from collections.abc import Mapping
from pathlib import Path
from typing import Any

import numpy as np
import pandas as pd
import pytest

import crnplan as crn
from crnplan.drawing.pictures import Picture, savings_picture
from planner.tests.conftest import shared
from planner.tests.plan.items import several, tables_of
from planner.tests.test_results import WORDS

KINDS = "plan", "curve", "backtest"
SVG = "{http://www.w3.org/2000/svg}"
NUMBER = r"(-?[\d.]+(?:e-?\d+)?)"
COSTS: Any = {"setup": 45, "holding": 1, "backlog": 9, "today": (3, 9)}


def tables() -> tuple[pd.DataFrame, pd.DataFrame]:
    sales, masters = tables_of(several(4))
    return sales, masters.assign(price=2, currency="EUR")


@pytest.fixture(scope="module")
def path(tmp_path_factory: pytest.TempPathFactory, program: Path) -> Path:
    """Returns the folder of a plan of four items, which nobody changes."""

    def make(room: Path) -> None:
        crn.plan(*tables(), out=room / "plan", program=program, **WORDS)

    return shared(tmp_path_factory, "plots", make) / "plan"


@pytest.fixture(scope="module")
def results(path: Path, program: Path) -> Mapping[str, Any]:
    return {
        "plan": crn.open_plan(path, program=program),
        "curve": crn.open_plan(path, program=program).curve(jobs=1),
        "backtest": crn.backtest(*tables(), record=52, every=4, jobs=1),
    }


def texts_of(picture: Picture) -> list[str]:
    """Returns the texts that a picture shows, in the order of the file."""
    tree = xml.etree.ElementTree.fromstring(picture.svg)
    return [text.text or "" for text in tree.iter(f"{SVG}text")]


def paths_of(picture: Picture, css: str) -> list[str]:
    """Returns the paths of a class of lines, but for those of the legend."""
    tree = xml.etree.ElementTree.fromstring(picture.svg)
    paths = [path for path in tree.iter(f"{SVG}path") if path.get("class") == css]
    return [path.get("d", "") for path in paths if path.get("d") != "M0 6h22"]


def places_of(path: str) -> list[tuple[float, float]]:
    """Returns the points of a line, in thousandths across and downwards."""
    return [(float(x), float(y)) for x, y in re.findall(f"{NUMBER} {NUMBER}", path)]


@pytest.mark.parametrize("kind", KINDS)
def test_pictures(kind: str, results: Mapping[str, Any], tmp_path: Path) -> None:
    """A notebook shows what a file has; each time it is the same. In print a picture is short."""
    picture = results[kind].plot()
    assert results[kind].plot() == picture
    assert repr(picture) == f"Picture(title={picture.title!r})"
    picture.save(tmp_path / "it.svg")
    assert (tmp_path / "it.svg").read_text("utf-8") == picture._repr_svg_()
    assert picture.title in texts_of(picture)
    assert "var(" not in picture.svg
    with pytest.raises(crn.Refused, match="No such file"):
        picture.save(tmp_path / "nowhere" / "it.svg")


def test_savings_of_a_plan(path: Path, program: Path) -> None:
    """Each item has a bar of its saving, the greatest above, in the plan's currency. Without any there is no picture."""
    plan = crn.open_plan(path, program=program)
    texts = texts_of(plan.plot())
    savings = plan.decisions.set_index("item")["saving"].sort_values(ascending=False)
    assert [text for text in texts if text in savings.index] == [*savings.index]
    assert texts[-1].endswith("in EUR a week")
    (bars,) = paths_of(plan.plot(), "bar")
    ends = re.findall(f"M{NUMBER} {NUMBER}H{NUMBER}", bars)
    widths = np.array([float(end) - float(zero) for zero, _, end in ends])
    np.testing.assert_allclose(widths / widths[0], savings / savings[0], atol=2e-3)
    sales, masters = tables()
    bare = masters.drop(columns=["s", "S"])
    with pytest.raises(crn.Refused, match="no item has a policy today"):
        crn.plan(sales, bare, program=program, **WORDS).plot()


def test_losses_and_names() -> None:
    """A loss ends left of 0. A name is shown as it is, or cut if no picture has room for it."""
    savings = {"A <b>&": 3.0, "loss": -1.0, "W" * 300: 1.0}
    picture = savings_picture(savings, "money a week")
    (bars,) = paths_of(picture, "bar")
    ends = [float(end) for end in re.findall(f"H{NUMBER}v", bars)]
    assert ends == [1000, 500, 0]
    texts = texts_of(picture)
    assert "A <b>&" in texts and f"{'W' * 30}…" in texts


def test_a_curve(results: Mapping[str, Any]) -> None:
    """Its line rises within the picture, and each point that has a name has a form, with its figures in the legend."""
    curve = results["curve"]
    picture, frame = curve.plot(), curve.frame
    (line,) = paths_of(picture, "line of-chosen")
    places = places_of(line)
    assert places == sorted(places, key=lambda place: (place[0], -place[1]))
    assert all(0 <= place <= 1000 for pair in places for place in pair)
    texts = texts_of(picture)
    for row in frame[frame["point"] != "curve"].itertuples():
        said = f"{row.fill:.2%} met at once with a stock of EUR {row.value:,.2f}"
        assert any(text.endswith(said) for text in texts), (said, texts)
    assert picture.svg.count('class="point ') == 2 * len(curve.named)


def test_methods_of_a_backtest(results: Mapping[str, Any]) -> None:
    """Each way has a line, and the promise one; without a test there is no picture."""
    texts = texts_of(results["backtest"].plot())
    assert f"promised: {results['backtest'].sums['promised_fill'][0]:.1%}" in texts
    assert {"planned", "averaged", "smoothed", "cover"} <= {*texts}
    none = crn.backtest(*tables(), record=52, every=30, jobs=1)
    with pytest.raises(crn.Refused, match="No item has a test"):
        none.plot()
