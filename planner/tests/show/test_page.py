"""Tests the scales, numbers and security policy of a page."""
from __future__ import annotations

import itertools
import math
import tempfile
from fractions import Fraction
from pathlib import Path
from types import SimpleNamespace
from typing import Any

import pytest
from hypothesis import example, given, strategies as st

from crnplan.curve.parts import Point
from crnplan.demand.borrowing import fit_demand
from crnplan.read.item import Item
from crnplan.curve.pictures import curve_ends
from crnplan.show.item_plots import DrawnLaw, history_plot
from crnplan.show.law_names import source_words
from crnplan.drawing import rendering
from crnplan.drawing.plots import UNITS, Scale, round_numbers
from crnplan.drawing.rendering import rendered, templates
from planner.tests.conftest import cases_beside
from planner.tests.show.page_reader import Page

CASES = cases_beside(__file__)
VALUES = st.lists(
    st.floats(-1e9, 1e9).filter(lambda it: it == 0 or abs(it) > 1e-6),
    min_size=1,
    max_size=5,
)


@given(VALUES, st.booleans())
@example([0, 0], False)
def test_scale_has_all_values_and_zero(values: list[float], is_whole: bool) -> None:
    """Each value and 0 stand within the picture, in their order, and there are round numbers in it."""
    values = [round(it) for it in values] if is_whole else values
    scale = Scale.of(values, is_whole)
    places = [scale.at(it) for it in sorted([*values, 0])]
    assert 0 <= places[0]
    assert places[-1] <= UNITS
    assert places == sorted(places)
    assert 0 in scale.ticks
    for it in scale.ticks:
        assert 0 <= scale.at(it) <= UNITS
    assert len(scale.ticks) <= 7
    assert any(values) or scale.at(1) == UNITS
    assert not is_whole or all(it == int(it) for it in scale.ticks)


def expected_ticks(low: Fraction, high: Fraction, is_whole: bool) -> list[Fraction]:
    """Returns the multiples of the smallest round step that is at least a fifth of a range, or of the next one of which
    two lie in it, in exact arithmetic."""
    digits = (Fraction(1), Fraction(2), Fraction(5, 2), Fraction(5))
    steps = sorted(
        digit * Fraction(10) ** power for power in range(-8, 8) for digit in digits
    )
    if is_whole and math.floor(high) > math.ceil(low):
        steps = [step for step in steps if step.denominator == 1]
    most = next(step for step in steps if 5 * step >= high - low)
    for step in reversed([step for step in steps if step <= most]):
        first, last = math.ceil(low / step), math.floor(high / step)
        if last > first:
            return [place * step for place in range(first, last + 1)]
    raise AssertionError("no step is small enough")


@given(
    st.integers(-(10**6), 10**6),
    st.integers(1, 10**6),
    st.integers(0, 10),
    st.booleans(),
    st.booleans(),
)
@example(0, 1000, 0, True, False)
def test_round_numbers(
    low: int, width: int, bits: int, from_0: bool, is_whole: bool
) -> None:
    """They are those of a search through all round steps, for ranges whose ends have an exact binary form."""
    start = Fraction(0 if from_0 else low, 2**bits)
    end = start + Fraction(width, 2**bits)
    found = round_numbers(float(start), float(end), is_whole)
    expected = [float(tick) for tick in expected_ticks(start, end, is_whole)]
    assert found == pytest.approx(expected, rel=1e-9, abs=1e-9)


@given(st.lists(st.floats(1e-6, 1), min_size=1, max_size=5))
def test_chances_stand_in_their_order(chances: list[float]) -> None:
    """Ten times as large a chance stands as far above it, 1 at the top, the least one in the lowest step."""
    scale = Scale.of_chances(min(chances))
    places = [scale.at(it) for it in sorted(chances)]
    assert 0 <= places[0]
    assert places[-1] <= UNITS == scale.at(1)
    assert places == sorted(places)
    assert scale.at(0) == 0
    heights = scale.heights
    assert [text for _, text, _ in heights[-2:]] == ["1 in 10", "1 in 1"]
    assert heights[0][0] == 0
    steps = [
        after - before for (before, *_), (after, *_) in itertools.pairwise(heights)
    ]
    assert steps == pytest.approx([UNITS / len(steps)] * len(steps), abs=0.11)
    assert places[0] <= UNITS / len(steps)


@pytest.mark.parametrize(
    "values, inner",
    [
        ([200], []),
        ([-4], []),
        ([150_000], ["50,000", "100,000"]),
        ([-1_500], ["\u22121,000", "\u2212500"]),
    ],
)
def test_narrow_pages_have_room_for_marks(
    values: list[float], inner: list[str]
) -> None:
    """If the texts at an axis are long, a narrow page shows the outer ones and 0 alone."""
    assert [text for _, text, css in Scale.of(values).marks if css == "inner"] == inner


def test_compiled_templates_are_kept(
    tmp_path: Path, monkeypatch: pytest.MonkeyPatch
) -> None:
    """A page is the same whether they are there, are new, or can't be kept."""
    pages = []
    for folder in (tmp_path / "new", tmp_path / "new", tmp_path / "file"):
        (tmp_path / "file").touch()
        monkeypatch.setenv("XDG_CACHE_HOME", str(folder))
        monkeypatch.setattr(tempfile, "tempdir", str(tmp_path / "file"))
        template = templates.__wrapped__(False).get_template("found.toml")
        pages.append(
            template.render(
                {
                    "every": "week",
                    "first": 1,
                    "last": 9,
                    "periods": 9,
                    "tables": [],
                    "words": {},
                    "groups": {},
                }
            )
        )
    assert len({*pages}) == 1
    assert pages[0].startswith(
        '[catalogue]\nevery = "week"\n# the record: 1 to 9, 9 weeks'
    )
    assert len([*(tmp_path / "new/crnplan").iterdir()]) == 1


def test_bars_of_a_long_history() -> None:
    """Of 521 weeks the last 520 are drawn, but for those without demand. A curve's axes end near its named points."""
    item = Item("A", (9, 0, *[1] * 519), (1,), None, Fraction(1), Fraction(1))
    law = fit_demand(item.counts, method="empirical")
    question = SimpleNamespace(as_read=item, all_year=law, season=None)
    depth: Any = SimpleNamespace(question=question)
    plot = history_plot(depth, [f"W{week}" for week in range(521)], "week")
    assert plot.bars.count("M") == 519
    assert plot.across == "week; the 1 before are not drawn"
    assert plot.marks[0][1] == "W1"
    named = [Point(100.0, 0.9, 1.0, 1.0), Point(200.0, 0.95, 1.0, 1.0)]
    assert curve_ends(named) == pytest.approx((270, 86))
    assert curve_ends([named[0]._replace(fill=0.03)])[1] == 0


@pytest.mark.parametrize("name, words, text", CASES["texts"])
def test_texts(name: str, words: list[Any], text: str) -> None:
    """Numbers and shares are spelt so. A script has the source of Content Security Policy Level 3, section 8.4."""
    assert getattr(rendering, name)(*words) == text


def test_page_allows_its_own_style_alone(tmp_path: Path) -> None:
    """The policy allows the own style, no script if there is none, and no file; what else would run is found."""
    path = tmp_path / "page.html"
    text = rendered("base.html", {})
    path.write_text(text)
    Page(path).check_alone()
    assert not Page(path).elements["script"]
    for old, new in (
        ("<main>", '<main style="top: 0">'),
        ("body {", "h4 {"),
        ("<main>", "<main><img src='a.png'>"),
        ("data:;", "*;"),
        ("</main>", "<p></main>"),
        ("<main>", '<main><a href="http://a">a</a>'),
    ):
        path.write_text(text.replace(old, new, 1))
        with pytest.raises(AssertionError):
            Page(path).check_alone()


def test_what_is_not_there_has_a_sign() -> None:
    assert rendering.percent(None) == "-"
    assert source_words("A") == "the items of class A"


def test_law_as_a_line() -> None:
    """Of demands of 0, 0, 4 and 9 half are above 0, a quarter above 4 and none above 9."""
    across, up = Scale(0, 9, ()), Scale(0, 1, ())
    law = DrawnLaw("seen", "", [(0, 2), (4, 1), (9, 1)])
    steps = {0: 0.5, 4: 0.25, 9: 0}
    path = [f"H{across.at(it):g}V{up.down(steps[it]):g}" for it in steps]
    assert law.line(across, up).path == "".join(["M0 0", *path])
