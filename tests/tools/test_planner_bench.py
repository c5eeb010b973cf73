"""Tests what planner.bench measures with: its catalogue, both searches, usage, its page and the published algorithm."""
from __future__ import annotations

import sys
from pathlib import Path
from typing import Any

import numpy as np
import pytest
from hypothesis import given, settings, strategies as st
from scipy import stats

from crnplan.catalogues import read_catalogue
from crnplan.read.catalogue_reading import READ
from crnplan.money import Costs
from crnplan.store.files import MARKER
from crnplan.theory.lattice import theories_of
from planner.bench import page, usage, whole
from planner.bench.compared import all_figures, compare
from planner.bench.made import Made, make
from planner.bench.stored import keep, stored
from planner.bench.zheng_federgruen import Floats, Search, best_policy, stock_cost
from planner.studies.page import PLACE, page_with
from planner.tests.theory.scenarios import PUBLISHED, scenario_of

ITEMS = 60


@pytest.fixture(scope="module")
def made(tmp_path_factory: pytest.TempPathFactory) -> Made:
    return make(tmp_path_factory.mktemp("made"), ITEMS)


def test_faults_are_found(made: Made, tmp_path: Path) -> None:
    """Reading finds what was planted, and nothing else. The same files are made again."""
    its = read_catalogue(*made.paths.values())  # type: ignore[arg-type]
    demand, items = its.counts["files"]["demand"], its.counts["items"]
    assert (demand["read"], demand["rejected"]) == (made.rows, made.bad_rows.total())
    assert (items["named"], items["twice"]) == (ITEMS, made.twice)
    rejects = its.rejects
    assert {*rejects.loc[rejects["kind"] == "item", "item"]} == made.bad_items
    assert made.bad_items and made.bad_rows and made.twice
    make(tmp_path, ITEMS)
    for path in made.folder.iterdir():
        assert (tmp_path / path.name).read_bytes() == path.read_bytes()


def test_both_searches(tmp_path: Path) -> None:
    """If demand is counted one by one, both find the same policies, but for those with an s below 0."""
    rows = compare(tmp_path, ITEMS, 1)
    inside = 0
    for row in rows:
        assert row.dearer > -1e-9 and row.crnplan > 0 < row.published
        if row.step == 1 and not row.is_below:
            assert abs(row.dearer) < 1e-9 and not row.is_other
            inside += 1
    assert inside > ITEMS / 5
    counts = {it["which"]: it["items"] for it in all_figures(rows)}
    assert counts.pop("all") == len(rows)
    counted = [count for name, count in counts.items() if name.startswith("counted")]
    assert sum(counted) == len(rows)


def test_usage(tmp_path: Path, monkeypatch: pytest.MonkeyPatch) -> None:
    """Memory and processor time of a process and those that it starts are seen, and the size of a part."""
    seen, with_children = tmp_path / "seen", usage.with_children

    def watched(process: int) -> float:
        """Lets the processes end once the memory of both was seen."""
        memory = with_children(process)
        if memory > 140:
            seen.touch()
        return memory

    monkeypatch.setattr(usage, "with_children", watched)
    held = "held = bytearray(b'1') * {} * 1_000_000; import os, time"
    child = f"{held.format(90)}; [time.sleep(0.01) for _ in range(6_000) if not os.path.exists('{seen}')]"
    code = (
        f"import subprocess, sys; child = subprocess.Popen([sys.executable, '-c', {child!r}]); "
        f"{held.format(50)}; sum(range(10**7)); time.sleep(1); child.wait()"
    )
    its = usage.usage_of([sys.executable, "-c", code])
    assert 50 < its.own < 90 < 140 < its.all < 220
    assert its.wall > 1 and 0 < its.processor < 10
    (row,) = whole.measured_parts(tmp_path, ITEMS, 1, ["read"])
    size = sum((tmp_path / "plan" / it).stat().st_size for it in (READ, MARKER))
    assert (row["bytes"], row["items"]) == (size, ITEMS)
    assert 0 < row["processor"] and 0 < row["own"]


PART: dict[str, Any] = {
    "items": 2,
    "rows": 9,
    "part": "read",
    "wall": 1.0,
    "processor": 2.0,
    "own": 30.0,
    "all": 40.0,
    "bytes": 5,
}


def test_figures_of_parts(tmp_path: Path) -> None:
    """The last figures of each part are kept, and added up."""
    path = tmp_path / "figures.json"
    for part, figure in (("one", 1), ("two", 2), ("one", 3)):
        keep(part, {"load": 1.5}, [{"figure": figure}], path)
    figures = {part: its["rows"] for part, its in stored(path).items()}
    assert figures == {"one": [{"figure": 3}], "two": [{"figure": 2}]}
    rows = [PART, PART | {"part": "plan", "own": 20.0, "all": 50.0}]
    sums = {"wall": 2.0, "processor": 4.0, "bytes": 10, "own": 30.0, "all": 50.0}
    other = PART | {"items": 3}
    wanted = [*rows, PART | {"part": "**all**"} | sums, other]
    assert page.with_sums([*rows, other]) == wanted
    # Beside another checkout what both take is added up, without the plan of one item.
    before = {"load": 2.0, "before": PART | {"processor": 8.0}}
    beside = [row | before for row in rows]
    table = page.whole_table([*beside, beside[0] | {"part": page.ITEM}])
    for line, cells in zip(
        table.splitlines()[2:],
        [
            "read 1.0 2.0 8.0 0.25",
            "plan 1.0 2.0 8.0 0.25",
            "item 1.0 2.0 8.0 0.25",
            "**all** 2.0 4.0 16.0 0.25",
        ],
        strict=True,
    ):
        assert line.replace("|", " ").split()[2:7] == cells.split()


def test_page_has_the_stored_figures() -> None:
    text, tables = page.PAGE.read_text(encoding="utf-8"), page.all_tables()
    assert page_with(text, tables) == text, "run python -m planner.bench.page"
    assert sorted(it["name"] for it in PLACE.finditer(text)) == sorted(tables)


def test_needs_of_a_million() -> None:
    """What a million items would need follows from what was measured of one: 60 microseconds are a minute."""
    figures = dict.fromkeys(page.SENT, 1_000) | {
        "plan, on disk": 3_000,
        "table, on disk": 500,
        page.LOOK: 60,
        page.CANDIDATES: 120,
        "other": 7,
    }
    rows = [{"what": what, "figure": figure} for what, figure in figures.items()]
    assert [*page.needs_of({"million": {"rows": rows}})] == [
        (page.LOOK, 1, "minutes"),
        (page.CANDIDATES, 2, "minutes"),
        ("to workers and back", 3, "GB"),
        ("kept in the folder", 3.5, "GB"),
    ]
    handed = {"way": "processes", "rate": 10_000, "items": 9, "jobs": 2}
    table = page.handed_table([handed | {"own": 8.0, "memory": 70.0}])
    assert table.splitlines()[2] == "| 9 | 2 | processes | 10,000 | 8 | 70 |"


def test_hours_of_many_items() -> None:
    """They are in proportion: 36 s for 1,000 items are 10 h for a million. Ten machines share all but reading."""
    four = [
        {"part": "plan", "items": 1_000, "wall": 36.0},
        {"part": "curve", "items": 1_000, "wall": 72.0},
    ]
    reading = [{"items": 10_000, "wall": 36.0}]
    lines = [*page.far_lines({"reading": {"rows": reading}, "four": {"rows": four}})]
    assert lines[2] == {
        "items": "1,000,000",
        "reading": "1.0 h",
        "plan": "10.0 h",
        "curve": "20.0 h",
        "one machine": "31.0 h",
        "10 machines": "4.0 h",
    }
    counts = [line["items"] for line in lines]
    assert counts == ["1,000", "100,000", "1,000,000", "10,000,000"]
    assert lines[0]["plan"] == "0.6 min"


def chances(weights: list[int]) -> Floats:
    return np.array(weights) / sum(weights)


def weights_of(most: int, count: int) -> st.SearchStrategy[list[int]]:
    """Returns weights of the demands up to a most one, of which one above 0 has one."""
    return st.lists(st.integers(0, most), min_size=2, max_size=count).filter(
        lambda it: any(it[1:])
    )


@pytest.mark.parametrize("mean, reorder, level, cost", PUBLISHED)
def test_published_optimum(mean: int, reorder: int, level: int, cost: str) -> None:
    best = best_policy(stats.poisson.pmf(np.arange(120), mean), 0, 64, 1, 9)
    assert (best.reorder, best.level, f"{best.cost:.3f}") == (reorder, level, cost)


@settings(max_examples=12)
@given(
    weights=weights_of(9, 5),
    lead=st.integers(0, 2),
    setup=st.integers(0, 40),
    holding=st.integers(1, 9),
    backlog=st.integers(1, 30),
)
def test_cheapest_of_all_pairs(
    weights: list[int], lead: int, setup: int, holding: int, backlog: int
) -> None:
    search = Search(chances(weights), lead, setup, holding, backlog)
    best = search.best()
    for level in range(-3, 40):
        for reorder in range(level - 25, level):
            assert best.cost <= search.cost(reorder, level) * (1 + 1e-12)
    assert best.cost == pytest.approx(search.cost(best.reorder, best.level), rel=1e-12)


@settings(max_examples=60)
@given(
    weights=weights_of(9, 12),
    lead=st.integers(1, 4),
    setup=st.integers(0, 300),
    holding=st.integers(1, 9),
    backlog=st.integers(1, 200),
)
def test_costs_are_those_of_crnplan(
    weights: list[int], lead: int, setup: int, holding: int, backlog: int
) -> None:
    """The best cost is crnplan's, unless it needs an s below 0."""
    best = best_policy(chances(weights), lead, setup, holding, backlog)
    costs = Costs(setup, 0, holding, backlog)
    scenario = scenario_of((range(len(weights)), weights), [lead], costs=costs)
    found = theories_of(scenario)[0].best().cost
    assert found >= best.cost * (1 - 1e-10)
    if best.reorder >= -1:
        assert found == pytest.approx(best.cost, rel=1e-10)


def test_stock_costs_beyond_all_demands() -> None:
    """Levels below 0 and above all demand have the costs of sums over the law, if it has a demand."""
    law, levels = chances([3, 0, 2, 1]), np.arange(-3, 15)
    search = Search(law, 2, 0, 2, 7)
    three = np.convolve(np.convolve(law, law), law)
    left = levels[:, None] - np.arange(len(three))
    wanted = np.where(left > 0, 2 * left, -7 * left) @ three
    found = [stock_cost(search.table, search.rates, it) for it in levels.tolist()]
    assert found == pytest.approx(wanted, rel=1e-12)
    with pytest.raises(ValueError, match="no item is ever asked for"):
        Search(np.array([1.0, 0.0]), 2, 0, 2, 7)
