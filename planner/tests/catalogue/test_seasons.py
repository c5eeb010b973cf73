"""Tests catalogues with a season: what is learned and kept, levels by part of the year, orders of a day, and plans without it."""
from __future__ import annotations

import datetime
import math
import shutil
from pathlib import Path
from typing import Any

import numpy as np
import pandas as pd
import pytest

import crnplan as crn
from crnplan.plan.catalogue import planned_folder
from crnplan.plan.learned import PRIOR_SEASONS, SEASONS
from crnplan.show.verdicts import VERDICTS
from planner.tests.conftest import Command, shared
from planner.tests.plan.items import SHORT, write_tables
from planner.tests.planned_tables import whole_frame, whole_rows, whole_table
from planner.tests.show.page_reader import Page

ITEMS, WEEKS, START = 11, 110, datetime.date(2022, 1, 3)
END = "2024-02-11"  # the last Sunday of the record
DECIDED = "Today's and the chosen policy, as in decisions.csv and details.csv"
FILES = "decisions.csv", "details.csv", "levels.csv", "summary.txt", "report.html"
WORDS: dict[str, Any] = {"every": "week", "end": END, "jobs": 1, **SHORT}


def write(folder: Path) -> list[Path]:
    """Writes the tables of two classes, of which one has a season."""
    random, rows, masters = np.random.default_rng(7), [], []
    days = [START + datetime.timedelta(7 * week) for week in range(WEEKS)]
    months = np.array([(day + datetime.timedelta(3)).month for day in days])
    wave = 1 + 0.7 * np.sin(2 * math.pi * (months - 4) / 12)
    for place in range(2 * ITEMS):
        group = ("plain", "warm")[place % 2]
        name, mean = f"{group}-{place:02}", 6 + place
        counts = random.poisson(mean * (wave if group == "warm" else 1.0), WEEKS)
        rows += [(name, day, count) for day, count in zip(days, counts) if count]
        masters.append((name, group, 20, 1, "0.95", 2, 2 * mean, 6 * mean, 1, 3))
    columns = "item,class,setup,holding,fill,lead (weeks),s,S,stock,price"
    return write_tables(folder, rows, masters, columns)


@pytest.fixture(scope="module")
def room(tmp_path_factory: pytest.TempPathFactory, program: Path) -> Path:
    """Returns a folder with the tables, their plan in `plan`, and that without seasons in `flat`. Nobody changes it."""

    def make(folder: Path) -> None:
        tables = write(folder)
        for name, season in (("plan", "auto"), ("flat", "none")):
            words = {**WORDS, "program": program, "season": season}
            crn.plan(*tables, out=folder / name, **words)

    return shared(tmp_path_factory, "seasons", make)


def test_levels_by_part_of_the_year(room: Path) -> None:
    """Items of the class with a season have levels for each day of a year, of which those of now are their decision; the
    others have the same plan as without seasons."""
    plan, flat = whole_table(room / "plan"), whole_table(room / "flat")
    levels = crn.open_plan(room / "plan").levels
    table = pd.read_csv(room / "plan/levels.csv", parse_dates=["from", "to"])
    assert levels.to_csv(index=False) == (room / "plan/levels.csv").read_text()
    assert {*table["item"]} == {name for name in plan.index if "warm" in name}
    for name, months in table.groupby("item"):
        assert str(months["from"].iloc[0].date()) == "2024-02-12"
        assert (months["to"].iloc[-1] - months["from"].iloc[0]).days + 1 == 364
        gaps = months["from"].iloc[1:].to_numpy() - months["to"].iloc[:-1].to_numpy()
        assert (gaps == np.timedelta64(1, "D")).all()
        assert months[["s", "S"]].iloc[0].tolist() == (
            plan.loc[name, ["s_chosen", "S_chosen"]].tolist()
        )
        best = months.loc[months["S"].idxmax()]
        assert best["from"].month in (5, 6, 7) and best["S"] > 1.5 * months["S"].min()
    plain = [name for name in plan.index if "plain" in name]
    pd.testing.assert_frame_equal(plan.loc[plain], flat.loc[plain])
    assert not (room / "flat/levels.csv").exists()
    assert crn.open_plan(room / "flat").levels.empty


def test_what_is_said(room: Path) -> None:
    """A plan by a season says so in place of the warning of one, which a plan without it has."""
    plan, flat = whole_table(room / "plan"), whole_table(room / "flat")
    warm = plan.index.str.startswith("warm")
    assert plan.loc[warm, "codes"].str.contains("season planned").all()
    assert "by 2 years of its class: 1." in plan.loc["warm-21", "warnings"]
    assert "times the mean in the 14 days from " in plan.loc["warm-21", "warnings"]
    assert flat.loc[warm, "warnings"].str.contains("demand has a season").all()
    assert not plan["warnings"].str.contains("demand has a season").any()
    assert not plan.loc[~warm, "codes"].str.contains("season planned").any()


def test_command(room: Path, tmp_path: Path, crnplan: Command) -> None:
    """The command plans as Python does; `season=none` plans as if there were none, and a plan after it says so."""
    tables = [room / "demand.csv", room / "items.csv"]
    config = tmp_path / "short.toml"
    config.write_text("[catalogue]\nperiods = 64\nreplications = 4\n")
    words = *("--every", "week", "--set", f"to={END}", "--jobs", 1), "--config", config
    folder = tmp_path / "plan"
    assert crnplan("plan", *tables, "--out", folder, *words).status == 0
    for name in FILES:
        assert (folder / name).read_bytes() == (room / "plan" / name).read_bytes()
    none = "--set", "season=none", "--out", tmp_path / "none"
    ran = crnplan("plan", *tables, *none, *words, "--after", folder)
    assert ran.status == 0
    assert not (tmp_path / "none/levels.csv").exists()
    assert 'season = "none"' in (tmp_path / "none/found.toml").read_text()
    reasons = pd.read_csv(tmp_path / "none/changes.csv").to_string()
    assert "season" in reasons
    assert crnplan("plan", *tables, "--set", "season=x", *none[2:]).status == 2


def test_what_is_kept(room: Path, tmp_path: Path, program: Path) -> None:
    """Seasons are learned once, and again only on request; laws are learned without them."""
    folder = Path(shutil.copytree(room / "plan", tmp_path / "plan"))
    with planned_folder(folder) as planned:
        seasons = planned.settings.seasons
        text = planned.store.fact(SEASONS)
        assert text and planned.store.fact(PRIOR_SEASONS) is None
    assert seasons and [*seasons.classes] == ["warm"]
    demand = pd.read_csv(room / "demand.csv")
    sales = tmp_path / "demand.csv"
    demand[~demand["item"].str.startswith("warm")].to_csv(sales, index=False)
    words = {**WORDS, "program": program, "out": folder}
    crn.plan(sales, room / "items.csv", **words)
    with planned_folder(folder) as planned:
        assert planned.store.fact(SEASONS) == text
    crn.plan(sales, room / "items.csv", learn_again=True, **words)
    with planned_folder(folder) as planned:
        assert planned.settings.seasons and not planned.settings.seasons.classes


def test_promotions_of_rows(room: Path, tmp_path: Path, program: Path) -> None:
    """A column that marks nothing changes no plan; one that marks high weeks of a class has its season learned without
    them, which is off with them; and is stated in found.toml. Without the column they are found, and what was learned so
    is learned again with it."""
    demand = pd.read_csv(room / "demand.csv", parse_dates=["date"])
    is_high = demand["date"].isin(["2022-09-05", "2022-12-05", "2023-11-06"])
    high = is_high & demand["item"].str.startswith("warm")
    words = {**WORDS, "program": program}
    indices = []
    for name, lift, marks in (
        ("none", 1, "no"),
        ("marked", 4, "yes"),
        ("unknown", 4, "no"),
    ):
        frame = demand.assign(promo=np.where(high, marks, "no"))
        frame["quantity"] *= np.where(high, lift, 1)
        crn.plan(frame, room / "items.csv", out=tmp_path / name, **words)
        with planned_folder(tmp_path / name) as planned:
            assert planned.settings.seasons and not planned.settings.seasons.promoted
            indices.append(planned.settings.seasons.classes.get("warm"))
    for name in ("decisions.csv", "details.csv", "levels.csv"):
        plain = (room / "plan" / name).read_bytes()
        assert (tmp_path / "none" / name).read_bytes() == plain
        assert (tmp_path / "marked" / name).read_bytes() != plain
    assert 'promotion = "promo"' in (tmp_path / "marked/found.toml").read_text()
    codes = whole_table(tmp_path / "marked").codes
    assert (
        codes[codes.str.contains("promoted", na=False)]
        .index.str.startswith("warm")
        .all()
    )
    none, marked, unknown = indices
    assert none and marked and unknown
    assert marked.values == pytest.approx(none.values, abs=0.05)
    assert unknown.values != pytest.approx(none.values, abs=0.15)
    weeks = []
    for table in (frame.drop(columns="promo"), frame):
        crn.plan(table, room / "items.csv", out=tmp_path / "found", **words)
        with planned_folder(tmp_path / "found") as planned:
            assert planned.settings.seasons
            weeks.append(len(planned.settings.seasons.promoted.get("warm", ())))
    assert weeks == [3, 0]


def test_another_whole_year(room: Path, tmp_path: Path, program: Path) -> None:
    """Seasons that were learned before two years were whole are learned again then, also after an earlier plan."""
    tables = [room / "demand.csv", room / "items.csv"]
    words = {**WORDS, "program": program}
    early = crn.plan(*tables, out=tmp_path / "early", **words | {"end": "2023-12-24"})
    assert early.levels.empty
    crn.plan(*tables, after=tmp_path / "early", out=tmp_path / "late", **words)
    for name in FILES[:3]:
        late, own = (folder / name for folder in (tmp_path / "late", room / "plan"))
        assert late.exists() and len(pd.read_csv(late)) == len(pd.read_csv(own))


def test_levels_of_a_planner(room: Path, tmp_path: Path, program: Path) -> None:
    """An item whose planner has set levels has none in the calendar."""
    folder = Path(shutil.copytree(room / "plan", tmp_path / "plan"))
    levels = pd.DataFrame({"item": ["warm-21"], "s": [5], "S": [99]})
    words: dict[str, Any] = {**WORDS, "program": program, "overrides": levels}
    plan = crn.plan(room / "demand.csv", room / "items.csv", out=folder, **words)
    assert {*plan.levels["item"]} == {
        name for name in plan.decisions["item"] if "warm" in name
    } - {"warm-21"}
    row = whole_frame(plan).set_index("item").loc["warm-21"]
    assert (row["s_override"], row["S_override"]) == (5, 99)


def test_orders_of_a_day(room: Path) -> None:
    """An item is ordered by the levels of the part of the year of the day."""
    levels = pd.read_csv(room / "plan/levels.csv", parse_dates=["from", "to"])
    for day in ("2024-02-13", "2024-07-10", "2025-07-10"):
        orders = crn.open_plan(room / "plan").orders_today(date=day)
        table = orders.frame.set_index("item")
        date = pd.Timestamp(day if day < "2025" else "2024-07-10")
        own = levels[(levels["from"] <= date) & (date <= levels["to"])]
        named = own[own["item"].isin(table.index)]
        assert len(named) > 1
        for name, s, S in named[["item", "s", "S"]].itertuples(index=False):
            assert table.loc[name, ["s", "S"]].tolist() == [s, S]


def test_after_an_earlier_plan(room: Path, tmp_path: Path, program: Path) -> None:
    """Levels of each part of the year stay if others gain little, and what the earlier plan came to is by its own."""
    masters = pd.read_csv(room / "items.csv").drop(columns="fill").assign(backlog=9)
    tables, words = [room / "demand.csv", masters], {"program": program}
    until: dict[str, Any] = {**WORDS, **words, "end": "2023-12-31"}
    crn.plan(*tables, out=tmp_path / "before", **until)
    plan = crn.plan(
        *tables, after=tmp_path / "before", least_gain=0.9, **{**WORDS, **words}
    )
    before = crn.open_plan(tmp_path / "before").levels.set_index(["item", "from"])
    changes = plan.changes.set_index("item")
    warm = [name for name in changes.index if "warm" in name]
    kinds = changes.loc[warm, "change"].value_counts()
    assert {*kinds.index} <= {"damped", "same"} and kinds["damped"] > 2
    stays = plan.levels.set_index(["item", "from"])
    both = stays.join(before, rsuffix="_before", how="inner")
    assert len(both) > 50 and (both["S"] == both["S_before"]).mean() > 0.9
    with planned_folder(plan.path) as planned:
        for change in planned.changes():
            if change.name in warm:
                assert change.since and change.before
            if change.name in warm and change.kind == "damped":
                assert change.undamped and change.gain is not None
                assert 0 <= change.gain < 0.9 * change.before.cost


def test_curve(room: Path, tmp_path: Path, program: Path) -> None:
    """The curve knows of no season: its stocks are those of theory by laws without it."""
    folder = Path(shutil.copytree(room / "plan", tmp_path / "plan"))
    policies = crn.open_plan(folder, program=program).curve(fill=0.96, jobs=1).policies
    assert len(policies) == 2 * ITEMS
    with planned_folder(folder) as planned:
        for name, s, S, value in policies[["item", "s", "S", "value"]].to_numpy():
            item, _ = planned.item(name)
            theory = planned.question(item).flat.figures((s // item.box, S // item.box))
            assert value == pytest.approx(float(item.price or 0) * theory.stock)


def test_page_of_an_item(room: Path, tmp_path: Path, program: Path) -> None:
    """The page of an item has its demand as it was, the verdict, costs and service of the year that the tables have, and
    other policies as of the first part of it."""
    folder = Path(shutil.copytree(room / "plan", tmp_path / "plan"))
    item = crn.open_plan(folder, program=program).item("warm-21")
    counts = pd.read_csv(room / "demand.csv").query("item == 'warm-21'")["quantity"]
    assert f"{counts.sum():,} items" in item.text
    chosen, today = item.frame.loc["chosen"], item.frame.loc["today"]
    month = crn.open_plan(folder).levels.query("item == 'warm-21'").iloc[0]
    assert chosen[["s", "S"]].tolist() == month[["s", "S"]].tolist()
    assert chosen["difference"] == pytest.approx(chosen["cost"] - today["cost"])
    crn.report(folder, ["warm-21"], program=program)
    (path,) = (folder / "items").glob("*.html")
    page, table = path.read_text(), Page(path).tables
    row = whole_rows(room / "plan")["warm-21"]
    both = {name: cells for name, *cells in table[DECIDED][1:]}
    for name, column in (("cost a week", "cost"), ("met at once", "fill")):
        assert both[name] == [row[f"{column}_today"], row[f"{column}_chosen"]]
    assert both["saving a week"][1] == row["saving"]
    year = "In the mean of the coming year the chosen policy costs"
    assert (
        "In the 14 days from 12 February below" in page
        and f"{year} {row['saving']} less" in page
    )
    assert VERDICTS[row["verdict"]].said.format("54, 162") in item.words.headline
    assert (
        "All policies if the 14 days from 12 February lasted" in table
        and "lasted" in item.text
    )
    months = crn.open_plan(folder).levels.query("item == 'warm-21'")
    stated = months[["from", "to", "s", "S"]].astype(str).to_numpy().tolist()
    assert table["Levels of the coming year"][1:] == stated
    plain = crn.open_plan(folder, program=program).item("plain-20")
    assert "Levels of the coming year" not in plain.page
