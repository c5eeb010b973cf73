"""Tests of what the studies store: small parts of them, what the package cites, and their page."""
from __future__ import annotations

import importlib
import math
from collections.abc import Sequence
from pathlib import Path

import click
import numpy as np
import pandas as pd
import pytest

from crnplan.crnsim.periods import Realization, periods_of
from crnplan.plan.seasons import Seasons
from crnplan.theory import suggestions
from planner.studies import (
    costs,
    __main__,
    beside_rules,
    borrowing,
    calendars,
    by_commands,
    cut_sales,
    dependence,
    doubt,
    fills,
    laws,
    laws_leads,
    level_spread_tail,
    moving,
    next_year,
    page,
    reviews,
    promotions,
    search,
    season_plans,
    season_real,
    season_year,
    seasons,
    sold_shops,
    stated_laws,
    warnings,
)
from planner.studies.fair import NOMINAL, Member, Moving


def stored(top: Path, name: str) -> pd.DataFrame:
    return pd.read_csv(top / f"planner/studies/{name}.csv", dtype={"leads": str})


def compare(
    rows: pd.DataFrame, table: pd.DataFrame, keys: Sequence[str], figures: Sequence[str]
) -> None:
    """Compares figures with the stored ones, within four standard errors."""
    both = rows.merge(table, on=[*keys], suffixes=("", "_stored"), how="left")
    for name in figures:
        error = np.hypot(both[f"{name}_error"], both[f"{name}_error_stored"])
        off = (both[name] - both[f"{name}_stored"]).abs()
        assert (off <= 4 * error + 0.01).all(), both[off > 4 * error + 0.01]


def borrowing_rows() -> pd.DataFrame:
    """Returns a small part of the study of borrowing, for each kind of item apart."""
    rows = borrowing.study(**borrowing.SMALL)
    return rows[~rows["kind"].str.startswith("all ") & (rows["part"] == "all")]


# Of each study: its small part, or the module that has one; how many rows that has; by what they are named; and the figures
# that are compared.
SMALL = {
    "laws": (laws, 12, "law periods method", laws.FIGURES),
    "laws_leads": (laws_leads, 8, "demand leads seen method", laws_leads.FIGURES),
    "borrowing": (borrowing_rows, 4 + 5, "kind periods part method", borrowing.FIGURES),
    "borrowing_odd": (
        lambda: borrowing.odd_study(**borrowing.SMALL_ODD),
        4,
        "item periods method",
        borrowing.FIGURES,
    ),
    "level_spread_tail": (
        level_spread_tail,
        16,
        "set backlog law",
        level_spread_tail.FIGURES,
    ),
    "doubt": (doubt, 2, "law periods", doubt.FIGURES),
    "cut_sales": (cut_sales, 4, "law periods short way", cut_sales.FIGURES),
    "seasons": (
        lambda: seasons.study(seasons.SMALL, 100),
        len(seasons.SMALL),
        "kind season years items",
        seasons.FIGURES,
    ),
    "calendars": (
        lambda: calendars.study(calendars.SMALL_SEEDS),
        len(calendars.KINDS),
        "kind",
        calendars.FIGURES,
    ),
    "next_year": (next_year, 4, "kind follow seed way", next_year.FIGURES),
    "season_plans": (
        season_plans,
        4,
        "season demand weeks wanted way",
        season_plans.FIGURES,
    ),
    "reviews": (reviews, 2, "law leads review way", reviews.FIGURES),
    "costs": (
        lambda: pd.DataFrame(costs.study(*costs.catalogues(True))),
        4,
        "set policy backlog",
        costs.FIGURES,
    ),
    "season_year": (
        lambda: season_year.study(season_year.SMALL),
        1,
        "season demand lead wanted",
        season_year.FIGURES,
    ),
    "dependence": (
        lambda: dependence.study(
            dependence.SMALL, dependence.SMALL_PATHS, dependence.SMALL_CYCLES
        ),
        len(dependence.SMALL),
        "kind law size length",
        ["regret", "promise"],
    ),
}


@pytest.mark.parametrize("name", SMALL)
def test_small_part(name: str, top: Path) -> None:
    study, count, keys, figures = SMALL[name]
    rows = study() if callable(study) else study.study(**study.SMALL)
    assert len(rows) == count
    compare(rows, stored(top, name), keys.split(), figures)


def test_verdicts_of_a_next_year() -> None:
    """Two errors of 3 points decide: a way that needs 7% less does so, not one that needs 5% less."""
    later = {str(more): {"beside": more, "beside_error": 3} for more in (-7, -5, 5)}
    said = [next_year.verdict_of(way, later) for way in ("", *later)]
    assert said == "missed confirmed unsure false".split()
    assert next_year.verdict_of("", {"5": later["5"]}) == "confirmed"


def test_small_part_of_fills(top: Path) -> None:
    """Errors of few histories are larger than the stored ones, as far as there are fewer."""
    rows = fills.study(**fills.SMALL)
    assert len(rows) == len(fills.SMALL["laws"]) * len(fills.METHODS)
    table, ratio = stored(top, "fills"), fills.HISTORIES / rows["histories"].iloc[0]
    for name in fills.FIGURES:
        rows[f"{name}_error"] = 0.0
        table[f"{name}_error"] *= math.sqrt(ratio)
    compare(rows, table, ["law", "periods", "method"], fills.FIGURES)


def test_small_part_of_searches(top: Path) -> None:
    keys = ["law", "leads", "cover", "history", "sought"]
    table = stored(top, "search").set_index(keys)["excess"]
    rows = search.study(**search.SMALL).set_index(keys)["excess"]
    assert rows.to_numpy() == pytest.approx(table.loc[rows.index].to_numpy(), abs=1e-3)


def test_small_part_of_warnings(top: Path) -> None:
    rows, table = warnings.study(**warnings.SMALL), stored(top, "warnings")
    table = table[(table["part"] != "effect") | table["size"].isin([50, 60])]
    keys = ["part", "law", "kind", "periods"]
    table = table.drop_duplicates(keys)
    for its in (rows, table):
        for name in ("any", "own"):
            variance = its[name] * (1 - its[name]) / its["histories"]
            its[f"{name}_error"] = np.sqrt(variance) + 0.005
    effects = rows[rows["part"] == "effect"]
    assert len(rows) == 4 and len(effects) == 2
    compare(rows, table, keys, ["any"])
    compare(effects, table, keys, ["own"])


def test_stored_figures(top: Path) -> None:
    """What the package says of bounds and searches are the stored figures, and none is missing."""
    rows = doubt.summary(stored(top, "doubt")).query("group == 'all'")
    assert [*rows["periods"]] == [*laws.PERIODS]
    table = stored(top, "search")
    several = table.loc[table["leads"].str.contains(" "), "excess"]
    assert suggestions.MOST_EXCESS == pytest.approx(several.max(), abs=0.051)
    assert table["excess"].min() > -1e-6


def test_small_part_of_ways(top: Path) -> None:
    """A few items of a made set need as much stock by each way as is stored."""
    keys, table = ["way", "fill"], stored(top, "moving")
    table = table[table["set"] == moving.SMALL].set_index(keys)
    rows = pd.DataFrame(moving.study(moving.small_set(), 1)).set_index(keys)
    for name in ("stock", "more", "realized"):
        wanted = table.loc[rows.index, name].to_numpy()
        assert rows[name].to_numpy() == pytest.approx(wanted, rel=1e-4, nan_ok=True)


def test_stated_laws(top: Path) -> None:
    """A small part has a row for each way, and the true law needs no more than itself. As stored, the law of quantiles that
    is kept is no further off than the other one, and sums of paths keep more of a promise than periods taken apart.
    """
    rows = stated_laws.study(
        *(stated_laws.SMALL, stated_laws.MEANS[:1], stated_laws.LEADS[:2], (0.0,))
    ).set_index("way")
    assert len(rows) == 2 + 4 + 2 and rows.loc["known", "more"] == 0
    assert rows.loc["moments", "off"] < 0.5
    table = stored(top, "stated_laws").set_index(["part", "way"])
    for count in stated_laws.SHARES:
        kept, other = (
            table.loc["quantiles", f"{way} {count}"] for way in ("between", "nearest")
        )
        assert kept["off"] < other["off"] and kept["more"] < other["more"]
    for rho in stated_laws.RHOS[1:]:
        apart, together = (
            table.loc[f"paths {rho:g}", way] for way in ("apart", "together")
        )
        assert together["off"] < apart["off"] / 2
        assert together["more"] < 2 * together["more_error"]


def test_small_part_of_promotions(top: Path) -> None:
    """A few classes see their season as often as is stored, and their indices are as far off."""
    rows = pd.DataFrame(promotions.index_rows(promotions.SMALL[0], 4))
    rows[["seen_error", "off_error"]] += 0.01
    table = stored(top, "promotions").query("part == 'index'")
    keys = ["season", "promotions", "demand", "weeks", "left_out"]
    table = table.astype({"weeks": int})
    compare(rows, table, keys, ["seen", "off"])


def test_ways_with_promotions() -> None:
    """Planned once, a season without promoted weeks needs less stock than with them. By hand, the law of an item that has
    seen no high week has those of another one, of 12 beside a median of 4, in a part of its weeks.
    """
    rows = pd.DataFrame(promotions.stock_rows(("season", "class", "steady"), 1, 108))
    more = rows[rows["fill"] == 0.95].set_index("way")["more"]
    assert more["nothing"] == 0 and more["marked"] < 0 and more["found"] < 0
    counts = np.tile([2, 4], 20)
    high = np.where(np.arange(40) % 10 == 0, 12, counts)
    members = [Member(name, name, "", own) for name, own in zip("AB", (counts, high))]
    pooled, alone = promotions.PooledTail(members=members), promotions.Alone()
    part = 26 * (4 / 80) / (26 + 40)
    own, mixed = (way.question(members[0], 5.0).demand for way in (alone, pooled))
    wanted = (1 - part) * float(own.mean) + part * 3 * 3
    assert float(mixed.mean) == pytest.approx(wanted, abs=1e-3)
    assert (
        pooled.question(members[1], 5.0).demand
        == alone.question(members[1], 5.0).demand
    )


def test_no_row_is_missing(top: Path) -> None:
    table = stored(top, "laws")
    assert {*table["law"]} == {*laws.LAWS}
    assert len(table) == len(laws.LAWS) * len(laws.PERIODS) * len(laws.METHODS)
    table = stored(top, "fills")
    assert len(table) == table["law"].nunique() * len(laws.PERIODS) * len(fills.METHODS)
    assert {*table["histories"]} == {fills.HISTORIES}
    table = stored(top, "warnings")
    alarms, effects = (table[table["part"] == it] for it in ("independent", "effect"))
    assert len(alarms) == len(laws.LAWS) * len(laws.PERIODS)
    assert (alarms["histories"] >= 400).all()
    seasons = sum(it.kind == "season" for it in warnings.EFFECTS)
    assert len(effects) == len(warnings.EFFECTS) * len(laws.PERIODS) - 2 * seasons


def test_stored_seasons(top: Path) -> None:
    """At most 2% of classes without a season are taken for having one, and plans by two weeks need less stock."""
    table = stored(top, "seasons")
    assert len(table) == len(seasons.CASES)
    assert (table.query("season == 'none'")["seen"] <= 0.02).all()
    assert table.query("season == 'none'")["some"].max() <= 0.06
    assert table.query("kind != 'half turned'")["own"].max() <= 1 / 180
    table = stored(top, "season_plans").query("way == 'seasonal'")
    assert len(table) == 2 * len(season_plans.CASES)
    assert (table.query("season == 'strong'")["at_equal_fill"] < 0.84).all()
    assert (table.query("season == 'peak'")["at_equal_fill"] < 0.67).all()
    short = table.query("season != 'none' and wanted == 0.95")
    assert ((short["fill"] - 0.95).abs() < 0.011).all()
    assert (table.query("season == 'none'")["at_equal_fill"] - 1).abs().max() < 0.02
    table = stored(top, "season_year")
    assert len(table) == len(season_year.CASES)
    for season, (share, stock, cost) in {
        "strong": (0.004, 0.03, 0.02),
        "peak": (0.007, 0.07, 0.04),
    }.items():
        own = table[table["season"] == season]
        assert (own["promised"] - own["fill"]).abs().max() < share
        assert own["stock"].max() < stock and own["cost"].max() < cost


def test_levels_of_a_shop() -> None:
    """What levels of each week come to is what the periods of a past do, with what customers give back."""
    shop = by_commands.made_shop("mixed", 8)
    record, random = shop.record, np.random.default_rng(3)
    low = random.integers(5, 60, (8, by_commands.LATER))
    levels = np.stack([low, low + random.integers(1, 50, low.shape)], axis=2)
    met = by_commands.met_by(shop, levels.astype(float))
    assert shop.returned.any()
    for item in range(8):
        asked, back = shop.counts[item, record:], shop.returned[item, record:]
        leads = [int(shop.leads[item])] * by_commands.LATER
        pairs = [(int(s), int(S)) for s, S in levels[item]]
        past = Realization(asked.tolist(), back.tolist(), leads)
        periods = periods_of(past, pairs, round(sum(pairs[0]) / 2))
        assert met["unmet"][item].tolist() == [period.unmet for period in periods]
        assert met["stock"][item].tolist() == [max(it.stock, 0) for it in periods]
        assert met["owed"][item].tolist() == [max(-it.stock, 0) for it in periods]
        assert (met["orders"][item] > 0).tolist() == [it.ordered > 0 for it in periods]


def test_small_part_by_commands(top: Path) -> None:
    """A few items that are planned twice meet about what is wanted; what is stored is of whole makes, and of some ways of
    more shops."""
    (row,) = by_commands.study(by_commands.small_cases(), 1).to_dict("records")
    assert (row["make"], row["items"]) == ("flat", by_commands.SMALL_ITEMS)
    assert row["fill"] > 90 and row["low"] <= row["fill"] and row["beside"] == 0
    table = stored(top, "by_commands")
    ways = [
        (way, share) for way, its in by_commands.WAYS.items() for share in its.shares
    ]
    for make, rows in table.groupby("make"):
        known = [*zip(rows["seed"], rows["way"], rows["wanted"].fillna(""))]
        cases = [(1, *way) for way in ways]
        if make in by_commands.SEVERAL:
            cases = [it[2:5] for it in by_commands.cases_of(str(make))]
        assert known == cases


def test_shop_of_sales(monkeypatch: pytest.MonkeyPatch) -> None:
    """A shop of a real set sells what that has week by week, and of each item for as much."""
    counts = np.random.default_rng(1).poisson([[3.0], [40.0]], (2, 61))
    members = tuple(
        Member(name, name, "chain", own) for name, own in zip(("a", "b"), counts)
    )
    made = {"cheese": Moving("cheese", members, 39, 4, 26)}
    monkeypatch.setattr(sold_shops, "sets", lambda: made)
    shop = by_commands.shop_of("cheese", 2, 1)
    sold = shop.sales.pivot(index="article", columns="date", values="quantity")
    assert (sold.to_numpy() == counts).all() and shop.record == 39
    worth = counts[:, :39].mean(axis=1) * shop.prices
    assert worth == pytest.approx([sold_shops.WORTH] * 2, rel=0.01)


def test_small_part_of_real_seasons(top: Path) -> None:
    """Plans by a season of an item have levels for each period; what is stored saves stock, but of rides."""
    shop = by_commands.made_shop("garden", 30)
    members = tuple(
        Member(name, name, group, counts[: 156 + 8])
        for name, group, counts in zip(
            shop.masters["article"], shop.groups, shop.counts
        )
    )
    moving = Moving("garden", members, 156, 4, 156)
    known = season_real.SeasonSet(moving, "week", by_commands.START)
    seasons = [Seasons.of("week", known.items(periods)) for periods in known.plans]
    assert len(seasons) == 2 and "plants" in seasons[0].classes
    levels = season_real.levels_of(known, seasons, 0)
    flat = season_real.levels_of(known, [None] * 2, 0)
    assert levels.shape == flat.shape == (8, len(NOMINAL), 2)
    assert (levels[0] < flat[0]).any() and known.part(2).moving.members == members[:2]
    table = stored(top, "season_real").query("way == 'seasonal'")
    assert {*table["set"]} == {"homes", "rides", "counts"}
    rides = table.query("set == 'rides'")
    assert (rides["more"].abs() < rides["more_error"]).all()
    assert (table.query("set != 'rides'")["more"].dropna() < -6).all()


def test_stored_figures_of_dependence(top: Path) -> None:
    """All cases are stored, the control loses nothing, and false alarms are below 5% but for chance."""
    table, keys = stored(top, "dependence"), ["kind", "law", "size", "length"]
    assert [*map(tuple, table[keys].to_numpy())] == [*map(tuple, dependence.CASES)]
    control = table[table["size"] == 0]
    assert (control["regret"].abs() <= 4 * control["regret_error"] + 0.05).all()
    alarms = stored(top, "warnings").query("part == 'independent'")
    assert (alarms["any"] <= 0.05 + 4 * math.sqrt(0.05 * 0.95 / 400)).all()
    assert (alarms.groupby("periods")["any"].mean() <= 0.05).all()


def test_page_has_the_stored_figures() -> None:
    text, tables = page.PAGE.read_text(encoding="utf-8"), page.all_tables()
    assert page.page_with(text, tables) == text, "run python -m planner.studies.page"
    assert sorted(it["name"] for it in page.PLACE.finditer(text)) == sorted(tables)
    table = pd.DataFrame({"law": ["a", "b"], "regret": ["1.0 ± 0.1", "-"]})
    lines = "| law | regret |\n| --- | --: |\n| a | 1.0 ± 0.1 |\n| b | - |\n"
    assert page.markdown(table) == lines


@pytest.mark.parametrize("study", page.STUDIES)
def test_words_of_a_study(study: str) -> None:
    """A study takes the words that it is run with, and writes what is stored."""
    module = importlib.import_module(f"planner.studies.{study}")
    command: click.Command = getattr(module, "main", None) or module.command
    words = [*__main__.words_of(study, 3)]
    assert words[2] == module.__name__
    given = command.make_context(study, words[3:]).params
    assert not given["small"] and given.get("jobs", 3) == 3
    assert "out" not in given or given["out"].exists()


def test_small_part_of_rules() -> None:
    """A rule that knows what a kind has needs less stock: seasons by fortnight, or a level that is smoothed."""
    for kind, better, worse in (
        ("season", "mean, NB", "item"),
        ("doubles", "smoothing, NB", "mean, NB"),
    ):
        stock = beside_rules.study(kind, (1,), 4, 1).set_index("way")["stock"]
        assert stock[better] < 0.9 * stock[worse]
