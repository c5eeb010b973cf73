"""Tests the exchange curve of a folder: sums, budgets, the same bytes always, what is left out, and what is said."""
from __future__ import annotations

import csv
import itertools
import shutil
import sqlite3
from dataclasses import replace
from pathlib import Path
from typing import Any

import numpy as np
import pandas as pd
import pytest

import crnplan as crn
from crnplan.curve import gathered
from crnplan.curve.candidates import Candidates, candidates_of
from crnplan.curve.budget import Budget, chosen_by, with_more_orders
from crnplan.curve.exchange_curve import (
    CURVE,
    POLICIES,
    ExchangeCurve,
    exchange_curve,
    points_of,
)
from crnplan.curve.gathered import CANDIDATES, HULLS, Gathered
from crnplan.curve.parts import AS_IS, Point
from crnplan.plan.catalogue import ANSWERS, planned_folder
from crnplan.plan.question import Terms
from crnplan.read.catalogue_reading import READ
from crnplan.sentences import advice, sentence
from planner.tests.catalogue.conftest import FILES, REFUSED, SETTINGS, leave_few
from planner.tests.catalogue.made import NO_PLAN, TODAY, Made
from planner.tests.conftest import Command, shared
from planner.tests.planned_tables import whole_table

TABLES = CURVE, POLICIES
ITEMS = 20
NO_PRICE, NO_TODAY = ("A-036", "A-040"), "A-039"


@pytest.fixture(scope="module")
def twenty(
    planted: Made, tmp_path_factory: pytest.TempPathFactory, program: Path
) -> Path:
    """Returns a folder with the plan of 20 items, of which two have no price and one has no policy today, and the
    candidates of the others."""

    def make(files: Path) -> None:
        leave_few(planted.write(files), ITEMS)
        path = files / FILES[1]
        table = pd.read_csv(path, sep=";", dtype=str, keep_default_na=False)
        table = table.set_index("Artikel")
        table.loc[[*NO_PRICE], "Preis"] = ["", "0"]
        table.loc[NO_TODAY, ["Bestellpunkt", "Höchstbestand"]] = ""
        table.to_csv(path, sep=";")
        read = crn.read_catalogue(*(files / it for it in FILES), today=TODAY)
        crn.plan(read, out=files / "plan", jobs=1, program=program, **SETTINGS)
        exchange_curve(files / "plan", jobs=1)

    return shared(tmp_path_factory, "twenty", make) / "plan"


@pytest.fixture
def plan(twenty: Path, tmp_path: Path) -> Path:
    """Returns a folder of its own with the plan and the candidates."""
    return Path(shutil.copytree(twenty, tmp_path / "plan"))


def drawn(plan: Path, budget: Budget = Budget()) -> ExchangeCurve:
    words = {"fill": budget.fill, "orders": budget.orders}
    return exchange_curve(plan, stock_value=budget.value, jobs=1, **words)


def change(store: Path, *statements: str) -> None:
    """Changes a store of a folder as a program would."""
    with sqlite3.connect(store) as base:
        for statement in statements:
            base.execute(statement)


def tables_of(plan: Path) -> dict[str, bytes]:
    return {name: (plan / name).read_bytes() for name in TABLES}


def test_points_of_the_plan(twenty: Path) -> None:
    """Today's point and the chosen one are what the answers add up to: of all items with a price, of which one without a
    policy today counts with its chosen one."""
    found = drawn(twenty)
    with planned_folder(twenty) as planned:
        totals = planned.totals
    for name in ("today", "chosen"):
        point = found.points[name].point
        value, met, asked = (
            totals[f"{figure}{of}"] + totals[f"{figure}_uncompared"]
            for figure, of in (
                ("value", f"_{name}"),
                ("met", f"_{name}"),
                ("demand", ""),
            )
        )
        assert (point.value, point.fill) == pytest.approx((value, met / asked), 1e-6)
    said = "\nToday counts the chosen policy of 1 items that have none today.\n"
    assert said in found.text


def test_named_points(twenty: Path) -> None:
    """Has today's point of decisions.csv, and points that are as good with less stock, or better with the same. An item
    without a policy today counts there with the chosen one."""
    table = whole_table(twenty).drop([*NO_PRICE])
    assert [*table.index[table.s_today.isna()]] == [NO_TODAY]
    asked = table.value_chosen / table.stock_chosen * table.demand
    curve = pd.read_csv(twenty / CURVE).set_index("point")
    for name in ("today", "chosen"):
        value, fill, orders = (
            table[f"{figure}_{name}"].fillna(table[f"{figure}_chosen"])
            for figure in ("value", "fill", "orders")
        )
        point, met = curve.loc[name], (asked * fill).sum() / asked.sum()
        assert point["value"] == pytest.approx(value.sum(), rel=1e-6)
        assert point["fill"] == pytest.approx(met, abs=2e-4)
        assert point["orders"] == pytest.approx(orders.sum(), rel=1e-4)
    today, service, stock = (
        curve.loc[name] for name in ("today", "same service", "same stock")
    )
    assert service["fill"] >= today["fill"] - 1e-6
    assert service["value"] < today["value"]
    assert stock["value"] <= today["value"] * (1 + 1e-6)
    assert stock["fill"] > today["fill"]
    assert (curve.gap >= 0).all() and today["gap"] > stock["gap"]


@pytest.mark.parametrize("times", [1.2, 2.0])
def test_named_points_are_as_good_as_many_small_orders(
    twenty: Path, times: float
) -> None:
    """Has points that are better than today's also if that has more service than the curve, with more orders."""
    known = drawn(twenty).gathered
    value, items = Budget(value=20_000), known.items
    orders = times * chosen_by(items, value).point.orders
    found = with_more_orders(items, replace(value, orders=orders)).point
    today = found._replace(fill=found.fill - 0.005, value=found.value * 1.03)
    assert chosen_by(items, Budget(fill=today.fill)).point.value > today.value
    points, missing = named_points(known, today)
    stock, service = points["same stock"].point, points["same service"].point
    assert not missing
    assert max(stock.orders, service.orders) <= today.orders * (1 + 1e-9)
    assert stock.fill > today.fill and stock.value <= today.value * (1 + 1e-9)
    assert service.fill >= today.fill - 1e-9 and service.value < today.value


def test_a_today_on_the_curve(twenty: Path) -> None:
    """Nothing is better than a point of today that is on the curve: that is both points, with no other orders."""
    known = drawn(twenty).gathered
    ladder = known.items.ladder()
    for place in range(30, 60, 5):
        today = ladder.with_price(place).point
        points, missing = named_points(known, today)
        assert not missing
        for name in ("same stock", "same service"):
            assert (points[name].point, points[name].dearer) == (today, AS_IS)


def named_points(known: Gathered, today: Point) -> Any:
    """Returns the named points of a curve with another point of today, and which are missing."""
    other = replace(known, points={**known.points, "today": today})
    return points_of(other, Budget())


def test_the_curve_rises(twenty: Path) -> None:
    """The curve rises with less and less gain."""
    curve = crn.exchange_curve(twenty, jobs=1).frame.query("point == 'curve'")
    assert len(curve) > 25 and (curve.gap == 0).all()
    rises = curve[["price", "cost", "fill"]].diff()[1:]
    assert (rises > 0).all(axis=None)
    gains = (rises.fill / rises.cost).to_numpy()
    assert (gains[1:] <= gains[:-1] * (1 + 1e-6)).all()


def test_a_today_beyond_the_curve(twenty: Path) -> None:
    """A point of today that the curve can't reach is missing, and why is said."""
    whole = drawn(twenty)
    plain = chosen_by(whole.gathered.items, Budget(fill=0.9)).point
    today = plain._replace(fill=1 - 1e-11)
    points, missing = named_points(whole.gathered, today)
    assert [*points] == ["same stock"]
    assert "this service takes more orders" in missing["same service"]
    said = f"there is no such point: {missing['same service']}\n"
    assert said in replace(whole, missing=missing).text
    assert "no such point" not in whole.text
    today = plain._replace(value=plain.value / 2, orders=plain.orders / 2)
    points, _ = named_points(whole.gathered, today)
    assert points["same service"].point == plain and plain.value > today.value


@pytest.mark.parametrize(
    "budget",
    [
        Budget(fill=0.9),
        Budget(fill=0.99),
        Budget(value=40_000),
        Budget(fill=0.95, orders=1.5),
        Budget(orders=2.2),
        Budget(value=12_000, orders=3),
    ],
    ids=str,
)
def test_budget_is_kept(plan: Path, budget: Budget) -> None:
    """Policies have theory's figures and keep the budget in the sum. Their distance from the best is said."""
    its = drawn(plan, budget)
    _, point, gap, *_ = its.points["budget"]
    assert budget.value is None or point.value <= budget.value * (1 + 1e-9)
    assert budget.fill is None or budget.fill - 1e-9 <= point.fill < budget.fill + 0.01
    assert budget.orders is None or point.orders <= budget.orders * (1 + 1e-9)
    assert 0 <= gap < 0.5
    sums = np.zeros(4)
    with planned_folder(plan) as folder:
        rows = csv.DictReader((plan / POLICIES).open(encoding="utf-8"))
        for row in itertools.takewhile(lambda row: not row["left_out"], rows):
            item, _ = folder.item(row["item"])
            question, price = folder.question(item), float(item.price or 0)
            theory = question.figures(
                (int(row["s"]) // item.box, int(row["S"]) // item.box)
            )
            asked = price * float(question.demand.table.mean) * item.box
            assert float(row["fill"]) == pytest.approx(theory.fill, abs=2e-6)
            assert float(row["value"]) == pytest.approx(price * theory.stock, abs=1e-3)
            sums += price * theory.stock, asked * theory.fill, theory.orders, asked
    assert point[:3] == pytest.approx((sums[0], sums[1] / sums[3], sums[2]))


def test_bytes_and_what_is_kept(plan: Path, twenty: Path) -> None:
    """Computes only candidates that are not there or whose item has changed; two processes write the same bytes."""
    tables = tables_of(twenty)
    assert drawn(plan).gathered.new == 0 and tables_of(plan) == tables
    some = "SELECT item FROM answers ORDER BY item LIMIT 8"
    change(plan / CANDIDATES, f"DELETE FROM answers WHERE item IN ({some})")
    assert 0 < drawn(plan).gathered.new < ITEMS and tables_of(plan) == tables
    (plan / CANDIDATES).unlink()
    crn.exchange_curve(plan, jobs=2)
    assert tables_of(plan) == tables
    change(
        plan / READ,
        "UPDATE items SET price = '77/2' WHERE name = 'A-050'",
        "UPDATE items SET setup = '99' WHERE name = 'A-051'",
    )
    changed = drawn(plan).gathered
    remark = dict(changed.parts.left_out())["A-051"]
    assert changed.new == 1 and advice(remark) == "run crnplan plan again"
    assert sentence(remark) == "it is not planned as its rows are now"


@pytest.mark.parametrize("size", [1, 7])
def test_parts_of_any_size(
    plan: Path, twenty: Path, size: int, monkeypatch: pytest.MonkeyPatch
) -> None:
    """Writes the same bytes from parts of any size, also if other processes are asked, and what is kept of hulls is of
    other parts, or missing."""
    monkeypatch.setattr(gathered, "MOST_ITEMS", size)
    monkeypatch.setattr(gathered, "MOST_PARTS", 2)
    for jobs in (2, 1):
        crn.exchange_curve(plan, jobs=jobs)
        assert tables_of(plan) == tables_of(twenty)
        gathered.part_of.cache_clear()
        change(plan / HULLS, "DELETE FROM answers WHERE item LIKE 'A-04%'")
    change(plan / HULLS, "UPDATE answers SET hulls_prices = hulls_owner")
    said = "hulls.sqlite: the answer to .* is not as it was kept: .* remove it"
    with pytest.raises(crn.Failed, match=said):
        drawn(plan)


def test_items_that_are_left_out(twenty: Path, planned: Path, tmp_path: Path) -> None:
    """Names the items without a price, and those without a plan, and counts them."""
    policies = pd.read_csv(twenty / POLICIES)
    left, own = policies[policies.s.isna()], policies[policies.s.notna()]
    assert [*left.item] == [*NO_PRICE]
    assert left.left_out.str.contains("no price above 0.*masters").all()
    assert len(own) == ITEMS - len(NO_PRICE) and own.left_out.isna().all()
    plan = Path(shutil.copytree(planned, tmp_path / "plan"))
    change(plan / READ, "UPDATE items SET price = NULL WHERE name <> 'A-050'")
    remarks = dict(drawn(plan).gathered.parts.left_out())
    said = [name for name in remarks if "too far apart" in sentence(remarks[name])]
    assert said == [NO_PLAN]
    none = "no item can be on the curve: "
    change(plan / READ, "UPDATE items SET price = NULL")
    with pytest.raises(
        crn.Refused, match=f"{none}.* items are left out; the first, A-"
    ):
        drawn(plan)
    change(plan / READ, "DELETE FROM items")
    with pytest.raises(crn.Refused, match=f"{none}no item is in the plan"):
        drawn(plan)


def test_an_item_without_candidates(
    plan: Path, monkeypatch: pytest.MonkeyPatch
) -> None:
    def failing(terms: Terms) -> Candidates:
        if terms.item.name == "A-050":
            raise MemoryError("no room for a table")
        return candidates_of(terms)

    monkeypatch.setattr(gathered, "candidates_of", failing)
    (plan / CANDIDATES).unlink()
    its = drawn(plan).gathered
    assert its.items.count == ITEMS - len(NO_PRICE) - 1
    assert "no room for a table" in sentence(dict(its.parts.left_out())["A-050"])


def test_command(plan: Path, crnplan: Command) -> None:
    """Prints the points; the table with --csv; and draws."""
    words, picture = [
        "curve",
        plan,
        "--jobs",
        "1",
        "--fill",
        "0.95",
    ], plan / "curve.svg"
    told = crnplan(*words, "--plot", picture)
    assert told.status == 0, told.errors
    said = (
        "18 items are on the curve; 2 are left out, as A-036: it has no price above 0"
    )
    assert said in told.output
    table = told.output.splitlines()[3:8]
    point = pd.read_csv(plan / CURVE).set_index("point").loc["budget"]
    assert table[-1].startswith("your budget") and "95.0" in table[-1]
    assert table[-1].split()[2] == f"{point['value']:,.2f}"
    drawing = picture.read_text("utf-8")
    for text in ("your budget: ", "today: ", "one price for all items", "met at once"):
        assert text in drawing
    told = crnplan(*words, "--csv")
    assert told.status == 0 and told.output == (plan / CURVE).read_text("utf-8")


@pytest.mark.parametrize("words, said", REFUSED["curve"])
def test_refused_words(
    plan: Path, crnplan: Command, words: list[str], said: str
) -> None:
    told = crnplan("curve", plan, "--jobs", "1", *words)
    assert told.status == 2 and said in told.errors and told.errors.count("\n") == 1


def test_folders_without_a_plan(plan: Path, tmp_path: Path, crnplan: Command) -> None:
    told = crnplan("curve", tmp_path / "none")
    said = "no plan is in it; run crnplan plan DEMAND.csv ITEMS.csv --out"
    assert told.status == 2 and said in told.errors
    assert not (tmp_path / "none").exists()
    change(plan / ANSWERS, "UPDATE facts SET value = '{}' WHERE name = 'planned'")
    told = crnplan("curve", plan)
    said = "answers.sqlite: what was planned is not as it was kept"
    assert told.status == 3 and said in told.errors
