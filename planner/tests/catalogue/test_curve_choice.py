"""Tests hulls, candidates and choices against all policies and all choices, one by one."""
from __future__ import annotations

import dataclasses
import itertools
import math
import tracemalloc
from collections.abc import Sequence
from fractions import Fraction
from pathlib import Path
from typing import Any

import numpy as np
import pytest
from hypothesis import given, settings, strategies as st

from crnplan.chances import Floats
from crnplan.curve import exchange
from crnplan.curve.candidates import (
    DEARER,
    PRICES,
    VARIANTS,
    Candidates,
    candidates_of,
    lower_hull,
    rounded,
    slopes,
    variants_of,
)
from crnplan.curve.budget import Budget, chosen_by, gap_of
from crnplan.curve.exchange import AS_IS, Items
from crnplan.curve.exchange_curve import curve_points, gap_text
from crnplan.curve.parts import UNMET, VALUE, Dearer, CurvePart, Point
from crnplan.errors import Refused
from crnplan.plan.catalogue import planned_folder

Named = tuple[str, float, Candidates, Any]
NUMBERS = st.integers(0, 30)
ROWS = st.lists(st.tuples(st.integers(0, 3), NUMBERS, NUMBERS), min_size=1, max_size=40)
MORE = 1 + 1e-9


@settings(deadline=None, max_examples=150)
@given(ROWS)
def test_hull(points: list[tuple[int, int, int]]) -> None:
    """For each owner costs rise, unmet demand falls, prices rise, and the best point of all is there for each price."""
    owner, cost, unmet = np.array(points).T
    kept = lower_hull(owner, cost.astype(float), unmet.astype(float))
    assert len({*kept.tolist()}) == len(kept) and {*owner[kept]} == {*owner}
    prices = slopes(owner[kept], cost[kept].astype(float), unmet[kept].astype(float))
    for first, second, low, high in zip(kept, kept[1:], prices, prices[1:]):
        if owner[first] == owner[second]:
            assert cost[first] < cost[second] and unmet[first] > unmet[second]
            assert low < high
        else:
            assert owner[first] < owner[second] and low == np.inf
    for price in (0, Fraction(1, 7), 1, Fraction(29, 3), 10**6):
        totals = [int(money) + price * int(owed) for money, owed in zip(cost, unmet)]
        for mine in {*owner}:
            every = [totals[place] for place in np.flatnonzero(owner == mine)]
            assert min(every) == min(totals[row] for row in kept if owner[row] == mine)


@pytest.mark.parametrize("name", ["A-036", "A-041", "A-054"])
def test_candidates_are_the_best_of_all(planned: Path, name: str) -> None:
    """Has for each variant and some prices the least of setup, holding and unmet demand of all (s,S) nearby that may be
    chosen: with a wanted fill rate s is at least 1."""
    with planned_folder(planned) as folder:
        item, price = dataclasses.replace(folder.item(name)[0], price=Fraction(7)), 7.0
        question = folder.question(item)
    answer, theory = candidates_of(question), question.theory
    assert theory.exact and item.box == 1
    assert answer.demand == pytest.approx(np.mean(item.counts))
    most = int(max(row[3] for row in answer.rows if PRICES[int(row[1])] < 30))
    least = int(item.fill is not None)
    every = []
    for S in range(least, most + 3):
        for s in range(max(least, S - 60), S + 1):
            figures = theory.figures(s, S)
            unmet = answer.demand * (1 - figures.fill)
            every.append((figures.orders, figures.stock, unmet))
    found, places = np.array(every), np.flatnonzero((PRICES > 1e-2) & (PRICES < 30))
    costs = variants_of(answer.setup, answer.holding, answer.demand)
    for variant, (order, holding) in enumerate(costs):
        rows = [row for row in answer.rows if row[0] == variant]
        for place in places[::3]:
            row = [row for row in rows if row[1] <= place][-1]
            dear = PRICES[place] * price
            mine = order * row[6] + holding * row[4] + dear * row[5]
            totals = found @ [order, holding, dear]
            assert mine <= totals.min() * (1 + 1e-8)
            stock = theory.figures(int(row[2]), int(row[3])).stock
            assert stock == pytest.approx(row[4])


def test_figures_have_ten_digits() -> None:
    """They are the numbers that Python reads from ten digits, and whole ones with more are as they were."""
    figures = [0, 1 / 3, 2 / 3, 7, 12345.678901234, 9876543210.4, 1e-9 / 7, 1e5 / 3]
    wanted = [float(f"{figure:.10g}") for figure in figures]
    assert rounded(np.array(figures)).tolist() == wanted
    assert rounded(np.array([123456789012.0])) == 123456789012


def made_item(source: np.random.Generator, count: int) -> tuple[Candidates, Floats]:
    """Returns candidates found among random policies, and these: stock, unmet demand and orders."""
    setup, holding = source.uniform(1, 20), source.uniform(0.05, 0.2)
    demand = source.uniform(1, 5)
    stock, orders = source.uniform(0, 40, count), source.uniform(0.1, 1, count)
    unmet = demand * source.uniform(0, 1, count) ** 2
    points = np.column_stack([stock, unmet, orders])
    rows: list[tuple[float, ...]] = []
    for variant, (order, held) in enumerate(variants_of(setup, holding, demand)):
        last = -1
        for place, price in enumerate(PRICES):
            best = int((points @ [held, price, order]).argmin())
            if best != last:
                rows.append((variant, place, best, best, *points[best]))
                last = best
    return Candidates.of(demand, setup, holding, np.transpose(rows)), points


def in_parts(answers: Sequence[Named], size: int) -> Items:
    """Returns items in parts of a size."""
    firsts = range(0, len(answers), size)
    parts = [CurvePart.of(answers[first : first + size]) for first in firsts]
    return Items(lambda function, *columns: map(function, parts, *columns))


def every_choice(seed: int) -> tuple[Items, Floats]:
    """Returns four items, and stock value, unmet value, orders and costs of all choices of policies, one by one."""
    source = np.random.default_rng(seed)
    made = [made_item(source, 9) for _ in range(4)]
    choices = []
    for policies in itertools.product(*(points for _, points in made)):
        cost = 0.0
        for (answer, _), (stock, _, orders) in zip(made, policies):
            cost += answer.setup * orders + answer.holding * stock
        choices.append((*np.sum(policies, axis=0), cost))
    items = []
    for place, (answer, points) in enumerate(made):
        items.append((str(place), 1.0, answer, points[:2]))
    return in_parts(items, 1 + seed % 4), np.array(choices).T


def asked_of(items: Items) -> float:
    """Returns the value of demand."""
    return items.asked * items.units[UNMET]


def budgets_of(items: Items) -> list[Budget]:
    """Returns budgets of value, of fill rates and of both with fewer orders; not all of them can be kept."""
    curve = [items.point(stretch.after) for stretch in items.ladder().grid]
    values, fills = [point.value for point in curve], [point.fill for point in curve]
    low, high = float(min(values)), float(max(values))
    plain = [Budget(value=low + share * (high - low)) for share in (0.2, 0.5, 0.8)]
    plain += [Budget(fill=float(np.quantile(fills, share))) for share in (0.4, 0.8)]
    budgets = [Budget(value=0.9 * low, orders=orders) for orders in (2.0, 2.5, 3.0)]
    for budget in plain:
        orders = chosen_by(items, budget).point.orders
        for share in (0.95, 0.85):
            budgets.append(Budget(budget.value, budget.fill, share * orders))
    return plain + budgets


def test_steps_of_one_price_are_in_order_of_items() -> None:
    """So the first of equal items are the first that have more, whatever their parts are."""
    answer, points = made_item(np.random.default_rng(1), 9)
    items = [(str(place), 1.0, answer, points[:2]) for place in range(40)]
    ladder = in_parts(items, 7).ladder()
    for stretch in ladder.whole:
        steps, _ = ladder.places(stretch)
        pairs = [*zip(steps.prices, steps.owner)]
        assert pairs == sorted(pairs)


@pytest.mark.parametrize("seed", range(6))
def test_bound_against_every_choice(seed: int) -> None:
    """Loses no more against the best of all choices than it says, and keeps what was asked for."""
    items, (values, unmet, orders, cost) = every_choice(seed)
    tested = 0
    for budget in budgets_of(items):
        try:
            found = chosen_by(items, budget)
        except Refused:
            continue
        point, dearer = found.point, found.dearer
        assert budget.value is None or point.value <= budget.value * MORE
        assert budget.fill is None or point.fill >= budget.fill - 1e-9
        assert budget.orders is None or point.orders <= budget.orders * MORE
        kept = unmet <= (1 - point.fill) * asked_of(items) * MORE
        kept &= (orders <= point.orders * MORE) | (dearer.orders == 0)
        kept &= (values <= point.value * MORE) | (dearer.stock == 0)
        best = cost[kept].min()
        bound = best * (1 + gap_of(items, point, dearer)) * (1 + 1e-6)
        assert best <= point.cost * MORE <= bound * MORE
        tested += 1
    assert tested >= 7


@pytest.mark.parametrize("scarce", ["nothing", "orders", "stock"])
@pytest.mark.parametrize("seed", range(3))
def test_each_bound_against_every_choice(seed: int, scarce: str) -> None:
    """No choice as good as a point costs less than is said, nor much more than that."""
    items, (values, unmet, orders, cost) = every_choice(50 + seed)
    used = {"nothing": 0 * cost, "orders": orders, "stock": values}[scarce]
    asked, bounds = [Dearer()], []
    if scarce != "nothing":
        asked = [Dearer(**{scarce: price}) for price in np.geomspace(0.01, 4, 12)]
    for place in np.random.default_rng(seed).integers(len(cost), size=60):
        fill = 1 - unmet[place] / asked_of(items)
        point = Point(values[place], fill, orders[place], cost[place])
        kept = (unmet <= unmet[place] * MORE) & (used <= used[place] * MORE)
        bounds.append(items.least_cost(point, *asked) / cost[kept].min())
    assert max(bounds) <= MORE and np.median(bounds) > 0.94


@pytest.mark.parametrize("seed", range(4))
def test_the_curve_is_the_best(seed: int) -> None:
    """Has no gap at the prices of the grid, and no choice of all is as good for less there. Other points have a gap."""
    items, (_, unmet, _, cost) = every_choice(100 + seed)
    for place in range(0, len(PRICES), 6):
        point = items.ladder().with_price(place).point
        assert gap_of(items, point) < 1e-9
        kept = unmet <= (1 - point.fill) * asked_of(items) * MORE
        assert cost[kept].min() >= point.cost * (1 - 1e-9)
        dear = point._replace(cost=1.2 * point.cost)
        assert gap_of(items, dear) == pytest.approx(0.2)
    assert items.least_cost(point, Dearer(orders=0.0)) == items.least_cost(point, AS_IS)


@pytest.mark.parametrize("seed", range(4))
def test_points_of_the_curve_are_those_of_every_choice(seed: int) -> None:
    """The curve has for each price of the grid the best of all choices, if that is another one than for the price before:
    with the price itself, and nothing beyond the grid."""
    items, choices = every_choice(seed)
    values, unmet, orders, cost = choices
    wanted, last = list[tuple[float, int]](), -1
    for price in PRICES.tolist():
        best = int((cost + price * unmet).argmin())
        if best != last:
            wanted.append((price, best))
        last = best
    found = curve_points(items)
    assert [its.price for its in found] == [price for price, _ in wanted]
    assert len(found) > 4
    for its, (_, best) in zip(found, wanted):
        fill = 1 - unmet[best] / asked_of(items)
        expected = values[best], fill, orders[best], cost[best]
        assert its.point == pytest.approx(expected)


@pytest.mark.parametrize(
    "gap, text",
    [
        (0.0, "0.00%"),
        (0.0123, "1.23%"),
        (0.01230001, "1.24%"),
        (1.5, "150.00%"),
        (math.inf, "not known"),
    ],
)
def test_gaps_are_rounded_up(gap: float, text: str) -> None:
    assert gap_text(gap) == text


def test_variants() -> None:
    """Each variant makes orders or stock dearer, or none."""
    assert {*itertools.chain(*DEARER)} == {*range(len(VARIANTS))}
    rates = np.array(variants_of(10, 0.1, 2))
    for which, variants in enumerate(DEARER):
        dearer = np.flatnonzero(rates[:, which] > (10, 0.1)[which])
        assert {*dearer.tolist()} == {*variants[1:]}


class Walk:
    """All items along the whole ladder, step by step, as a simple program would go: the vertices of each item with s, S,
    value and unmet value, and the steps by their prices."""

    def __init__(self, answers: Sequence[Named], budget: Budget) -> None:
        """Takes items and a budget of value or of a fill rate alone."""
        self.vertices: list[list[Any]] = []
        self.steps, asked = list[tuple[float, int]](), 0.0
        for place, (_, price, answer, _) in enumerate(answers):
            rows = np.array(answer.rows.tolist())
            cost = answer.setup * rows[:, 6] + answer.holding * rows[:, 4]
            unmet, owner = price * rows[:, 5], np.zeros(len(rows), int)
            kept = lower_hull(owner, cost, unmet)
            prices = slopes(owner[kept], cost[kept], unmet[kept])
            value = price * rows[:, 4]
            self.vertices.append(
                [(*rows[row, 2:4], value[row], unmet[row]) for row in kept]
            )
            self.steps += [(slope, place) for slope in prices[:-1].tolist()]
            asked += price * answer.demand
        self.steps.sort()
        self.figure = 2 if budget.value is not None else 3
        unmet_share = 1 - (budget.fill or 0)
        most = unmet_share * asked if budget.value is None else budget.value
        self.most, self.at = most * (1 + 1e-12), [0] * len(answers)

    def use(self, place: int, way: int) -> float:
        """Returns by how much the figure of the budget rises if an item goes a step."""
        mine, at = self.vertices[place], self.at[place]
        return float(mine[at + way][self.figure] - mine[at][self.figure])

    def totals(self) -> list[float]:
        """Goes the whole way, and returns the budget's figure at the start and after each step."""
        total = sum(mine[0][self.figure] for mine in self.vertices)
        totals = [total]
        for _, place in self.steps:
            total += self.use(place, 1)
            self.at[place] += 1
            totals.append(total)
        return totals

    def ends(self) -> list[tuple[float, float]]:
        """Returns s and S of each item: as many steps as the budget lets, and then those near by that fit too."""
        totals = self.totals()
        fits = [count for count, each in enumerate(totals) if each <= self.most]
        count, way = (fits[-1], 1) if self.figure == 2 else (fits[0], -1)
        taken = [place for _, place in self.steps[:count]]
        self.at = [taken.count(place) for place in range(len(self.at))]
        further = self.steps[count:] if way > 0 else self.steps[:count][::-1]
        spare, stays = self.most - totals[count], set[int]()
        for price, place in further:
            if 0.5 <= price / further[0][0] <= 2 and place not in stays:
                use = self.use(place, way)
                if use > spare:
                    stays.add(place)
                else:
                    self.at[place] += way
                    spare -= use
        return [mine[at][:2] for mine, at in zip(self.vertices, self.at)]


def twins_of(answer: Candidates, points: Floats, place: int) -> list[Named]:
    """Returns three items of the same candidates, with two prices."""
    prices = enumerate((3.0, 0.5, 3.0))
    return [(f"{place:02}-{twin}", price, answer, points[:2]) for twin, price in prices]


@pytest.mark.parametrize("most, cuts", [(200_000, 64), (20, 4), (1, 2)])
@pytest.mark.parametrize("size", [1, 7, 256])
def test_any_parts(
    size: int, most: int, cuts: int, monkeypatch: pytest.MonkeyPatch
) -> None:
    """Has the same policies, sums and bounds in any parts, with any rounds, also if prices are equal: those of a walk
    along all steps."""
    monkeypatch.setattr(exchange, "MOST_STEPS", most)
    monkeypatch.setattr(exchange, "CUTS", cuts)
    source, answers = np.random.default_rng(7), list[Named]()
    for place in range(10):
        answers += twins_of(*made_item(source, 12), place)
    items, whole = in_parts(answers, size), in_parts(answers, len(answers))
    ladder = items.ladder()
    start, end = items.point(ladder.start), items.point(ladder.end)
    assert items.now == whole.now and items.count == len(answers)
    budgets = []
    for share in (0.02, 0.3, 0.5, 0.8, 0.97):
        budgets.append(Budget(value=start.value + share * (end.value - start.value)))
        budgets.append(Budget(fill=start.fill + share * (end.fill - start.fill)))
    for budget in budgets:
        found = chosen_by(items, budget)
        assert found.point == chosen_by(whole, budget).point
        assert gap_of(items, found.point) == gap_of(whole, found.point)
        some = [*items.policies(found)]
        assert [(each.point, each.level) for each in some] == Walk(
            answers, budget
        ).ends()
        sums = [sum(each.value for each in some), sum(each.orders for each in some)]
        assert sums == pytest.approx([found.point.value, found.point.orders], rel=1e-12)
    values = Walk(answers, Budget(value=end.value)).totals()
    for way, value in ((1, max(values)), (-1, min(values))):
        assert ladder.extreme(way) * items.units[VALUE] == pytest.approx(value)
    assert chosen_by(items, Budget(value=1.01 * end.value)).point == end
    budget = Budget(value=0.98 * start.value, orders=1.6 * start.orders)
    one, two = chosen_by(items, budget), chosen_by(whole, budget)
    assert one.dearer == two.dearer and one.point == two.point and one.dearer.stock > 0
    assert [*items.policies(one)] == [*whole.policies(two)]


def test_memory_of_many_parts(monkeypatch: pytest.MonkeyPatch) -> None:
    """Takes at most 2 kB of memory for a further part."""
    monkeypatch.setattr(exchange, "MOST_STEPS", 1_000)
    part, peaks = CurvePart.of(twins_of(*made_item(np.random.default_rng(0), 9), 0)), []
    for count in (30, 300):
        tracemalloc.start()
        many = [part] * count
        items = Items(lambda function, *rows: map(function, many, *rows))
        found = chosen_by(items, Budget(fill=0.8))
        assert found.point.fill >= 0.8
        assert sum(1 for _ in items.policies(found)) == 3 * count
        peaks.append(tracemalloc.get_traced_memory()[1])
        tracemalloc.stop()
    assert peaks[1] - peaks[0] < 270 * 2_000, peaks


def test_no_share_is_above_a_best_that_costs_nothing(
    monkeypatch: pytest.MonkeyPatch,
) -> None:
    monkeypatch.setattr(Items, "least_cost", lambda *_: 0.0)
    point = Point(value=1.0, fill=0.9, orders=1.0, cost=1.0)
    assert gap_of(Items.__new__(Items), point) == math.inf
