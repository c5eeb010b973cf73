"""Tests what a plan says on a day: orders by hand, chances by all demands one by one, and sums by pandas."""
from __future__ import annotations

import datetime
import random
from collections import Counter
from collections.abc import Sequence
from dataclasses import replace
from fractions import Fraction
from typing import Any

import pytest
from hypothesis import given, strategies as some

import crnplan as crn
from crnplan.law import Law
from crnplan.show.today_tables import OrdersToday
from crnplan.plan.answer import Laws, YearPart
from crnplan.plan.standing import Standing
from crnplan.plan.today import OrderGroup, Lying, Today, by_urgency, minimums_of
from crnplan.read.bounds import OrderBounds
from crnplan.read.items import Reading
from crnplan.read.quiet import is_dead, quiet_periods
from crnplan.read.stock import Arrival, OnHand
from planner.tests.conftest import cases_beside
from planner.tests.show.made_catalogue import made_pair
from planner.tests.plan.items import item_of

CASES = cases_beside(__file__)
FRIDAY = datetime.date(2026, 11, 27)
LAWS = Laws(
    1, Law((0, 4), (1, 1)), Law((2,), (1,)), None
)  # 2 items a week, which take 2 weeks to come


def days(count: int) -> datetime.date:
    return FRIDAY + datetime.timedelta(count)


def standing_of(
    stock: int = 5,
    owed: int = 0,
    arrivals: Sequence[Arrival] = (),
    s: int = 9,
    S: int = 20,
    pack: int = 1,
    least: int | None = None,
    laws: Laws = LAWS,
    every: str = "week",
    **facts: Any,
) -> Standing:
    """Returns an item with a policy and laws on a Friday."""
    item, answer = made_pair(random.Random(1), facts.pop("name", "A"))
    item = replace(
        item, bounds=OrderBounds(pack, least), **{"price": Fraction(3), **facts}
    )
    answer = replace(answer, laws=laws, chosen=replace(answer.chosen, point=s, level=S))
    hand = OnHand(Fraction(stock), Fraction(owed))
    lot = item.bounds.lot
    return Standing(item, answer, hand, arrivals, FRIDAY, every, lot=lot)


def facts_of(item: dict[str, Any]) -> dict[str, Any]:
    """Returns the facts of an item of a case: items on order with the days from the Friday on, a box, or returns."""
    facts, laws = dict(item), LAWS
    if "box" in facts:
        laws = replace(laws, box=facts.pop("box"))
    if "returns" in facts:
        laws = replace(laws, returns=Law(tuple(facts.pop("returns")), (1, 1)))
    arrivals = [
        Arrival(Fraction(items), *map(days, due))
        for items, *due in facts.pop("on_order", [])
    ]
    return {"laws": laws, "arrivals": arrivals} | facts


@pytest.mark.parametrize("case", CASES["orders"], ids=str)
def test_order_by_hand(case: dict[str, Any]) -> None:
    standing = standing_of(**facts_of(case["item"]))
    position, placed, weeks, day, chance = case["order"]
    assert (standing.position, standing.placed) == (position, placed)
    assert standing.last_day == days(day)
    assert standing.is_due
    assert standing.to_level == 20 - position
    assert standing.worth(standing.placed) == 3 * placed
    assert [standing.weeks, standing.chance] == pytest.approx([weeks, chance])


def test_the_most_urgent_order_comes_first() -> None:
    """What lasts shortest comes first, then what is likelier to be short: 7 of 8 for B and D, half for C, whose order
    comes before most of its demand. E is not ordered."""
    standings = [
        standing_of(stock=40, name="E"),
        standing_of(name="A"),
        standing_of(stock=0, name="D"),
        standing_of(2, 3, [Arrival(Fraction(6), days(20))], name="C"),
        standing_of(stock=0, name="B"),
    ]
    assert "".join(it.item.name for it in by_urgency(standings)) == "BDCAE"


def test_an_order_is_due_below_s_alone() -> None:
    """At s nothing is ordered, whoever waits: the position counts."""
    assert not standing_of(stock=9).is_due
    assert standing_of(stock=8).is_due
    assert not standing_of(0, 1, [Arrival(Fraction(10))]).is_due
    reasons = [standing_of(1, 1).reason, standing_of(0).reason, standing_of(1).reason]
    assert [reason.code for reason in reasons] == [
        "items owed",
        "no stock left",
        "below s",
    ]


@pytest.mark.parametrize(
    "day, every, lead, due",
    [
        # Of a lead time of 2 days, weeks, or months of 487/16 days, of which two are 60.875 days.
        ("2026-11-27", "day", 2, "2026-11-29"),
        ("2026-11-27", "week", 2, "2026-12-11"),
        ("2026-11-27", "month", 2, "2027-01-27"),
        ("2026-11-27", "month", 1, "2026-12-28"),
        ("2026-11-30", "day", 1, "2026-12-01"),
        ("2026-11-30", "day", 0, "2026-11-30"),
    ],
)
def test_days_of_a_lead_time(day: str, every: str, lead: int, due: str) -> None:
    """The mean lead time is in days by the length of a period, and an order of the day is due after it, rounded up."""
    length = {"day": 1, "week": 7, "month": Fraction(487, 16)}[every]
    laws = replace(LAWS, lead=Law((lead,), (1,)))
    standing = standing_of(laws=laws, every=every)
    standing = replace(standing, day=datetime.date.fromisoformat(day))
    assert standing.lead_days == standing.risk.days == lead * length
    assert str(standing.due) == due


@pytest.mark.parametrize(
    "day, every, month",
    [
        ("2026-11-01", "day", 11),
        ("2026-11-30", "day", 11),
        ("2026-12-01", "day", 12),
        ("2026-12-31", "day", 12),
        # A week is of the month of its Thursday: 26 November and 3 December.
        ("2026-11-23", "week", 11),
        ("2026-11-29", "week", 11),
        ("2026-11-30", "week", 12),
        ("2026-11-01", "month", 11),
        ("2026-11-30", "month", 11),
        ("2026-12-01", "month", 12),
        ("2026-12-31", "month", 12),
    ],
)
def test_levels_of_the_month_of_the_day(day: str, every: str, month: int) -> None:
    """On the last day of a month the levels and the demand are still its own, and on the first one those of the next: s is
    the number of the month."""
    # The first periods of November, of December and of January. Days are numbered from 1 and weeks from 0, from the first
    # Monday of year 1 on: 739920 days had gone by before November. Its first week begins on the 2nd.
    firsts = {
        "day": (739_921, 739_951, 739_982),
        "week": (105_703, 105_707, 105_712),
        "month": (2026 * 12 + 10, 2026 * 12 + 11, 2027 * 12),
    }[every]
    start, middle, end = firsts
    calendar = YearPart(start, middle, 11, 22, 1.0), YearPart(middle, end, 12, 24, 2.0)
    standing = standing_of(every=every)
    assert standing.answer
    answer = replace(standing.answer, calendar=calendar)
    on = datetime.date.fromisoformat(day)
    standing = replace(standing, answer=answer, day=on)
    assert standing.levels == (month, 2 * month)
    assert standing.mean == pytest.approx({11: 2, 12: 4}[month], abs=1e-3)


NUMBERS = some.dictionaries(
    some.integers(0, 3), some.integers(1, 3), min_size=1, max_size=2
)
LEADS = some.dictionaries(some.integers(1, 2), some.integers(1, 3), min_size=1)


@given(
    NUMBERS,
    LEADS,
    some.none() | NUMBERS,
    some.integers(1, 2),
    some.integers(-3, 9),
    some.lists(some.tuples(some.integers(0, 4), some.none() | some.integers(-3, 25))),
)
def test_chance_of_a_shortage(
    demand: dict[int, int],
    lead: dict[int, int],
    returns: dict[int, int] | None,
    box: int,
    stock: int,
    orders: list[tuple[int, int | None]],
) -> None:
    """The chance is the share of all lead times, demands and returns, each as often as its weight says, whose sum is
    above what is there."""
    arrivals = [
        Arrival(Fraction(items), None if day is None else days(day))
        for items, day in orders
    ]
    back = Law.of(returns) if returns else None
    laws = Laws(box, Law.of(demand), Law.of(lead), back)
    standing = standing_of(arrivals=arrivals, laws=laws)
    standing = replace(standing, hand=OnHand.of(Fraction(stock)))
    net = Counter[int]()
    for asked, times in demand.items():
        for given_back, others in (returns or {0: 1}).items():
            net[asked - given_back] += times * others
    chance = 0.0
    for periods, weight in lead.items():
        due = [items for items, day in orders if day is None or day < 7 * (periods + 1)]
        sums = Counter({0: 1})
        for _ in range(periods + 1):
            before, sums = sums, Counter()
            for total, count in before.items():
                for value, times in net.items():
                    sums[total + value] += count * times
        short = [count for it, count in sums.items() if box * it > stock + sum(due)]
        chance += weight / sum(lead.values()) * sum(short) / sums.total()
    assert standing.chance == pytest.approx(chance, abs=1e-12)


def test_a_year_without_demand() -> None:
    """An item lies dead if the last year of its record has no demand: one that is known for less is not."""
    for every, year in (("week", 52), ("month", 12), ("day", 365)):
        counts = [(1, *[0] * year), (*[0] * year, 1), (*[0] * (year - 1),)]
        assert [is_dead(its, every) for its in counts] == [True, False, False]
        assert quiet_periods(counts[0]) == year


@pytest.fixture
def offered() -> dict[str, Standing]:
    """Returns items of a supplier: one that is due, and what is near s, or sells fast, or is far from it."""
    fast = {"stock": 15, "laws": replace(LAWS, demand=Law((8,), (1,))), "pack": 6}
    facts: dict[str, dict[str, Any]] = {
        "far": {"stock": 13},  # 2 weeks above s: 7 items of 3
        "due": {},  # 15 items of 3
        "fast": fast,  # 6/8: 6 items of 3
        "near": {"stock": 10, "price": Fraction(2)},  # half a week: 10 items of 2
        "full": {"stock": 20},
        "unpriced": {"stock": 9, "price": None},
    }
    return {
        name: standing_of(name=name, supplier="Bosch", **own)
        for name, own in facts.items()
    }


def test_additions_for_a_supplier(offered: dict[str, Standing]) -> None:
    """What is nearest above s in weeks is added first, by its own order in packs, until the least value is met."""
    group = OrderGroup("Bosch", [*offered.values()], [], Fraction(83))
    added = [
        (it.standing.item.name, it.standing.placed, it.total)
        for it in group.additions()
    ]
    assert (group.value, group.short) == (45, 38)
    assert added == [("near", 10, 65), ("fast", 6, 83)]
    for least, count in ((45, 0), (46, 1), (84, 3), (999, 3)):
        other = replace(group, minimum=Fraction(least))
        assert len([*other.additions()]) == count
    alone = replace(group, standings=[offered["near"]])
    assert alone.short == 0  # which orders nothing


def test_additions_are_shown(offered: dict[str, Standing]) -> None:
    items = [offered[name] for name in ("due", "fast", "near")]
    counts = (1, *[0] * 60)
    item = item_of(name="dead", supplier="ABB", price=Fraction(7, 2), counts=counts)
    dead, least = [Lying(item, OnHand(Fraction(4)))], {"Bosch": Fraction(83)}
    today = OrdersToday(Today(FRIDAY, FRIDAY, items, [], dead, least, False))
    added = today.added[["item", "placed", "value", "total"]]
    assert added.values.tolist() == [["near", 10, 20, 65], ["fast", 6, 18, 83]]
    groups = today.groups[today.groups.group == "supplier"]
    suppliers = groups[["name", "dead", "short"]]
    assert suppliers.values.tolist() == [["ABB", 14, 0], ["Bosch", 0, 38]]
    said = "Bosch: 45.00 is 38.00 short of 83.00; add 10 near, 6 fast\n"
    assert said in today.text
    assert today.lists[["list", "item", "periods"]].values.tolist() == [
        ["dead", "dead", 60]
    ]
    assert "1 item, with stock worth 14.00" in today.text
    more = OrdersToday(replace(today.today, minimums={"Bosch": Fraction(999)}))
    said = (
        "add 10 near, 6 fast: no other item of it needs stock, and 916.00 are lacking\n"
    )
    assert said in more.text


def test_least_order_values_of_suppliers() -> None:
    """A value is stated, or that of the masters. Two of one supplier are refused, and so is one of no supplier."""
    items = [
        item_of(name=str(place), supplier=supplier, supplier_min=least)
        for place, (supplier, least) in enumerate(
            [
                ("Bosch", Fraction(500)),
                ("Bosch", None),
                ("", Fraction(7)),
                ("ABB", None),
            ]
        )
    ]
    assert minimums_of(items, {"ABB": Fraction(9), "Bosch": Fraction(500)}) == {
        "ABB": 9,
        "Bosch": 500,
    }
    with pytest.raises(
        crn.Refused,
        match=r"'Bosch' has two least order values, 400 \(supplier_min\) and 500 \(0\)",
    ):
        minimums_of(items, {"Bosch": Fraction(400)})
    with pytest.raises(crn.Refused, match="two least order values"):
        minimums_of(
            [*items, item_of(name="4", supplier="Bosch", supplier_min=Fraction(4))], {}
        )
    with pytest.raises(crn.Refused, match="supplier_min: ABB: 'much' is no cost"):
        Reading(supplier_min={"ABB": "much"})
    with pytest.raises(
        crn.Refused, match="no item has this supplier; did you mean 'Bosch'?"
    ):
        minimums_of(items, {"Boschh": Fraction(400)})
