"""Plans a catalogue again after a change that must not matter, or must matter in a known way alone.

Money may be counted in another unit, items in boxes, periods in days, and rows may stand in another order. What comes
of it follows from the first plan, so no expected figure is written down.
"""
from __future__ import annotations

import datetime
from collections.abc import Callable, Sequence
from pathlib import Path
from typing import Any, NamedTuple

import numpy as np
import pandas as pd
import pytest

import crnplan as crn
from crnplan.theory.lattice import theories_of
from planner.tests.planned_tables import whole_frame

START, WEEKS = datetime.date(2024, 12, 2), 60  # a Monday
SETTINGS: dict[str, Any] = {"periods": 48, "replications": 6, "least": 13, "jobs": 1}
# Columns of decisions that are amounts of money, those that count items, and others.
MONEY = "cost_today cost_chosen saving run_saving run_low".split()
MONEY += "run_high value_today value_chosen cost_alone".split()
ITEMS = "s_today S_today s_chosen S_chosen".split()
ITEMS += "stock_today stock_chosen s_alone S_alone demand".split()
SHARES = "fill_wanted fill_today fill_chosen fill_alone".split()
SHARES += "orders_today orders_chosen".split()
Master = dict[str, Any]
Planner = Callable[..., pd.DataFrame]


class Item(NamedTuple):
    """An item of a catalogue: what was asked for and came back by period, and its master."""

    name: str
    counts: Any
    back: Any
    master: Master

    def with_master(self, **changes: Any) -> Item:
        return self._replace(master=self.master | changes)


def master(
    holding: float,
    setup: float,
    backlog: float | None,
    fill: float | None,
    lead: str,
    levels: tuple[int, int],
    price: float,
) -> Master:
    """Returns the master of an item. Costs are multiples of 0.006, so that a third and a half are decimals too."""
    return {
        "setup": setup,
        "holding": holding,
        "backlog": backlog,
        "fill": fill,
        "lead (weeks)": lead,
        "s": levels[0],
        "S": levels[1],
        "price": price,
    }


def fast_sellers() -> list[Item]:
    """Returns items of which nearly 10,000 are asked for in some weeks: a multiple of these is counted in boxes."""
    draw, found = np.random.default_rng(8), []
    for number, (mean, fill, lead) in enumerate(
        [(4_000, None, "2"), (3_000, 0.95, "1 2 2"), (5_500, None, "3")]
    ):
        counts = np.clip(
            draw.normal(mean, 0.4 * mean, WEEKS).round(-1), 0, 9_990
        ).astype(int)
        counts[7] = 9_990
        back = np.where(np.arange(WEEKS) % 4 == 0, counts // 50 // 10 * 10, 0) * (
            number != 1
        )
        backlog = None if fill else 0.54
        found.append(
            Item(
                f"F-{number}",
                counts,
                back,
                master(0.03, 120, backlog, fill, lead, (4 * mean, 7 * mean), 9),
            )
        )
    return found


def slow_sellers(count: int = 6) -> list[Item]:
    """Returns items of rare demand: by backlog cost or fill rate, with one or several lead times, and with returns."""
    draw, found = np.random.default_rng(5), []
    for number in range(count):
        counts = (
            draw.poisson(3, WEEKS)
            if number % 2
            else draw.binomial(1, 0.4, WEEKS) * draw.geometric(0.3, WEEKS)
        )
        back = draw.binomial(counts, 0.1) if number % 3 == 1 else np.zeros(WEEKS, int)
        backlog, fill = (0.9, None) if number % 4 else (None, 0.97)
        found.append(
            Item(
                f"S-{number}",
                counts,
                back,
                master(
                    0.06,
                    12,
                    backlog,
                    fill,
                    "1 2 4" if number % 3 == 2 else "2",
                    (6 + number, 20 + 3 * number),
                    5,
                ),
            )
        )
    return found


def scaled(item: Item, names: Sequence[str], factor: float) -> Item:
    return item.with_master(
        **{
            name: None
            if item.master[name] is None
            else round(item.master[name] * factor, 6)
            for name in names
        }
    )


def counted_in(item: Item, size: int) -> Item:
    """Returns an item of which a piece is counted as so many, each for that part of the costs."""
    levels = {name: size * item.master[name] for name in ("s", "S")}
    return scaled(
        item._replace(counts=size * item.counts, back=size * item.back),
        ["holding", "backlog", "price"],
        1 / size,
    ).with_master(**levels)


@pytest.fixture
def planned(program: Path) -> Planner:
    """Returns a function that plans items, with periods of so many days, and returns the decisions. By a seed, rows
    stand in another order; larger movements may stand in two rows."""

    def plan(
        items: Sequence[Item],
        days: int = 7,
        seed: int = 0,
        is_split: bool = False,
        **words: Any,
    ) -> pd.DataFrame:
        moves = [
            (START + datetime.timedelta(days * period), item.name, asked, back)
            for item in items
            for period, (asked, back) in enumerate(zip(item.counts, item.back))
            if asked or back or not period
        ]
        if is_split:
            moves = [
                (day, name, *part)
                for day, name, asked, back in moves
                for part in (
                    [(asked - 1, back), (1, 0)] if asked > 2 else [(asked, back)]
                )
            ]
        tables = [
            pd.DataFrame(moves, columns=["date", "item", "quantity", "returned"]),
            pd.DataFrame([{"item": item.name, **item.master} for item in items]),
        ]
        if seed:
            tables = [table.sample(frac=1, random_state=seed) for table in tables]
        found = crn.plan(
            *tables,
            every="week" if days == 7 else "day",
            start=START,
            program=program,
            end=START + datetime.timedelta(days * WEEKS - 1),
            **SETTINGS | words,
        )
        assert len(found.decisions) == len(items), found.rejects
        return whole_frame(found)

    return plan


def assert_same(
    before: pd.DataFrame,
    after: pd.DataFrame,
    columns: Sequence[str],
    factor: float = 1.0,
) -> None:
    assert list(before.law) == list(after.law)
    assert "saving" not in columns or list(before.verdict) == list(after.verdict)
    for name in columns:
        old, new = (
            table[name].to_numpy(float, na_value=np.nan) for table in (before, after)
        )
        assert new == pytest.approx(
            old * factor, rel=2e-4, abs=2e-4 * factor, nan_ok=True
        ), name


@pytest.mark.parametrize("size", [2, 3])
def test_boxes_are_items_of_another_size(planned: Planner, size: int) -> None:
    """If a piece is counted as two or three, for that part of its costs, the plan is the same."""
    before, after = planned(fast_sellers()), planned(
        [counted_in(it, size) for it in fast_sellers()]
    )
    assert after.warnings.str.contains(f"counted in boxes of {size}").all()
    assert not before.warnings.str.contains("boxes").any()
    assert_same(before, after, ITEMS, size)
    assert_same(before, after, [*MONEY, *SHARES])


@pytest.mark.parametrize("factor", [10, 0.1])
def test_money_is_counted_in_another_unit(planned: Planner, factor: float) -> None:
    """All amounts of money are so many times as large, and nothing else differs."""
    items = [*fast_sellers()[:1], *slow_sellers()]
    before = planned(items)
    after = planned(
        [scaled(it, ["setup", "holding", "backlog", "price"], factor) for it in items]
    )
    assert_same(before, after, MONEY, factor)
    assert_same(before, after, [*ITEMS, *SHARES])


def test_changes_that_do_not_matter(planned: Planner) -> None:
    """Order, split rows, and days for weeks change no decision, and names no figure of theory."""
    items = slow_sellers()
    before = planned(items)
    for other in (
        planned(items, seed=3),
        planned(items[::-1], seed=4),
        planned(items, is_split=True),
    ):
        pd.testing.assert_frame_equal(before, other)
    units = {"items": dict.fromkeys(("holding", "backlog", "lead"), "day")}
    assert_same(before, planned(items, days=1, units=units), [*MONEY, *ITEMS, *SHARES])
    after = planned([it._replace(name=f"{it.name}-new") for it in items])
    assert_same(
        before,
        after,
        [it for it in (*MONEY, *ITEMS, *SHARES) if not it.startswith("run")],
    )
    assert list(before.run_saving) != list(after.run_saving)


def test_other_items_of_the_catalogue(planned: Planner) -> None:
    """Without learning, the plan of an item does not depend on what else is planned, but for its class by value."""
    items, by_value = slow_sellers(), ["class", "abc"]
    pd.testing.assert_frame_equal(
        *(
            planned(some, borrow="none")[:3].drop(columns=by_value)
            for some in (items, items[:3])
        )
    )


def test_fill_rates_on_a_coarse_lattice(planned: Planner) -> None:
    """A wanted fill rate is kept, and hardly more, by theory that counts one by one."""
    draw, items = np.random.default_rng(3), []
    for number, (mean, setup, lead, fill) in enumerate(
        [(300, 80, 2, 0.99), (120, 800, 2, 0.995), (400, 800, 1, 0.98)]
    ):
        counts = np.clip(draw.normal(mean, 0.45 * mean, WEEKS).round(), 0, None).astype(
            int
        )
        items.append(
            Item(
                f"C-{number}",
                counts,
                0 * counts,
                master(0.03, setup, None, fill, str(lead), (4 * mean, 9 * mean), 5),
            )
        )
    for item, row in zip(items, planned(items, fit="empirical").itertuples()):
        assert "in steps of" in row.warnings
        levels, wanted = (int(row.s_chosen), int(row.S_chosen)), item.master["fill"]
        scenario = crn.Scenario.of(
            item.counts,
            [int(item.master["lead (weeks)"])],
            setup=item.master["setup"],
            holding="0.03",
            backlog="0.9",
            today=levels,
        )
        theory, _ = theories_of(scenario)
        assert (
            theory.exact
            and wanted - 2e-5 <= theory.figures(*levels).fill <= wanted + 1e-4
        ), item.name
