"""Tests plans after an earlier plan: what is taken over, what has moved and why, what stays though another costs less."""
from __future__ import annotations

import contextlib
import dataclasses
import fcntl
import json
import math
from collections.abc import Mapping
from fractions import Fraction
from pathlib import Path

import pandas as pd
import pytest

import crnplan as crn
from crnplan.plan.after import CHANGES, PLAN, common_changes
from crnplan.plan.aims import Aims
from crnplan.plan.catalogue import planned_folder
from crnplan.plan.changes import Change, rows_of
from crnplan.plan.question import Levels
from crnplan.read.item import Item
from crnplan.remarks import Remark
from crnplan.store.stored import Store
from planner.tests.catalogue.months import (
    BEFORE,
    ITEMS,
    LEVELS,
    WEEKS,
    Month,
    day,
    of_frame,
)
from planner.tests.conftest import Command
from planner.tests.planned_tables import whole_frame
from planner.tests.show.page_reader import Page
from planner.tests.plan.items import item_of, stocks_of, unmet_of

FILES = "decisions.csv", "details.csv", "changes.csv", "summary.txt", "report.html"


def state(folder: Path) -> dict[str, tuple[bytes, int]]:
    """Returns the bytes of all files of a folder, and when they and the folder were changed last."""
    files = {
        path.name: (path.read_bytes(), path.stat().st_mtime_ns)
        for path in folder.rglob("*")
        if path.is_file()
    }
    return files | {"": (b"", folder.stat().st_mtime_ns)}


def test_nothing_has_changed(month: Month) -> None:
    """The same tables again: each item keeps its policy, nothing has moved, and the earlier folder is not touched."""
    before = state(month.before)
    again = month.plan(**month.until(BEFORE))
    assert state(month.before) == before
    earlier = crn.open_plan(month.before)
    pd.testing.assert_frame_equal(whole_frame(again), whole_frame(earlier))
    changes = again.changes
    assert (
        set(changes.change) == {"same"}
        and set(changes.why) == {""}
        and set(changes.gain) == {0.0}
    )
    assert changes.demand_since.isna().all() and len(changes) == ITEMS
    assert f"{ITEMS} same, 0 moved, 0 damped, 0 new, 0 gone" in again.text


def test_unchanged_items_are_not_planned(
    month: Month, tmp_path: Path, crnplan: Command, monkeypatch: pytest.MonkeyPatch
) -> None:
    """By the command, only the item whose master has changed is planned; the others are taken over."""
    monkeypatch.chdir(tmp_path)
    (tmp_path / "crnplan.toml").write_text(
        "[catalogue]\nfit = 'empirical'\nborrow = 'none'\nperiods = 64\n"
        "replications = 4\n",
        "utf-8",
    )
    words = month.until(BEFORE)
    masters = words["masters"].copy()
    masters.loc[3, "setup"] *= 10
    words["sales"].to_csv("demand.csv", index=False)
    masters.to_csv("items.csv", index=False)
    answer = crnplan(
        "plan",
        "demand.csv",
        "items.csv",
        "--set",
        f"to={words['end']}",
        "--after",
        month.before,
        "--out",
        "plan",
        "--jobs",
        1,
        "--program",
        words["program"],
    )
    assert (
        answer.status == 0
        and f"1 items planned, {ITEMS - 1} kept from before" in answer.errors
    )
    changes = of_frame(crn.open_plan("plan").changes)
    assert [*changes.index[changes.why != ""]] == ["I-003"]
    assert (
        changes.why["I-003"] == "setup 23 to 230" and changes.change["I-003"] == "moved"
    )


def test_levels_are_those_of_both_plans(month: Month) -> None:
    """Without damping, policies are those of a plan that knows of no earlier one, and before stand those of that."""
    after = whole_frame(month.planned())
    pd.testing.assert_frame_equal(after, whole_frame(crn.plan(**month.until(WEEKS))))
    old, new, changes = month.earlier, of_frame(after), month.changes()
    for table, when in ((old, "before"), (new, "after")):
        names = [f"s_{when}", f"S_{when}"]
        wanted = table.loc[changes.index, LEVELS]
        assert changes[names].to_numpy().tolist() == wanted.to_numpy().tolist()
    moved = (old[LEVELS] != new[LEVELS]).any(axis=1)
    kinds = moved.map({False: "same", True: "moved"})[changes.index]
    assert changes.change.tolist() == kinds.tolist() and {*kinds} == {"same", "moved"}


def test_reasons(month: Month) -> None:
    """New rows are counted, and each change of a master, an item that is new and one that is gone are named."""
    words = month.until(WEEKS)
    sales, masters = words["sales"].copy(), words["masters"].set_index("item")
    masters.loc["I-001", ["holding", "lead (weeks)"]] = 0.6, "2 2 4"
    masters.loc["I-004", ["s", "S", "class"]] = 1, 99, "c"
    masters.loc["I-012"] = masters.loc["I-000"]
    masters = masters.drop("I-005")
    sales = pd.concat([sales, sales[sales.item == "I-000"].assign(item="I-012")])
    sales.loc[sales.index[sales.item == "I-006"][0], "quantity"] += 7
    changes = of_frame(month.plan(sales=sales, masters=masters.reset_index()).changes)
    since = sales[sales.date >= pd.Timestamp(day(BEFORE))].groupby("item").quantity
    for name in ("I-000", "I-002", "I-003"):
        rows, amount = int(since.count().get(name, 0)), int(since.sum().get(name, 0))
        assert changes.why[name].startswith(
            f"8 new periods with {amount} item{'s' * (amount != 1)} in {rows} "
            f"row{'s' * (rows != 1)}; mean "
        )
    assert "holding 0.55 to 0.6; mean lead time 2 to 2.667" in changes.why["I-001"]
    assert "class a to c; today's policy is (1, 99)" in changes.why["I-004"]
    assert "1 earlier periods have other rows, +7 items" in changes.why["I-006"]
    assert changes.change["I-012"] == "new" and changes.change["I-005"] == "gone"
    assert changes.why["I-005"] == "there is no master of this item" and pd.isna(
        changes.s_after["I-005"]
    )


def test_an_item_that_the_earlier_plan_has_dropped(
    month: Month, tmp_path: Path
) -> None:
    """An answer that is left in the folder of the earlier plan, of an item that it no longer has, does not count."""
    words, changes = month.until(BEFORE), of_frame(month.plan(least_gain=0.9).changes)
    name = changes.index[changes.change == "damped"][0]
    crn.plan(out=tmp_path / "before", **words)
    crn.plan(
        out=tmp_path / "before",
        **{**words, "masters": month.masters[month.masters["item"] != name]},
    )
    row = of_frame(month.plan(after=tmp_path / "before", least_gain=0.9).changes).loc[
        name
    ]
    best = changes.loc[name]
    assert row.change == "new" and (row.s_after, row.S_after) == (
        best.s_best,
        best.S_best,
    )


def simulated(
    item: Item, levels: Levels, start: int, since: int
) -> tuple[float, float]:
    """Returns the mean cost and the share of demand met at once of the last periods, by a program of its own: for an
    item with one lead time and no returns."""
    (lead,), cost, asked = item.leads, Fraction(0), sum(item.counts[-since:])
    for order, end in [*stocks_of(levels, item.counts, lead, start)][-since:]:
        cost += item.setup * (order > 0) + item.holding * max(end, 0)
        cost += (item.backlog or 0) * max(-end, 0)
    unmet = sum(unmet_of(levels, item.counts, lead, start)[-since:])
    return float(cost / since), 1 - unmet / asked if asked else math.nan


def test_what_came_of_the_earlier_plan(month: Month, dozen: Mapping[str, Item]) -> None:
    """Cost and fill of the earlier policies on the weeks since are those of a second program, from some stock between
    s and S at the beginning; what they promised is what the earlier plan says."""
    old, since, tested = month.earlier, WEEKS - BEFORE, 0
    for name, row in month.changes().iterrows():
        item, (s, S) = dozen[str(name)], (int(row.s_before), int(row.S_before))
        assert row.demand_since == sum(item.counts[BEFORE:])
        assert row.promised_cost == pytest.approx(old.cost_chosen[name])
        assert row.promised_fill == old.fill_chosen[name]
        if len(item.leads) == 1 and not item.returns:
            came = [simulated(item, (s, S), start, since) for start in range(s, S + 1)]
            found = pytest.approx((row.cost_since, row.fill_since), nan_ok=True)
            assert any(one == found for one in came)
            tested += 1
    assert tested >= 6


def test_sums_and_page(month: Month, dozen: Mapping[str, Item], tmp_path: Path) -> None:
    """Summary and page have the sums of the table: kinds, gains, and what was promised and came, in which all items
    weigh alike but for costs. The page lists the items that move most."""
    plan = month.plan(out=tmp_path / "plan", least_gain=0.1)
    changes = of_frame(plan.changes)
    asked = changes.demand_since / [
        sum(dozen[str(name)].counts) / WEEKS for name in changes.index
    ]
    promised = (asked * changes.promised_fill).sum() / asked.sum()
    came = (asked * changes.fill_since.fillna(0)).sum() / asked.sum()
    dearer = changes.cost_since.sum() / changes.promised_cost.sum() - 1
    moved = changes[changes.change == "moved"].sort_values(
        "gain", key=abs, ascending=False
    )
    kinds = [
        f"{(changes.change == kind).sum()} {kind}"
        for kind in ("same", "moved", "damped", "new", "gone")
    ]
    page = Page(tmp_path / "plan/report.html")
    for line in (
        f"olicies since the earlier plan: {', '.join(kinds)} (changes.csv says why)",
        f"he moved policies change the cost of a week by {-moved.gain.sum():+.2f}, by the new laws",
        f"he earlier plan on the 8 weeks since: {100 * promised:.1f}% promised and {100 * came:.1f} ± ",
        f"met at once; it cost {100 * dearer:+.1f} ± ",
    ):
        assert line in plan.text and line in page.words
    shown = page.tables["The items that move most"][1:]
    assert [row[0] for row in shown] == [*moved.index]
    assert [row[1:3] for row in shown] == [
        [f"{row.s_before}, {row.S_before}", f"{row.s_after}, {row.S_after}"]
        for row in moved.itertuples()
    ]


def test_order_changes_nothing(month: Month, tmp_path: Path) -> None:
    """The order of rows, of items and the number of processes change no byte of what has changed."""
    words = month.until(WEEKS)
    mixed = {
        name: words[name].sample(frac=1, random_state=5).reset_index(drop=True)
        for name in ("sales", "masters")
    }
    month.plan(out=tmp_path / "one", least_gain=0.01)
    month.plan(out=tmp_path / "two", least_gain=0.01, **mixed, jobs=2)
    for name in FILES:
        assert (tmp_path / "one" / name).read_bytes() == (
            tmp_path / "two" / name
        ).read_bytes()


def test_planned_alone_again(month: Month, tmp_path: Path) -> None:
    """A folder that is planned again without an earlier plan has no changes any more."""
    month.plan(out=tmp_path / "plan")
    assert (tmp_path / "plan/changes.csv").is_file()
    alone_now = crn.plan(out=tmp_path / "plan", **month.until(WEEKS))
    assert not (tmp_path / "plan/changes.csv").exists() and alone_now.changes.empty
    assert "earlier plan" not in alone_now.text


@pytest.mark.parametrize(
    "old, new, reasons",
    [
        (
            item_of(counts=(1, 2, 3), first=5, rows=3),
            item_of(counts=(1, 2, 3, 4), first=5, rows=4),
            [Remark("new rows", {"periods": 1, "rows": 1, "items": 4})],
        ),
        (
            item_of(counts=(1, 2, 3), first=5, rows=3),
            item_of(counts=(2, 9, 4, 0), first=6, rows=3),
            [
                Remark("new rows", {"periods": 2, "rows": None, "items": 4}),
                Remark("changed rows", {"periods": 1, "items": 6}),
                Remark("other first period", {"periods": 1}),
            ],
        ),
        (
            item_of(counts=(1, 2, 3), first=5),
            item_of(counts=(1, 2, 3, 0), returns=(0, 0, 0, 1), first=5),
            [Remark("new rows", {"periods": 1, "rows": 0, "items": 0})],
        ),
        (
            item_of(counts=(1, 2, 3), first=5),
            item_of(counts=(1, 2, 3), returns=(0, 1, 0), first=5),
            [Remark("changed rows", {"periods": 1, "items": 0})],
        ),
        (
            item_of(counts=(1, 2, 3), first=5),
            item_of(counts=(7, 7), first=11),
            [
                Remark("new rows", {"periods": 2, "rows": None, "items": 14}),
                Remark("other first period", {"periods": 6}),
            ],
        ),
    ],
)
def test_rows_by_hand(old: Item, new: Item, reasons: list[Remark]) -> None:
    """The earlier record ends before period 8."""
    assert [*rows_of(old, new, 8)] == reasons


def test_least_gain_that_may_be_either(crnplan: Command) -> None:
    """A share is written with a percent sign, or as a decimal below 1."""
    answer = crnplan(
        "plan",
        "demand.csv",
        "items.csv",
        "--after",
        "one",
        "--out",
        "two",
        "--set",
        "least_gain=2",
    )
    assert (
        answer.status == 2
        and "--set least_gain: '2' may be 2% or 2 as a share; write 2% or"
        in answer.errors
    )


def test_what_is_refused(month: Month, tmp_path: Path) -> None:
    """The folder of the plan itself, one without a plan, one in use, a shorter record and a least gain alone."""
    before = state(month.before)
    with pytest.raises(crn.Refused, match="need folders of their own"):
        month.plan(out=month.before)
    with pytest.raises(crn.Refused, match="no plan is in it"):
        month.plan(after=tmp_path)
    with pytest.raises(crn.Refused, match="least_gain needs an earlier plan"):
        crn.plan(**month.until(WEEKS), least_gain=0.02)
    with pytest.raises(crn.Refused, match="its record ends 4 weeks after this one"):
        month.plan(**month.until(BEFORE - 4))
    with (month.before / "crnplan-folder.txt").open("r+") as marker:
        fcntl.flock(marker, fcntl.LOCK_EX)
        with pytest.raises(
            crn.Refused, match="another run of crnplan works in this folder"
        ):
            month.plan()
    assert state(month.before) == before


def test_other_periods_are_refused(month: Month) -> None:
    with pytest.raises(
        crn.Refused, match="its periods are weeks, and these are months"
    ):
        month.plan(
            every="month",
            least=10,
            units={"items": dict.fromkeys(("holding", "backlog", "lead"), "month")},
        )


def test_changes_of_another_plan(month: Month, tmp_path: Path) -> None:
    """What is kept of changes is not said of a plan that it is not of."""
    changed = month.plan(out=tmp_path / "plan")
    assert len(changed.changes) == ITEMS
    with contextlib.closing(Store(tmp_path / "plan" / CHANGES, Change)) as store:
        store.keep_facts({PLAN: "another"})
    with pytest.raises(
        crn.Refused, match="what has changed since the earlier plan is not known"
    ):
        crn.open_plan(tmp_path / "plan").changes


def test_what_has_changed_for_all_items(month: Month) -> None:
    """What was learned and what computes are named apart from settings."""
    with planned_folder(month.before) as folder:
        planned = folder.planned
    assert [*common_changes(planned, planned)] == []
    learned = dataclasses.replace(
        planned, settings=dataclasses.replace(planned.settings, aims=Aims(1.0, ()))
    )
    assert [remark.code for remark in common_changes(planned, learned)] == [
        "other learning"
    ]
    program = dataclasses.replace(
        planned, base=json.dumps(["another", *json.loads(planned.base)[1:]])
    )
    assert [remark.code for remark in common_changes(planned, program)] == [
        "other program"
    ]
