"""Tests plans of items that meet a share of demand together: what they meet, what is said, refused and kept."""
from __future__ import annotations

import dataclasses
import itertools
import math
from fractions import Fraction
from pathlib import Path
from typing import Any

import numpy as np
import pandas as pd
import pytest

import crnplan as crn
from crnplan.demand.learning import Prior
from crnplan.plan import together as prices_of_groups
from crnplan.plan.answer import Answer, Share
from crnplan.plan.catalogue import planned_folder
from crnplan.plan.prices import REST, Price
from crnplan.plan.how import NONE
from crnplan.plan.together import Finding
from crnplan.plan.offers import offer_of
from planner.tests.catalogue.conftest import TABLES
from planner.tests.conftest import Command, cases_beside
from planner.tests.plan.items import QUICK as SETTINGS, item_of, tables_of
from planner.tests.planned_tables import whole_frame

REFUSED = cases_beside(__file__)["refused"]
COUNT, WANTED = 18, 0.9
BACKLOG = 2  # items that have a backlog cost


def made(unpriced: int = 0, count: int = COUNT) -> tuple[pd.DataFrame, pd.DataFrame]:
    """Returns demand and masters of items of two classes that want a fill rate, and of a third with backlog costs. Some
    have no price."""
    wants: dict[str, Any] = {"backlog": None, "fill": Fraction(19, 20)}
    items = [item_of(place, **wants) for place in range(count - BACKLOG)]
    items += [item_of(place) for place in range(count - BACKLOG, count)]
    sales, masters = tables_of(items)
    prices = np.round(10 * 1.5 ** (np.arange(count) % COUNT), 2).tolist()
    masters["price"] = [None] * unpriced + prices[unpriced:]
    masters["class"] = [*"ab" * ((count - BACKLOG) // 2), *"c" * BACKLOG]
    masters["holding"] = [round(0.02 * price, 4) for price in prices]
    return sales, masters


def planned(program: Path, unpriced: int = 0, **words: Any) -> crn.Plan:
    return crn.plan(*made(unpriced), program=program, **SETTINGS | words)


@pytest.fixture(scope="module")
def alone(program: Path) -> pd.DataFrame:
    """Returns the decisions of items that are planned one by one."""
    return whole_frame(planned(program)).set_index("item")


@pytest.fixture(scope="module")
def together(program: Path) -> crn.Plan:
    return planned(program, together=WANTED)


def met(plan: crn.Plan, group: str = "") -> float:
    """Returns the share of demand that the items of a class with a wanted share meet together, by their decisions."""
    rows = whole_frame(plan)[lambda row: row.fill_together.notna()]
    rows = rows[rows["class"].isin([group] if group else [*"ab"])]
    weights = rows.demand * rows.value_chosen / rows.stock_chosen
    return float(np.average(rows.fill_chosen, weights=weights))


def groups_of(plan: crn.Plan) -> dict[str, Price]:
    with planned_folder(plan.path) as folder:
        assert folder.settings.prices
        return dict(folder.settings.prices.groups)


def test_items_that_are_hardly_met(program: Path, together: crn.Plan) -> None:
    """The summary and the page count the items that meet less than half of what is wanted of all together."""
    wanted, words = 0.6, "Less than half of the share that is wanted of all together"
    plan = planned(program, together=wanted)
    fills = whole_frame(plan)[lambda row: row.fill_together.notna()].fill_chosen
    few = int((fills < wanted / 2).sum())
    assert few
    assert f"\n{words}" in plan.text
    for name in ("summary.txt", "report.html"):
        assert f"{words} is met of {few} item" in (plan.path / name).read_text()
        assert words not in (together.path / name).read_text()


def test_wanted_share_is_met(together: crn.Plan, alone: pd.DataFrame) -> None:
    """All items together meet the wanted share and hardly more, the price times what they leave unmet being least; those
    with a backlog cost are planned as by themselves."""
    (price,) = groups_of(together).values()
    assert WANTED <= met(together) == pytest.approx(price.promised, abs=1e-9)
    assert price.promised < WANTED + 0.01 and price.items == COUNT - BACKLOG
    own = whole_frame(together).set_index("item")
    names = own.index[own.fill_together.isna()]
    assert len(names) == BACKLOG
    pd.testing.assert_frame_equal(own.loc[names], alone.loc[names])
    assert own.fill_wanted.isna().sum() == COUNT
    assert own.fill_chosen.min() < WANTED < own.fill_chosen.max()


def test_no_price_below_meets_the_share(together: crn.Plan) -> None:
    """With a price that is 2% lower, all items together meet less than the wanted share."""
    (price,) = groups_of(together).values()
    asked, unmet = list[float](), list[float]()
    with planned_folder(together.path) as folder:
        less = {REST: (0.98 * price.price,)}
        on = dataclasses.replace(folder.settings, prices=None)
        for item in folder.read.items():
            if item.backlog is None:
                offer = offer_of(item, on, Prior(NONE), less)
                asked.append(offer.asked)
                unmet += offer.unmet
    assert 1 - math.fsum(unmet) / math.fsum(asked) < WANTED


def test_classes(program: Path, alone: pd.DataFrame) -> None:
    """Each class meets its own share by its own price; items of no stated class are planned by themselves."""
    both = planned(program, together={"a": 0.95, "": "85%"})
    prices = groups_of(both)
    assert prices.keys() == {"a", ""} and prices["a"].price > prices[""].price
    assert 0.95 <= met(both, group="a") < 0.96 and 0.85 <= met(both, group="b") < 0.88
    one = whole_frame(planned(program, together={"a": 0.95})).set_index("item")
    others = one["class"] != "a"
    pd.testing.assert_frame_equal(one[others], alone[others])
    own = whole_frame(both).set_index("item")
    pd.testing.assert_frame_equal(one[~others], own[~others])


def test_floor(program: Path, together: crn.Plan) -> None:
    """No item meets less, those that would have the cheapest policy with it, and others need meet less for that."""
    least = 0.88
    floored = planned(program, together=WANTED, at_least=least)
    rows, before = (whole_frame(plan).set_index("item") for plan in (floored, together))
    own = rows.fill_together.notna()
    assert rows[own].fill_chosen.min() >= least > before[own].fill_chosen.min()
    assert WANTED <= met(floored) < WANTED + 0.01
    with planned_folder(floored.path) as folder:
        answers = [answer for _, answer in folder.answers()]
        totals = folder.totals
    shares = [it.share for it in answers if isinstance(it, Answer) and it.share]
    count = sum(share.is_least for share in shares)
    assert totals.least == {"": count} and 0 < count < len(shares)
    said = floored.text.split("planned together")[1].splitlines()[3].split()
    assert said[:3] + said[6:7] == ["all", "16", "90.00%", str(count)]
    assert said[4] == f"{rows[own].fill_chosen.min():.2%}"
    assert said[5] == f"{rows[own].fill_chosen.max():.2%}"


def test_what_masters_do_not_say(program: Path, alone: pd.DataFrame) -> None:
    """A share that is wanted of all is met together, with a floor, by items whose rows say none; by each alone if that is
    said, or if none has a price."""
    sales, masters = made()
    masters = masters[:-BACKLOG]
    masters.loc[masters["class"] == "b", "fill"] = None
    words = {**SETTINGS, "program": program}
    plan = crn.plan(crn.read_catalogue(sales, masters, fill=0.95), **words)
    own, levels = whole_frame(plan), alone.S_chosen[:-BACKLOG].to_numpy()
    together = own["class"] == "b"
    assert (own.fill_together.notna() == together).all()
    assert 0.95 <= met(plan, "b") < 0.97 and own.fill_chosen.min() >= 0.85
    assert ((own.S_chosen == levels) | together).all()
    for items, alike in ((masters, True), (masters.assign(price=None), False)):
        each = whole_frame(crn.plan(sales, items, fill=0.95, alike=alike, **words))
        assert (each.S_chosen == levels).all()


def test_bounds_below_what_is_wanted_of_all(program: Path) -> None:
    """Items whose bounds leave less than what is wanted of all, each without a goal of its own, meet what they can."""
    sales, masters = made()
    read = crn.read_catalogue(sales, masters[:-BACKLOG].drop(columns="fill"), fill=0.99)
    words: dict[str, Any] = {**SETTINGS, "program": program, "max_coverage": 3}
    together, each = (
        whole_frame(crn.plan(read, alike=alike, **words)) for alike in (False, True)
    )
    assert met(crn.plan(read, **words)) < 0.99
    assert (each.fill_chosen < 0.99).sum() > len(each) // 2
    assert (together.S_chosen == each.S_chosen).all()


def test_items_without_a_price(program: Path, alone: pd.DataFrame) -> None:
    """They are planned by their own fill rates, and that is said of each and of all."""
    plan = planned(program, 3, together=WANTED)
    own = whole_frame(plan).set_index("item")
    left = own.index[:3]
    same = ["s_chosen", "S_chosen", "cost_chosen", "fill_wanted"]
    pd.testing.assert_frame_equal(own.loc[left, same], alone.loc[left, same])
    assert (own.loc[left].codes.str.contains("planned by itself")).all()
    assert "3 have no price and are planned by their own fill rates" in plan.text


def test_items_with_another_goal(program: Path, alone: pd.DataFrame) -> None:
    """Items for which few periods are to end with a shortage, or with a backlog cost, are not planned together."""
    sales, masters = made()
    masters["no_shortage"] = [0.9] * 3 + [None] * (COUNT - 3)
    masters.loc[:2, "fill"] = None
    words = {**SETTINGS, "together": {"a": WANTED}, "program": program}
    plan = crn.plan(sales, masters, **words)
    own = whole_frame(plan).set_index("item")
    together = own.index[own.fill_together.notna()]
    expected = masters[masters["class"] == "a"]["item"][2:]
    assert [*together] == [*expected]
    others = crn.plan(sales, masters[3:], **words)
    assert groups_of(plan)["a"] == groups_of(others)["a"]


@pytest.mark.parametrize("name", REFUSED)
def test_what_is_refused(name: str, program: Path) -> None:
    case = REFUSED[name]
    with pytest.raises(crn.Refused) as why:
        planned(program, case.get("unpriced", 0), **case["words"])
    assert case["said"] in str(why.value)


def test_a_group_without_a_plan(program: Path, monkeypatch: pytest.MonkeyPatch) -> None:
    def refused(*_: Any) -> None:
        raise crn.Refused("it has no policy")

    monkeypatch.setattr(prices_of_groups, "offer_of", refused)
    with pytest.raises(crn.Refused, match="none of its items can be planned"):
        planned(program, together=WANTED)


def write(folder: Path) -> list[Path]:
    """Writes the tables without the wanted fill rates, and returns them."""
    folder.mkdir(exist_ok=True)
    sales, masters = made()
    tables = {"demand": sales, "items": masters.drop(columns="fill")}
    for kind, table in tables.items():
        table.to_csv(folder / f"{kind}.csv", index=False)
    return [folder / f"{kind}.csv" for kind in tables]


def read(folder: Path) -> dict[str, bytes]:
    return {name: (folder / name).read_bytes() for name in (*TABLES, "report.html")}


def test_same_bytes_by_two_processes(
    tmp_path: Path, crnplan: Command, program: Path
) -> None:
    """The command writes with two processes what Python does with one, by options or by crnplan.toml. Masters need not
    want a fill rate. Run again, nothing is planned."""
    files = write(tmp_path)
    crn.plan(
        *files, out=tmp_path / "python", together=WANTED, program=program, **SETTINGS
    )
    config = "[catalogue]\nfit = 'empirical'\nborrow = 'none'\nperiods = 64\nreplications = 4\n"
    words = ["plan", *files, "--program", program, "--jobs", 2, "--config"]
    for name, more, options in (
        ("options", "", ["--together", "90%"]),
        ("key", "together = '90%'\n", []),
        ("table", "together = {'' = 0.9}\n", []),
    ):
        (tmp_path / f"{name}.toml").write_text(config + more, "utf-8")
        own = [tmp_path / f"{name}.toml", "--out", tmp_path / name, *options]
        told = crnplan(*words, *own)
        assert told.status == 0, told.errors
        assert read(tmp_path / name) == read(tmp_path / "python")
    told = crnplan(*words, *own)
    assert " 0 items planned" in told.errors and "offers" not in told.errors


def test_price_is_kept(tmp_path: Path, program: Path) -> None:
    """A price stays, also in a plan after this one, until it is to be learned again. New prices of an item change its
    plan alone."""
    files = write(tmp_path)
    words: dict[str, Any] = {"together": WANTED, "program": program, **SETTINGS}
    first = crn.plan(*files, out=tmp_path / "plan", **words)
    prices = groups_of(first)
    masters = pd.read_csv(files[1])
    masters.loc[masters["item"] == "I-003", "price"] *= 3
    after = crn.plan(files[0], masters, after=first.path, **words)
    assert groups_of(after) == prices
    moved = after.changes.set_index("item")
    assert [*moved.index[moved.change == "moved"]] == ["I-003"]
    again = crn.plan(files[0], masters, after=first.path, learn_again=True, **words)
    assert groups_of(again) != prices
    reasons = itertools.chain.from_iterable(again.changes.why.str.split("; "))
    assert "what items learn from one another was learned anew" in {*reasons}


def test_curve_of_a_plan_together(program: Path, tmp_path: Path) -> None:
    """Its point of the plan is what the plan promises, and is not said to be chosen item by item."""
    sales, masters = made()
    masters = masters[masters["class"] != "c"]
    words = {**SETTINGS, "together": WANTED, "program": program}
    plan = crn.plan(sales, masters, out=tmp_path / "plan", **words)
    curve = plan.curve(jobs=1)
    point = curve.frame.set_index("point").loc["chosen"]
    (price,) = groups_of(plan).values()
    assert point.fill == pytest.approx(price.promised, abs=1e-6)
    assert "chosen together" in curve.text and "item by item" not in curve.text
    assert "chosen together" in plan.report().read_text("utf-8")


def test_page_of_an_item(together: crn.Plan) -> None:
    """It says what the item is planned for, and no fill rate that does not count."""
    own = together.item("I-003")
    assert "together they are to meet 90% of their demand at once" in own.page
    assert "fill rate of 95% is wanted" not in own.page
    with planned_folder(together.path) as folder:
        item, answer = folder.item("I-003")
    price = groups_of(together)[""].price
    weight = float(item.price or 0)
    assert answer.share == Share("", WANTED, weight, False, price * weight)


def test_a_change_is_judged_by_the_price(tmp_path: Path, program: Path) -> None:
    """Levels of an earlier plan stay if what they cost, with what is not met at once by the price, is hardly more; and
    their gain is said so, also in the table of changes."""
    files = write(tmp_path)
    words: dict[str, Any] = {"together": WANTED, "program": program, **SETTINGS}
    first = crn.plan(*files, out=tmp_path / "plan", **words)
    masters = pd.read_csv(files[1])
    masters["setup"] *= 1.3
    damped = crn.plan(files[0], masters, after=first.path, least_gain=0.02, **words)
    with planned_folder(damped.path) as folder:
        questions = {
            item.name: (folder.question(item), answer)
            for item, answer in folder.answers()
        }
    stays, gains = 0, dict[str, float]()
    for question, answer in questions.values():
        if not isinstance(answer, Answer) or answer.share is None or not answer.before:
            continue
        best = answer.undamped or answer.chosen
        before, after = (
            figures.cost
            + (question.price or 0) * float(question.demand.mean) * (1 - figures.fill)
            for figures in (answer.before, best)
        )
        gain = (before - after) / before
        assert gain >= -1e-9 and (answer.undamped is not None) == (1e-9 < gain < 0.02)
        stays += answer.undamped is not None
        told = [it.facts["share"] for it in answer.remarks if it.code == "damped"]
        assert told == pytest.approx([gain] * (answer.undamped is not None))
        gains[question.item.name] = before - after
    assert stays > 3
    told = damped.changes.set_index("item").gain
    assert told[[*gains]].to_numpy() == pytest.approx([*gains.values()], abs=0.006)
    assert max(gains.values()) > 0.05


def test_verdicts(program: Path) -> None:
    """A policy that meets more and costs more is more service; one that costs less is cheaper, whatever it meets."""
    sales, masters = made()
    masters["s"], masters["S"] = 1, 3
    plan = crn.plan(sales, masters, together=0.95, program=program, **SETTINGS)
    own = whole_frame(plan)[lambda row: row.fill_together.notna()]
    dearer = own.cost_chosen > own.cost_today
    assert dearer.any() and (own[dearer].fill_chosen > own[dearer].fill_today).all()
    assert {*own[dearer].verdict} == {"more service"}
    assert {*own[~dearer].verdict} <= {"cheaper"}


def test_learned_again_in_its_folder(tmp_path: Path, program: Path) -> None:
    """New rows of an item change its plan alone, until the price is to be learned again: then it is that of a new
    folder."""
    files = write(tmp_path)
    words: dict[str, Any] = {"together": WANTED, "program": program, **SETTINGS}
    first = groups_of(crn.plan(*files, out=tmp_path / "plan", **words))
    with files[0].open("a") as demand:
        demand.writelines(f"I-014,2024-02-{day:02},9,0\n" for day in range(1, 25))
    kept = crn.plan(*files, out=tmp_path / "plan", **words)
    assert groups_of(kept) == first
    again = crn.plan(*files, out=tmp_path / "plan", learn_again=True, **words)
    other = crn.plan(*files, out=tmp_path / "other", **words)
    assert groups_of(again) == groups_of(other) != first


def test_offers_are_kept(
    tmp_path: Path, program: Path, monkeypatch: pytest.MonkeyPatch
) -> None:
    """A run that was broken off before the price was found asks no item again."""
    files, calls = write(tmp_path), list[object]()
    words: dict[str, Any] = {"together": WANTED, "program": program, **SETTINGS}

    def broken_off(*known: object) -> Price:
        raise KeyboardInterrupt

    with monkeypatch.context() as patched, pytest.raises(KeyboardInterrupt):
        patched.setattr(Finding, "price_of", broken_off)
        crn.plan(*files, out=tmp_path / "plan", **words)
    monkeypatch.setitem(Finding.sums.__globals__, "offer_of", calls.append)
    plan = crn.plan(*files, out=tmp_path / "plan", **words)
    assert not calls and groups_of(plan)[REST].items == COUNT - BACKLOG
