"""Tests plans that aim at fill rates by the past: which policies they choose, what is said, and resuming."""
from __future__ import annotations

import dataclasses
import datetime
import math
import re
from collections.abc import Sequence
from fractions import Fraction
from pathlib import Path
from typing import Any

import numpy as np
import pytest

import crnplan as crn

from crnplan.demand.learning import Prior
from crnplan.plan.aims import Aims, Overruns
from crnplan.plan.answer import Answer
from crnplan.plan.catalogue import PlannedFolder, planned_folder
from crnplan.plan.one import plan_one
from crnplan.plan.correction import cost_trial_of
from crnplan.plan.how import NONE, Settings
from crnplan.plan.question import question_of
from crnplan.read.item import Item
from planner.tests.conftest import Command, shared
from planner.tests.planned_tables import whole_frame, whole_rows
from planner.tests.show.page_reader import Page
from planner.tests.plan.items import ALONE, QUICK as SETTINGS, write_tables

COUNT, ITEMS, WEEKS, START = 45, 34, 26, datetime.date(2026, 1, 5)  # a Monday
WANTED = {0: "0.95", 1: "0.95", 2: "0.9", 3: ""}
OWN = Settings(fit="empirical", borrow=NONE)
WORDS = "--set", "fit=empirical", "--set", "borrow=none"
FILES = "decisions.csv", "details.csv", "summary.txt", "report.html"


def write(folder: Path, items: int = ITEMS) -> list[Path]:
    """Writes the tables of items of which three quarters want a fill rate, the others have a backlog cost. Their weeks
    are too few for their large demands."""
    random, rows, masters = np.random.default_rng(1), [], []
    days = [START + datetime.timedelta(7 * week) for week in range(WEEKS)]
    for place in range(items):
        name, wanted = f"I-{place:02}", WANTED[place % 4]
        counts = 1 + random.negative_binomial(1, 1 / (2 + place % 7), WEEKS)
        rows += [(name, *row) for row in zip(days, counts.tolist())]
        masters.append((name, 9.25, 1, "" if wanted else 9, wanted, 2, 9, 30))
    columns = "item,setup,holding,backlog,fill,lead (weeks),s,S"
    return write_tables(folder, rows, masters, columns)


@pytest.fixture(scope="module")
def made(tmp_path_factory: pytest.TempPathFactory, program: Path) -> Path:
    """Returns a folder with the two tables and corrected plans in `plan`, which nobody changes."""
    words: Any = {**SETTINGS, "correct": True, "program": program}

    def make(room: Path) -> None:
        crn.plan(*write(room, COUNT), out=room / "plan", **words)

    return shared(tmp_path_factory, "correction", make)


def read(folder: Path) -> dict[str, bytes]:
    return {name: (folder / name).read_bytes() for name in FILES}


def answered(plan: PlannedFolder) -> dict[str, tuple[Item, Answer]]:
    """Returns the items of a planned folder with their answers."""
    return {
        item.name: (item, answer)
        for item, answer in plan.answers()
        if isinstance(answer, Answer)
    }


def test_plans_aim_by_the_past(made: Path, program: Path) -> None:
    """An item is planned as if it wanted the fill rate at which its class aims, with the stock of the plan for what it
    wants beside. One with a backlog cost alone is left as it is."""
    with planned_folder(made / "plan") as plan:
        aims, answers = plan.settings.aims, answered(plan)
    assert (
        aims
        and all(tried.items >= 15 for tried in aims.classes)
        and len(answers) == COUNT
    )
    for item, answer in [*answers.values()][:8]:
        wanted = None if item.fill is None else aims.aim(item.counts, float(item.fill))
        as_wanted, as_aimed = (
            plan_one(
                question_of(
                    dataclasses.replace(item, fill=fill),
                    dataclasses.replace(plan.settings, aims=None),
                ),
                str(program),
            )
            for fill in (item.fill, None if wanted is None else Fraction(wanted))
        )
        assert (answer.chosen, answer.verdict) == (as_aimed.chosen, as_aimed.verdict)
        if wanted is None:
            assert answer.correction is None
        else:
            assert answer.correction and answer.correction.aim == wanted > float(
                item.fill or 1
            )
            assert (
                answer.correction.plain_stock
                == as_wanted.chosen.stock
                < answer.chosen.stock
            )


def test_what_is_said(room: Path) -> None:
    """The table, the summary and the page say where plans aim, from how many items and periods, and its price."""
    rows = whole_rows(room / "plan").values()
    corrected = [row for row in rows if row["fill_aimed"]]
    assert len(corrected) == sum(row["fill_wanted"] != "" for row in rows) < len(rows)
    held = sum(float(row["stock_chosen"]) for row in corrected)
    with planned_folder(room / "plan") as planned:
        answers = [it for _, it in planned.answers() if isinstance(it, Answer)]
    plain = sum(it.correction.plain_stock for it in answers if it.correction)
    summary = (room / "plan/summary.txt").read_text("utf-8")
    said = re.search(
        r"past: (\d+) items, whose stock costs (.+) a week to hold, and (.+) without, by theory",
        summary,
    )
    assert said and [*map(float, said.groups())] == pytest.approx(
        [len(corrected), held, plain], abs=0.02
    )
    with planned_folder(room / "plan") as plan:
        aims = plan.settings.aims
    assert aims
    for wanted in (0.9, 0.95):
        for name, tried in zip(("slow", "fast"), aims.classes):
            aim = tried.aim(wanted)
            line = [name, str(tried.items), str(tried.items * WEEKS)]
            line += [f"{share:.2%}" for share in (wanted, aim, tried.met(aim))]
            assert line in [row.split() for row in summary.splitlines()]
    assert "Corrected fill rates" in Page(room / "plan/report.html").words


def test_promised_is_what_was_met_on_the_past(room: Path) -> None:
    """The aim of theory is none of the promise: the first screen of the page says both, and so does an item."""
    rows = whole_rows(room / "plan").values()
    corrected = [row for row in rows if row["fill_aimed"]]
    page = Page(room / "plan/report.html").words
    met = np.mean([float(row["fill_promised"]) for row in corrected])
    fill = np.mean([float(row["fill_chosen"]) for row in corrected])
    assert f"such plans met {met:.1%} of demand at once" in page
    assert f"mean of items, and {fill:.1%} by theory" in page
    with planned_folder(room / "plan") as plan:
        item, answer = plan.item("I-00")
    assert answer.correction
    said_of_item = f"It promises {answer.correction.met:.1%}, which such plans met"
    text = crn.open_plan(room / "plan").item("I-00").text
    assert said_of_item in " ".join(text.split())


def plan_again(room: Path, out: str) -> list[Any]:
    """Returns the words that plan the tables of a room as its settings say."""
    settings = "[catalogue]\nperiods = 64\nreplications = 4\ncorrect = true\n"
    (room / "crnplan.toml").write_text(settings)
    common = ["--out", room / out, "--config", room / "crnplan.toml", *WORDS]
    return ["plan", room / "demand.csv", room / "items.csv", *common]


def test_same_bytes_whatever_the_workers(
    room: Path, crnplan: Command, program: Path
) -> None:
    """The command writes with two processes what Python does with one; run again, it plans and learns nothing."""
    words = [*plan_again(room, "other"), "--program", program, "--jobs"]
    told = crnplan(*words, "2")
    assert told.status == 0 and read(room / "other") == read(room / "plan")
    told = crnplan(*words, "1")
    assert told.status == 0 and " 0 items planned" in told.errors
    assert "trials" not in told.errors


def test_learned_again_on_request(room: Path, crnplan: Command, program: Path) -> None:
    """New rows change the plan of their item alone, until it is to be learned again. Then only its trial is new."""
    with (room / "demand.csv").open("a") as file:
        file.write(f"I-00,{START},500\n")
    words = [*plan_again(room, "plan"), "--program", program, "--jobs", "1"]
    words += ["--set", "far=keep"]
    before = aims_in(room)
    told = crnplan(*words)
    assert " 1 items planned" in told.errors and aims_in(room) == before
    told = crnplan(*words, "--learn-again")
    assert f" {COUNT} items planned" in told.errors and aims_in(room) != before
    rows = whole_rows(room / "plan").values()
    wanted = sum(bool(row["fill_wanted"]) for row in rows)
    said = f"{wanted - 1} of {wanted} trials ({wanted - 1} kept)"
    assert said in told.errors


def aims_in(room: Path) -> Aims | None:
    with planned_folder(room / "plan") as plan:
        return plan.settings.aims


def test_few_items_are_refused(tmp_path: Path, program: Path) -> None:
    """It is if there are too few of both kinds; else the kind with too few is left as it is, and that is said."""
    said = "27 items with a wanted fill rate and 9 with a backlog cost can be tried on their past, and a correction needs 30"
    with pytest.raises(crn.Refused, match=said):
        crn.plan(*write(tmp_path, 36), correct=True, program=program, **SETTINGS)


def test_a_kind_with_few_items_is_left_as_it_is(made: Path) -> None:
    summary = (made / "plan/summary.txt").read_text("utf-8")
    said = "costs are promised by theory alone: 11 items with a backlog cost can be tried on their past, and that needs 30"
    assert said in summary and "costs promised by" not in summary
    rows = whole_rows(made / "plan").values()
    assert {row["cost_promised"] for row in rows} == {""}


def check_said(
    planned: crn.Plan, sums: Sequence[float], overruns: Overruns, costed: Item
) -> None:
    """Checks what the summary of a plan says of promised costs, and that of an item."""
    summary = planned.text
    said = re.search(r"past: 30 items .*, (.+) a week promised, (.+) by", summary)
    assert said and [*map(float, said.groups())] == pytest.approx(sums, abs=0.01)
    assert "fill rates are not corrected" not in summary
    for name, own in zip(("slow", "fast"), overruns.classes):
        line = [name, str(own.items), str(own.periods)]
        line += [f"{own.times - 1:.2%}", f"{own.error:.2%}"]
        assert line in [row.split() for row in summary.splitlines()]
    text = planned.item(costed.name).text
    times = overruns.of_item(costed.counts).times
    assert f"such plans cost {times:.2f} times what theory" in " ".join(text.split())


@pytest.mark.parametrize("fills", [True, False])
def test_costs_are_promised_by_the_past(
    fills: bool, tmp_path: Path, program: Path, monkeypatch: pytest.MonkeyPatch
) -> None:
    """The promise is what theory says times the factor of the class of the item, and stands beside that: in the table,
    the summary and on the page. Fill rates of other items are corrected too, if there are some.
    """
    for place, wanted in enumerate(("0.95", "", "0.9", "")):
        monkeypatch.setitem(WANTED, place, wanted if fills else "")
    tables = write(tmp_path, 60 if fills else 30)
    words: Any = {**SETTINGS, "correct": True, "program": program}
    planned = crn.plan(*tables, out=tmp_path / "plan", **words)
    with planned_folder(tmp_path / "plan") as plan:
        settings, answers = plan.settings, answered(plan)
    costed = [item for item, _ in answers.values() if item.backlog is not None]
    trials = [cost_trial_of(item, OWN, Prior(NONE)) for item in costed]
    assert settings.overruns == Overruns.of(trials) and len(trials) == 30
    assert (settings.aims is not None) is fills
    rows, sums = whole_frame(planned).set_index("item"), [0.0, 0.0]
    for item, answer in answers.values():
        row = rows.loc[item.name]
        if item.backlog is None:
            assert settings.aims and math.isnan(row.cost_promised)
            met = settings.aims.of_item(item.counts).met(row.fill_aimed)
            assert row.fill_promised == pytest.approx(met, abs=1e-5)
            continue
        times = settings.overruns.of_item(item.counts).times
        assert row.cost_promised == pytest.approx(answer.chosen.cost * times, abs=0.01)
        assert row.cost_chosen == pytest.approx(answer.chosen.cost, abs=0.01)
        assert math.isnan(row.fill_promised)
        sums[0] += answer.chosen.cost * times
        sums[1] += answer.chosen.cost
    check_said(planned, sums, settings.overruns, costed[0])
    page = Page(tmp_path / "plan/report.html").words
    assert "Promised costs" in page and ("Corrected fill rates" in page) is fills


def test_backtests_do_not_see_what_came(room: Path, crnplan: Command) -> None:
    """What was learned is from all periods, so a folder is tested as if nothing was: what its records alone say corrects
    plans of the test. The page of the plan has its line."""
    (room / "crnplan.toml").write_text("")
    walk = "--record 13 --every 13 --window 13 --jobs 1".split()
    told = crnplan("backtest", room / "plan", *walk)
    words = {**ALONE, "correct": True, "record": 13, "every": 13, "window": 13}
    plain = crn.backtest(room / "demand.csv", room / "items.csv", **words)
    assert told.output == plain.text
    crnplan("report", room / "plan")
    assert told.output.splitlines()[0] in Page(room / "plan/report.html").words
