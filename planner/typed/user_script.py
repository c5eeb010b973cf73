"""A script as a user writes it, by which mypy says the type of each public result. It is checked, and never run."""
from __future__ import annotations

from pathlib import Path
from typing import assert_type

import pandas as pd

import crnplan as crn
from crnplan.curve.exchange_curve import ExchangeCurve
from crnplan.decide.verdicts import Decision
from crnplan.plan.totals import Totals
from crnplan.planned import ItemFigures
from crnplan.drawing.pictures import Picture
from crnplan.theory.suggestions import ByTheory, Suggestions

Frame = pd.DataFrame


def catalogue(sales: Frame, masters: Frame) -> None:
    """Plans a catalogue."""
    words, settings = crn.Reading(every="week"), crn.Settings(level=0.9, seed=7)
    assert_type(words, crn.Reading)
    assert_type(settings, crn.Settings)
    assert_type(crn.read_config("crnplan.toml"), tuple[crn.Reading, crn.Settings])
    plan = crn.plan(sales, masters, out="plan", reading=words, settings=settings)
    assert_type(crn.plan(sales, masters, level=0.9, progress=True), crn.Plan)
    assert_type(plan, crn.Plan)
    assert_type(plan.decisions, Frame)
    assert_type(plan.frame, Frame)
    assert_type(plan.rejects, Frame)
    assert_type(plan.controls, Frame)
    assert_type(plan.changes, Frame)
    assert_type(plan.levels, Frame)
    assert_type(plan.lateness, Frame)
    assert_type(plan.totals, Totals)
    assert_type(plan.totals["saving"], float)
    assert_type(plan.totals.frame, Frame)
    assert_type(plan.text, str)
    assert_type(plan.plot(), Picture)
    assert_type(plan.report(["A", 1]), Path)
    assert_type(crn.open_plan("plan"), crn.Plan)
    assert_type(crn.report("plan"), Path)
    read = crn.read_catalogue(sales, masters, every="month")
    assert_type(read, crn.Catalogue)
    assert_type(read.rejects, Frame)
    assert_type(read.said, list[str])


def orders(plan: crn.Plan, stock: Frame) -> None:
    """Asks a plan for today's orders, and for a curve."""
    today = plan.orders_today(stock, supplier_min={"Bosch": 100})
    assert_type(today, crn.OrdersToday)
    assert_type(today.frame, Frame)
    assert_type(today.lines, Frame)
    assert_type(today.text, str)
    assert_type(plan.curve(fill=0.97), ExchangeCurve)
    assert_type(plan.curve().policies, Frame)
    assert_type(plan.curve().plot(), Picture)
    assert_type(crn.exchange_curve("plan", orders=3.5), ExchangeCurve)


def item(plan: crn.Plan) -> None:
    """Asks for one item."""
    planned = plan.item(4711)
    assert_type(planned, crn.PlannedItem)
    assert_type(planned.scenario, crn.Scenario)
    assert_type(planned.doubt(), ItemFigures)
    assert_type(planned.page, str)


def past(sales: Frame, masters: Frame) -> None:
    """Tests plans on the past."""
    tests = crn.backtest(sales, masters, record=52)
    assert_type(tests, crn.Backtests)
    assert_type(tests.frame, Frame)
    assert_type(tests.sums, Frame)
    assert_type(tests.verdict, str)
    assert_type(tests.plot(), Picture)


def laws() -> None:
    """Fits laws to histories."""
    history = [0, 3, 1]
    assert_type(crn.fit_demand(history), crn.FittedLaw)
    assert_type(crn.fit_lead([1, 2]), crn.FittedLaw)
    assert_type(crn.check_history(history), crn.Checks)
    assert_type(crn.check_history(history).text, str)
    assert_type(crn.check_history(history).frame, Frame)
    assert_type(crn.learn([[1, 2], [0, 3]]), crn.Prior)
    assert_type(crn.learn([[1, 2], [0, 3]]).frame, Frame)
    assert_type(crn.Law.of({0: 1, 3: 1}), crn.Law)
    assert_type(crn.Law.of({0: 1, 3: 1}).frame, Frame)


def decisions(law: crn.Law) -> None:
    """Compares policies of a scenario."""
    scenario = crn.Scenario.of(law, [2], setup=12.5, holding="0.10", backlog=2)
    assert_type(scenario, crn.Scenario)
    assert_type(scenario.changed(backlog=2.5), crn.Scenario)
    assert_type(scenario.suggest(), Suggestions)
    assert_type(scenario.suggest().best, crn.Policy)
    assert_type(scenario.theory([(3, 9)]), ByTheory)
    report = scenario.run(scenario.suggest().frame)
    assert_type(report, crn.Report)
    assert_type(report.frame, Frame)
    assert_type(report.decide(), Decision)
    assert_type(scenario.long_run([(3, 9)], keys=8), crn.LongRunReport)
    assert_type(crn.find_program(), Path)
