"""Tests that an item has the same answer by itself, as a catalogue of one row, and beside others."""
from __future__ import annotations

import datetime
from collections.abc import Iterable
from pathlib import Path

import crnplan as crn
from crnplan.plan.answer import Answer
from crnplan.plan.catalogue import planned_folder
from crnplan.read.item import Item
from planner.tests.plan.items import START, WEEKS, several, tables_of

ITEMS = 20
LAST = START + datetime.timedelta(7 * WEEKS - 1)


def answers_of(items: Iterable[Item], program: Path) -> dict[str, object]:
    """Plans items as a catalogue, and returns their answers by name."""
    sales, masters = tables_of(items)
    words = {"jobs": 1, "program": program, "borrow": "none", "replications": 4}
    masters = masters.assign(stock=7)
    plan = crn.plan(sales, masters, start=START, end=LAST, **words)
    with planned_folder(plan.path) as planned:
        return {item.name: answer for item, answer in planned.answers()}


def test_items_have_the_same_answer(program: Path) -> None:
    """Each figure of the answer is the same: by theory, of the run, its key and what must be said."""
    items = [*several(ITEMS)]
    answers = answers_of(items, program)
    assert len(answers) == ITEMS
    assert len({it.verdict for it in answers.values() if isinstance(it, Answer)}) > 1
    for item in items:
        assert answers_of([item], program) == {item.name: answers[item.name]}
