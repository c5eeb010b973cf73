"""Tests the one look at all items of a plan: what is kept of it, and what it adds up."""
from __future__ import annotations

from collections import Counter
from pathlib import Path

from crnplan.plan.answer import COMPARED, Answer
from crnplan.plan.catalogue import planned_folder
from crnplan.plan.survey import Survey
from planner.tests.show.made_catalogue import made_folder


def test_what_is_kept(tmp_path: Path) -> None:
    """Of many items those with the greatest saving or loss are kept, without laws, in whatever order they come."""
    with planned_folder(made_folder(tmp_path / "plan", 40)) as folder:
        found, pairs = Survey.of(folder, 4), [*folder.answers()]
        totals, backward = found.totals, Survey(folder, 4)
        assert [*backward.seen(reversed(pairs))] == pairs[::-1]
    compared = [
        (item, answer)
        for item, answer in pairs
        if isinstance(answer, Answer) and answer.verdict in COMPARED
    ]
    sizes = sorted((abs(answer.saving or 0.0) for _, answer in compared), reverse=True)
    for greatest in (found.greatest, backward.greatest):
        kept = [answer for _, answer in greatest if isinstance(answer, Answer)]
        assert [abs(answer.saving or 0.0) for answer in kept] == sizes[:4]
        assert not any(answer.laws.demand.values for answer in kept)
    assert {name: its.compared for name, its in found.classes.items()} == Counter(
        item.category for item, _ in compared
    )
    assert totals.compared == len(compared)
