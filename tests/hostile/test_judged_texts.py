"""Changed texts with a judge: what the program says of each is what a second reader says."""
from __future__ import annotations

import collections
from collections.abc import Callable
from pathlib import Path
from random import Random

import pytest
from hypothesis import assume, given, settings
from hypothesis import strategies as st

from tests.hostile import changed, document_edges, range_ends
from tests.hostile.judged import (
    CUTS,
    SCENARIOS,
    Case,
    Cut,
    cut_of,
    file_case,
    file_cases,
    rules_of,
    scenario_case,
    schedule_case,
)
from tests.hostile.known import CheckAll
from tests.hostile.second_reader import is_for_both
from tests.stored import stored

EDGES = {
    "marks": document_edges.mark_texts,
    "encodings": document_edges.encoded_texts,
    "numbers": document_edges.number_texts,
    "levels": document_edges.level_texts,
}
CHANCE, SEEDS = st.randoms(use_true_random=False), st.integers(0, 2**32)


@pytest.fixture
def judge_all(
    program: Path, room: Path, record_property: Callable[[str, object], None]
) -> Callable[..., None]:
    """Returns a function that judges so many cases of a kind of text, which a strategy draws.

    Together they want each answer that there is to texts of that kind, if the same cases are drawn on each run.
    """

    def judge(kind: str, count: int, cases: st.SearchStrategy[Case]) -> None:
        met: collections.Counter[str] = collections.Counter()

        @settings(max_examples=count)
        @given(cases)
        def is_answered(case: Case) -> None:
            met[case.rule] += 1
            assert case.verdict(program, room) is True

        is_answered()
        record_property("cases", met.total())
        assert not settings().derandomize or sorted(rules_of(kind) - met.keys()) == []

    return judge


@st.composite
def scenario_cases(draw: st.DrawFn) -> Case:
    """Draws a scenario whose tree or bytes are changed."""
    chance = draw(CHANCE)
    text = changed.changed_scenario(chance, draw(SEEDS), SCENARIOS)
    assume(is_for_both(text))
    return scenario_case(chance, text)


def test_changed_scenarios(judge_all: Callable[..., None]) -> None:
    """A scenario whose tree or bytes are changed."""
    judge_all("scenario", 1000, scenario_cases())


def test_changed_checkpoints(judge_all: Callable[..., None], program: Path) -> None:
    """A checkpoint whose bytes are changed, beside a scenario that sometimes is."""
    cuts = [
        cut_of(program, text, block)
        for text, blocks in CUTS.values()
        for block in blocks
    ]
    judge_all("checkpoint", 700, CHANCE.map(lambda chance: file_case(chance, cuts)))


def test_changed_schedules(judge_all: Callable[..., None]) -> None:
    """A schedule with lines of another form."""
    judge_all("schedule", 300, CHANCE.map(schedule_case))


@pytest.mark.parametrize("texts", EDGES)
def test_edges_of_documents(
    program: Path, room: Path, check_all: CheckAll, texts: str
) -> None:
    """A text at the edge of what is a document."""
    chance = Random(0)
    check_all(
        (name, scenario_case(chance, text).verdict(program, room))
        for name, text in EDGES[texts]()
    )


def test_ends_of_scenarios(program: Path, room: Path, check_all: CheckAll) -> None:
    """A scenario with a number at an end of its range, or just beyond."""
    chance = Random(0)
    texts = (changed.document(chance, tree) for tree in range_ends.scenario_ends())
    check_all(
        (repr(text), scenario_case(chance, text).verdict(program, room))
        for text in texts
    )


def test_damaged_scenarios(program: Path, room: Path, check_all: CheckAll) -> None:
    """Each proper prefix of a scenario, and the scenario with each byte set to `0`."""
    chance = Random(0)
    texts = range_ends.damaged(stored("examples/two_policies.toml"))
    check_all(
        (repr(text), scenario_case(chance, text).verdict(program, room))
        for text in texts
    )


ENDED = [("long_leads", 1), ("long_leads", 8), ("with_returns", 1), ("with_returns", 5)]


@pytest.mark.parametrize("name, block", ENDED)
def test_ends_of_checkpoints(
    program: Path, room: Path, check_all: CheckAll, name: str, block: int
) -> None:
    """A checkpoint with a number at an end of its range, or just beyond."""
    cut = cut_of(program, CUTS[name][0], block)
    cases = (
        case
        for checkpoint in range_ends.checkpoint_ends(cut.checkpoint)
        for case in file_cases(cut, checkpoint)
    )
    check_all((repr(case.file), case.verdict(program, room)) for case in cases)
