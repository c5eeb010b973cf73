"""Tests by which law an item is planned: from whom it learns, its policy alone, and confidence in a fill rate."""
from __future__ import annotations

import contextlib
import hashlib
from collections.abc import Iterator
from dataclasses import replace
from fractions import Fraction
from pathlib import Path
from typing import Any
from unittest.mock import Mock

import numpy as np
import pytest

import crnplan as crn
from crnplan.demand.borrowing import law_of
from crnplan.demand.learning import Prior
from crnplan.store.files import own_folder
from crnplan.plan.answer import Answer
from crnplan.plan import learned
from crnplan.plan.catalogue import take_prior
from crnplan.plan.learned import (
    PRIOR,
    PRIOR_SEASONS,
    drawn_of_groups,
    learned_of,
    learners,
)
from crnplan.plan.choice import allowed_by
from crnplan.plan.one import plan_one
from crnplan.plan.how import ALL, CLASS, NONE, Settings
from crnplan.plan.question import Question, question_of
from crnplan.read.catalogue_reading import (
    ADD_ITEM,
    CATALOGUE as FOLDER,
    Catalogued,
    Writer,
)
from crnplan.read.item import Item
from crnplan.read.parts import ITEM
from crnplan.store.stored import Store
from crnplan.theory.long_run import NO_POLICY
from crnplan.theory.many_laws import Promises
from crnplan.sentences import sentence
from planner.tests.plan.items import SHORT
from planner.tests.theory.long_run_costs import fills_of, shortfall_of

WEEKS, ITEMS = 40, 120
Facts = dict[str, Any]


def item_of(place: int, **changed: Any) -> Item:
    """Returns an item with a few demands, of which those of class Y are large."""
    source = np.random.default_rng(place)
    asked = source.random(WEEKS) < source.uniform(0.05, 0.4)
    counts = np.where(asked, (1, 6)[place % 2] + source.poisson(1, WEEKS), 0)
    counts[place % WEEKS] = 1
    facts: Facts = {
        "name": f"I-{place:03}",
        "counts": tuple(counts.tolist()),
        "leads": (2,),
        "levels": (3, 12),
        "setup": Fraction(40),
        "holding": Fraction(1, 2),
        "backlog": Fraction(9),
        "group": "XY"[place % 2],
    }
    return Item(**facts | changed)


CATALOGUE = {item.name: item for item in map(item_of, range(ITEMS))}
FILL: Facts = {"fill": Fraction(19, 20), "backlog": None}


@pytest.fixture(scope="module")
def prior() -> Prior:
    """Returns what is learned from all items, and from each class."""
    return crn.learn(
        {name: item.counts for name, item in CATALOGUE.items()},
        {name: item.group for name, item in CATALOGUE.items()},
        "class",
    )


@pytest.fixture
def read(tmp_path: Path, request: pytest.FixtureRequest) -> Iterator[Catalogued]:
    """Returns a catalogue of so many items, the masters of some of which say from whom they learn."""
    count, said = request.param
    with own_folder(tmp_path / "read", FOLDER) as folder:
        writer = Writer(folder)
        writer.add_rows(
            ADD_ITEM,
            (
                ITEM.cells(replace(item, borrow=said.get(name, "")))
                for name, item in [*CATALOGUE.items()][:count]
            ),
        )
        found = Catalogued(writer.finish({}))
    yield found
    found.close()


@pytest.fixture
def answers(tmp_path: Path) -> Iterator[Store[Answer]]:
    store = Store(tmp_path / "answers", Answer)
    yield store
    store.close()


def answered(
    item: Item,
    prior: Prior,
    program: Path,
    borrow: str = ALL,
    confidence: float | None = None,
) -> Answer:
    return plan_one(
        question_of(
            item, Settings(borrow=borrow, confidence=confidence, **SHORT), prior
        ),
        str(program),
    )


def alone_and_chosen(answer: Answer) -> tuple[tuple[int, int], tuple[int, int]]:
    """Returns s and S that the item would get alone, and the chosen ones."""
    assert answer.alone is not None
    return (answer.alone.point, answer.alone.level), (
        answer.chosen.point,
        answer.chosen.level,
    )


@pytest.mark.parametrize("name", ["I-004", "I-009"])
@pytest.mark.parametrize("costs", [{}, FILL, {"leads": (1, 4, 2)}], ids=str)
def test_alone_is_the_plan_that_borrows_nothing(
    prior: Prior, program: Path, name: str, costs: Facts
) -> None:
    """Has beside the chosen policy that of a plan without borrowing, with its cost and fill under the learned law."""
    item = replace(CATALOGUE[name], **costs)
    single, learned = answered(item, Prior(NONE), program, NONE), answered(
        item, prior, program
    )
    assert (
        learned.law.family == "borrowed"
        and single.law.family != "borrowed"
        and learned.alone
    )
    assert (
        alone_and_chosen(learned)[0]
        == alone_and_chosen(single)[0]
        == alone_and_chosen(single)[1]
    )
    assert single.alone == single.chosen
    (point, level), its = alone_and_chosen(learned)[0], learned.alone
    scenario = question_of(item, Settings(borrow=ALL, **SHORT), prior).scenario()
    fills = fills_of(
        scenario, shortfall_of(scenario, level - point), np.arange(level + 1)
    )
    assert its.fill == pytest.approx(float(fills[level]), abs=1e-6)
    assert costs.get("fill") or its.cost >= learned.chosen.cost * (1 - 1e-9)


@pytest.mark.parametrize(
    "usual, said, source",
    [
        (ALL, "", ALL),
        (ALL, "class", "X"),
        (CLASS, "", "X"),
        (CLASS, "all", ALL),
        (NONE, "class", "X"),
        (NONE, "", NONE),
        (ALL, "none", NONE),
        (CLASS, "none", NONE),
    ],
)
def test_masters_say_from_whom_an_item_learns(
    prior: Prior, usual: str, said: str, source: str
) -> None:
    """Gives an item the law that its master says, else that which the command says."""
    item = replace(CATALOGUE["I-004"], borrow=said)
    laws = {
        ALL: law_of(prior, item.counts),
        "X": law_of(prior, item.counts, "X"),
        NONE: crn.fit_demand(item.counts),
    }
    law = question_of(item, Settings(borrow=usual), prior).demand.table
    assert [name for name, other in laws.items() if other.table == law] == [source]


@pytest.mark.parametrize(
    "read, asked, learned, usual",
    [
        ((ITEMS, {}), None, ALL, ALL),
        ((ITEMS, {"I-001": "none"}), None, ALL, ALL),
        ((ITEMS, {"I-001": "class"}), None, CLASS, ALL),
        ((ITEMS, {}), CLASS, CLASS, CLASS),
        ((ITEMS, {}), NONE, NONE, NONE),
        ((ITEMS, {"I-001": "none"}), NONE, NONE, NONE),
        ((ITEMS, {"I-001": "all"}), NONE, ALL, NONE),
        ((40, {}), None, NONE, NONE),
        ((40, {}), ALL, ALL, ALL),
        ((40, {"I-001": "all"}), None, ALL, NONE),
    ],
    indirect=["read"],
)
def test_what_is_learned(
    read: Catalogued,
    answers: Store[Answer],
    asked: str | None,
    learned: str,
    usual: str,
) -> None:
    """Learns by default from 100 items, and on request of the command or of a master; says which items differ."""
    found = learned_of(answers, read, Settings(borrow=asked), False)
    assert (found.prior.borrow, found.usual) == (learned, usual)
    codes = {it.code: it.facts for it in found.remarks}
    differs = any(item.borrow not in ("", usual) for item in read.items())
    assert (codes.get("masters say otherwise") == {"items": 1}) == (
        differs and learned != NONE
    )
    assert ("own laws" in codes) == (usual == NONE)


@pytest.mark.parametrize("read", [(ITEMS, {})], indirect=True)
def test_what_was_learned_is_kept(read: Catalogued, answers: Store[Answer]) -> None:
    """Takes what was learned before, unless it is to be learned again or too few items were within the grid."""
    for again, earlier in ((False, False), (False, True), (True, False)):
        found = learned_of(answers, read, Settings(), again)
        assert [it.facts for it in found.remarks] == [
            {"items": ITEMS, "classes": 0}
        ] and found.is_kept == earlier
    answers.keep_facts({PRIOR: replace(found.prior, outside=ITEMS - 99).text})
    assert not learned_of(answers, read, Settings(), False).is_kept


@pytest.mark.parametrize("most", [1, 3, 200])
def test_of_each_class_as_many_are_drawn(most: int) -> None:
    """Draws of each class the names with the least digests."""
    pairs = [(f"I-{place:03}", "XYZ"[place % 7 % 3]) for place in range(200)]
    wanted = [
        sorted(
            (name for name, group in pairs if group == its),
            key=lambda name: hashlib.sha256(name.encode()).hexdigest(),
        )[:most]
        for its in "XYZ"
    ]
    assert drawn_of_groups(pairs, most) == sorted(sum(wanted, []))


@pytest.mark.parametrize(
    "pulled, of_classes, by_class",
    [
        (9, 99, [49, 49]),
        (48, 99, [49, 49]),
        (54, 99, [55, 55]),
        (70, 99, [60, 59]),
        (9, 118, [59, 59]),
        (9, 119, [60, 59]),
        (9, 3, [10, 10]),
    ],
)
@pytest.mark.parametrize("read", [(ITEMS - 1, {})], indirect=True)
def test_of_many_items_some_teach(
    read: Catalogued,
    monkeypatch: pytest.MonkeyPatch,
    pulled: int,
    of_classes: int,
    by_class: list[int],
) -> None:
    """From all learn as many as are asked for in all, and of each class as many: a share of these, but one more than
    those that learn from other classes at least; and all, if no more are there than are asked for.
    """
    for name, most in {
        "MOST_PULLED": pulled,
        "MOST_OF_CLASSES": of_classes,
        "MOST_READ": 70,
    }.items():
        monkeypatch.setattr(learned, name, most)
    assert len({item.name for item in learners(read, False)}) == 70
    assert [
        sum(item.group == its for item in learners(read, True)) for its in "XY"
    ] == by_class


@pytest.mark.parametrize("again", [False, True])
@pytest.mark.parametrize("read", [(40, {})], indirect=True)
def test_an_earlier_plan_has_taught(
    read: Catalogued, answers: Store[Answer], prior: Prior, tmp_path: Path, again: bool
) -> None:
    """A plan after an earlier one has what more items learned there, unless it is to be learned again."""
    with contextlib.closing(Store(tmp_path / "earlier", Answer)) as earlier:
        earlier.keep_facts({PRIOR: prior.text, PRIOR_SEASONS: "null"})
        take_prior(answers, Mock(store=earlier), again)
    found = learned_of(answers, read, Settings(borrow=CLASS), again)
    assert (found.remarks[0].facts["items"], found.is_kept) == (
        (40, False) if again else (ITEMS, True)
    )


@pytest.mark.parametrize("read", [(20, {"I-001": "all"})], indirect=True)
def test_few_items_teach_nothing(read: Catalogued, answers: Store[Answer]) -> None:
    with pytest.raises(crn.Refused, match="there are 20 items to learn from"):
        learned_of(answers, read, Settings(), False)


def kept_under(item: Item, settings: Settings, prior: Prior, answer: Answer) -> float:
    """Returns under which share of the laws that a history allows a policy keeps the wanted fill rate."""
    question, gap = (
        question_of(item, settings, prior),
        answer.chosen.level - answer.chosen.point,
    )
    laws = allowed_by(question)
    assert item.fill is not None and len(laws) == 100
    leads = {lead for _, lead in laws}
    assert (len(leads) > 1) == (len(item.leads) > 1)
    fills = []
    for law, lead in laws:
        scenario = crn.Scenario.of(
            law, lead, setup=1, holding=1, backlog=1, today=(0, 1)
        )
        fills.append(
            fills_of(
                scenario,
                shortfall_of(scenario, gap),
                np.arange(answer.chosen.level + 1),
            )[-1]
        )
    return float(np.mean(np.array(fills) >= float(item.fill) - 1e-9))


def test_allowed_laws_are_round_the_law_of_the_item(prior: Prior) -> None:
    """Their mean is that of the item's law. They are others for each item and seed."""
    means: dict[tuple[str, str, str], float] = {}
    for name, way, seed in (
        ("I-006", NONE, "a"),
        ("I-006", ALL, "a"),
        ("I-006", CLASS, "a"),
        ("I-006", ALL, "b"),
        ("I-008", ALL, "a"),
    ):
        settings = Settings(borrow=way, seed=seed)
        question = question_of(CATALOGUE[name], settings, prior)
        laws = allowed_by(question)
        means[name, way, seed] = float(np.mean([float(it.mean) for it, _ in laws]))
        assert means[name, way, seed] == pytest.approx(
            float(question.demand.table.mean), rel=0.15
        )
        assert {lead for _, lead in laws} == {question.lead.table}
    assert len({*means.values()}) == len(means)


@pytest.mark.parametrize("way, leads", [(NONE, (1, 2)), (ALL, (2,))])
def test_confidence(
    prior: Prior, program: Path, way: str, leads: tuple[int, ...]
) -> None:
    """Keeps a wanted fill rate under 80% of the laws that the history allows, and says what this costs."""
    item = replace(CATALOGUE["I-006"], fill=Fraction(9, 10), backlog=None, leads=leads)
    plain, sure = (
        answered(item, prior, program, way, confidence) for confidence in (None, 0.8)
    )
    settings = Settings(borrow=way, confidence=0.8, **SHORT)
    assert (
        kept_under(item, settings, prior, sure)
        >= 0.8
        > kept_under(item, settings, prior, plain)
    )
    price = sure.chosen.cost - plain.chosen.cost
    assert (
        sure.confidence_cost == pytest.approx(price)
        and price > 0
        and plain.confidence_cost is None
    )


def test_what_changes_a_policy(prior: Prior, program: Path) -> None:
    item = CATALOGUE["I-004"]
    assert answered(item, prior, program, ALL, 0.8) == answered(item, prior, program)
    given = (
        alone_and_chosen(answered(item, prior, program))
        for item in [*CATALOGUE.values()][:4]
    )
    assert sum(single != chosen for single, chosen in given) >= 2


def test_a_promise_that_no_policy_keeps(
    program: Path, monkeypatch: pytest.MonkeyPatch
) -> None:
    """Plans an item by its own law, and says so, if no policy keeps its fill rate under enough laws."""
    monkeypatch.setattr(Promises, "cheapest", lambda *_: NO_POLICY)
    item = replace(CATALOGUE["I-006"], fill=Fraction(9, 10), backlog=None)
    plain, sure = (
        answered(item, Prior(NONE), program, NONE, confidence)
        for confidence in (None, 0.8)
    )
    assert sure.chosen == plain.chosen and sure.confidence_cost == 0
    (remark,) = (it for it in sure.remarks if it not in plain.remarks)
    assert sentence(remark) == (
        "its fill rate holds for its own law: no policy keeps it under 80% of the laws that "
        "its history allows"
    )


def test_an_item_without_a_policy_alone(
    prior: Prior, program: Path, monkeypatch: pytest.MonkeyPatch
) -> None:
    def refused(_: Question) -> Question:
        raise crn.Refused("no policy is best")

    monkeypatch.setattr(Question, "alone", refused)
    assert answered(CATALOGUE["I-004"], prior, program).alone is None


def test_items_with_one_demand_are_marked(prior: Prior, program: Path) -> None:
    """Says that the law of an item with one demand is nearly that of the catalogue, or hardly known."""
    item = replace(CATALOGUE["I-004"], counts=(*[0] * 30, 2, *[0] * 9))
    for way, said in ((ALL, "nearly that of the catalogue"), (NONE, "hardly known")):
        answer = answered(item, prior, program, way)
        assert f"demand in 1 period alone, so its law is {said}" in map(
            sentence, answer.remarks
        )
