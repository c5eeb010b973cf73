"""Tests of what is learned from a catalogue, against scipy's laws, sums over all points, and a known catalogue."""
from __future__ import annotations

import itertools
import json
import math
import pickle
import tomllib
from functools import partial
from pathlib import Path
from typing import Any

import numpy as np
import pandas as pd
import pytest
from hypothesis import given, settings, strategies as st
from scipy import ndimage, special, stats

from crnplan.chances import Floats, add_times
from crnplan.demand import grid, learning
from crnplan.demand.borrowing import law_of
from crnplan.demand.grid import CellLikelihoods, chunks_of, marginal
from crnplan.demand.learning import GridPrior, Prior, learn
from crnplan.demand.sample import Sample
from crnplan.errors import Refused, RefusedFaults
from planner.tests.demand.made import (
    RARE,
    TRUE_MEAN,
    TRUE_SHARE,
    TRUE_SIZE,
    history,
    pulled,
)

CASES = tomllib.loads(Path(__file__).with_name("borrowing.toml").read_text("utf-8"))
ONE_STEP = partial(grid.estimated, steps=1, blur=0)
Histories = dict[str, list[int]]


def walked(prior: Floats, part: float) -> Floats:
    """Returns a prior after a random walk by one cell on each axis, which stays where it would leave the grid."""
    cells = prior.reshape(grid.SHAPE)
    for axis in range(3):
        cells = ndimage.correlate1d(cells, [part, 1 - 2 * part, part], axis)
    return np.asarray(cells.reshape(prior.shape))


def drawn_prior(seed: int, weight: float) -> Floats:
    """Returns a prior at random."""
    weights = np.full(grid.FLAT.size, weight)
    return np.random.default_rng(seed).dirichlet(weights).reshape(grid.FLAT.shape)


def test_learned_prior(mixed: Histories) -> None:
    """The prior is that of a hundred steps from the flat one, each blurred by 5%, with the flat prior as one item."""
    chunks, prior = chunks_of(Sample.of(it) for it in mixed.values()), grid.FLAT
    for _ in range(100):
        prior = walked(ONE_STEP(chunks, prior, grid.FLAT), 0.05)
    whole = learn(mixed).whole
    assert whole and np.allclose(whole.chances, prior, rtol=1e-5, atol=1e-9)
    gains = np.log10(marginal(chunks, prior) / marginal(chunks, grid.FLAT))
    assert whole.gain == pytest.approx(gains.mean(), abs=1e-5)


def test_histories_in_groups() -> None:
    """Histories with as many periods and demands share a row, and each has its own likelihoods."""
    numbers = [[0, 3, 1], [2, 0, 0, 7], [5, 0, 1], [0, 0, 0], [4, 0, 0, 1]]
    samples, prior = [Sample.of(it) for it in numbers], drawn_prior(3, 1)
    (cells,) = chunks_of(samples)
    assert cells.starts.tolist() == [0, 1, 3] and len(cells.shares) == 3
    assert cells.groups.tolist() == [0, 1, 1, 2, 2]
    expected, chances = np.zeros(prior.shape), cells.marginal(prior)
    for at, place in enumerate((3, 0, 2, 1, 4)):
        (alone,) = CellLikelihoods.of([samples[place]]).marginal(prior)
        assert chances[at] == pytest.approx(alone)
        expected += np.outer(cells.shares[cells.groups[at]], cells.sizes[at]) / alone
    assert np.allclose(cells.expected(prior), expected, rtol=1e-9, atol=0)


@pytest.mark.parametrize("way", ["__call__", "__wrapped__"])
def test_rows_are_added(way: str) -> None:
    total = np.array([1.0, 2.0, 3.0])
    getattr(add_times, way)(total, np.array([10.0, 0.0, -4.0]), 0.5)
    assert total.tolist() == [6.0, 2.0, 1.0]


def test_chunks(monkeypatch: pytest.MonkeyPatch, mixed: Histories) -> None:
    samples = [Sample.of(it) for it in mixed.values()]
    whole = chunks_of(samples)
    monkeypatch.setattr(grid, "CHUNK", 7)
    parts = chunks_of(samples)
    assert (len(whole), len(parts)) == (1, 19)
    prior = ONE_STEP(whole, grid.FLAT, grid.FLAT)
    assert np.allclose(ONE_STEP(parts, grid.FLAT, grid.FLAT), prior, rtol=1e-9, atol=0)
    assert marginal(parts, prior) == pytest.approx(marginal(whole, prior))


def test_known_law_is_learned(known: Prior) -> None:
    """The prior is near the law that all items have."""
    assert known.whole
    chances, demands = known.whole.chances, 400 * 100 * TRUE_SHARE
    shares, means = grid.SHARES.mean(axis=1), grid.SIZE_MEANS.mean(axis=1)
    error = math.sqrt(TRUE_SHARE * (1 - TRUE_SHARE) / 40_000)
    share = float(chances.sum(axis=1) @ shares)
    assert share == pytest.approx(TRUE_SHARE, abs=3 * error + 0.01)
    error = math.sqrt((TRUE_MEAN + TRUE_MEAN**2 / TRUE_SIZE) / demands)
    mean = float(chances.sum(axis=0) @ means)
    assert mean == pytest.approx(TRUE_MEAN, abs=3 * error + 0.2)
    near = np.abs(special.logit(shares) - special.logit(TRUE_SHARE)) < 1
    assert chances[near].sum() > 0.95


def test_order_and_names(monkeypatch: pytest.MonkeyPatch, mixed: Histories) -> None:
    """Neither the order of items, nor their names, nor the order of periods change a byte of the prior."""
    expected, names = learn(mixed).text, [*mixed]
    np.random.default_rng(1).shuffle(names)
    histories = [mixed[name] for name in names]
    for items in (
        dict(zip(names, histories)),
        map(np.array, histories),
        [numbers[::-1] for numbers in histories],
    ):
        assert learn(items).text == expected  # type: ignore[arg-type]
    # Of more items than are estimated on, those drawn depend on the seed alone.
    monkeypatch.setattr(learning, "MOST_ITEMS", 60)
    prior = learn(mixed)
    assert prior.whole and prior.items == prior.whole.items == 130
    assert prior.whole.sampled == 60
    assert learn([*mixed.values()][::-1]).text == prior.text
    other = learn(mixed, seed=2).whole
    assert other and other.units.tolist() != prior.whole.units.tolist()


@pytest.mark.parametrize("borrow", ["all", "class", "none"])
def test_text_of_a_prior(borrow: str, packed: Histories) -> None:
    """A text has the same bytes once it is read and written again, and gives the same laws, as does a pickled prior."""
    classes = dict(zip(packed, itertools.cycle(["Größe 0", "Größe 1"])))
    prior = learn(packed, classes, borrow)
    parsed = Prior.parse(prior.text, "prior.json")
    assert parsed.text == prior.text
    assert parsed == prior != learn(packed, classes, borrow, seed=2)
    assert hash(parsed) == hash(prior)
    counts = f"items={prior.items}, outside={prior.outside}"
    assert repr(prior) == f"Prior(borrow={borrow!r}, seed=1, {counts})"
    for numbers in (RARE, packed["packs 2"]):
        expected = law_of(prior, numbers, "Größe 1")
        for again in (parsed, pickle.loads(pickle.dumps(prior))):
            law = law_of(again, numbers, "Größe 1")
            assert law == expected and law.diagnostics == expected.diagnostics


@pytest.mark.parametrize("case", CASES["damaged"], ids=str)
def test_damaged_text(case: dict[str, Any], known: Prior) -> None:
    said = case.get("said", "the prior of crnplan is damaged; learn it anew")
    for lost in case.get("lost", [None]):
        tree = json.loads(known.text) | case.get("over", {})
        tree.pop(lost, None)
        if "units" in case:
            tree["whole"]["units"] = case["units"] or [0] * 4608
        with pytest.raises(Refused) as refused:
            Prior.parse(case.get("text", json.dumps(tree)), "prior.json")
        assert str(refused.value).startswith(f"prior.json: {said}")


def test_a_prior_of_nothing(known: Prior) -> None:
    tree = json.loads(known.text) | {"whole": None}
    with pytest.raises(Refused, match="prior.json: the prior of crnplan is damaged; "):
        Prior.parse(json.dumps(tree), "prior.json")


@pytest.mark.parametrize("case", CASES["refused"], ids=lambda it: it["said"])
def test_refused_catalogues(case: dict[str, Any], mixed: Histories) -> None:
    items = dict(itertools.islice(mixed.items(), case["items"]))
    if case.get("large"):
        items |= {f"large {it}": [0, 500] for it in range(4)}
    with pytest.raises(Refused) as refused:
        learn(**{"histories": items} | case.get("words", {}))
    assert case["said"] in str(refused.value)


def test_refused_histories(mixed: Histories) -> None:
    bad = {"A-1": [0, -2, 3, -1], "B-2": [0, 1.5], "C-3": [], "D-4": np.array([3, -7])}
    with pytest.raises(RefusedFaults) as refused:
        learn({**mixed, **bad})  # type: ignore[dict-item]
    text = "\n".join(map(str, refused.value.faults))
    assert len(refused.value.faults) == 5
    for said in (
        "histories: A-1: entry 2, -2, is below 0; correct it",
        "entry 4, -1, is below 0",
        "histories: B-2: entry 2: 1.5 is not a whole number",
        "histories: C-3: there are 0 numbers",
        "histories: D-4: entry 2, -7, is below 0",
    ):
        assert said in text
    first, *others = mixed.values()
    with pytest.raises(RefusedFaults, match="histories: item 2: entry 3"):
        learn([first, [1, 2, 0.5], *others])  # type: ignore[list-item]


def test_histories_of_frames(mixed: Histories) -> None:
    """A DataFrame has a history in each column, and a Series classes by item. One that is not known is none."""
    wide = pd.DataFrame({name: pd.Series(its) for name, its in mixed.items()})
    groups = pd.Series("a", index=wide.columns)
    groups[::2] = None
    prior = learn(wide, groups.replace({None: np.nan}), "class")
    assert prior == learn({**mixed}, dict(groups), "class")
    frame = prior.frame
    assert [*frame["group"]] == ["all", "a"]
    assert [*frame["items"]] == [len(mixed), len(mixed) // 2]


@pytest.mark.parametrize(
    "words, said",
    [
        ({"histories": 5}, "histories: 5 is no list; give one for each item"),
        ({"histories": "abc"}, "histories: 'abc' is no list"),
        (
            {"histories": [1], "borrow": "all"},
            "histories: item 1: int is no list of whole numbers",
        ),
        ({"classes": 5}, "classes: 5 is no list"),
        ({"classes": [[]] * 130}, r"classes: \[\] is no name of a class"),
        ({"least": "x"}, "least: 'x' is not a whole number; write it as 12"),
        ({"seed": -1}, "seed: -1 is not at least 0"),
    ],
)
def test_hostile_words(words: dict[str, Any], said: str, mixed: Histories) -> None:
    given = {"histories": [*mixed.values()], "borrow": "class", "classes": ["a"] * 130}
    with pytest.raises(Refused, match=f"^{said}"):
        learn(**given | words)  # type: ignore[arg-type]


def test_classes(monkeypatch: pytest.MonkeyPatch, mixed: Histories) -> None:
    """A small class is pulled to the catalogue, a large one is alone, an item without one has the catalogue's."""
    classes = dict(zip(mixed, itertools.cycle(["a", "b", "a", None])))
    members = {"a": [], "b": [], None: []}
    for name, label in classes.items():
        members[label].append(mixed[name])
    prior = learn(mixed, classes, "class")
    assert prior.whole and prior.classes
    assert {name: it.items for name, it in prior.classes.items()} == {"a": 65, "b": 33}
    assert np.array_equal(prior.whole.units, learn(mixed).whole.units)  # type: ignore[union-attr]
    order = np.random.default_rng(2).permutation([*mixed])
    pairs = [mixed[it] for it in order], [classes[it] for it in order]
    assert learn(*pairs, "class").text == prior.text
    expected = pulled(members["b"], prior.whole)
    assert np.allclose(prior.classes["b"].chances, expected, rtol=1e-5, atol=1e-9)
    for label, name in (("a", "a"), ("b", "b"), ("c", "all"), (None, "all")):
        learned = law_of(prior, RARE, label).diagnostics.borrowed
        assert learned and learned.prior == name
    of_class = law_of(Prior("all", whole=prior.classes["b"]), RARE)
    assert law_of(prior, RARE, "b") == of_class != law_of(prior, RARE)
    monkeypatch.setattr(learning, "MOST_PULLED", 64)
    again, own = learn(mixed, classes, "class").classes, learn(members["a"], least=30)
    assert again and own.whole
    assert np.array_equal(again["a"].units, own.whole.units)
    assert np.array_equal(again["b"].units, prior.classes["b"].units)


def test_units_and_points() -> None:
    """Units are whole, none 0. Points are even in the logit of the share and the logarithm of the mean."""
    chances = np.zeros(grid.FLAT.shape)
    chances[3, 5] = 1.0
    its = GridPrior.of(chances, 1, 1, 0.1234567)
    assert its.units.min() == 1 and its.units.max() == 2**40 and its.gain == 0.123457
    assert its.chances.sum() == pytest.approx(1)
    logits = special.logit(grid.SHARES).ravel()
    assert np.diff(logits) == pytest.approx(12 / 240)
    assert logits[0] == pytest.approx(-5.5 + 12 / 480)
    means, step = np.log(grid.SIZE_MEANS[::8].ravel()), math.log(100 / 0.05) / 192
    assert np.diff(means) == pytest.approx(step)
    assert means[-1] == pytest.approx(math.log(100) - step / 2)
    dispersions = [0.4, 0.7, 1, 1.6, 3, 6, 15, 60, 0.4]
    assert grid.SIZE_DISPERSIONS[:9, 0].tolist() == dispersions


@pytest.mark.parametrize("cell", [0, 5, 90, 188, 191])
def test_size_laws(cell: int) -> None:
    """The laws of sizes are negative binomial from 1 on, all but a tail."""
    law, size = grid.size_laws()[cell], grid.SIZE_DISPERSIONS[cell, 0]
    laws = stats.nbinom(size, size / (size + grid.SIZE_MEANS[cell][:, None]))
    expected = laws.pmf(np.arange(law.shape[1]))
    assert np.allclose(law, expected, rtol=0, atol=1e-8)
    assert (1 - expected.sum(axis=1) < 1.01e-9).all()


@settings(max_examples=25)
@given(
    histories=st.lists(
        st.lists(st.integers(0, 60), min_size=1, max_size=30), min_size=2, max_size=12
    ),
    flat=st.sampled_from([0.0, 1.0]),
)
def test_each_step_raises_the_likelihood(
    histories: list[list[int]], flat: float
) -> None:
    """Without a blur no step makes the histories less likely, with the flat items that count beside them."""
    chunks = chunks_of(Sample.of(it) for it in histories)
    prior, last = grid.FLAT, -math.inf
    for _ in range(10):
        likelihood = float(np.log(marginal(chunks, prior)).sum())
        likelihood += float(special.xlogy(flat * grid.FLAT, prior).sum())
        assert likelihood >= last - 1e-9
        prior, last = ONE_STEP(chunks, prior, flat * grid.FLAT), likelihood
    assert prior.sum() == pytest.approx(1) and prior.min() >= 0


@settings(max_examples=20)
@given(seed=st.integers(0, 1000), part=st.floats(0, 0.3))
def test_blur(seed: int, part: float) -> None:
    """The blur of a step is a random walk by one cell on each axis, which stays where it would leave the grid."""
    prior = drawn_prior(seed, 0.01)
    found = grid.estimated([], prior, prior, steps=1, blur=part)
    assert np.allclose(found, walked(prior, part), rtol=0, atol=1e-14)
