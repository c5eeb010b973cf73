"""Tests of the laws of items that learn from their catalogue, against scipy's laws and sums over all points."""
from __future__ import annotations

import math
from collections.abc import Sequence
from dataclasses import replace

import numpy as np
import pytest
from hypothesis import given, settings, strategies as st
from scipy import stats

import crnplan as crn
from crnplan.chances import Floats
from crnplan.demand import grid
from crnplan.demand.borrowing import Posterior, borrowed_laws, law_of
from crnplan.demand.fitted import Borrowed, FittedLaw
from crnplan.demand.borrowing import fit_demand
from crnplan.demand.fitting import share_of
from crnplan.demand.learning import Prior, learn
from crnplan.demand.posterior import allowed_laws
from crnplan.demand.sample import Sample
from crnplan.errors import Refused, RefusedFaults
from crnplan.sentences import sentence
from planner.tests.demand.made import (
    RARE,
    TRUE_MEAN,
    TRUE_SHARE,
    TRUE_SIZE,
    chances_of,
    check_law,
    check_mean,
    history,
    logarithms,
    pulled,
)

# Histories that may be of the catalogue or not, and of sizes that vary too little for it.
IN_BETWEEN, UNLIKE = history(3, 52, 0.2, 10, 1.6), history(77, 52, 0.2, 60, 15)
MIXED = [*history(5, 60)[:-14], *[9] * 14]


def borrowed(law: FittedLaw) -> Borrowed:
    assert law.diagnostics.borrowed
    return law.diagnostics.borrowed


def reason(law: FittedLaw) -> str:
    """Returns in words why the law of an item alone is taken; empty if it is not."""
    alone = borrowed(law).alone
    head = "its law is learned from no others: "
    return sentence(alone).removeprefix(head) if alone else ""


def weights_of(numbers: Sequence[int], prior: Floats) -> tuple[Floats, Floats]:
    """Returns by scipy's laws the likelihoods of all points, and those weighed by the prior of their cells."""
    likelihoods = np.exp(logarithms(numbers))
    points = np.ones((grid.SHARE_POINTS, grid.MEAN_POINTS)) / 80
    return likelihoods, np.kron(prior, points) * likelihoods


@pytest.mark.parametrize(
    ("seed", "numbers"),
    [(1, RARE), (2, [0] * 20), (3, [0, 4] + [0] * 10), (4, [3, 8, 1, 2, 9]), (5, [])],
)
def test_posterior_on_few_cells(seed: int, numbers: list[int]) -> None:
    """Predictive law and Bayes factor are those of sums over all points of all cells, by scipy's laws. If a demand is at
    most so large, the others have their chances."""
    random, prior = np.random.default_rng(seed), np.zeros(grid.FLAT.shape)
    places = (
        random.choice(its, count, replace=False) for its, count in ((24, 3), (192, 4))
    )
    prior[np.ix_(*places)] = random.random((3, 4))
    prior /= prior.sum()
    likelihoods, weights = weights_of(numbers, prior)
    law = np.zeros(4000)
    law[0] = weights.sum(axis=1) @ (1 - grid.SHARES.ravel())
    demands, means = grid.SHARES.ravel() @ weights, grid.SIZE_MEANS.ravel()
    sizes = np.repeat(grid.SIZE_DISPERSIONS, 8)
    for point in np.flatnonzero(demands):
        chance = sizes[point] / (sizes[point] + means[point])
        law[1:] += demands[point] * stats.nbinom.pmf(range(3999), sizes[point], chance)
    found = Posterior.of(Sample.of(numbers), prior)
    below = np.cumsum(law)[: len(found.predictive)] / weights.sum()
    assert np.allclose(np.cumsum(found.predictive), below, rtol=0, atol=2e-7)
    assert found.bayes == pytest.approx(weights.sum() / likelihoods.mean())
    bounded, few = replace(found, most=3).predictive, law[:4] / law[:4].sum()
    assert bounded == pytest.approx(few, rel=0, abs=1e-6)


@pytest.mark.parametrize("numbers", [(), (0, 0, 0), (40, 39, 41, 40, 40)], ids=str)
def test_law_of_a_new_item(known: Prior, numbers: tuple[int, ...]) -> None:
    """Its few periods count for which law is likely, and for nothing else: neither do they speak against what was learned,
    nor is its law mixed with them. The laws that it allows have the same mean."""
    assert known.whole
    wanted = Posterior.of(Sample.of(numbers), known.whole.chances).predictive
    law = law_of(known, numbers, is_new=True)
    laws = borrowed_laws(known, numbers, is_new=True)
    assert law.table == crn.Law.of_chances(wanted)
    assert borrowed(law).share == 1 and not borrowed(law).alone
    mean = np.mean([float(it.mean) for it in laws])
    assert len(laws) == 100 and mean == pytest.approx(float(law.mean), rel=0.05)
    assert numbers[:1] != (40,) or law_of(known, numbers).family != law.family


def test_known_law(known: Prior) -> None:
    """The law of an item is all but the true one, and much nearer to it than the law of the item alone."""
    sizes = stats.nbinom(TRUE_SIZE, TRUE_SIZE / (TRUE_SIZE + TRUE_MEAN))
    true = 1 - TRUE_SHARE * sizes.sf(np.arange(-1, 200))
    distances, rejected = [], 0
    for seed in range(900, 905):
        numbers = history(seed, 26)
        law, single = law_of(known, numbers), fit_demand(numbers)
        rejected += law.family != "borrowed"
        laws = np.array([chances_of(it, 201)[:201] for it in (law, single)])
        distances.append(np.abs(np.cumsum(laws, axis=1) - true).max(axis=1))
    ours, alone = np.median(distances, axis=0)
    assert rejected <= 1 and ours < 0.03 and alone > 2 * ours


def test_outside_the_grid(mixed: dict[str, list[int]]) -> None:
    """Items with larger sizes are counted and left out, and have the law of the item alone."""
    large, larger = [0, 90, 0, 180], [0, 20_000] + [1] * 400
    prior, usual = learn({**mixed, "large": large, "larger": larger}), learn(mixed)
    assert prior.whole and usual.whole
    assert (prior.items, prior.outside, prior.whole.items) == (132, 2, 130)
    assert learn([*mixed.values()][:57], least=57).items == 57
    assert prior.whole.units.tolist() == usual.whole.units.tolist()
    classes = dict.fromkeys([*mixed, "large"], "A")
    of_class = learn({**mixed, "large": large}, classes, "class").classes
    assert of_class["A"].items == 130
    law = law_of(prior, large)
    assert reason(law) == "the mean size of a demand is above 101"
    assert borrowed(law).log10_bayes is None and law == fit_demand(large)
    assert law_of(prior, [0, 101, 0, 101]).family == "borrowed"
    boxes = law_of(prior, larger, box=10)
    assert boxes == fit_demand(larger, box=10)
    assert reason(boxes) == "demand is counted in boxes of 10"
    said = "is above 10,000; count in larger boxes: box=2 or more"
    with pytest.raises(RefusedFaults, match=said):
        law_of(prior, larger)


@pytest.mark.parametrize(
    ("numbers", "alone"),
    [
        (
            [6, 12, 0, 6, 18, 0, 6, 24],
            "all demands are packs of 6, as those of few others",
        ),
        ([40] * 20 + [41] * 20, "drawn histories do not look like the real one"),
    ],
    ids=["packs", "guard"],
)
def test_law_of_the_item_alone(numbers: list[int], alone: str, known: Prior) -> None:
    """If few have packs, or drawn histories look unlike the real one, the item's own law is taken."""
    law, expected = law_of(known, numbers), fit_demand(numbers)
    found = borrowed(law)
    assert law == expected and (reason(law), found.share) == (alone, 0)
    assert replace(law.diagnostics, borrowed=None) == expected.diagnostics
    assert borrowed_laws(known, numbers, times=3) == allowed_laws(numbers, times=3)
    assert not found.guard or min(found.guard) <= 0.05


def test_nothing_is_borrowed() -> None:
    nothing = law_of(learn([], borrow="none"), RARE)
    assert nothing == fit_demand(RARE) and reason(nothing) == "nothing is borrowed"


def test_entry_point(known: Prior) -> None:
    """fit_demand borrows from a prior, which replaces its method."""
    law = crn.fit_demand(RARE, borrow=known, item_class="a")
    expected = law_of(known, RARE, "a")
    assert law == expected and law.diagnostics == expected.diagnostics
    said = "a law is either borrowed or fitted by the method 'poisson'; leave one out"
    with pytest.raises(Refused, match=said):
        crn.fit_demand(RARE, method="poisson", borrow=known)


@pytest.mark.parametrize(
    ("numbers", "least", "most"),
    [
        (UNLIKE, 0, 0.01),
        (IN_BETWEEN, 0.05, 0.5),
        (history(11, 30), 0.9, 1),
        (MIXED, 0.01, 0.99),
    ],
    ids=["unlike", "in between", "like", "mixed"],
)
def test_law_of_a_doubtful_item(
    numbers: list[int], least: float, most: float, known: Prior
) -> None:
    """It mixes the laws of the learned and the flat prior by their posterior chances, and the history."""
    assert known.whole
    prior, sample, demands = (
        known.whole.chances,
        Sample.of(numbers),
        np.count_nonzero(numbers),
    )
    likelihoods, weights = weights_of(numbers, prior)
    odds = weights.sum() / likelihoods.mean()
    alike = odds / (1 + odds)
    assert least <= alike <= most
    base, flat = (Posterior.of(sample, it).predictive for it in (prior, grid.FLAT))
    times = min(max(math.log(300) / math.log(demands + 1), 2), 3)
    flat = flat[: math.ceil(times * max(numbers)) + 1]
    flat /= flat.sum()
    law = law_of(known, numbers)
    check_law(law)
    seen, width = np.bincount(numbers) / len(numbers), law.values[-1] + 1
    expected = np.zeros(max(len(base), len(flat), width))
    for chance, part in ((alike, base), (1 - alike, flat)):
        share = share_of(sample, part)
        expected[: len(part)] += chance * share * part
        expected[: len(seen)] += chance * (1 - share) * seen
    found, share = borrowed(law), alike * share_of(sample, base)
    assert law.family == "borrowed" and found.share == pytest.approx(share, rel=1e-6)
    assert share < alike or numbers is not MIXED
    assert found.log10_bayes == pytest.approx(math.log10(odds))
    facts = found.prior, found.demands, found.unlike
    assert facts == ("all", demands, alike < 0.5)
    below = np.cumsum(expected)[:width]
    assert np.cumsum(chances_of(law)) == pytest.approx(below, abs=1 / 65_536)
    assert law.figures.mean == pytest.approx(float(law.mean))
    assert law.diagnostics.history.mean == pytest.approx(np.mean(numbers))


def test_items_in_packs(packed: dict[str, list[int]]) -> None:
    """They learn from one another, counted in packs, if there are 30 of them."""
    prior = learn(packed)
    assert prior.whole and prior.packs
    assert (prior.packs.items, prior.outside) == (31, 1)
    in_packs = {}
    for name, numbers in packed.items():
        if name.startswith("packs"):
            in_packs[name] = [it // np.gcd.reduce(numbers) for it in numbers]
    for name, pack in (("packs 0", 90), ("packs 4", 6)):
        law = law_of(prior, packed[name])
        found = law_of(Prior("all", whole=prior.packs), in_packs[name])
        assert law.weights == found.weights
        assert law.values == tuple(pack * it for it in found.values)
        assert borrowed(law).share == borrowed(found).share > 0.5
        assert borrowed(law).guard == borrowed(found).guard
        for drawn in borrowed_laws(prior, packed[name], times=5):
            assert not np.mod(drawn.values, pack).any()
    expected = pulled([*in_packs.values()], prior.whole)
    assert np.allclose(prior.packs.chances, expected, rtol=1e-5, atol=1e-9)
    few = {**packed}
    del few["packs 1"], few["packs 2"]
    assert learn(few).packs is None
    alone = reason(law_of(learn(few), packed["packs 4"]))
    assert "as those of few others" in alone
    large = law_of(prior, [1200, 0, 0, 1010, 0, 1030, 0, 0, 0])
    assert reason(large) == "the mean size of a demand is above 101 packs"


@pytest.mark.parametrize(
    ("numbers", "few"), [([0] * 26, True), ([0] * 25 + [3], True), (RARE, False)]
)
def test_items_with_few_demands(numbers: list[int], few: bool, known: Prior) -> None:
    """Items with no or one demand have a law too, without a part of the flat prior, and are marked."""
    law, whole = law_of(known, numbers), known.whole
    assert whole
    share = Posterior.of(Sample.of(numbers), whole.chances).share
    assert borrowed(law).share == share or not few
    assert borrowed(law).few is few
    assert law.family == "borrowed" and law.values[-1] > max(numbers)


@pytest.mark.parametrize(
    "numbers", [history(3, 40), MIXED, IN_BETWEEN], ids=["like", "mixed", "in between"]
)
def test_drawn_laws(numbers: list[int], known: Prior) -> None:
    """Their mean is the law of the item, but for the error of draws."""
    law, drawn = law_of(known, numbers), borrowed_laws(known, numbers, times=1500)
    assert len(drawn) == 1500
    width = max(it.values[-1] for it in drawn) + 1
    laws = np.array([chances_of(it, width) for it in drawn])
    check_mean(laws, chances_of(law), 1e-4)
    for its in drawn[:20]:
        check_law(its)


def test_seeds_of_drawn_laws(known: Prior) -> None:
    laws = borrowed_laws(known, RARE, times=4)
    assert laws == borrowed_laws(known, RARE, times=4)
    assert laws != borrowed_laws(known, RARE, times=4, seed=2)


def test_drawn_shares(known: Prior) -> None:
    """The shares of drawn laws spread as the posterior law does."""
    assert known.whole
    prior = known.whole.chances
    posterior = Posterior.of(Sample.of(history(11, 30)), prior)
    weights = (prior @ posterior.sizes.mean(axis=1))[:, None] * posterior.shares
    mean = np.average(grid.SHARES, weights=weights)
    deviation = math.sqrt(np.average((grid.SHARES - mean) ** 2, weights=weights))
    laws = posterior.drawn(np.random.default_rng(1).random((3, 4000)))
    shares = 1 - np.array([law[0] for law in laws])
    assert shares.mean() == pytest.approx(mean, abs=4 * deviation / math.sqrt(4000))
    assert shares.std() == pytest.approx(deviation, rel=0.1)


@settings(max_examples=12)
@given(numbers=st.lists(st.integers(0, 150), min_size=1, max_size=40))
def test_any_history(numbers: list[int], known: Prior) -> None:
    check_law(law_of(known, numbers), None)
    assert law_of(known, numbers) == law_of(known, iter(numbers))
