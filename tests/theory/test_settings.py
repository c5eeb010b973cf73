"""The program costs what theory expects, in each setting of settings.py, and not what wrong theories do.

The mean cost of each policy, and its mean difference from the first policy, are compared with what they are expected to
be over the same periods from the same stock (expected.py). The deviation of a mean, over its standard error from the
samples of all keys, is its z. No z may be 4 or more; the mean of all must be within 0.15 of 0, and their standard
deviation from 0.85 to 1.15. With a wrong theory some z must be 4 or more: with a reorder point that is one higher, with
a lead time that is one longer, and with demands and lead times drawn with the same words.
"""
from __future__ import annotations

import copy
import math
import statistics
from collections.abc import Callable, Iterator
from pathlib import Path
from typing import Any

import pytest

from tests.stored import stored
from tests.theory.picture import caption_of
from tests.theory.samples import SETTINGS, Tree, all_zs, expected_costs, measured, zs_of

MOST_Z, MOST_MEAN, LEAST_DEVIATION, MOST_DEVIATION = 4, 0.15, 0.85, 1.15
# Settings on which the wrong theories are compared.
FEW = range(3, len(SETTINGS), 4)
KINDS = ("costs", "differences")


def limits_of(kind: str, zs: list[float]) -> Iterator[tuple[str, bool]]:
    """Yields each limit for the z of all settings, and whether it is kept."""
    deviation = statistics.stdev(zs) if math.inf not in zs else math.inf
    yield f"{kind}: the greatest |z| is {max(map(abs, zs)):.2f}", max(
        map(abs, zs)
    ) < MOST_Z
    yield f"{kind}: the mean of z is {statistics.fmean(zs):.3f}", abs(
        statistics.fmean(zs)
    ) <= MOST_MEAN
    yield f"{kind}: the deviation of z is {deviation:.3f}", LEAST_DEVIATION <= deviation <= MOST_DEVIATION


@pytest.mark.parametrize(
    "number", range(len(SETTINGS)), ids=[name for name, _ in SETTINGS]
)
def test_setting(program: Path, number: int, check_all: Any) -> None:
    """No mean of a setting deviates by 4 standard errors."""
    its = measured(program, number)
    zs = zs_of(its.samples, its.costs)
    greatest = [max(map(abs, it)) for it in zs]
    check_all(
        (f"{kind}: z goes up to {it:.2f}", it < MOST_Z)
        for kind, it in zip(KINDS, greatest)
    )


def test_all_settings(program: Path, check_all: Any) -> None:
    """The deviations of all settings are as chance allows."""
    check_all(
        limit
        for kind, zs in zip(KINDS, all_zs(program))
        for limit in limits_of(kind, zs)
    )


def test_picture_has_the_figures_of_the_run(program: Path) -> None:
    """The stored picture says the figures of the run."""
    caption = caption_of(all_zs(program)[0])
    assert (
        caption in stored("docs/theory.svg").decode()
    ), "draw it anew: python -m tests.theory.samples PROGRAM FILE"


def with_later_point(tree: Tree) -> list[float]:
    """Returns the costs of a scenario whose reorder points are one higher."""
    wrong = copy.deepcopy(tree)
    for policy in wrong["policy"]:
        policy["s"] += 1
        policy["S"] = max(policy["S"], policy["s"])
    return expected_costs(wrong)


def with_longer_lead(tree: Tree) -> list[float]:
    """Returns the costs of a scenario whose lead times are one longer."""
    wrong = copy.deepcopy(tree)
    wrong["lead"]["values"] = [value + 1 for value in wrong["lead"]["values"]]
    return expected_costs(wrong)


def with_common_words(tree: Tree) -> list[float]:
    """Returns the costs of a scenario whose demands and lead times are drawn with the same words."""
    return expected_costs(tree, common_words=True)


@pytest.mark.parametrize(
    "wrong",
    [with_later_point, with_longer_lead, with_common_words],
    ids=lambda it: it.__name__,
)
def test_wrong_theory_is_found(
    program: Path, wrong: Callable[[Tree], list[float]], check_all: Any
) -> None:
    """With a wrong theory some mean cost and some difference deviates by 4 standard errors or more."""
    each = [
        zs_of(its.samples, wrong(its.tree))
        for its in (measured(program, number) for number in FEW)
    ]
    greatest = [
        max(abs(z) for it in each for z in it[kind]) for kind in range(len(KINDS))
    ]
    check_all(
        (f"{kind}: z goes up to {it:.2f} only", it >= MOST_Z)
        for kind, it in zip(KINDS, greatest)
    )
