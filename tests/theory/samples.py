"""Runs the settings of settings.py with fixed keys, and says how far mean costs lie from what theory expects.

python -m tests.theory.samples PROGRAM FILE draws the runs into FILE, which ends in .svg, and prints the caption below
them. The stored picture is docs/theory.svg.
"""
from __future__ import annotations

import argparse
import csv
import functools
import math
import os
from collections.abc import Sequence
from fractions import Fraction
from pathlib import Path
from typing import Any, NamedTuple

import tomlkit

from tests.runs import run
from tests.theory.expected import Expected
from tests.theory.picture import caption_of, draw
from tests.theory.settings import DEMANDS, settings

Tree = dict[str, Any]
# A mean and its variance; for each policy those of its costs, and of the differences from the first policy.
Mean = tuple[Fraction, Fraction]
Sample = list[tuple[Mean, Mean]]

KEYS = 8
SETTINGS = settings()


class Measured(NamedTuple):
    """A setting's name and scenario, its sample with each key, and the expected cost of each policy."""

    name: str
    tree: Tree
    samples: list[Sample]
    costs: list[float]


def reports_of(
    program: Path, tree: Tree, numbers: Sequence[int]
) -> list[list[dict[str, str]]]:
    """Returns the rows of a setting's reports with the keys of these numbers."""
    text = tomlkit.dumps({"key": ["KEY", *["0" * 16] * 3], **tree})
    shown = [
        run(program, [], text.replace("KEY", f"7e57{number:012x}").encode())
        for number in numbers
    ]
    assert [it.status for it in shown] == [0] * len(shown), shown[0].errors
    return [list(csv.DictReader(it.output.decode().splitlines())) for it in shown]


def sample_of(rows: list[dict[str, str]], replications: int) -> Sample:
    """Returns for each policy the mean cost with its variance, and the mean difference with its variance.

    The variance of a policy's own costs follows from those of the difference and of the first policy, and `cov`.
    """
    first, sample = Fraction(rows[0]["cov"]), []
    for row in rows:
        mean, difference = Fraction(row["total"]) / replications, Fraction(
            row["diff_mean"]
        )
        variance = (
            replications * Fraction(row["diff_var"]) - first + 2 * Fraction(row["cov"])
        )
        sample.append(
            ((mean, variance / replications), (difference, Fraction(row["diff_var"])))
        )
    return sample


@functools.cache
def measured(program: Path, number: int) -> Measured:
    """Returns a setting with its samples and expected costs."""
    name, tree = SETTINGS[number]
    rows = reports_of(program, tree, range(KEYS * number, KEYS * (number + 1)))
    return Measured(
        name,
        tree,
        [sample_of(it, tree["replications"]) for it in rows],
        expected_costs(tree),
    )


def expected_costs(tree: Tree, **wrong: bool) -> list[float]:
    """Returns the expected cost of each policy of a scenario."""
    return [Expected(tree, policy, **wrong).cost() for policy in tree["policy"]]


def z_of(mean: Fraction, variance: Fraction, expected: float) -> float:
    """Returns the deviation of a mean from what is expected, in standard errors.

    Without a variance it is none, or infinite.
    """
    deviation = float(mean) - expected
    if variance == 0:
        return 0.0 if abs(deviation) < 1e-6 else math.inf
    return deviation / math.sqrt(variance)


def zs_of(samples: list[Sample], costs: list[float]) -> tuple[list[float], list[float]]:
    """Returns the z of each policy's mean cost, and of each difference from the first policy, for each key.

    The variances are means over all keys: with that of its own key, a skewed sample would be judged by an error that
    depends on its mean.
    """
    levels: list[float] = []
    differences: list[float] = []
    for place, cost in enumerate(costs):
        for kind, expected, zs in (
            (0, cost, levels),
            (1, cost - costs[0], differences),
        )[: 1 + (place > 0)]:
            variance = sum(
                (sample[place][kind][1] for sample in samples), Fraction(0)
            ) / len(samples)
            zs += [
                z_of(sample[place][kind][0], variance, expected) for sample in samples
            ]
    return levels, differences


def all_zs(program: Path) -> tuple[list[float], list[float]]:
    """Returns the z of each policy's mean cost with each key of all settings, and those of the differences."""
    each = [
        zs_of(it.samples, it.costs)
        for it in (measured(program, number) for number in range(len(SETTINGS)))
    ]
    return [z for it in each for z in it[0]], [z for it in each for z in it[1]]


def main() -> None:
    """Draws the picture, and prints its caption."""
    words = argparse.ArgumentParser(
        description=__doc__, formatter_class=argparse.RawDescriptionHelpFormatter
    )
    words.add_argument("program", metavar="PROGRAM", type=os.path.abspath)
    words.add_argument("file", metavar="FILE")
    asked = words.parse_args()
    if not asked.file.endswith(".svg"):
        words.error(f"{asked.file}: give a file that ends in .svg")
    every = [measured(Path(asked.program), number) for number in range(len(SETTINGS))]
    levels, _ = all_zs(Path(asked.program))
    draw(
        asked.file,
        [it.samples for it in every],
        [it.costs for it in every],
        list(DEMANDS),
        levels,
    )
    print(caption_of(levels))


if __name__ == "__main__":
    main()
