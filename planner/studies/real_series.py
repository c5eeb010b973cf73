"""Reads real series that packages of R have, where these are installed: sales, and counts of cases.

On Debian they are r-cran-surveillance (weekly cases of diseases by district, state or age), r-cran-bayesm (weekly sales
of orange juice by store and brand, cheese by chain and city, tuna by brand; monthly prescriptions by physician),
r-cran-ggplot2 (monthly sales of homes by city) and r-cran-modeldata (weekly rides by station). Nothing of them is kept
here. A week that a store has not reported is left out of its series.
"""
from __future__ import annotations

import shutil
import subprocess
from collections import defaultdict
from pathlib import Path
from typing import NamedTuple

SCRIPT = Path(__file__).with_suffix(".R")
# The set of a data set; those of no set are `cases`.
SETS = {
    "cases fluBYBW": "flu",
    "cases measlesDE": "measles",
    "cases measlesWeserEms": "measles",
    **{
        name: name
        for name in (
            "juice",
            "cheese",
            "tuna",
            "homes",
            "prescriptions",
            "rides",
            "monthly meningo.age",
            "monthly rotaBB",
        )
    },
}


class Series(NamedTuple):
    """A series: its name, and the count of each period in order."""

    name: str
    counts: tuple[int, ...]


def parse(text: str) -> dict[str, list[Series]]:
    """Returns the series of each set, from the lines that the script prints."""
    sets = defaultdict[str, list[Series]](list)
    for line in text.splitlines():
        data, name, *counts = (
            cell.strip() for cell in line.strip().rstrip(",").split(",")
        )
        sets[SETS.get(data, "cases")].append(Series(name, tuple(map(int, counts))))
    return dict(sets)


def real_series() -> dict[str, list[Series]]:
    """Returns the series of each set that is installed; none if there is no R."""
    program = shutil.which("Rscript")
    if program is None:
        return {}
    return parse(
        subprocess.run(
            [program, "--vanilla", str(SCRIPT)],
            capture_output=True,
            text=True,
            check=True,
        ).stdout
    )
