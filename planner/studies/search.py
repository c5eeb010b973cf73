"""Measures how much dearer policies are that a search on a grid of gaps S - s finds than the best of all gaps.

    python -m planner.studies.search --out planner/studies/search.csv    all, in some minutes
    python -m planner.studies.search --small                             a small part, in some seconds

With several lead times and large numbers, `theory` searches a grid of gaps that gets finer around the best; else it
looks at all gaps that can be best. Here both are done. The scenarios have laws fitted to histories of 52 periods from
six of the true laws of `laws.py`, one or several lead times, and an order for 2 or 8 periods of demand; backlog costs 9
times holding. Sought are the best policy and the cheapest with 95, 98, 99 and 99.5% fill. Excesses are in percent.
"""
from __future__ import annotations

import itertools
import math
from collections.abc import Iterable, Iterator, Sequence
from pathlib import Path
from typing import Any

import click
import pandas as pd

from crnplan.demand.borrowing import fit_demand
from crnplan.law import Law
from crnplan.theory.grid import search
from crnplan.theory.lattice import theories_of
from crnplan.theory.long_run import Candidate
from crnplan.theory.suggestions import FILLS
from planner.studies.fills import HOLDING, scenario_of
from planner.studies.laws import COVERS, Truth
from planner.studies.page import markdown

TRUE_LAWS = ("P2", "NB3_9", "NB10_60", "INT", "PACK6", "PROJ")
LEADS = ((2,), (6,), (1, 2, 3), (2, 4, 6))
PERIODS, HISTORIES = 52, 6
STORED = Path(__file__).with_name("search.csv")
SMALL: dict[str, Any] = {
    "laws": ("NB3_9",),
    "leads": ((2,), (1, 2, 3)),
    "histories": 1,
}  # of `study`
OVER = 0.5  # percent


# The share of demand to meet at once, by the name of what is sought.
SOUGHT = {"best": 0.0, **{f"fill_{name}": share for name, share in FILLS.items()}}


def excesses(
    demand: Law, leads: Sequence[int], setup: float
) -> Iterator[tuple[str, float]]:
    """Yields what is sought, and how much dearer a search finds it."""
    scenario = scenario_of(demand, leads, setup)
    theory, _ = theories_of(scenario)
    for name, share in SOUGHT.items():

        def policy_of(gap: int, share: float = share) -> Candidate:
            """Returns the cheapest policy of a gap."""
            return theory.cheapest_of_gaps([gap], share)

        cost = search(lambda gaps: map(policy_of, gaps), theory.most).cost
        yield name, 100 * (
            cost / min(policy_of(gap).cost for gap in range(theory.widest(cost, 0) + 1))
            - 1
        )


def study(
    laws: Iterable[str] = TRUE_LAWS,
    leads: Iterable[Sequence[int]] = LEADS,
    histories: int = HISTORIES,
) -> pd.DataFrame:
    """Returns the excesses of all cases."""
    rows: list[dict[str, object]] = []
    leads = [*leads]
    for law, number in itertools.product(laws, range(histories)):
        truth = Truth(law)
        demand = fit_demand(truth.history(PERIODS, number), method="auto").table
        for its, cover in itertools.product(leads, COVERS):
            for name, excess in excesses(
                demand, its, HOLDING * truth.mean * cover**2 / 2
            ):
                rows.append(
                    {
                        "law": law,
                        "leads": " ".join(map(str, its)),
                        "cover": cover,
                        "history": number,
                        "sought": name,
                        "excess": excess,
                    }
                )
    return pd.DataFrame(rows)


def tables() -> dict[str, str]:
    """Returns the stored figures for the page, by kind of lead time and by what is sought."""
    stored, lines = pd.read_csv(STORED), []
    stored["lead times"] = stored["leads"].map(
        lambda it: "several" if " " in str(it) else "one"
    )
    for (kind, name), its in stored.groupby(["lead times", "sought"], sort=False):
        excess = its["excess"]
        mean = f"{excess.mean():.3f} ± {excess.std() / math.sqrt(len(its)):.3f}"
        lines.append(
            {
                "lead times": kind,
                "sought": name,
                "cases": len(its),
                "excess, mean": mean,
                "most": f"{excess.max():.2f}",
                f"share over {OVER}%": f"{100 * (excess > OVER).mean():.1f}",
            }
        )
    return {"search": markdown(pd.DataFrame(lines))}


@click.command()
@click.option("--small", is_flag=True, help="Run a small part.")
@click.option(
    "--out",
    type=click.Path(dir_okay=False, path_type=Path),
    help="Write the rows as CSV.",
)
def main(small: bool, out: Path | None) -> None:
    """Measure how much dearer policies of a search are than the best of all gaps."""
    rows = study(**SMALL) if small else study()
    if out:
        rows.to_csv(out, index=False, float_format="%.4f")
    click.echo(
        rows.groupby(["leads", "sought"])["excess"].describe().round(3).to_string()
    )


if __name__ == "__main__":
    main()
