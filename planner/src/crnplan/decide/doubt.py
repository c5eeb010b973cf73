"""Says how sure a choice among policies is, if the demand is known from a short history alone.

Each policy's long run is computed under laws that the history allows. The mean cost over these laws is the cost to
promise, since it includes the doubt about the law. The regret of a policy under a law is its cost over that of the best
of the policies, less 1. How often such statements hold was measured: planner/studies/README.md, "Doubt". Theory's
figures are rounded and unproved.
"""
from __future__ import annotations

from dataclasses import dataclass
from functools import cached_property
from typing import TYPE_CHECKING, Any

from ..columns import columns_of
from ..policies import Policy
from ..table import DataTable, Result

if TYPE_CHECKING:
    from ..chances import Floats
    from ..theory.many_laws import LawFigures

WITHIN = 0.03  # as near as that to the best is near
MOST = 0.9  # of the laws, under which a regret stays within its bound, and a fill rate above its own
COLUMNS = columns_of("decide", "doubt")


@dataclass(frozen=True, eq=False, repr=False)
class Doubt(Result):
    """The figures of policies under the laws that a history allows, of which those without a long run are left out."""

    policies: tuple[Policy, ...]
    figures: LawFigures

    @cached_property
    def columns(self) -> dict[str, Floats]:
        """Returns the columns of the table with a figure for each policy."""
        import numpy as np

        cost, fill = self.figures.cost, self.figures.fill
        regrets = cost / cost.min(axis=1, keepdims=True) - 1
        return {
            "cost": cost.mean(axis=0),
            "regret": regrets.mean(axis=0),
            "regret_90": np.quantile(regrets, MOST, axis=0),
            "within": (regrets <= WITHIN).mean(axis=0),
            "fill": fill.mean(axis=0),
            "fill_10": np.quantile(fill, 1 - MOST, axis=0),
        }

    @cached_property
    def rows(self) -> list[dict[str, Any]]:
        """Returns each policy with its figures by column, the cheapest first."""
        rows = list[dict[str, Any]]()
        for place in self.columns["cost"].argsort(kind="stable"):
            rows.append({"policy": self.policies[place]})
            for name, figures in self.columns.items():
                rows[-1][name] = float(figures[place])
        return rows

    @property
    def table(self) -> DataTable:
        """Returns the figures indexed by `policy`, the cheapest first."""
        return DataTable.of(COLUMNS, self.rows, index="policy")
