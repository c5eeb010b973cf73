"""Compiles the loops of plans and curves by `python -m crnplan.compile_loops`, so that the first plan need not wait for it."""
from __future__ import annotations

import numpy as np

from .demand.borrowing import fit_demand
from .runs import Scenario
from .theory.every_gap import best_policies
from .theory.lattice import theories_of
from .theory.run_effects import start_bias


def compile_all() -> None:
    """Compiles all loops by what asks for each: searches with one lead time, with several, and with returns."""
    demand = fit_demand(12 * [0, 0, 3, 0, 1, 0, 0, 9, 0])
    for lead, returns in (([2], None), ([1, 3], None), ([1, 3], [0, 0, 0, 0, 1])):
        scenario = Scenario.of(
            demand, lead, returns=returns, setup=20, holding=1, backlog=9, today=(3, 9)
        )
        theory, _ = theories_of(scenario)
        theory.best(0.9)
        theory.figures(3, 9)
        scenario.suggest()
        start_bias(scenario)
        best_policies(theory, np.array([[20.0], [1.0], [1.0]]))


if __name__ == "__main__":
    compile_all()
