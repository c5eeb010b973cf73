"""The scenarios on which the program is compared with theory: demands by lead times, with five policies each."""
from __future__ import annotations

from collections.abc import Mapping
from math import exp, factorial
from typing import Any

TOTAL = 60_000
REPLICATIONS = 256


def table(chances: Mapping[int, float]) -> dict[str, list[int]]:
    """Returns a table of values and weights, near to these chances; values without a weight are left out."""
    weights = {value: round(TOTAL * chance) for value, chance in chances.items()}
    return {
        "values": [it for it in weights if weights[it]],
        "weights": [it for it in weights.values() if it],
    }


def poisson(mean: float) -> dict[str, list[int]]:
    """Returns the table of a Poisson law."""
    return table(
        {value: exp(-mean) * mean**value / factorial(value) for value in range(40)}
    )


def geometric(mean: float, most: int) -> dict[str, list[int]]:
    """Returns the table of a geometric law from 0 to a value."""
    ratio = mean / (1 + mean)
    return table({value: (1 - ratio) * ratio**value for value in range(most + 1)})


def even(*values: int) -> dict[str, list[int]]:
    """Returns the table of some values, all alike."""
    return {"values": list(values), "weights": [1] * len(values)}


DEMANDS = {
    "Poisson": {"demand": poisson(2.2)},
    "geometric": {"demand": geometric(2, 13)},
    "intermittent": {"demand": {"values": [0, 1, 4, 9], "weights": [68, 10, 14, 8]}},
    "returns": {"demand": poisson(3), "returns": geometric(0.8, 6)},
}
# With 2 or 3 periods, as with 1 or 2, no order comes before an earlier one; with the others after them orders overtake.
LEADS = {
    "1": even(1),
    "2": even(2),
    "5": even(5),
    "1 or 2": even(1, 2),
    "2 or 3": {"values": [2, 3], "weights": [3, 1]},
    "1 or 4": even(1, 4),
    "1 to 4": even(1, 2, 3, 4),
    "2 to 5": {"values": [2, 3, 5], "weights": [5, 3, 2]},
}
COSTS = [
    {"setup": 20, "unit": 3, "holding": 2, "backlog": 11},
    {"setup": 6, "unit": 0, "holding": 1, "backlog": 4},
]


def settings() -> list[tuple[str, dict[str, Any]]]:
    """Returns each setting: its name and its scenario, as a tree."""
    made = []
    for demand, tables in DEMANDS.items():
        for lead, its_table in LEADS.items():
            number = len(made)
            mean = sum(
                a * b for a, b in zip(its_table["values"], its_table["weights"])
            ) / sum(its_table["weights"])
            point = round(2.2 * (mean + 0.5 + number % 3 / 2))
            policies = [
                (point, point + 8),
                (point + 2, point + 8),
                (max(point - 2, 1), point + 13),
                (point, point),
                (point + 4, point + 18),
            ]
            made.append(
                (
                    f"{demand}, lead time {lead}",
                    {
                        "version": 2 if "returns" in tables else 1,
                        "periods": 21 + number % 12,
                        "replications": REPLICATIONS,
                        "initial": (0, point + 6, point + 30)[number % 3],
                        "ring": 1024,
                        "costs": COSTS[number % 2],
                        **tables,
                        "lead": its_table,
                        "policy": [
                            {"name": f"p{it}", "s": s, "S": S}
                            for it, (s, S) in enumerate(policies)
                        ],
                    },
                )
            )
    return made
