"""Puts items into classes by the value of their demand (ABC).

Source: Silver, Pyke and Thomas, Inventory and Production Management in Supply Chains (2017), section 2.4.
"""
from __future__ import annotations

import math
from collections.abc import Hashable, Mapping, Sequence
from fractions import Fraction
from typing import TypeVar

Name = TypeVar("Name", bound=Hashable)
LETTERS = "ABC"


def abc_of(values: Mapping[Name, Fraction], cuts: Sequence[int]) -> dict[Name, str]:
    """Returns the class of each item by the value of its demand: A if the items of higher value have less than the
    first share of all value, in percent, B if they have less than the second, else C. Equal values have one class.
    """
    classes = dict[Name, str]()
    above = 0
    by_value = dict[int, list[Name]]()
    unit = math.lcm(
        *{value.denominator for value in values.values()}
    )  # Whole numbers are counted fast.
    for name, money in values.items():
        by_value.setdefault(money.numerator * (unit // money.denominator), []).append(
            name
        )
    total = sum(value * len(names) for value, names in by_value.items())
    for value in sorted(by_value, reverse=True):
        letter = LETTERS[sum(100 * above >= cut * total for cut in cuts)]
        classes |= dict.fromkeys(by_value[value], letter)
        above += value * len(by_value[value])
    return classes
