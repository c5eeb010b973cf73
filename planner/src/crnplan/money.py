"""Makes whole numbers of what stands in tables and notebooks, and scales money to the program's whole numbers."""
from __future__ import annotations

import re
import sys
from collections.abc import Iterable, Mapping
from dataclasses import dataclass
from fractions import Fraction
from typing import Any, SupportsFloat

from . import formats
from .toml.documents import shown
from .errors import Refused

# A number of Python, numpy, Decimal or Fraction; an amount of money may be a text such as "12.50" too.
Number = SupportsFloat
Amount = SupportsFloat | str
# Costs are scaled by a power of ten from -8 to 8, the nearest to 0 that can be.
MOST_DECIMALS = 8
MOST_DIGITS = 15  # of an amount before the decimal sign
SCALES = [
    Fraction(10) ** power
    for power in sorted(range(-MOST_DECIMALS, MOST_DECIMALS + 1), key=abs)
]
# The power of ten at the end of a number; that of the smallest float, and the greatest float.
EXPONENT = re.compile(r"e([-+]?\d[\d_]*)\s*$", re.IGNORECASE)
MOST_EXPONENT, GREATEST = 324, Fraction(sys.float_info.max)
MISSING = ("<NA>", "NaT", "nan", "NaN")  # as their values show themselves
# The decimals of currencies that don't have two. Source: ISO 4217, table A.1, minor units.
PLACES = {
    **dict.fromkeys(
        ("CLP", "ISK", "JPY", "KRW", "PYG", "UGX", "VND", "XAF", "XOF", "XPF"), 0
    ),
    **dict.fromkeys(("BHD", "IQD", "JOD", "KWD", "LYD", "OMR", "TND"), 3),
}


@dataclass(frozen=True)
class Currency:
    """The currency of amounts, as EUR, empty if it is not known, and how many decimals the finest of them has."""

    code: str = ""
    decimals: int = 2

    @property
    def places(self) -> int:
        """Returns the decimals for a reader: those of the currency; without one, those of the amounts, at most 2."""
        return PLACES.get(self.code, 2) if self.code else min(self.decimals, 2)

    @property
    def digits(self) -> int:
        """Returns the decimals of single amounts for a reader: those of the currency; without one, all."""
        return self.places if self.code else self.decimals

    def named(self, amount: str) -> str:
        """Returns the text of an amount with the currency before it: EUR -3.00, -$3.00."""
        bare = amount.lstrip("+-\u2212")
        if not self.code or self.code[-1].isalpha() or not bare[:1].isdecimal():
            return f"{self.code} {amount}".lstrip()
        return f"{amount.removesuffix(bare)}{self.code}{bare}"

    def text(self, amount: float, sign: str = "") -> str:
        """Returns an amount for a reader, with a sign "+" also if it is above 0."""
        return self.named(f"{amount:{sign}z,.{self.places}f}")


@dataclass(frozen=True)
class Costs:
    """What orders and items cost, in whole numbers of a scenario's money.

    Parameters
    ----------
    setup : int
        The cost of an order.
    unit : int
        That of an item ordered.
    holding : int
        That of an item in stock at the end of a period.
    backlog : int
        That of an item owed at the end of a period.
    """

    setup: int
    unit: int
    holding: int
    backlog: int

    def __post_init__(self) -> None:
        for name, cost in [*vars(self).items()]:
            object.__setattr__(self, name, whole(cost, name))


def exact(value: Any) -> Fraction | None:
    """Returns a number exactly; a float is what its shortest spelling says. None if it is no finite number, or is beyond
    the range of floats, where an exact number may not be computed in any time."""
    # Python takes True for 1.
    if isinstance(value, bool):
        return None
    text = value if isinstance(value, (int, Fraction)) else str(value)
    power = EXPONENT.search(text) if isinstance(text, str) else None
    try:
        if power and abs(int(power[1])) > MOST_EXPONENT:
            return None
        number = Fraction(text)
    except (ValueError, ZeroDivisionError):
        return None
    return number if abs(number) <= GREATEST else None


def is_missing(value: Any) -> bool:
    """Returns whether a value says that there is none: None, NaN, NaT, or what pandas has for it."""
    return value is None or not isinstance(value, str) and str(value) in MISSING


def whole_in(value: Any) -> int:
    """Returns a whole number of any type: int, numpy's, or a float, Decimal or Fraction without a rest. Raises Refused
    if it is none."""
    if type(value) is int:
        return value
    number = None if isinstance(value, str) else exact(value)
    if number is not None and number.denominator == 1:
        return int(number)
    advice = "write it as 12"
    if number is not None:
        advice = "round it, or count in a smaller unit"
    elif is_missing(value):
        advice = "leave it out"
    raise Refused(f"{shown(value)} is not a whole number", advice)


def whole(value: Any, name: str) -> int:
    """Returns a whole number: see `whole_in`. `name` says in a refusal what it is."""
    try:
        return whole_in(value)
    except Refused as why:
        raise Refused(f"{name}: {why.what}", why.advice) from why


def whole_numbers(values: Any, name: str) -> list[int]:
    """Returns several whole numbers of any types: those of an iterable, an array or a Series. Raises Refused for the
    first that is none; `name` says what it is, before its place."""
    # What an array or a Series has are numbers of Python then.
    numbers = values.tolist() if hasattr(values, "tolist") else values
    if isinstance(numbers, (bytes, Mapping)) or not isinstance(numbers, Iterable):
        raise Refused(
            f"{type(values).__name__} is no list of whole numbers",
            "give a list of them",
        )
    given: list[int] = [*numbers]
    if {*map(type, given)} == {int}:
        return given
    return [whole(number, f"{name} {place}") for place, number in enumerate(given, 1)]


def _beyond(amounts: Mapping[str, Fraction], scale: Fraction) -> str:
    """Returns the name of the first amount that a scale leaves in parts or above the program's range; empty if none."""
    for name, amount in amounts.items():
        scaled = amount * scale
        if scaled.denominator > 1 or scaled > formats.limits("costs", name)[1]:
            return name
    return ""


def rounded_costs(
    costs: Mapping[str, Fraction], exact_one: str
) -> tuple[dict[str, int], Fraction, float]:
    """Returns costs as the program's whole numbers, what one unit of money counts in them, and the greatest relative
    error of their rounding.

    If no scale makes all costs whole, it is the greatest within the program's ranges that makes `exact_one` whole,
    which is above 0. Raises Refused if the costs are too far apart for that.
    """
    try:
        return *scaled_costs(costs), 0.0
    except Refused:
        most = min(
            formats.limits("costs", name)[1] / amount
            for name, amount in costs.items()
            if amount
        )
    times = int(most * costs[exact_one])
    if times < 1:
        named = ", ".join(f"{name} {float(amount):g}" for name, amount in costs.items())
        raise Refused(
            f"costs: these are too far apart: {named}; {exact_one} would count less than 1 in the program's "
            "whole numbers"
        )
    scale = times / costs[exact_one]
    whole_ones = {name: round(amount * scale) for name, amount in costs.items()}
    errors = [
        abs(whole_ones[name] / (amount * scale) - 1)
        for name, amount in costs.items()
        if amount
    ]
    return whole_ones, scale, float(max(errors))


def scaled_costs(costs: Mapping[str, Amount]) -> tuple[dict[str, int], Fraction]:
    """Returns costs as the program's whole numbers, and what one unit of money counts in them: a power of ten.

    Each cost is an int, float, Decimal, Fraction or text, such as "12.50". The scale is 1 if that can be, or if all are
    whole. Raises Refused if no scale makes all costs whole and keeps them within their ranges.
    """
    amounts = dict[str, Fraction]()
    for name, cost in costs.items():
        amount = exact(cost)
        if amount is None:
            raise Refused(
                f"costs: {name}: {shown(cost)} is not an amount; write it as 12.50"
            )
        if 10**MOST_DECIMALS % amount.denominator:
            raise Refused(
                f"costs: {name}: {shown(cost)} has more than {MOST_DECIMALS} decimals; round it"
            )
        amounts[name] = amount
    scale = _scale_of(amounts, costs)
    return {name: int(amount * scale) for name, amount in amounts.items()}, scale


def _scale_of(amounts: Mapping[str, Fraction], costs: Mapping[str, Amount]) -> Fraction:
    """Returns the scale of amounts that stand for costs; 1 if all are whole, but out of range. Raises Refused if a scale
    above 1 makes all whole and one too large."""
    for scale in SCALES:
        if not _beyond(amounts, scale):
            return scale
    finest = max(amounts, key=lambda name: amounts[name].denominator)
    scale = next(
        scale
        for scale in SCALES
        if scale >= 1
        and all((amount * scale).denominator == 1 for amount in amounts.values())
    )
    if scale > 1:
        name = _beyond(amounts, scale)
        most = formats.limits("costs", name)[1]
        raise Refused(
            f"costs: {finest} = {costs[finest]} is whole only if all costs count {int(scale):,} times; "
            f"then {name} is {int(amounts[name] * scale):,}, above {most:,}; round {finest}"
        )
    return scale
