"""Defines a law of chances of whole numbers, as a scenario has it."""
from __future__ import annotations

from collections import Counter
from collections.abc import Iterable, Mapping
from dataclasses import dataclass
from fractions import Fraction
from functools import cached_property
from operator import ge, mul
from typing import TYPE_CHECKING, Any, cast

from .arguments import judged
from .errors import Refused
from .formats import MOST_DEMAND, MOST_WEIGHT
from .money import Number, exact, whole, whole_numbers
from .toml.documents import shown
from .vocabulary import read_argument

if TYPE_CHECKING:
    import numpy as np
    import pandas as pd

    from .chances import Floats, Whole

# By so much a sum of chances may differ from 1, as by rounding.
MOST_OFF = Fraction(1, 1000)
NEARLY_1 = float(MOST_OFF)
NO_WEIGHT = "no weight is above 0", "give a value that can occur"


@dataclass(frozen=True)
class Law:
    """A law of chances: rising whole values from 0, with their weights.

    Parameters
    ----------
    values : tuple of int
        Whole numbers from 0, which rise: items, or periods.
    weights : tuple of int
        A whole weight from 0 for each value, of which one is above 0. `Law((), ())` is the law of no observation, which no
        scenario takes.

    Raises
    ------
    Refused
        For anything else.

    Examples
    --------
    >>> law = crn.Law((0, 4, 8), (1, 2, 1))
    >>> law.mean
    Fraction(4, 1)
    """

    values: tuple[int, ...]
    weights: tuple[int, ...]

    def __post_init__(self) -> None:
        for name in ("values", "weights"):
            numbers = getattr(self, name)
            if type(numbers) is not tuple or {*map(type, numbers)} - {int}:
                object.__setattr__(
                    self, name, tuple(read_argument(name, numbers, _whole))
                )
        values, weights = self.values, self.weights
        if not (values or weights):
            return
        if len(values) != len(weights):
            raise Refused(
                f"there are {len(values)} values and {len(weights)} weights",
                "give one weight for each value",
            )
        if not any(weights):
            raise Refused(*NO_WEIGHT)
        if min(weights) < 0:
            raise Refused(f"weights: {min(weights)} is below 0", "write 0 or more")
        if values[0] < 0:
            raise Refused(f"values: {values[0]} is below 0", "write 0 or more")
        if any(map(ge, values, values[1:])):
            raise Refused("the values do not rise", "sort them, and give each once")

    @classmethod
    def of(cls, weights: Mapping[int, Number]) -> Law:
        """Makes a law from a mapping of values to weights.

        Parameters
        ----------
        weights : mapping of int to number
            Whole values from 0, each with a whole weight from 0, or with a share of 1: then their sum differs from 1 by at most
            0.001. Weights of 0 are left out. Shares become whole weights with a sum of 65,536, rounded as `of_chances` says.

        Returns
        -------
        Law
            The law.

        Raises
        ------
        Refused
            For anything else.

        Examples
        --------
        >>> crn.Law.of({0: 3, 4: 2, 9: 0})
        Law(values=(0, 4), weights=(3, 2))
        >>> crn.Law.of({0: 0.5, 4: 0.5})
        Law(values=(0, 4), weights=(32768, 32768))
        """
        return read_argument("weights", weights, cls._of)

    @classmethod
    def _of(cls, weights: Mapping[int, Number]) -> Law:
        """Makes a law as `of` does, whose refusals do not name the argument."""
        if not isinstance(weights, Mapping):
            raise Refused(
                f"{shown(weights)} is no mapping of values to weights",
                "write {0: 3, 1: 2}, or use of_numbers for what was observed",
            )
        if {*map(type, weights), *map(type, weights.values())} == {int}:
            return cls._of_whole(cast(Mapping[int, int], weights))
        parts = dict[int, Fraction]()
        for value, weight in weights.items():
            number = whole(value, "value")
            part = exact(weight)
            if part is None or part < 0 or isinstance(weight, str):
                raise Refused(
                    f"weight of {number}: {shown(weight)} is no weight",
                    "write a whole number from 0, or a share of 1",
                )
            parts[number] = part
        if all(part.denominator == 1 for part in parts.values()):
            return cls._of_whole({value: int(part) for value, part in parts.items()})
        total = sum(parts.values(), Fraction(0))
        if abs(total - 1) > MOST_OFF:
            raise Refused(
                f"the weights add up to {float(total):g}, and some are parts",
                "write whole weights, or shares with the sum 1",
            )
        return cls.of_parts(parts)

    @classmethod
    def _of_whole(cls, weights: Mapping[int, int]) -> Law:
        kept = sorted(value for value in weights if weights[value])
        if not kept:
            raise Refused(*NO_WEIGHT)
        return Law(tuple(kept), tuple(weights[value] for value in kept))

    @property
    def frame(self) -> pd.DataFrame:
        """Returns a row for each value: value, weight, and chance (the share of its weight)."""
        import pandas as pd

        total = sum(self.weights)
        chances = [weight / total for weight in self.weights]
        columns = {"value": self.values, "weight": self.weights, "chance": chances}
        return pd.DataFrame(columns)

    @classmethod
    def of_parts(cls, parts: Mapping[int, Fraction]) -> Law:
        """Makes a law whose chances are as some exact numbers, rounded as `of_chances` says.

        Parameters
        ----------
        parts : mapping of int to Fraction
            Numbers from 0 by value.

        :meta private:
        """
        import numpy as np

        values = sorted(value for value, part in parts.items() if part)
        tails = np.cumsum([float(parts[value]) for value in reversed(values)])[::-1]
        return Law.of_tails(np.array(values), tails / tails[0])

    @classmethod
    def of_numbers(cls, numbers: Iterable[Number]) -> Law:
        """Makes the empirical law: the weight of a value is how often it was observed.

        Parameters
        ----------
        numbers : iterable of int
            Whole numbers from 0. Raises Refused for others.

        Examples
        --------
        >>> crn.Law.of_numbers([0, 4, 4])
        Law(values=(0, 4), weights=(1, 2))
        """
        return read_argument("numbers", numbers, cls._of_numbers)

    @classmethod
    def _of_numbers(cls, numbers: Iterable[Number]) -> Law:
        """Makes a law as `of_numbers` does, whose refusals do not name the argument."""
        return cls._of_whole(Counter(_whole(numbers)))

    @classmethod
    def of_chances(cls, chances: Floats) -> Law:
        """Makes a law from the chances of 0, 1, 2 and so on.

        The weights add up to 65,536. The chances to be at least a value are rounded to units of 1 / 65,536, and a weight is the
        difference of two of them. So no weight is below 0, and the share of no tail is off by more than half a unit. What is
        above the greatest value of a scenario counts there.

        Parameters
        ----------
        chances : array of float
            Chances from 0, whose sum differs from 1 by at most 0.001. Raises Refused for others.

        Examples
        --------
        >>> crn.Law.of_chances([0.25, 0.75])
        Law(values=(0, 1), weights=(16384, 49152))
        """
        import numpy as np

        given = _chances(chances, "chances")
        total = given.sum()
        if abs(total - 1) > NEARLY_1:
            raise Refused(
                f"chances: these add up to {total:g}", "give chances with the sum 1"
            )
        law = np.append(given[:MOST_DEMAND], given[MOST_DEMAND:].sum())
        return _rounded(np.arange(len(law)), np.cumsum(law[::-1])[::-1] / law.sum())

    @classmethod
    def of_tails(cls, values: Whole, at_least: Floats) -> Law:
        """Makes a law from the chances to be at least each of some values, rounded as `of_chances` says.

        Parameters
        ----------
        values : array of int
            Rising values from 0.
        at_least : array of float
            The chance to be at least each value: 1 for the first, and then falling. Raises Refused for others.

        :meta private:
        """
        import numpy as np

        tails = _chances(at_least, "at_least")
        units = np.rint(MOST_WEIGHT * tails)
        is_law = len(values) == len(tails) > 0 and units[0] == MOST_WEIGHT
        if not is_law or np.any(np.diff(units) > 0):
            raise Refused(
                "these are no chances to be at least rising values",
                "give chances that fall from 1, one for each value",
            )
        return _rounded(np.asarray(values), tails)

    @property
    def tree(self) -> dict[str, list[int]]:
        """Returns the tree that TOML has.

        :meta private:
        """
        return {"values": list(self.values), "weights": list(self.weights)}

    @property
    def table(self) -> Law:
        """Returns the values and weights alone.

        :meta private:
        """
        return Law(self.values, self.weights)

    @cached_property
    def size(self) -> int:
        """Returns the sum of the weights."""
        return sum(self.weights)

    @property
    def mean(self) -> Fraction:
        """Returns the exact mean."""
        return Fraction(sum(map(mul, self.values, self.weights)), self.size)

    @judged("law")
    def draws(self, random: np.random.Generator, count: int) -> list[int]:
        """Returns random values of the law.

        Parameters
        ----------
        random : numpy.random.Generator
            What draws them.
        count : int
            How many, from 0 to 1,000,000.
        """
        import numpy as np

        numbers: list[int] = random.choice(
            self.values, count, p=np.array(self.weights) / self.size
        ).tolist()
        return numbers

    @property
    def chances(self) -> dict[int, float]:
        """Returns the chance of each value that has one."""
        return {
            value: weight / self.size
            for value, weight in zip(self.values, self.weights)
            if weight
        }


def _rounded(values: Whole, at_least: Floats) -> Law:
    """Returns the law of rising values with falling chances to be at least each: see `Law.of_chances`."""
    import numpy as np

    tails = np.rint(MOST_WEIGHT * np.append(at_least, 0.0))
    weights = -np.diff(tails).astype(int)
    kept = np.flatnonzero(weights)
    return Law(tuple(values[kept].tolist()), tuple(weights[kept].tolist()))


def _chances(numbers: Any, name: str) -> Floats:
    """Returns numbers from 0 as an array. Raises Refused with the name of the argument for anything else."""
    import numpy as np

    refused = Refused(
        f"{name}: these are no chances", "give one list of numbers from 0"
    )
    try:
        given = np.asarray(numbers)
    except ValueError:  # lists of several lengths
        raise refused from None
    if given.ndim != 1 or given.dtype.kind not in "iuf" or not np.all(given >= 0):
        raise refused
    return given


def _whole(numbers: Any) -> list[int]:
    return whole_numbers(numbers, "entry")


# What stands for a law: a law, values with weights, or what was observed.
Chances = Law | Mapping[int, Number] | Iterable[Number]


def law_of(law: Any, name: str) -> Law:
    """Returns the table of a law, of a mapping of values to weights, or of observed whole numbers. Raises Refused with the
    name of what it is."""
    if isinstance(law, Law):
        return law.table
    make = Law._of if isinstance(law, Mapping) else Law._of_numbers
    return read_argument(name, law, make)
