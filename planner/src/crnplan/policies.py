"""Defines (s,S) policies, and makes them of pairs, mappings and tables."""
from __future__ import annotations

from collections.abc import Iterable, Mapping
from dataclasses import dataclass
from fractions import Fraction
from typing import Any

from . import formats
from .errors import Refused
from .money import whole
from .table import Result
from .toml.documents import shown

Levels = tuple[int, int]  # s and S of a policy
Policies = Iterable[object] | Mapping[str, Levels] | Result  # what stands for some


@dataclass(frozen=True)
class Lot:
    """What can be ordered: at least `least` items, in whole packs of `pack`."""

    pack: int = 1
    least: int = 0

    def order(self, wanted: int | Fraction) -> int:
        """Returns what is ordered where so many items are wanted: what can be, and is enough."""
        return int(-(-max(wanted, self.least) // self.pack) * self.pack)

    def most_above(self, gap: int) -> int:
        """Returns by how much an order exceeds at most what is wanted, if that is more than a gap."""
        return max(self.order(gap + 1) - gap - 1, self.pack - 1)

    def counted_in(self, step: int) -> Lot:
        """Returns the same in steps of so many items: packs rounded, the least up."""
        return Lot(max(1, round(self.pack / step)), -(-self.least // step))


@dataclass(frozen=True)
class Policy:
    """An (s,S) policy: if the inventory position is below s, order up to S.

    Parameters
    ----------
    name : str
        The name, of at most 16 letters, digits, `_` and `-`.
    s : int
        The reorder point, in items, from 0 to 1,000,000.
    S : int
        The order-up-to level, in items, from s to 1,000,000.
    """

    name: str
    s: int
    S: int

    def __post_init__(self) -> None:
        if not isinstance(self.name, str):
            raise Refused(f"name: {shown(self.name)} is no text", "write it in quotes")
        for side in ("s", "S"):
            object.__setattr__(self, side, whole(getattr(self, side), side))

    @classmethod
    def of_levels(cls, s: int, S: int, name: str = "") -> Policy:
        """Makes a policy of its levels.

        Parameters
        ----------
        s, S : int
            The levels, in items.
        name : str, optional
            By default s1_S2, or s1S2 if that is too long.
        """
        policy = cls(name, s, S)
        own = f"s{policy.s}_S{policy.S}"
        if len(own) > formats.MOST_LETTERS:
            own = own.replace("_", "")
        return policy if policy.name else cls(own, policy.s, policy.S)


def levels_of(pair: Any, name: str) -> Levels:
    """Returns the levels of a pair (s, S). Raises Refused if it is none; `name` says what it is."""
    try:
        low, high = pair
    except (TypeError, ValueError):
        raise Refused(
            f"{name}: {shown(pair)} is not a pair (s, S); give two levels in items"
        ) from None
    return whole(low, f"{name}: s"), whole(high, f"{name}: S")


def policies_of(given: Policies) -> list[Policy]:
    """Returns policies, from those, pairs (s, S), a mapping of names to pairs, or a table with the columns s and S."""
    policies: Any = given.frame if isinstance(given, Result) else given
    if hasattr(policies, "columns"):
        return _policies_of_table(policies)
    if isinstance(policies, Mapping):
        return [
            Policy.of_levels(*levels_of(pair, f"policies: {name}"), name)
            for name, pair in policies.items()
        ]
    if isinstance(policies, (str, bytes)) or not isinstance(policies, Iterable):
        raise Refused(f"policies: {shown(policies)} is no list", "give pairs (s, S)")
    return [
        one
        if isinstance(one, Policy)
        else Policy.of_levels(*levels_of(one, "policies"))
        for one in policies
    ]


def _policies_of_table(policies: Any) -> list[Policy]:
    """Returns the policies of a DataFrame. Their names are its column `policy`, or an index of that name or of texts."""
    if not {"s", "S"} <= {*policies.columns}:
        raise Refused(
            "policies: the table lacks the column s or S; name them policy, s and S"
        )
    table = policies.set_index("policy") if "policy" in policies else policies
    names = [""] * len(table)
    if table.index.name == "policy" or table.index.dtype == object:
        names = [str(name) for name in table.index]
    pairs = zip(table["s"], table["S"])
    return [
        Policy.of_levels(*levels_of(pair, "policies"), name)
        for name, pair in zip(names, pairs)
    ]
