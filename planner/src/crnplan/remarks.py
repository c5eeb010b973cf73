"""Something that must be said of an item, as data: a code and its facts. Words are made of it where it is shown."""
from __future__ import annotations

from collections.abc import Mapping, Sequence
from dataclasses import dataclass, field

Value = int | float | str | None


@dataclass(frozen=True)
class Remark:
    """A code, and by name the facts that its words need: numbers, and texts of the user's own."""

    code: str
    facts: Mapping[str, Value] = field(default_factory=dict)


def joined(remarks: Sequence[Remark]) -> Remark:
    """Returns several remarks as one."""
    if len(remarks) == 1:
        return remarks[0]
    facts: dict[str, Value] = {}
    for place, remark in enumerate(remarks):
        facts[str(place)] = remark.code
        for name, value in remark.facts.items():
            facts[f"{place} {name}"] = value
    return Remark("several", facts)
