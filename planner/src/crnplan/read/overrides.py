"""What a planner sets for an item, whatever a plan chooses: s and S, or that nothing is ordered, with a reason."""
from __future__ import annotations

from collections.abc import Iterator, Mapping, Sequence
from dataclasses import dataclass
from fractions import Fraction

from ..remarks import Remark
from .cells import HEADINGS, Cell, CellFault, Unreadable, fault, plain_name, text_of

SET_LEVELS, DO_NOT_ORDER = "levels", "do not order"
WORDS = frozenset(HEADINGS["do_not_order"]["words"])


@dataclass(frozen=True)
class Override:
    """What a planner sets: s (`point`) and S (`level`) in items, which a `kind` of levels has; or not to order."""

    kind: str
    point: int | None = None
    level: int | None = None
    reason: str = ""

    @classmethod
    def of(
        cls,
        s: Fraction | None,
        S: Fraction | None,
        word: str | None,
        reason: str | None,
    ) -> Override | None:
        """Returns what the values of a row say, which have no fault; None if they say nothing."""
        if word:
            return cls(DO_NOT_ORDER, reason=reason or "")
        return (
            None
            if s is None or S is None
            else cls(SET_LEVELS, int(s), int(S), reason or "")
        )

    @property
    def levels(self) -> tuple[int, int] | None:
        """Returns s and S; None if nothing is ordered."""
        return (
            None
            if self.point is None or self.level is None
            else (self.point, self.level)
        )

    @property
    def remark(self) -> Remark:
        code = "levels of a planner" if self.levels else "not to be ordered"
        return Remark(code, {"s": self.point, "S": self.level, "reason": self.reason})


def word_of(cell: Cell) -> str:
    """Returns that nothing is ordered, if a cell says so. Raises Unreadable."""
    if plain_name(text_of(cell)) not in WORDS:
        raise Unreadable("no override", cell)
    return DO_NOT_ORDER


def level_faults(
    cells: Mapping[str, Cell],
    roles: Sequence[str],
    s: Fraction | None,
    S: Fraction | None,
    word: str | None = None,
) -> Iterator[CellFault]:
    """Yields what is wrong with the levels of a row, by their roles: one of them alone, s above S, or levels beside a word
    that nothing is ordered."""
    low, high = roles
    if (s is None) != (S is None):
        missing, other = (low, high) if s is None else (high, low)
        yield fault(missing, "", "one level", missing=missing, other=other)
    elif s is not None and S is not None:
        if s > S:
            yield fault(low, cells[low], "s above S", s=int(s), S=int(S))
        elif word:
            yield fault(low, cells[low], "two overrides", word=word)
