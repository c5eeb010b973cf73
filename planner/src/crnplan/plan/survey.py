"""Looks at all items of a plan once, for what its pages say of them together."""
from __future__ import annotations

from collections import defaultdict
from collections.abc import Iterable, Iterator
from dataclasses import replace
from functools import cached_property

from ..law import Law
from ..read.columns import periods_a_year
from ..read.item import UNORDERED, Item
from ..read.items import Reject
from ..remarks import Remark
from .answer import Answer, Laws
from .catalogue import Decided, PlannedFolder
from .drawn import keep_greatest
from .totals import Totals

NO_LAWS = Laws(1, Law((), ()), Law((), ()), None)


def saving_of(answer: Answer | Remark) -> float | None:
    """Returns what an item saves that is compared with a policy of today; None for others."""
    return answer.saving if isinstance(answer, Answer) and answer.is_compared else None


class Survey:
    """What the items of a plan come to, as they are seen. `classes` has the sums of each class, with the name that
    masters have for it, of items that are compared with a policy of today. `faults` are the items that have no plan,
    and `asked` is a year's demand for those of them that have a price, in money."""

    def __init__(self, folder: PlannedFolder, most: int = 0) -> None:
        """Prepares to look at the items of a folder, of which the greatest ones are kept, at most so many."""
        self._folder, self.classes = folder, defaultdict[str, Totals](Totals)
        self.faults, self.asked = list[Reject](), list[float]()
        # The greatest decisions so far, the least of them first, by their size and their place from the end.
        self._most, self._kept = most, list[tuple[float, int, Decided]]()
        self._masters, self._periods = folder.counts["files"]["items"]["name"], float(
            periods_a_year(folder.every)
        )

    @classmethod
    def of(cls, folder: PlannedFolder, most: int = 0) -> Survey:
        """Returns what all items of a folder come to."""
        survey = cls(folder, most)
        for _ in survey.seen(folder.answers()):
            pass
        return survey

    @cached_property
    def totals(self) -> Totals:
        """Returns the sums of all items, which are known when the last one is planned."""
        return self._folder.totals

    @property
    def greatest(self) -> list[Decided]:
        """Returns the decisions with the greatest saving or loss, the first of equal ones: items that are planned or have
        no order."""
        return [decided for *_, decided in sorted(self._kept, reverse=True)]

    def seen(self, answers: Iterable[Decided]) -> Iterator[Decided]:
        """Yields all items with their answers, and notes each."""
        for place, (item, answer) in enumerate(answers):
            if isinstance(answer, Remark) and item.past not in UNORDERED:
                self._note_fault(item, answer)
            else:
                self._keep(place, item, answer)
            yield item, answer

    def _note_fault(self, item: Item, fault: Remark) -> None:
        self.faults.append(
            Reject(
                "item",
                self._masters,
                item.line,
                item.name,
                "",
                "",
                fault,
                item.rows,
                item.value,
            )
        )
        if item.price is not None:
            self.asked.append(
                self._periods
                * float(item.price)
                * sum(item.known.counts)
                / max(len(item.known.counts), 1)
            )

    def _keep(self, place: int, item: Item, answer: Answer | Remark) -> None:
        """Adds a decision to its class, and keeps it if it is one of the greatest so far, but not its laws, which take most
        of the memory."""
        size = abs(saving_of(answer) or 0.0)
        if isinstance(answer, Answer):
            if answer.is_compared:
                self.classes[item.category].add(item, answer)
            answer = replace(answer, laws=NO_LAWS)
        keep_greatest(self._kept, (size, -place, (item, answer)), self._most)
