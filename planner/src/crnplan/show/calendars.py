"""The table of levels of items that are planned by their season: by parts of the coming year."""
from __future__ import annotations

import datetime
from collections.abc import Iterator
from typing import TYPE_CHECKING, NamedTuple

from ..columns import columns_of
from ..plan.answer import Answer, YearPart
from ..plan.seasons import Stretch
from ..table import DataTable

if TYPE_CHECKING:
    from ..plan.catalogue import PlannedFolder

LEVELS = "levels.csv"


class ItemPart(NamedTuple):
    """A part of the year of an item."""

    item: str
    part: YearPart
    every: str

    @property
    def days(self) -> tuple[datetime.date, datetime.date]:
        """Returns its first and its last day."""
        return Stretch(self.part.first, self.part.end).days(self.every)


def first_of(row: ItemPart) -> str:
    return str(row.days[0])


def last_of(row: ItemPart) -> str:
    return str(row.days[1])


COLUMNS = columns_of("show", "levels", {"from": first_of, "to": last_of})


def item_parts(planned: PlannedFolder) -> Iterator[ItemPart]:
    """Yields the parts of the year of the items of a folder that are planned by their season, and of which the planner has set no
    levels, in order."""
    if planned.settings.seasons is None:
        return
    for item, answer in planned.answers():
        is_set = item.override and item.override.levels
        if isinstance(answer, Answer) and not is_set:
            for part in answer.parts:
                yield ItemPart(item.name, part, planned.every)


def levels_of(planned: PlannedFolder) -> DataTable:
    """Returns the levels of a folder by part of the year: no rows if no season is planned."""
    return planned.table(COLUMNS, item_parts(planned))
