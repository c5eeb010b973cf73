"""The table of what the plan of a catalogue aims at and promises.

It is by the past of a class, and of items that are planned together.
"""
from __future__ import annotations

from typing import TYPE_CHECKING, NamedTuple

from ..columns import columns_of
from ..plan.aims import CLASSES
from ..table import DataTable

if TYPE_CHECKING:
    from ..plan.catalogue import PlannedFolder
    from ..plan.totals import Totals

# Items that are planned together: those of all classes, or of all but the named ones.
ALL_CLASSES, OTHER_CLASSES = "all", "others"
MOST_WANTED = 3  # fill rates, of which the aims are shown
COLUMNS = columns_of("show", "promises")


class Promise(NamedTuple):
    """What is aimed at and promised for a class of items. None stands for no figure."""

    name: str
    items: int
    periods: int | None = None
    wanted: float | None = None
    aimed: float | None = None
    promised: float | None = None
    met: float | None = None
    least: float | None = None
    greatest: float | None = None
    at_least: int | None = None
    price: float | None = None
    more: float | None = None
    error: float | None = None


def aims_of(folder: PlannedFolder, totals: Totals) -> DataTable | None:
    """Returns where each class of items aims, for the wanted fill rates that most items have; None if these are not
    corrected."""
    aims = folder.settings.aims
    if aims is None:
        return None
    aimed = []
    for wanted in sorted(fill for fill, _ in totals.corrected.most_common(MOST_WANTED)):
        for name, tried in zip(CLASSES, aims.classes):
            aim = tried.aim(wanted)
            own = Promise(name, tried.items, tried.periods, wanted, aim)
            aimed.append(own._replace(met=tried.met(aim)))
    return DataTable.of(COLUMNS, aimed)


def costs_of(folder: PlannedFolder) -> DataTable | None:
    """Returns what plans of each class of items with a backlog cost cost on the past beside what theory says; None if
    that was not tried."""
    overruns = folder.settings.overruns
    if overruns is None:
        return None
    costs = []
    for name, its in zip(CLASSES, overruns.classes):
        own = Promise(name, its.items, its.periods)
        costs.append(own._replace(more=its.times - 1, error=its.error))
    return DataTable.of(COLUMNS, costs)


def together_of(folder: PlannedFolder, totals: Totals) -> DataTable | None:
    """Returns what the groups come to whose items are planned together; None if none are."""
    settings, groups = folder.settings, []
    if settings.prices is None:
        return None
    rest = OTHER_CLASSES if len(settings.prices.groups) > 1 else ALL_CLASSES
    for group, price in sorted(settings.prices.groups.items()):
        asked = totals[f"together {group}"]
        least, greatest = totals.fills.get(group, (None, None))
        groups.append(
            Promise(
                group or rest,
                totals.shared[group],
                wanted=price.wanted,
                promised=totals[f"met together {group}"] / asked if asked else None,
                met=price.past if settings.correct else None,
                least=least,
                greatest=greatest,
                at_least=totals.least[group] if settings.floor else None,
                price=price.price,
            )
        )
    return DataTable.of(COLUMNS, groups)
