"""What a notebook asks: plans of a catalogue and of one item. Nothing is written unless a folder is named."""
from __future__ import annotations

import shutil
from collections.abc import Mapping
from pathlib import Path
from typing import Any

from .arguments import judged
from .catalogues import (
    Catalogue,
    Lost,
    plan_catalogue,
    warn_of_lost,
    write_found,
)
from .errors import Refused, argument
from .given import COMMON, joined, taken, taking
from .plan.how import Settings
from .read.items import Reading
from .store.files import Folder, Room, own_folder
from .store.clusters import Scheduler
from .store.means import Means
from .planned import Plan
from .show.catalogue_page import CATALOGUE_FILES, write_scenario
from .plan.catalogue import check_earlier, planned_folder
from .read.catalogue_reading import CATALOGUE, READ, read_into
from .read.opening import Table
from .read.law_forms import LAWS
from .read.moves import OUT
from .read.overriding import set_overrides
from .read.stated_laws import StatedTable
from .read.configuration import made_from
from .vocabulary import words_of


# The words of `read_catalogue` that other calls name otherwise.
OF_READING = {"masters": "items", "period": "every"}


def rules_of(
    sales: Table | Catalogue, tables: Mapping[str, object], words: Mapping[str, Any]
) -> Reading:
    """Returns how tables are read by the words of a call, or by those of a catalogue that was read. Raises Refused for
    sales without masters, and for a catalogue beside other tables or words of reading, which would not count.
    """
    if not isinstance(sales, Catalogue):
        if tables["masters"] is not None:
            return taken(Reading, words)
        raise Refused(
            f"{argument('masters')} is missing", "give a table with a row for each item"
        )
    given = {name for name, table in tables.items() if table is not None}
    there = {OF_READING.get(name, name) for name in given}
    others = words_of(Reading).keys() & words.keys() - there
    if given or others:
        asked = ", ".join(f"{name}=.." for name in sorted(there | others))
        raise Refused(
            f"{', '.join(sorted(given | others))}: not for a catalogue that was read before",
            f"give it where that is read: read_catalogue(.., {asked})",
        )
    with sales.opened() as read:
        return made_from(Reading, read.fact("told"))


def take_tables(
    folder: Folder,
    sales: Table | Catalogue,
    masters: Table | None,
    orders: Table | None,
    out_of_stock: Table | None,
    words: Reading,
    jobs: int | None,
    laws: Any = None,
) -> None:
    """Reads a catalogue into a folder by so many processes, or copies one that was read elsewhere."""
    if not isinstance(sales, Catalogue):
        tables = {"demand": sales, "items": masters, "orders": orders}
        more = {OUT: out_of_stock, LAWS: laws}
        read_into(folder, {**tables, **more}, words, jobs)
    elif sales.path.resolve() != folder.store(READ).resolve():
        part = folder.room() / Path(READ).name
        shutil.copyfile(sales.path, part)
        folder.take(part, READ)


@judged("call", "plan", "common")
@taking(Reading, Settings, shown=COMMON)
def plan(
    sales: Table | Catalogue,
    masters: Table | None = None,
    orders: Table | None = None,
    *,
    out: str | Path | None = None,
    out_of_stock: Table | None = None,
    laws: StatedTable | None = None,
    reading: Reading | None = None,
    settings: Settings | None = None,
    overrides: Table | None = None,
    after: str | Path | None = None,
    jobs: int | None = None,
    cluster: Scheduler | None = None,
    program: str | Path | None = None,
    learn_again: bool = False,
    progress: bool = False,
    **words: object,
) -> Plan:
    """Plans all items of a catalogue, and returns the plan. Nothing is written unless `out` names a folder.

    `read_catalogue` says what tables may be, and how they are read. Nothing is lost: each row and item that is left out is in
    `rejects`, with its place, the reason and advice. Each item is run by crnsim under `replications` of `periods` periods,
    with random numbers that follow from the `seed` and its name alone.

    Parameters
    ----------
    sales : path, DataFrame or Catalogue
        A row for each movement (item, date, quantity, and perhaps returned and promotion), or for each item, with a column
        for each period: a data frame, a CSV file, or a sheet of a workbook (FILE.xlsx!SHEET). Or a Catalogue that
        `read_catalogue` has read. Other tables of a catalogue and words of reading are then refused: `read_catalogue` takes
        them. `overrides` is read as the catalogue was.
    masters : path or DataFrame, optional
        A row for each item: see `items` of `read_catalogue`. It is needed unless `sales` is a Catalogue.
    orders : path or DataFrame, optional
        The dates of orders: item, ordered, received.
    out : str or Path, optional
        A folder that keeps tables, pages and all answers. Planned again, only what has changed is planned, and items learn
        from one another and plans aim as before, unless `learn_again`.
    out_of_stock : path or DataFrame, optional
        The times in which there was none of an item: item, from, to.
    laws : path, DataFrame, or dict or Series of Law by item, optional
        Laws of demand that are stated: see `read_catalogue`.
    reading : Reading, optional
        Words of reading that several calls share. A word is said there or by itself.
    settings : Settings, optional
        Words of planning that several calls share.
    overrides : path or DataFrame, optional
        A row for each item that is ordered otherwise than planned: item, s and S, or an override "do not order", and a reason.
        It holds whatever is chosen, also in plans `after` this one until their table says otherwise; a row with nothing ends
        it. What it costs beside the chosen policy is in `decisions`.
    after : str or Path, optional
        The folder of an earlier plan, with the same records or longer ones; nothing is written into it. Items that have not
        changed are not planned again, and `changes` says for each item what has moved and why, and how the earlier policy did
        since.
    jobs : int, from 1 to 1,024, optional
        How many processes work; by default one for each processor. The result is the same.
    cluster : str or distributed.Client, optional
        The address of a Dask scheduler, or a client, whose workers work in place of processes.
    program : str or Path, optional
        The path of crnsim: see `find_program`.
    learn_again : bool, default False
        Learns laws and aims anew, though `out` has those of an earlier plan.
    progress : bool, default False
        Shows on standard error how many items are planned.
    **words
        Any other word of `Reading` and of `Settings`.

    Returns
    -------
    Plan
        `decisions` has a row for each item, and `text` says what the plan comes to.

    Raises
    ------
    Refused
        For what can't be read or meant.
    ProgramError
        If a run by crnsim fails.
    Lost
        If counts of rows or items do not add up, which is a fault of crnplan.

    Examples
    --------
    >>> plan = crn.plan(sales, masters, jobs=1)
    >>> plan.decisions.loc[0, ["item", "s_chosen", "S_chosen"]].to_list()
    ['bolt', 23, 115]
    >>> round(plan.totals["saving"], 2)
    0.9
    """
    known = joined(words, reading=reading, settings=settings)
    tables = {"masters": masters, "orders": orders, "out_of_stock": out_of_stock}
    rules = rules_of(sales, {**tables, "laws": laws}, known)
    ways = taken(Settings, {"fill": rules.fill, "service": rules.service} | known)
    earlier = None if after is None else Path(after)
    check_earlier(earlier, None if out is None else Path(out), ways)
    room = None
    if out is None:
        room = Room(f"plan with {argument('out', 'FOLDER')}, which keeps it")
    path = room.path if room else Path(out or "")
    with own_folder(path, CATALOGUE, CATALOGUE_FILES) as folder:
        take_tables(folder, sales, masters, orders, out_of_stock, rules, jobs, laws)
        set_overrides(folder, overrides, rules, earlier)
        write_found(folder, Catalogue(folder.path / READ), ways)
        means = Means(jobs, cluster, program, progress)
        done = plan_catalogue(folder, ways, means, earlier, learn_again)
        if room is None:
            write_scenario(folder, program)
    if done.missing:
        raise Lost("; ".join(done.missing))
    warn_of_lost(Catalogue(path / READ))
    return Plan(path, done.learned, program, room)


@judged("common")
def open_plan(folder: str | Path, *, program: str | Path | None = None) -> Plan:
    """Returns the plan that is in a folder of `plan` or of `crnplan plan`.

    Parameters
    ----------
    folder : str or Path
        The folder.
    program : str or Path, optional
        The path of crnsim: see `find_program`.

    Returns
    -------
    Plan
        The plan.

    Raises
    ------
    Refused
        If there is none, or if it is not as the rows that were read last.

    Examples
    --------
    >>> len(crn.open_plan(plan.path).decisions)
    3
    """
    with planned_folder(Path(folder)) as planned_before:
        planned_before.check()
    return Plan(Path(folder), (), program)
