"""The page Files: files are dropped, what they are is found or chosen, and what was read of them is shown."""
from __future__ import annotations

import contextlib
from collections.abc import Iterator, Mapping
from dataclasses import replace
from functools import partial
from typing import Any

from flask import Blueprint, Response, redirect, request
from werkzeug.wrappers import Response as Redirect

from ..catalogues import Catalogue
from ..errors import CrnplanError, Refused
from ..spelling import worded
from ..read.amounts import AMOUNTS
from ..read.blocks import DATES
from ..read.columns import COUNTED, ROLES
from ..read.encodings import USUAL
from ..read.file_kinds import PLANNED
from ..read.looks import Look, likeliest, looks_as, words_with
from ..read.items import Reading
from ..read.stock import EXPORTED, ON_ORDER
from ..read.configuration import made_from
from ..read.workbooks import sheets_of
from ..show.catalogue_tables import REJECTS, reasons_of, rejects_of
from ..show.control_tables import controls_of
from ..show.lateness import lateness_of
from .front import Front, front, page, table_to_download
from .kept import UNKNOWN, Desk, Dropped, State
from .plans import command_on
from .today_files import today_files
from .work import READING, REFUSED

pages = Blueprint("files", __name__)
KINDS = *PLANNED, *EXPORTED
PACKS = "6", "10", "12", "100", "1000"
UNITS = {
    role: [*counted["units"], *PACKS * counted["may_be_packs"]]
    for counted in COUNTED.values()
    for role in counted["roles"]
}
ENCODINGS = "utf-8", "latin-1", *USUAL
# Whether the day comes first in a date, by its sign.
FIRST = {"day": dict.fromkeys("/-", True), "month": dict.fromkeys("/-", False)}
WRITTEN = "delimiter", "encoding"
MOST = 100  # columns of a file, and reasons, that the page shows


def read_anew(own: Front) -> None:
    """Reads the files after a change, also if they are being read as they were before."""
    if own.work and own.work.kind == READING:
        own.stop()
    own.read()


@contextlib.contextmanager
def changing_files(own: Front) -> Iterator[State]:
    """Gives the state to change files. Before other open orders replace those in use, it is kept which orders these name."""
    desk = own.desk
    with own.orders, own.lock, desk.changing() as state:
        before, settled = desk.files_of(ON_ORDER), state.placed
        if before and settled:
            with contextlib.suppress(CrnplanError):
                settled = today_files(own).settled(settled)
        yield state
        after = desk.files_of(ON_ORDER)
        if before and after and not {*before} & {*after}:
            state.placed = settled


def looks_at(desk: Desk, file: Dropped, words: Reading) -> list[Look]:
    """Returns what is seen of a file as a table of its kind, or of each kind if it is not known."""
    kinds = KINDS if file.kind == UNKNOWN else (file.kind,)
    return looks_as(kinds, desk.table_in(file), words, desk.folder.room())


def found(desk: Desk, file: Dropped, **written: str) -> tuple[Dropped, str]:
    """Returns a file with its kind, and the digest of its heading. Of several sheets it is one that another file has too,
    if none is chosen. Columns that are stated for other files are not looked for."""
    words = replace(made_from(Reading, desk.tree), columns={}, **written)
    names = {*sheets_of(desk.path / file.place)}
    known = names & {one.sheet for one in desk.state.files}
    for sheet in [file.sheet] if file.sheet else sorted(known) or [""]:
        one = replace(file, sheet=sheet)
        looks = looks_at(desk, one, words)
        look = (
            looks[0] if file.kind != UNKNOWN else likeliest(looks, desk.state.sources)
        )
        if look:
            return replace(one, kind=look.kind), look.source
    return file, ""


def settle(desk: Desk, file: Dropped, source: str) -> None:
    """Keeps what a file is, and that files with its heading are of its kind."""
    with desk.changing() as state:
        desk.set_file(file.name, file.kind, file.sheet)
        if source:
            state.sources[source] = file.kind


def chosen_words(tree: Any, look: Look, form: Mapping[str, str]) -> dict[str, Any]:
    """Returns what crnplan.toml is to say after a form on a file."""

    def by_place(field: str) -> dict[int, str]:
        names = {place: f"{field}-{place}" for place in range(len(look.heading))}
        return {place: form[name] for place, name in names.items() if name in form}

    written: dict[str, Any] = {word: form[word] for word in WRITTEN if word in form}
    if look.heading:
        written["day_first"] = FIRST.get(form.get("first", ""), {})
    return words_with(
        tree, look, by_place("role"), by_place("unit"), by_place("decimal"), written
    )


def said_of(desk: Desk) -> list[str]:
    """Returns why the files could not be read; nothing if they were, or were not tried."""
    return desk.state.said if desk.state.has_ended(READING, REFUSED) else []


def result_of(catalogue: Catalogue) -> dict[str, Any]:
    """Returns what pages show of the files that were read."""
    with catalogue.opened() as read:
        decimals, currency = read.fact("decimals"), read.fact("currency")
        return {
            "said": catalogue.said,
            "missing": catalogue.missing,
            "counts": read.fact("counts"),
            "reasons": reasons_of(read.rejects()),
            "controls": controls_of(read.controls(), decimals, currency),
            "sources": read.fact("sources"),
            "lateness": lateness_of(read),
            **{
                name: sorted({*read.values(name)} - {("",), (None,)})
                for name in ("category", "supplier")
            },
        }


def read_last(own: Front) -> dict[str, Any]:
    """Returns what pages show of the files, if they were read since the last change."""
    state, catalogue = own.desk.state, own.desk.catalogue
    if state.read != state.changed or catalogue is None:
        return {}
    known: dict[str, Any]
    known = own.once("files", state.read, partial(result_of, catalogue))
    return known


def shown(own: Front, file: Dropped, tree: Any) -> dict[str, Any]:
    """Returns what the page shows of a file."""

    def seen() -> tuple[Look, list[str]]:
        look = looks_at(own.desk, file, made_from(Reading, tree))[0]
        return look, sheets_of(own.desk.path / file.place)

    look, sheets = own.once(f"look {file.name}", [file, tree], seen)
    faults = [*look.faults, *(() if file.kind == UNKNOWN else look.wrong)]
    return {
        "file": file,
        "look": look,
        "faults": [(fault.said, worded(fault.what)) for fault in faults],
        "sheets": sheets,
        "written": tree.get("written", {}).get(file.kind, {}),
    }


@pages.get("/files")
def files() -> str:
    own = front()
    desk, tree = own.desk, own.desk.tree
    said, command = said_of(desk), ""
    try:
        command = command_on(desk, "plan", check=True)
    except Refused as why:
        said = [str(why)]
    kinds = UNKNOWN, *KINDS
    return page(
        "files.html",
        files=[
            shown(own, file, tree) for kind in kinds for file in desk.files_of(kind)
        ],
        tree=tree,
        said=said,
        command=command,
        read=read_last(own),
        kinds=kinds,
        roles=ROLES,
        units=UNITS,
        amounts=AMOUNTS,
        dates=DATES,
        encodings=ENCODINGS,
        most=MOST,
    )


@pages.post("/files/drop")
def drop() -> Redirect:
    own = front()
    given = [file for file in request.files.getlist("files") if file.filename]
    if not given:
        raise Refused("no file was chosen", "choose one or several")
    with changing_files(own) as state:
        way = state.next_file, request.form.get("way") == "beside"
        for one in given:
            file = own.desk.add_file(one.filename or "", one.stream, *way)
            settle(own.desk, *found(own.desk, file))
    read_anew(own)
    return redirect("/files", 303)


@pages.post("/files/<name>")
def change(name: str) -> Redirect:
    own, form = front(), request.form
    desk = own.desk
    old = desk.file(name)
    kind, sheet = form.get("kind", ""), form.get("sheet", "")
    sheets = sheets_of(desk.path / old.place)
    if kind not in (UNKNOWN, *KINDS) or sheet not in ("", *sheets):
        raise Refused("there is no such kind or sheet", "choose from the lists")
    written = {word: form[word] for word in WRITTEN if form.get(word)}
    new, source = found(desk, replace(old, kind=kind, sheet=sheet), **written)
    with changing_files(own):
        if new.kind != UNKNOWN:
            look = Look(new.kind)
            if new == old:
                (look,) = looks_at(desk, new, made_from(Reading, desk.tree))
            desk.keep_words(chosen_words(desk.tree, look, form))
        settle(desk, new, source)
    read_anew(own)
    return redirect(f"/files#file-{name}", 303)


@pages.post("/files/<name>/remove")
def remove(name: str) -> Redirect:
    own = front()
    own.desk.remove_file(name)
    read_anew(own)
    return redirect("/files", 303)


@pages.post("/files/read")
def read() -> Redirect:
    read_anew(front())
    return redirect("/files", 303)


@pages.get("/files/rejects.csv")
def rejects() -> Response:
    """Returns all that was left out, as a table to download."""
    catalogue = front().desk.catalogue
    if catalogue is None:
        raise Refused("no files were read", "drop demand and masters")
    with catalogue.opened() as known:
        return table_to_download(rejects_of(known.rejects()), REJECTS)
