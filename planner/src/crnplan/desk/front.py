"""Joins a desk, its pages and the work that is under way."""
from __future__ import annotations

import contextlib
import datetime
import io
import shlex
import threading
from collections.abc import Callable, Iterator, Mapping
from pathlib import Path
from typing import Any, TypeVar, cast

from flask import Response, current_app, request, send_file, send_from_directory

from ..errors import CrnplanError, Refused
from ..spelling import spelt
from ..plan.catalogue import PlannedFolder, planned_folder
from ..planned import Plan
from ..read.catalogue_reading import CATALOGUE
from ..drawing.rendering import rendered
from ..read.file_kinds import PLANNED
from ..store.files import IN_KEPT, read_folder
from ..table import DataTable
from ..vocabulary import numbers, read_argument
from .kept import LOOK, Begun, Desk
from .language import ENGLISH, LANGUAGES, as_field, words_of
from .safety import TOKEN, WHOLE_PAGE, Secret
from .work import DONE, PLANNING, READING, DeskWork

Made = TypeVar("Made")
FRONT = "front"  # of an application
# What computes of the last plan what a page has, before that is asked for.
PREPARED: list[Callable[[Front], object]] = []
PAGES = "files", "settings", "plan", "result", "today", "past"


def state_of(path: Path) -> list[tuple[str, int, int]]:
    """Returns what changes with a plan: the stores in its folder, with the size and the time of the last change of each."""
    stores = [(it.name, it.stat()) for it in sorted(path.glob(f"{IN_KEPT}*.sqlite"))]
    return [(name, its.st_size, its.st_mtime_ns) for name, its in stores]


class Front:
    """A desk as its pages use it: with work that is under way, at most one at a time."""

    def __init__(self, desk: Desk, secret: Secret, program: str | None = None) -> None:
        self.desk, self.secret, self.program = desk, secret, program
        self.work: DeskWork | None = None
        self.lock = threading.RLock()
        # Held while orders are computed or changed, and taken before the lock above.
        self.orders = threading.RLock()
        # What pages have computed of a plan, by what it is and what it depends on, and who computes it.
        self.known: dict[str, tuple[object, Any]] = {}
        self.turns: dict[str, threading.Lock] = {}

    def begin(self, begun: Begun) -> None:
        """Begins work. Raises Refused if other work is under way, or if a file is missing."""
        with self.lock:
            if self.work:
                raise Refused("other work is under way", "wait for its end, or stop it")
            asked = self._asked(begun)
            with self.desk.changing() as state:
                state.begun, state.ended, state.said = begun, "", []
            self.work = DeskWork(asked, self.desk.folder.room(), self._end)

    def _asked(self, begun: Begun) -> dict[str, Any]:
        desk = self.desk
        tables = desk.tables(PLANNED)
        for kind in ("demand", "items"):
            if kind not in tables:
                what = words_of(ENGLISH)["kinds"][kind]
                raise Refused(f"no file has {what}", "drop one on the page Files")
        return {
            "kind": begun.kind,
            "tables": tables,
            "config": str(desk.config),
            "overrides": desk.overrides_table(),
            "out": str(desk.path / begun.out),
            "after": str(desk.path / begun.after) if begun.after else "",
            "program": self.program,
        }

    def _end(self, work: DeskWork) -> None:
        """Keeps how work has ended."""
        with self.lock, contextlib.ExitStack() as stack:
            stack.callback(setattr, self, "work", None)
            with self.desk.changing() as state:
                state.ended, state.said = work.ended, work.said
                if work.ended == DONE and state.begun:
                    self._done(state, state.begun)
        if work.ended == DONE:
            self.prepare()

    def prepare(self) -> threading.Thread:
        """Begins to compute what the pages Result and Today have of the last plan, so that its planner need not wait."""
        preparing = threading.Thread(target=self._prepare, daemon=True)
        preparing.start()
        return preparing

    def _prepare(self) -> None:
        # The desk may end meanwhile.
        with contextlib.suppress(CrnplanError, OSError), spelt(as_field):
            for prepare in PREPARED:
                prepare(self)

    @staticmethod
    def _done(state: Any, begun: Begun) -> None:
        if begun.kind == READING:
            state.read = begun.changed
        if begun.kind == PLANNING:
            state.planned = begun.changed
            name = Path(begun.out).name
            if name not in state.plans:
                state.plans.append(name)

    def read(self) -> None:
        """Begins to read the files, if they are all there and no work is under way."""
        tables = self.desk.tables(PLANNED)
        if {"demand", "items"} <= tables.keys() and not self.work:
            self.begin(Begun(READING, LOOK, changed=self.desk.state.changed))

    def go_on(self) -> None:
        """Goes on with the work that was under way when the desk ended, or prepares the pages of the last plan."""
        state = self.desk.state
        if state.begun and not state.ended:
            self.begin(state.begun)
        else:
            self.prepare()

    def stop(self) -> None:
        """Stops the work that is under way. What it has done is kept."""
        work = self.work
        if work:
            work.close()

    def close(self) -> None:
        """Ends the work that is under way, which goes on when the desk is opened again."""
        work = self.work
        if work:
            begun = self.desk.state.begun
            work.close()
            with self.desk.changing() as state:
                state.begun, state.ended, state.said = begun, "", []

    def new_name(self) -> str:
        """Returns a name for a new plan: the day, and if one of this day is finished already, a number."""
        day = datetime.date.today().isoformat()
        names = [day, *(f"{day}-{number}" for number in range(2, 1000))]
        return next(name for name in names if name not in self.desk.state.plans)

    def plan(self, name: str = "") -> Plan:
        """Returns a plan, by default the last one. Raises Refused if there is none."""
        plans = self.desk.state.plans
        if not plans:
            raise Refused("no plan is finished", "begin one on the page Plan")
        path = self.desk.plan_path(name or plans[-1])
        return Plan(path, program=self.program)

    def version(self, name: str) -> object:
        """Returns what changes with a plan, by default the last one."""
        path = self.plan(name).path
        return path, state_of(path)

    @contextlib.contextmanager
    def held(self, name: str) -> Iterator[Path]:
        """Holds a plan, by default the last one: work that is begun meanwhile waits. Raises Refused if it is planned again
        now."""
        path = self.plan(name).path
        with contextlib.ExitStack() as stack:
            with self.lock:
                begun = self.desk.state.begun
                if self.work and begun and self.desk.path / begun.out == path:
                    what = f"{path.name}: this plan is made again now"
                    raise Refused(what, "wait for the end of that, or stop it")
                stack.enter_context(read_folder(path, CATALOGUE))
            yield path

    @contextlib.contextmanager
    def reading(self, name: str) -> Iterator[PlannedFolder]:
        """Opens a plan, as `held` does."""
        with self.held(name) as path, planned_folder(path) as planned:
            yield planned

    def once(self, what: str, of: object, make: Callable[[], Made]) -> Made:
        """Returns what was computed of something, or computes it: the last of each kind is kept. Nobody waits for what is
        known."""
        made: Made | None = self.recalled(what, of)
        if made is not None:
            return made
        with self.lock:
            turn = self.turns.setdefault(what, threading.Lock())
        with turn:
            # Another thread may have made it while this one waited for its turn.
            made = self.recalled(what, of)
            if made is None:
                made = make()
                self.known[what] = of, made
        return made

    def recalled(self, what: str, of: object) -> Any:
        """Returns what was computed of something; None if it was not, or if another thing was computed since."""
        known = self.known.get(what)
        return known[1] if known and known[0] == of else None


def front() -> Front:
    """Returns the desk of the application that is asked."""
    return cast(Front, current_app.extensions[FRONT])


def language() -> str:
    """Returns the language of a page: the one that the reader's browser likes most."""
    return request.accept_languages.best_match(LANGUAGES) or ENGLISH


def words() -> Mapping[str, Any]:
    """Returns the words of the page that is asked for."""
    return words_of(language())


def page(template: str, **facts: Any) -> str:
    """Returns a page of the desk in the language of its reader."""
    own = front()
    shared = {
        "w": words(),
        "language": language(),
        "token": own.secret.derived(TOKEN),
        "pages": PAGES,
        "at": request.path.split("/")[1],
        "state": own.desk.state,
        "work": own.work,
        "desk": own.desk.path,
    }
    return rendered(f"desk/{template}", {**shared, **facts})


def whole_of(name: str, low: int, high: int) -> int | None:
    """Returns the whole number in a field of a form or a query; None if it is empty. Raises Refused for anything else."""
    text = request.values.get(name, "").strip()
    return read_argument(name, text, numbers(low, high).read) if text else None


def whole_page(folder: Path, name: str) -> Response:
    """Returns a page that crnplan has written, which knows nothing of the desk."""
    answer = send_from_directory(folder.absolute(), name)
    answer.headers["Content-Security-Policy"] = WHOLE_PAGE
    return answer


def table_to_download(table: DataTable, name: str) -> Response:
    """Returns a table as a file of a name to download."""
    data = io.BytesIO(table.csv.encode())
    return send_file(data, as_attachment=True, download_name=name)


def command_of(name: str, *words: object, **options: object) -> str:
    """Returns the command that does what a page does, to copy. An option of None is left out, and one of True has no value."""
    parts = ["crnplan", name, *map(str, words)]
    for option, value in options.items():
        if value is not None and value is not False:
            parts.append(f"--{option.replace('_', '-')}")
            if value is not True:
                parts.append(str(value))
    return shlex.join(parts)
