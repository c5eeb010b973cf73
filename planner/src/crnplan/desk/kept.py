"""Keeps what a desk has in its folder: files, how they are read and planned, plans, and what its planner has set.

How files are read and planned is in crnplan.toml, all else in one file of its own, which is written whole at each change.
Tables for calls and commands are written from it.
"""
from __future__ import annotations

import codecs
import contextlib
import csv
import datetime
import glob
import gzip
import json
import threading
from collections.abc import Iterable, Iterator, Mapping, Sequence
from dataclasses import asdict, dataclass, field, replace
from pathlib import Path
from typing import IO, Any, cast

from ..catalogues import Catalogue
from ..errors import Refused
from ..plan.settings import CONFIG, read_config
from ..read.catalogue_reading import READ
from ..read.cells import plain_name
from ..read.file_kinds import SUFFIXES
from ..read.opening import copy_of
from ..read.sources import DELIMITERS
from ..store.files import IN_KEPT, Folder, new_bytes, put_in_place
from ..store.trees import value_of

DESK = "desk"  # the kind of the folder
STATE = f"{IN_KEPT}desk.json"
FILES, PLANS, TESTS, LOOK = "files", "plans", "tests", "read"
LAST_TEST = f"{TESTS}/last"
UNKNOWN = "unknown"  # where files stand whose kind is not known
OVERRIDES, PLACED, QUANTITIES = "overrides.csv", "placed.csv", "quantities.csv"
OF_MASTERS = "stock.csv"  # the stock of masters
MOST_FILE = 2_000_000_000  # bytes of a file, unpacked
MOST_NAME = 60  # letters of the name of a file in the desk


@dataclass(frozen=True)
class Dropped:
    """A file that was dropped: its kind, its name in the desk, how its owner calls it, the sheet of a workbook, and when it
    came. It replaces the files of its kind of earlier drops, unless it `is_beside` them. All files of a `drop` have its
    number."""

    kind: str
    name: str
    called: str
    sheet: str = ""
    added: str = ""
    drop: int = 0
    is_beside: bool = False

    @property
    def place(self) -> str:
        """Returns where it is in the desk."""
        return f"{FILES}/{self.kind}/{self.name}"


@dataclass(frozen=True)
class DeskOverride:
    """What a planner has set for an item: levels, not to order, or nothing any longer; and why."""

    item: str
    s: int | None = None
    S: int | None = None
    is_stopped: bool = False
    reason: str = ""

    @property
    def holds(self) -> bool:
        """Returns whether something is set."""
        return self.is_stopped or self.s is not None

    @property
    def row(self) -> list[object]:
        """Returns the row of a table of overrides."""
        return [
            self.item,
            self.s,
            self.S,
            "do not order" if self.is_stopped else "",
            self.reason,
        ]


@dataclass(frozen=True)
class Placed:
    """An order that was placed: so many of an item, in the order of a supplier with a number, and when. `had` are the quantities
    of the item in the open orders that came before it. It `is_filed` once open orders had it that others have replaced.
    """

    item: str
    quantity: int
    number: str
    added: str
    had: str = ""
    is_filed: bool = False

    @property
    def key(self) -> str:
        """Returns what names it in a form."""
        return f"{self.number} {self.added} {self.item}"


@dataclass(frozen=True)
class Begun:
    """Work that was begun: its kind, its folder, that of the plan which it follows, and how often files and words had
    changed then."""

    kind: str
    out: str = ""
    after: str = ""
    changed: int = 0


@dataclass
class State:
    """All that a desk keeps beside crnplan.toml. `sources` has the kind of a file by its heading. `moves` has the new place of
    each file that has to move once this is kept, or an empty one of a file to remove. Whenever files or words change,
    `changed` is one more; `read` and `planned` say at which of these all was read and planned. `begun` is the last
    work, which goes on if it has not `ended`, and `said` what is to be said of its end. `agreed` are the files of today that
    count though the stock is older than the open orders. `quantities` are what the planner orders on a `day` in place of what the plan says, by item.
    """

    files: list[Dropped] = field(default_factory=list)
    sources: dict[str, str] = field(default_factory=dict)
    next_file: int = 1
    moves: dict[str, str] = field(default_factory=dict)
    changed: int = 0
    read: int = -1
    planned: int = -1
    plans: list[str] = field(default_factory=list)
    begun: Begun | None = None
    ended: str = ""
    said: list[str] = field(default_factory=list)
    overrides: dict[str, DeskOverride] = field(default_factory=dict)
    agreed: str = ""
    day: str = ""
    quantities: dict[str, int] = field(default_factory=dict)
    placed: list[Placed] = field(default_factory=list)

    def has_ended(self, kind: str, ended: str) -> bool:
        """Returns whether the last work is of a kind, and has ended so."""
        return self.begun is not None and (self.begun.kind, self.ended) == (kind, ended)

    @classmethod
    def parse(cls, text: str) -> State:
        """Returns the state that a text has."""
        tree = json.loads(text)
        # An earlier version planned as a test found best, if that was asked for: such a plan does not go on.
        if (tree.get("begun") or {}).pop("test", ""):
            tree["begun"] = None
        return cast(State, value_of(cls, tree))

    @classmethod
    def stored(cls, path: Path) -> State:
        """Returns the state of a file. Raises Refused if it is none, or if a name in it leads out of the desk."""
        try:
            state = cls.parse(path.read_text("utf-8"))
            begun = state.begun or Begun("")
            places = [*state.plans, begun.out, begun.after]
            places += [file.place for file in state.files]
            places += [*state.moves, *state.moves.values()]
            top = path.parents[1].resolve()
            for place in filter(None, places):
                is_within = (top / place).parent.resolve().is_relative_to(top)
                if ".." in Path(place).parts or not is_within:
                    raise ValueError("a name leads out of the desk")
        except (AttributeError, KeyError, TypeError, ValueError) as fault:
            what = f"{path}: it is damaged ({fault})"
            raise Refused(what, "put a copy of it there, or name a new folder")
        return state


def now() -> str:
    """Returns the time to the second."""
    return datetime.datetime.now().isoformat(" ", "seconds")


class Desk:
    """A desk in a folder that no other run uses. Several threads may use it: `changing` is what one of them does at a time."""

    def __init__(self, folder: Folder) -> None:
        self.folder, self.path = folder, folder.path
        self.lock, self.is_changing = threading.RLock(), False
        for name in (FILES, PLANS, TESTS, IN_KEPT.rstrip("/")):
            folder.inner(name)
        stored = self.path / STATE
        self.state = State.stored(stored) if stored.is_file() else State()
        self._move()
        if not (self.path / CONFIG).is_file():
            self.keep_words({})

    @contextlib.contextmanager
    def changing(self) -> Iterator[State]:
        """Gives the state to change, and keeps it at the end of the outermost block. If a block raises, or if the state can't
        be written, all is as before, here and in the folder."""
        with self.lock:
            if self.is_changing:
                yield self.state
                return
            before, self.is_changing = json.dumps(asdict(self.state)), True
            try:
                yield self.state
                after = json.dumps(asdict(self.state), ensure_ascii=False, indent=1)
                self.folder.write(STATE, after)
            except BaseException:
                known, self.state = self.state.files, State.parse(before)
                self._discard(known)
                raise
            finally:
                self.is_changing = False
            self._move()

    def _discard(self, files: Iterable[Dropped]) -> None:
        """Removes those of some files that are not kept, which have not moved yet."""
        kept = {file.name for file in self.state.files}
        for file in files:
            if file.name not in kept:
                place = replace(file, kind=UNKNOWN).place
                (self.path / place).unlink(missing_ok=True)

    def _move(self) -> None:
        """Moves and removes files as the state says. What was not done when a desk ended is done when it is opened."""
        for old, new in self.state.moves.items():
            path = self.path / old
            if not new:
                path.unlink(missing_ok=True)
            elif path.exists():
                put_in_place(path, self.path / new)
        self.state.moves = {}

    @property
    def config(self) -> Path:
        """Returns the path of crnplan.toml."""
        return self.path / CONFIG

    @property
    def tree(self) -> dict[str, Any]:
        """Returns the table [catalogue] of crnplan.toml."""
        return read_config(self.config)

    def keep_words(self, tree: Mapping[str, Any]) -> None:
        """Writes crnplan.toml, if it can be meant. Raises Refused and RefusedFaults, and then all is as before."""
        import tomlkit

        text = tomlkit.dumps({"catalogue": tree})
        part = self.folder.room() / CONFIG
        part.write_text(text, "utf-8")
        read_config(part)
        self.folder.claim(CONFIG)
        with self.changing() as state:
            # It takes its place once the state is kept: both change, or neither.
            state.moves[str(part.relative_to(self.path))] = CONFIG
            state.changed += 1

    def add_file(
        self, called: str, data: IO[bytes], drop: int = 0, is_beside: bool = False
    ) -> Dropped:
        """Keeps a file that was dropped under a name of ours, which has the words of its own, a gzipped one unpacked. Its kind is
        not known yet. Without the number of a `drop` it comes alone. Raises Refused for another ending, and for a file that
        can't be unpacked.
        """
        suffix = Path(called).suffix.lower()
        if suffix not in SUFFIXES:
            endings = ", ".join(SUFFIXES)
            raise Refused(f"{called}: its name does not end with one of {endings}")
        is_packed = suffix == ".gz"
        stream = gzip.open(data) if is_packed else data
        ending = ".csv" if is_packed else suffix
        with self.changing() as state:
            words = plain_name(Path(called).stem).encode("ascii", "ignore").split()
            names = [f"{state.next_file:04}", *map(bytes.decode, words)]
            name = "-".join(filter(str.isalnum, names))[:MOST_NAME] + ending
            drop = drop or state.next_file
            file = Dropped(UNKNOWN, name, called, "", now(), drop, is_beside)
            self._room_of(file)
            with new_bytes(self.path / file.place, self.folder.room()) as copy:
                copy_of(stream, copy, called, MOST_FILE)
            state.files.append(file)
            state.next_file += 1
            state.changed += 1
        return file

    def _room_of(self, file: Dropped) -> None:
        """Makes the folder of a file, which is no symlink to another one."""
        self.folder.inner(f"{FILES}/{file.kind}")

    def file(self, name: str) -> Dropped:
        """Returns the file of a name. Raises Refused if there is none."""
        for file in self.state.files:
            if file.name == name:
                return file
        raise Refused(f"{name}: there is no such file any longer")

    def set_file(self, name: str, kind: str, sheet: str) -> Dropped:
        """Says of which kind a file is, and which sheet of it is meant. It replaces others of this kind as it was dropped."""
        with self.changing() as state:
            old = self.file(name)
            new = replace(old, kind=kind, sheet=sheet)
            for file in () if kind == UNKNOWN else self.replaced_by(new):
                self._drop(file)
            if old.kind != kind:
                self._room_of(new)
                state.moves[old.place] = new.place
            state.files[state.files.index(old)] = new
            state.changed += 1
        return new

    def replaced_by(self, new: Dropped) -> list[Dropped]:
        """Returns the files that one replaces by its kind."""
        files = () if new.is_beside else self.files_of(new.kind)
        return [file for file in files if file.drop < new.drop]

    def remove_file(self, name: str) -> None:
        """Removes a file that was dropped."""
        with self.changing() as state:
            self._drop(self.file(name))
            state.changed += 1

    def _drop(self, file: Dropped) -> None:
        self.state.files.remove(file)
        self.state.moves[file.place] = ""

    def files_of(self, kind: str) -> list[Dropped]:
        """Returns the files of a kind, in the order in which they came."""
        return [file for file in self.state.files if file.kind == kind]

    def table_in(self, file: Dropped) -> str:
        """Returns the table of a file as calls and commands name it, where it is now."""
        path = self.path / self.file(file.name).place
        return f"{path}!{file.sheet}" if file.sheet else str(path)

    def table_of(self, kind: str) -> str | None:
        """Returns the table of a kind as calls and commands name it; None if no file has it. Raises Refused if one of several
        files is a sheet."""
        files = self.files_of(kind)
        if not files:
            return None
        if len(files) == 1:
            return self.table_in(files[0])
        if any(file.sheet for file in files):
            raise Refused(
                f"{kind}: one of several files is a sheet of a workbook",
                "keep one file, or drop workbooks of one sheet",
            )
        folder = (self.path / files[0].place).parent
        return f"{glob.escape(str(folder))}/*"

    def tables(self, kinds: Iterable[str]) -> dict[str, str]:
        """Returns the tables of some kinds, of those that have files."""
        tables = {kind: self.table_of(kind) for kind in kinds}
        return {kind: table for kind, table in tables.items() if table is not None}

    @property
    def catalogue(self) -> Catalogue | None:
        """Returns what was read last; None if nothing was."""
        path = self.path / LOOK / READ
        return Catalogue(path) if path.is_file() else None

    def plan_path(self, name: str) -> Path:
        """Returns the folder of a plan. Raises Refused if there is none of this name."""
        if name not in self.state.plans:
            raise Refused(f"{name}: there is no such plan")
        return self.path / PLANS / name

    def table(
        self, name: str, heading: Sequence[str], rows: Sequence[Sequence[object]]
    ) -> str | None:
        """Writes a table that calls and commands read by the words for the planner's files, and returns its path; None if
        it has no rows. Its mark says its encoding, whatever that of the files is."""
        if not rows:
            self.folder.remove(name)
            return None
        sign = DELIMITERS[self.tree.get("delimiter", ",")]
        with self.folder.writing(name) as file:
            file.write(codecs.BOM_UTF8.decode())
            table = csv.writer(file, delimiter=sign, lineterminator="\n")
            table.writerows([heading, *rows])
        return str(self.path / name)

    def overrides_table(self) -> str | None:
        """Writes what the planner has set for items, and returns the path of the table."""
        overrides = [*self.state.overrides.values()]  # Another thread may add one.
        rows = [override.row for override in overrides]
        return self.table(OVERRIDES, ["item", "s", "S", "override", "reason"], rows)
