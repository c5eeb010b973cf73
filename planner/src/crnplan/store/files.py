"""Writes whole files, and keeps the folders that are crnplan's.

Such a folder holds a marker: a file with a signature and the names of the files that crnplan has made there. Only these
are overwritten or removed. Names come from the package; one that a file states is only looked up. The marker is also
the lock: one run at a time works in a folder.
"""
from __future__ import annotations

import contextlib
import errno
import fcntl
import functools
import io
import os
import re
import secrets
import shutil
import sqlite3
import stat
import sys
import tempfile
import threading
import weakref
from collections.abc import Iterable, Iterator
from pathlib import Path
from typing import IO, Any, NoReturn

from .digests import sha256
from ..errors import Failed, Refused
from ..spelling import escaped

MARKER = "crnplan-folder.txt"
SIGNATURE = "crnplan folder, version 1: {kind}. Only the files named below are overwritten or removed by crnplan."
KEPT = "what was done before is kept"
IN_KEPT = "kept/"  # the folder, in one of ours, with what only crnplan reads
# Errors of a name that can't be used. All others are of the disk.
NO_SUCH_PLACE = {
    errno.EACCES,
    errno.EPERM,
    errno.EROFS,
    errno.EEXIST,
    errno.ENOTDIR,
    errno.EISDIR,
    errno.ENOENT,
    errno.ELOOP,
    errno.ENAMETOOLONG,
    errno.EBUSY,
    errno.ETXTBSY,
    errno.ENXIO,
    errno.ENODEV,
}
# A folder for what is not finished, with a random name, so that it is nobody else's.
UNFINISHED = re.compile(r"unfinished-[0-9a-f]{16}/")
# Has a shell remove a folder if its input ends before it has a line.
GUARD = 'trap "" HUP INT TERM; read -r line || rm -rf -- "$1"'


@functools.cache
def package_digest() -> str:
    """Returns the digest of all files of the package, and of the versions of what it computes with."""
    import numpy
    import scipy

    top = Path(__file__).parents[1]
    texts = [f"{sys.version_info} {numpy.__version__} {scipy.__version__}"]
    texts += [
        f"{path.relative_to(top)} {sha256(path.read_bytes())}"
        for path in sorted(top.rglob("*"))
        if path.is_file() and "__pycache__" not in path.parts
    ]
    return sha256("\n".join(texts).encode())


def is_of_disk(fault: sqlite3.Error) -> bool:
    """Returns whether an error of SQLite is one of the disk, the memory or the rights, and not of what it reads."""
    code = (
        getattr(fault, "sqlite_errorcode", sqlite3.SQLITE_ERROR) & 0xFF
    )  # an extended code says more in high bits
    return isinstance(fault, sqlite3.OperationalError) and code != sqlite3.SQLITE_ERROR


@contextlib.contextmanager
def faults_of(folder: Path) -> Iterator[None]:
    """Turns errors of the file system and of SQLite into Refused for a name that can't be used, and Failed for a disk
    that is full or broken, and for a store that is damaged."""
    try:
        yield
    except BrokenPipeError:
        raise
    except OSError as fault:
        what = f"{fault.filename or folder}: {fault.strerror or fault}"
        if fault.errno in NO_SUCH_PLACE:
            raise Refused(what, "name a folder that can be written") from fault
        raise Failed(what, f"{KEPT}; make room, and run again") from fault
    except sqlite3.DatabaseError as fault:
        if is_of_disk(fault):
            raise Failed(
                f"{folder}: {fault}",
                f"{KEPT}; make room, or name a folder that can be written, and run "
                "again",
            ) from fault
        raise Failed(
            f"{folder}: a store in it is damaged ({fault})",
            "remove its .sqlite files, and run " "again",
        ) from fault


def is_replaceable(path: Path) -> bool:
    """Returns whether a name is free, or that of a regular file or a symlink. All else may be in use by others: a
    device, a pipe, a socket, a folder."""
    return not os.path.lexists(path) or path.is_symlink() or path.is_file()


def put_in_place(part: Path, path: Path) -> None:
    """Gives a finished file its name. A file or a symlink that has the name is replaced. Raises Refused for anything
    else."""
    if not is_replaceable(path):
        raise Refused(
            f"{path}: it is no regular file, and is not replaced",
            "move it away, or name another one",
        )
    os.replace(part, path)


def part_in(folder: Path) -> Path:
    """Returns a random name in a folder, for what is not finished."""
    return folder / f".{secrets.token_hex(8)}.part"


@contextlib.contextmanager
def finished(
    part: Path, path: Path, old: os.stat_result | None = None
) -> Iterator[IO[bytes]]:
    """Gives a new file to write, which takes the name `path` when it is finished, and is removed if that fails. In place
    of an `old` file it gets the mode, the owner and the attributes of that."""
    try:
        descriptor = os.open(
            part,
            os.O_WRONLY | os.O_CREAT | os.O_EXCL | os.O_NOFOLLOW,
            0o600 if old else 0o666,
        )
    except OSError as fault:
        fault.filename = str(path)
        raise
    try:
        with open(descriptor, "wb") as file:
            if old:
                take_traits(part, path, old)
            yield file
            file.flush()
            os.fsync(file.fileno())
        put_in_place(part, path)
    except BaseException:
        part.unlink(missing_ok=True)
        raise


def take_traits(part: Path, path: Path, old: os.stat_result) -> None:
    """Gives a new file the mode, the owner and the attributes of an old one. Raises Refused for an owner that it can't
    have."""
    try:
        os.chown(part, old.st_uid, old.st_gid)
    except PermissionError as fault:
        owner = f"{path}: it belongs to another user or group, and a new file in its place would not"
        raise Refused(owner, "name another file") from fault
    shutil.copystat(path, part)


@contextlib.contextmanager
def as_text(data: IO[bytes]) -> Iterator[IO[str]]:
    """Gives a file of bytes as one of text."""
    file = io.TextIOWrapper(
        data, encoding="utf-8", errors="backslashreplace", newline=""
    )
    yield file
    file.detach()


@contextlib.contextmanager
def new_bytes(path: Path, room: Path) -> Iterator[IO[bytes]]:
    """Gives a file of one of our folders to write, which is there whole or not at all. Until then it stands in another
    folder of the same disk, its `room`. A symlink at its place is replaced, and not followed. Raises as `faults_of` does,
    and Refused for a device or a pipe there."""
    with faults_of(room.parent), finished(part_in(room), path) as file:
        yield file


@contextlib.contextmanager
def named_text(path: Path) -> Iterator[IO[str]]:
    """Gives a file for a text that the user has named, as `named_bytes` does."""
    with named_bytes(path) as data, as_text(data) as file:
        yield file


@contextlib.contextmanager
def named_bytes(path: Path) -> Iterator[IO[bytes]]:
    """Gives a file to write that the user has named, opened as other programs do.

    A symlink is followed. What is no regular file (a device, a pipe, a terminal) is written into, and so is the file in
    which standard output or error end. Any other file is there whole or as it was: a new one takes its
    place, with its mode, its owner and its attributes. Raises Failed if the reader of a pipe has gone, Refused for a
    file that can't be replaced so, and else as `faults_of` does.
    """
    with faults_of(path):
        descriptor, old = opened_name(path)
        target = Path(os.path.realpath(path))
        if descriptor is not None:
            with written_into(path, descriptor) as file:
                yield file
        elif old and not os.access(target.parent, os.W_OK):
            place = f"{path}: its folder {target.parent} can't be written, so that it can't be replaced whole"
            raise Refused(place, "name a file in another folder")
        else:
            with finished(part_in(target.parent), target, old) as file:
                yield file


def opened_name(path: Path) -> tuple[int | None, os.stat_result | None]:
    """Returns the descriptor through which what stands at a name is written, or else the state of the file that is to be
    replaced; None for both if nothing is there. A pipe waits for its reader."""
    try:
        descriptor = os.open(path, os.O_WRONLY | os.O_NOCTTY)
    except FileNotFoundError:
        return None, None
    state = os.fstat(descriptor)
    if not stat.S_ISREG(state.st_mode):
        return descriptor, None
    os.close(descriptor)
    return standard_stream(state), state


def standard_stream(state: os.stat_result) -> int | None:
    """Returns a new descriptor of the standard output or error, if that ends in the file with this state; else None."""
    for stream in filter(None, (sys.stdout, sys.stderr)):
        with contextlib.suppress(OSError, ValueError):  # closed, or no file
            if os.path.samestat(os.fstat(stream.fileno()), state):
                stream.flush()
                return os.dup(stream.fileno())
    return None


@contextlib.contextmanager
def written_into(path: Path, descriptor: int) -> Iterator[IO[bytes]]:
    """Gives a file that writes into what is open already."""
    try:
        with open(descriptor, "wb") as file:
            yield file
    except BrokenPipeError as fault:
        raise Failed(
            f"{path}: its reader has gone before all was written", "run again"
        ) from fault


class Folder:
    """A folder of one kind that is crnplan's, held by this run alone, whose threads may share it. `own_folder` gives it."""

    def __init__(self, path: Path, kind: str, marker: int) -> None:
        """Takes the open marker, whose lock is held. Raises Refused if its first line is not the signature."""
        self.path, self._marker, self._signature = (
            path,
            marker,
            SIGNATURE.format(kind=kind),
        )
        self._text = os.pread(marker, os.fstat(marker).st_size, 0).decode(
            "utf-8", "replace"
        )
        first, *names = self._text.splitlines() or [self._signature]
        if (
            first != self._signature
            # A run may have ended before it wrote the marker: beside files an empty one may be anybody's.
            or not self._text
            and any(it.name != MARKER for it in path.iterdir())
        ):
            raise Refused(
                f"{path}: {MARKER} is not that of a folder of crnplan {kind}; name a new folder"
            )
        self._names, self._lock = set(names), threading.RLock()
        self.close()

    def _keep(self) -> None:
        """Writes the marker if it has changed, in place: so it keeps its lock."""
        text = "\n".join([self._signature, *sorted(self._names), ""])
        if text != self._text:
            data, self._text = text.encode(), text
            if os.pwrite(self._marker, data, 0) < len(data):
                raise OSError(errno.ENOSPC, os.strerror(errno.ENOSPC))
            os.ftruncate(self._marker, len(data))
            os.fsync(self._marker)

    def claim(self, *names: str, in_place: bool = False) -> None:
        """Makes files and folders (whose names end with /) crnplan's, to be overwritten or removed. Raises Refused for
        what is there and is not crnplan's, and for a symlink at what is written `in_place`.
        """
        with self._lock:
            new = [name for name in names if name not in self._names]
            self._check(new, names if in_place else ())
            self._names.update(new)
            self._keep()

    def _check(self, new: Iterable[str], in_place: Iterable[str]) -> None:
        """Raises Refused for new names at which something is, and for a symlink at what is written in place."""
        foreign = next((it for it in new if os.path.lexists(self.path / it)), None)
        if foreign:
            raise Refused(
                f"{self.path / foreign}: crnplan has not made it, and would overwrite it; move it away, or "
                "name another folder"
            )
        link = next((it for it in in_place if (self.path / it).is_symlink()), None)
        if link:
            raise Refused(
                f"{self.path / link}: it is a symlink, which is not followed; remove it"
            )

    def store(self, name: str) -> Path:
        """Returns the path of a file of SQLite that is written in place, and claims it. It may be one in `IN_KEPT`."""
        if name.startswith(IN_KEPT):
            self.inner(IN_KEPT.rstrip("/"))
        self.claim(
            *(f"{name}{end}" for end in ("", "-journal", "-wal", "-shm")), in_place=True
        )
        return self.path / name

    def inner(self, name: str) -> Path:
        """Returns a folder in this one, which is claimed with all that is in it, and made."""
        self.claim(f"{name}/", in_place=True)
        (self.path / name).mkdir(exist_ok=True)
        return self.path / name

    def write(self, name: str, text: str | Iterable[str]) -> None:
        """Writes a text, or lines, as a whole file, and claims it. TOML has no raw control characters."""
        lines = [text] if isinstance(text, str) else text
        with self.writing(name) as file:
            file.writelines(map(escaped, lines) if name.endswith(".toml") else lines)

    @contextlib.contextmanager
    def writing(self, name: str) -> Iterator[IO[str]]:
        """Gives a file of text that is there whole, or not at all, and claims it."""
        with faults_of(self.path):
            self.claim(name)
            with new_bytes(self.path / name, self.room()) as data, as_text(
                data
            ) as file:
                yield file

    @property
    def names(self) -> frozenset[str]:
        """Returns the names of what is crnplan's in the folder."""
        return frozenset(self._names)

    def take(self, part: Path, name: str) -> None:
        """Gives a finished file, which stands in `room`, its name, and claims it."""
        self.claim(name)
        put_in_place(part, self.path / name)

    def remove(self, *names: str) -> None:
        """Removes those of the files that are crnplan's."""
        for path in map(self.path.joinpath, self._names.intersection(names)):
            if is_replaceable(path):
                path.unlink(missing_ok=True)

    def room(self) -> Path:
        """Returns a folder for what is not finished, on the same disk, which `close` removes."""
        with self._lock:
            new = f"unfinished-{secrets.token_hex(8)}/"
            name = next(filter(UNFINISHED.fullmatch, self._names), new)
            if name not in self._names:
                self.claim(name)
                (self.path / name).mkdir(mode=0o700)
            return self.path / name

    def close(self) -> None:
        """Removes what is not finished, of this run or of one that was ended by force."""
        with self._lock:
            for name in filter(UNFINISHED.fullmatch, [*self._names]):
                shutil.rmtree(self.path / name, ignore_errors=True)
                self._names.remove(name)
            self._keep()

    def let_go(self) -> None:
        """Has what a thread still writes here fail with OSError: another run may hold the folder now."""
        with self._lock:
            self._marker = -1


class Busy(Refused):
    """A folder in which another run works."""


@contextlib.contextmanager
def read_folder(path: Path, kind: str) -> Iterator[None]:
    """Holds a folder of a kind while it is read, so that no run works in it. Nothing in it is written.

    Raises Refused for what is no such folder, and for one in which a run works.
    """
    with contextlib.ExitStack() as stack:
        with faults_of(path):
            if not (path / MARKER).is_file():
                raise Refused(f"{path}: this is no folder of crnplan {kind}")
            marker = stack.enter_context(
                (path / MARKER).open(encoding="utf-8", errors="replace")
            )
            try:
                fcntl.flock(marker, fcntl.LOCK_SH | fcntl.LOCK_NB)
            except BlockingIOError as fault:
                raise Busy(
                    f"{path}: another run of crnplan works in this folder; wait for its end"
                ) from fault
            stack.callback(fcntl.flock, marker, fcntl.LOCK_UN)
            if marker.readline().rstrip("\n") != SIGNATURE.format(kind=kind):
                raise Refused(f"{path}: this is no folder of crnplan {kind}")
        yield


@contextlib.contextmanager
def own_folder(path: Path, kind: str, names: Iterable[str] = ()) -> Iterator[Folder]:
    """Gives a folder of a kind, made if it is not there, with `names` claimed. The system lets go of it at any end.

    Raises Refused for a folder that has files and no marker, that is of another kind, in which another run works, or
    that can't be written.
    """
    with contextlib.ExitStack() as stack:
        with faults_of(path):
            path.mkdir(parents=True, exist_ok=True)
            if not os.path.lexists(path / MARKER) and any(path.iterdir()):
                raise Refused(
                    f"{path}: the folder is not empty, and is not one of crnplan {kind}; name a new folder"
                )
            marker = os.open(
                path / MARKER,
                os.O_RDWR | os.O_CREAT | os.O_NOFOLLOW | os.O_NONBLOCK,
                0o666,
            )
            stack.callback(os.close, marker)
            if not stat.S_ISREG(os.fstat(marker).st_mode):
                raise Refused(f"{path / MARKER}: it is no file; name a new folder")
            try:
                fcntl.flock(marker, fcntl.LOCK_EX | fcntl.LOCK_NB)
            except BlockingIOError as fault:
                raise Busy(
                    f"{path}: another run of crnplan works in this folder; wait for its end, or name another "
                    "folder"
                ) from fault
            stack.callback(
                fcntl.flock, marker, fcntl.LOCK_UN
            )  # Processes that have begun meanwhile share it.
            folder = Folder(path, kind, marker)
            folder.claim(*names)
        try:
            yield folder
        finally:
            with contextlib.suppress(OSError):
                folder.close()
            folder.let_go()


class Room:
    """A new folder among the temporary files. It is removed once no value needs it, and in whatever way this process
    ends: if by force, then by a guard that waits for that. So it is of no use to another process, and what is in it is
    not pickled: `kept` says how it is kept."""

    def __init__(self, kept: str) -> None:
        import subprocess

        self.kept = kept
        self.path = Path(tempfile.mkdtemp(prefix="crnplan-")).absolute()
        # Its own session keeps a terminal's interrupts away; its folder, /, keeps no other disk in use.
        guard = subprocess.Popen(
            ["/bin/sh", "-c", GUARD, "crnplan", self.path],
            stdin=subprocess.PIPE,
            stdout=subprocess.DEVNULL,
            stderr=subprocess.DEVNULL,
            cwd="/",
            start_new_session=True,
        )
        weakref.finalize(self, remove_room, self.path, guard, os.getpid())

    def __reduce__(self) -> NoReturn:
        """Raises Refused."""
        what = "it can't be pickled: it is in a temporary folder that ends with this process"
        raise Refused(what, self.kept)


def remove_room(path: Path, guard: Any, owner: int) -> None:
    """Removes a temporary folder of this process, and ends its guard. A process that was forked leaves both."""
    if os.getpid() == owner:
        shutil.rmtree(path, ignore_errors=True)
        guard.communicate(b"removed\n")
