"""Reads the arguments of calls by the words of options.toml: each becomes what its kind says, or is refused by name."""
from __future__ import annotations

import functools
import inspect
import os
from collections.abc import Callable
from pathlib import Path
from typing import Any, TypeVar, cast

from .errors import Refused, argument
from .options import SEEN, resolved, word_of
from .toml.documents import shown
from .vocabulary import FORM, TEXTS, UNNAMED, Kind, read_text, several

Call = TypeVar("Call", bound=Callable[..., Any])
MOST_OF_NAME = 255  # bytes of the name of a file, on Linux
SVG = ".svg"  # the ending of a picture


def read_path(value: Any) -> str | Path:
    text = str(os.fspath(value)) if isinstance(value, (str, os.PathLike)) else ""
    parts = [part.encode(errors="replace") for part in text.split(os.sep)]
    if not text or UNNAMED.search(text) or max(map(len, parts)) > MOST_OF_NAME:
        raise Refused(f"{shown(value)} is no path", "name a file or a folder")
    return value if isinstance(value, str) else Path(value)


def read_folder(value: Any) -> Path:
    return Path(read_path(value))


def read_file(value: Any) -> Path:
    path = read_folder(value)
    if path.is_dir():
        raise Refused(f"{shown(value)} is a folder", "name a file")
    return path


def read_picture(value: Any) -> Path:
    path = read_file(value)
    if not path.name.lower().endswith(SVG):
        raise Refused(f"{shown(value)} does not end with {SVG}", "name such a file")
    return path


def read_share(value: Any) -> float:
    # What reads amounts takes long to load, and few calls have a share.
    return float(resolved("{read.amounts.share_of}")(value))


def read_scheduler(value: Any) -> Any:
    if not isinstance(value, str) and not hasattr(value, "scheduler_info"):
        what = f"{shown(value)} is no Dask scheduler"
        raise Refused(what, "write its address, or give a Client")
    return value


def read_document(value: Any) -> bytes:
    """Returns the bytes of a text, or of what has bytes."""
    if isinstance(value, (bytes, bytearray)):
        return bytes(value)
    try:
        return read_text(value).encode()
    except UnicodeEncodeError:
        raise Refused(
            f"{shown(value)} is no text in UTF-8", "write characters"
        ) from None


def read_generator(value: Any) -> Any:
    if not hasattr(value, "choice") or not hasattr(value, "bit_generator"):
        raise Refused(
            f"{shown(value)} is no Generator", "give numpy.random.default_rng(1)"
        )
    return value


SAID, ALL_SAID = Kind(read_text), Kind(several(read_text), shape=TEXTS)
PRINTED = Kind(read_text, shape=FORM)
PATH = Kind(read_path, metavar="PATH")
FOLDER = Kind(read_folder, metavar="FOLDER")
FILE = Kind(read_file, metavar="FILE")
PICTURE = Kind(read_picture, metavar="FILE")
SHARE = Kind(read_share, metavar="SHARE")
SCHEDULER = Kind(read_scheduler)
DOCUMENT = Kind(read_document)
GENERATOR = Kind(read_generator)


def judged(*tables: str) -> Callable[[Call], Call]:
    """Returns a decorator by which each argument of a function is read by its word in the first of some tables of
    options.toml that has it. None is as by default. Raises Refused for what can't be meant, with the argument's name.
    """

    def made(function: Call) -> Call:
        signature = inspect.signature(function)

        @functools.wraps(function)
        def called(*values: Any, **named: Any) -> Any:
            try:
                given = signature.bind(*values, **named)
            except TypeError as why:
                raise TypeError(f"{function.__name__}() {why}") from None
            for name, value in [*given.arguments.items()]:
                if value is None:
                    del given.arguments[name]
                    if signature.parameters[name].default is inspect.Parameter.empty:
                        raise Refused(
                            f"{argument(name)} is missing", "it can't be None"
                        )
                    continue
                word = word_of(name, tables)
                if word:
                    given.arguments[name] = word.meant(value)
            return function(*given.args, **given.kwargs)

        setattr(called, "__signature__", getattr(function, SEEN, signature))
        return cast(Call, called)

    return made
