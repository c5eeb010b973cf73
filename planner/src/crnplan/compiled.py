"""Compiles inner loops by numba, and keeps them in a folder of the user's own.

A loop is compiled when it is first called with arguments of some types, and kept under a digest of all that decides what
it is compiled to: so all installations with the same code find it, and none finds that of other code. It may call loops
that are compiled too, and no other function of the package. The first call of a loop loads numba, which takes half a
second and 80 MB: what calls none does without. compile_loops.py compiles all loops that plans call.
"""
from __future__ import annotations

import functools
import hashlib
import importlib
import os
import sys
import warnings
from collections.abc import Callable, Iterator, Mapping
from pathlib import Path
from types import CodeType, FunctionType
from typing import Any, TypeVar, cast

from .store.caches import cache_folder, is_own
from .store.interrupts import interrupted_later

Loop = TypeVar("Loop", bound=Callable[..., Any])


class Compiled:
    """A loop that numba compiles when it is called; `__wrapped__` is the loop as it is written."""

    __wrapped__: Callable[..., Any]

    def __init__(self, loop: Callable[..., Any]) -> None:
        functools.update_wrapper(self, loop)

    def __call__(self, *values: Any) -> Any:
        return self.machine(*values)

    @functools.cached_property
    def machine(self) -> Callable[..., Any]:
        """The loop as numba calls it.

        It is kept in the folder that `NUMBA_CACHE_DIR` names, if that is the user's own, else in `cache_folder`, and
        nowhere if there is none.
        """
        load_compiler()
        from numba import config, njit

        loop, stated = self.__wrapped__, config.CACHE_DIR
        folder = Path(stated) if stated and is_own(Path(stated)) else cache_folder()
        machine: Callable[..., Any] = njit(linked(loop, loop.__code__))
        if folder:
            config.CACHE_DIR = str(folder)
            try:
                machine = njit(cache=True)(kept_in(folder, loop))
            except (OSError, RuntimeError):  # The disk is full: numba finds no folder.
                pass
            finally:
                config.CACHE_DIR = stated
        return machine


def compiled(loop: Loop) -> Loop:
    """Returns a loop that numba compiles when it is called."""
    return cast(Loop, Compiled(loop))


def load_compiler() -> None:
    """Loads numba, so that processes which are forked from this one have it. An interrupt would leave a part of it, with
    which nothing goes on. So would a warning about its own code, if warnings are errors.
    """
    if "numba" not in sys.modules:
        with interrupted_later(), warnings.catch_warnings():
            warnings.simplefilter("ignore", DeprecationWarning)
            importlib.import_module("numba")


def named(code: CodeType) -> Iterator[str]:
    """Yields the names that code finds in a module, with those of functions in it."""
    yield from code.co_names
    for constant in code.co_consts:
        if isinstance(constant, CodeType):
            yield from named(constant)


def traits(code: CodeType, names: Mapping[str, Any]) -> tuple[Any, ...]:
    """Returns what decides what code is compiled to, if it finds names in a module: the module, by which numba finds it
    again, its text and that of functions in it, and the numbers and the loops that it names.
    """
    constants = [
        traits(constant, names) if isinstance(constant, CodeType) else constant
        for constant in code.co_consts
    ]
    values = [names[name] for name in code.co_names if name in names]
    numbers = [value for value in values if isinstance(value, (int, float, tuple))]
    loops = [
        traits(value.__wrapped__.__code__, value.__wrapped__.__globals__)
        for value in values
        if isinstance(value, Compiled)
    ]
    own = names.get("__name__"), code.co_code, code.co_names, code.co_varnames
    return *own, constants, numbers, loops


def linked(loop: Callable[..., Any], code: CodeType) -> FunctionType:
    """Returns a loop with its code, which finds the loops that it names as numba calls them."""
    names = dict(loop.__globals__)
    for name in named(code):
        if isinstance(names.get(name), Compiled):
            names[name] = names[name].machine
    return FunctionType(code, names, loop.__name__, loop.__defaults__, loop.__closure__)


def kept_in(folder: Path, loop: Callable[..., Any]) -> FunctionType:
    """Returns a loop that numba keeps in a folder: by the path, time and size of the file that it seems to stand in. An
    empty file stands for it, whose name has the digest of its traits."""
    from numba import __version__

    code = loop.__code__
    known = repr((__version__, traits(code, loop.__globals__)))
    digest = hashlib.sha256(known.encode()).hexdigest()
    path = folder / f"{Path(code.co_filename).stem}-{digest}.py"
    if not path.exists():
        path.touch()
        os.utime(path, (0, 0))
    return linked(loop, code.replace(co_filename=str(path)))
