"""Inputs that come in pieces, as from a slow writer: through a pipe, or through a named pipe in place of a file.

A piece is written when the pipe is empty, so no read of the program gets more than one piece. A piece has at most the
65,536 bytes that a pipe holds.
"""
from __future__ import annotations

import contextlib
import fcntl
import os
import termios
import threading
import time
from collections.abc import Iterator
from pathlib import Path


def is_empty(end: int) -> bool:
    """Returns whether all bytes that were written to a pipe have been read."""
    waiting = bytearray(4)
    fcntl.ioctl(end, termios.FIONREAD, waiting)
    return not any(waiting)


def write_pieces(text: bytes, size: int, end: int, ended: threading.Event) -> None:
    """Writes a text to a pipe in pieces of `size` bytes and closes the pipe; stops early if the run has ended."""
    for at in range(0, len(text), size):
        os.write(end, text[at : at + size])
        while not is_empty(end) and not ended.is_set():
            time.sleep(0)
        if ended.is_set():
            break
    os.close(end)


@contextlib.contextmanager
def written(text: bytes, size: int, end: int) -> Iterator[None]:
    """Writes a text to a pipe in pieces, from a thread, while the body runs."""
    ended = threading.Event()
    writer = threading.Thread(target=write_pieces, args=(text, size, end, ended))
    writer.start()
    try:
        yield
    finally:
        ended.set()
        writer.join()


@contextlib.contextmanager
def piped(text: bytes, size: int) -> Iterator[int]:
    """Yields the end of a pipe from which a text is read in pieces."""
    read_end, write_end = os.pipe()
    try:
        with written(text, size, write_end):
            yield read_end
    finally:
        os.close(read_end)


@contextlib.contextmanager
def named_pipe(text: bytes, size: int, path: Path) -> Iterator[None]:
    """Makes a named pipe from which a text is read in pieces, and removes it at the end."""
    os.mkfifo(path)
    try:
        # Opened for reading too, so that opening it does not wait until the program does.
        with written(text, size, os.open(path, os.O_RDWR)):
            yield
    finally:
        os.unlink(path)
