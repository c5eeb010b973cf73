"""Has an interrupt end a command at once, but neither be lost nor break off what has to be done as a whole."""
from __future__ import annotations

import contextlib
import signal
import sys
import threading
from collections.abc import Iterator
from types import FrameType

AGAIN_SECONDS = 0.5  # until an interrupt comes again that nothing has heeded


@contextlib.contextmanager
def interrupted_later() -> Iterator[None]:
    """Has an interrupt raise its error at the end of the block: within it, what the block begins would be lost."""
    usual, late = signal.getsignal(signal.SIGINT), list[tuple[int, FrameType | None]]()
    if threading.current_thread() is not threading.main_thread() or not callable(usual):
        yield
        return

    def keep(number: int, frame: FrameType | None) -> None:
        late.append((number, frame))

    signal.signal(signal.SIGINT, keep)
    try:
        yield
    finally:
        signal.signal(signal.SIGINT, usual)
    for words in late:
        usual(*words)


def interrupt(number: int, frame: FrameType | None) -> None:
    """Raises the error of an interrupt, which comes again until it is heeded: one is lost that is raised in a callback
    of C, or that a library drops."""
    signal.signal(signal.SIGALRM, interrupt_again)
    signal.setitimer(signal.ITIMER_REAL, AGAIN_SECONDS)
    raise KeyboardInterrupt


def interrupt_again(number: int, frame: FrameType | None) -> None:
    signal.raise_signal(signal.SIGINT)


def heed_interrupt() -> None:
    """Lets no further interrupt break off what ends this process."""
    signal.signal(signal.SIGINT, signal.SIG_IGN)
    if signal.getsignal(signal.SIGALRM) is interrupt_again:
        signal.setitimer(signal.ITIMER_REAL, 0)


def say_lost(error: sys.UnraisableHookArgs) -> None:
    """Says which error is lost, as Python does, if it is no interrupt."""
    if not isinstance(error.exc_value, KeyboardInterrupt):
        sys.__unraisablehook__(error)


@contextlib.contextmanager
def heeding_interrupts() -> Iterator[None]:
    """Has no interrupt be lost in the block. Python's own handler and hook are back after it."""
    usual, hook = signal.getsignal(signal.SIGINT), sys.unraisablehook
    if (
        usual is not signal.default_int_handler
        or threading.current_thread() is not threading.main_thread()
    ):
        yield
        return
    signal.signal(signal.SIGINT, interrupt)
    sys.unraisablehook = say_lost
    try:
        yield
    finally:
        sys.unraisablehook = hook
        if signal.getsignal(signal.SIGINT) is interrupt:
            signal.signal(signal.SIGINT, usual)
