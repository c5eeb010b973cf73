"""Runs the program inside an installed package. It is the command crnsim that pip makes."""
from __future__ import annotations

import os
import signal
import sys

from . import INSIDE


def main() -> None:
    """Becomes the program, with the words, the streams and the signals that a shell would start it with."""
    for number in (signal.SIGPIPE, signal.SIGXFSZ):  # Python ignores both.
        signal.signal(number, signal.SIG_DFL)
    os.execv(INSIDE, sys.argv)
