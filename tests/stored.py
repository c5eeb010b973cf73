"""Stored texts of the repository, also with something else at one place."""
from __future__ import annotations

import functools

from crnplan import formats

from tests.runs import TOP

# A checkpoint of one run in each version, the oldest first. The program of its time wrote each old one.
CUTS = [
    *(
        f"tests/program/five_periods_cut_{it}.csv"
        for it in formats.CHECKPOINT_VERSIONS[:-1]
    ),
    "tests/program/five_periods_cut.csv",
]


@functools.cache
def stored(path: str) -> bytes:
    """Returns the text of a file of the repository."""
    return (TOP / path).read_bytes()


def swapped(text: bytes, old: bytes, new: bytes) -> bytes:
    """Returns the text with new for old, which it must have just once."""
    if text.count(old) != 1:
        raise ValueError(f"not just one {old!r} in a stored text")
    return text.replace(old, new)


def on_ring(text: bytes, size: int) -> bytes:
    """Returns a scenario on a ring of another size, on which its report does not depend."""
    return swapped(text, b"ring = ", b"ring = %d # " % size)
