"""Reads the sources of the program as the check reads them, for what neither a contract nor a list of calls says.

tests/calls pins what the functions of the libraries call and make. Of the program itself no such list is left.
"""
from __future__ import annotations

import re
import shutil
import subprocess
from collections import Counter
from collections.abc import Sequence
from itertools import pairwise
from json import loads
from pathlib import Path
from typing import NamedTuple


class Token(NamedTuple):
    """A token of a source, and its kind: Code, Literal, or Head for the first words of a clause or a ghost item."""

    kind: str
    text: str


Tokens = tuple[Token, ...]


def tokens_of(*paths: Path) -> list[Tokens]:
    """Returns the tokens of each source, as the check reads it, without comments and without what a clause says."""
    rattle = Path(shutil.which("rt") or "rt").resolve().with_name("rattle")
    words = [rattle, "fmt", "--tokens", *paths]
    ran = subprocess.run(words, capture_output=True, text=True, check=True, timeout=60)
    files = re.split(r"^file \d+\n", ran.stdout, flags=re.MULTILINE)[1:]
    return [
        tuple(
            Token(kind, loads(text))
            for _, _, _, kind, text in (
                line.split(" ", 4) for line in lines.splitlines()
            )
            if kind in ("Code", "Literal", "Head")
        )
        for lines in files
    ]


def names_of(tokens: Tokens) -> Counter[str]:
    """Returns the names in the code of a source, with how often each is there."""
    return Counter(
        token.text
        for token in tokens
        if token.kind == "Code" and re.match(r"[A-Za-z_]", token.text)
    )


def without_clause(tokens: Tokens) -> list[str]:
    """Returns the functions of a source that state nothing of what they return: with no `ensures`, and outside the
    impls whose `from_gives` says it."""
    names: list[str] = []
    head: str | None = None
    # How many braces are open, and how many brackets of other kinds.
    depth, inner = 0, 0
    is_given, is_stated = False, False
    for before, token in pairwise(tokens):
        if before == ("Code", "fn") and token.text != "(":
            head, is_stated = token.text, is_given
        if token.kind == "Head":
            is_stated |= token.text == "ensures"
            is_given |= token.text == "from_gives"
        elif token.kind == "Code":
            inner += (token.text in "([") - (token.text in "])")
            depth += (token.text == "{") - (token.text == "}")
            is_given &= depth > 0
            if head is not None and not inner and token.text in "{;":
                names += [] if is_stated else [head]
                head = None
    return names
