"""Has the words of all pages of the desk, a table for each language."""
from __future__ import annotations

import functools
import tomllib
from collections.abc import Mapping
from pathlib import Path
from typing import Any

TABLES = Path(__file__).with_name("texts")
ENGLISH = "en"
LANGUAGES = sorted(path.stem for path in TABLES.glob("*.toml"))


@functools.cache
def words_of(language: str) -> Mapping[str, Any]:
    """Returns the words of a language by page and name."""
    table = TABLES / f"{language}.toml"
    return tomllib.loads(table.read_text("utf-8"))


def as_field(name: str, value: str) -> str:
    """Returns an argument of a call as the pages call it, perhaps with a value."""
    label = words_of(ENGLISH)["fields"].get(name, name.replace("_", " "))
    return f"“{label}” {value}".strip()
