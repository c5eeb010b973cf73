"""Names a folder of the user's own for what is made once and found again: compiled loops, templates and fonts."""
from __future__ import annotations

import os
import stat
import tempfile
from pathlib import Path


def has_home() -> bool:
    """Returns whether the machine knows a home of this user."""
    return os.path.expanduser("~") != "~"


def cache_folders() -> list[Path]:
    """Returns where such things may be kept: in the user's folder for caches, if the user has a home, and in that for
    temporary files.

    Source: XDG Base Directory Specification, whose folder has to be an absolute path.
    """
    stated, folders = os.environ.get("XDG_CACHE_HOME", ""), list[Path]()
    if os.path.isabs(stated):
        folders.append(Path(stated, "crnplan"))
    elif has_home():
        folders.append(Path.home() / ".cache/crnplan")
    return [*folders, Path(tempfile.gettempdir(), f"crnplan-{os.geteuid()}")]


def is_own(folder: Path) -> bool:
    """Returns whether a folder, which is made if it is missing, is this user's, and no other can write there. What others
    put there would be run."""
    try:
        folder.mkdir(mode=0o700, parents=True, exist_ok=True)
        state = folder.lstat()
    except OSError:
        return False
    is_alone = state.st_uid == os.geteuid() and not state.st_mode & (
        stat.S_IWGRP | stat.S_IWOTH
    )
    return stat.S_ISDIR(state.st_mode) and is_alone and os.access(folder, os.W_OK)


def cache_folder() -> Path | None:
    """Returns that folder; None if none is the user's own."""
    return next((folder for folder in cache_folders() if is_own(folder)), None)
