"""The command that opens the desk."""
from __future__ import annotations

from pathlib import Path

from .commands import command


@command()
def desk(folder: Path, no_browser: bool, port: int, program: str | None) -> None:
    from ..desk.server import serve

    serve(folder.expanduser(), port, not no_browser, program)
