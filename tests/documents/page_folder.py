"""Takes the commands of a block apart and runs them, in a folder with a copy of what they name."""
from __future__ import annotations

import os
import re
import shutil
import subprocess
import sys
from pathlib import Path

from tests.runs import TOP

# A command that takes longer fails.
SECONDS = 120
RUNNERS = {
    "sh": ["bash", "-e", "-o", "pipefail", "-c"],
    "python": [sys.executable, "-c"],
}


def is_whole(text: str) -> bool:
    """Returns whether a text ends where a command of the shell ends."""
    if text.endswith("\\"):
        return False
    return (
        subprocess.run(
            ["bash", "-n", "-c", text], capture_output=True, check=False
        ).returncode
        == 0
    )


def commands_of(kind: str, text: str) -> list[str]:
    """Returns the commands of a block: each by itself for the shell, but for comments."""
    if kind != "sh":
        return [text]
    commands, lines = [], []
    for line in text.splitlines():
        lines.append(line)
        if is_whole("\n".join(lines)):
            commands.append("\n".join(lines))
            lines = []
    return [
        it
        for it in [*commands, "\n".join(lines)]
        if it.strip() and not it.startswith("#")
    ]


class Folder:
    """A folder with a copy of the examples and the pages, in which programs are reached as the pages say."""

    def __init__(self, path: Path, program: Path) -> None:
        """Makes the folder. `crnsim` is the program, and `crnplan` and `python3` are those by which this test runs."""
        self.path = path
        for name in ("examples", "docs"):
            shutil.copytree(
                TOP / name, path / name, ignore=shutil.ignore_patterns("__pycache__")
            )
        for link in (
            path / "crates/crnsim/out/crnsim",
            path / "tools/crnsim",
            path.parent / "bin/crnsim",
        ):
            link.parent.mkdir(parents=True, exist_ok=True)
            link.symlink_to(program)
        search = (
            f"{path.parent / 'bin'}:{Path(sys.executable).parent}:{os.environ['PATH']}"
        )
        self.environment = {
            **os.environ,
            "PATH": search,
            "CRNSIM": str(program),
            "LC_ALL": "C.UTF-8",
            "PYTHONDONTWRITEBYTECODE": "1",
        }

    def fetch(self, command: str) -> None:
        """Copies the files of the repository's tests that a command names."""
        for name in re.findall(r"\btests/[\w./-]+", command):
            if (TOP / name).is_file():
                (self.path / name).parent.mkdir(parents=True, exist_ok=True)
                shutil.copy(TOP / name, self.path / name)

    def run(self, kind: str, command: str) -> tuple[int | None, str]:
        """Runs a command. Returns its status, and what it prints, faults too, without progress."""
        self.fetch(command)
        words = [*RUNNERS[kind], command]
        try:
            ran = subprocess.run(
                words,
                cwd=self.path,
                env=self.environment,
                stdin=subprocess.DEVNULL,
                timeout=SECONDS,
                stdout=subprocess.PIPE,
                stderr=subprocess.STDOUT,
                check=False,
            )
        except subprocess.TimeoutExpired:
            return None, f"it does not end in {SECONDS} seconds"
        return ran.returncode, ran.stdout.decode("utf-8", "replace")
