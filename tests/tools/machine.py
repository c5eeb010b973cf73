"""A folder that stands for a machine: copies of the repository's files, and fakes of the commands that tools run."""
from __future__ import annotations

import os
import shutil
import subprocess
from dataclasses import dataclass
from pathlib import Path

from crnplan.store.caches import cache_folder

SECONDS = 100
Ran = subprocess.CompletedProcess[str]
# The folders of the path behind that of the fakes.
PATH = "/usr/local/bin:/usr/bin:/bin:/usr/sbin:/sbin"


def write_script(path: Path, text: str) -> None:
    """Writes a script of bash that can be run."""
    path.parent.mkdir(parents=True, exist_ok=True)
    path.write_text(f"#!/bin/bash\n{text}\n", encoding="utf-8")
    path.chmod(0o755)


def changed(path: Path, old: str, new: str) -> None:
    """Changes a text at each place where it has another."""
    text = path.read_text(encoding="utf-8")
    assert old in text
    path.write_text(text.replace(old, new), encoding="utf-8")


@dataclass(frozen=True)
class Machine:
    """A folder with a copy `top` of the repository, and `bin`, whose fakes write lines to `log`."""

    folder: Path

    @property
    def top(self) -> Path:
        """Returns the copy of the repository. Its path has a blank."""
        return self.folder / "a copy"

    def copy(self, top: Path, *names: str) -> None:
        """Copies files and folders of the repository."""
        left_out = shutil.ignore_patterns("__pycache__", "*.egg-info", "tests", ".*")
        for name in names:
            (self.top / name).parent.mkdir(parents=True, exist_ok=True)
            if (top / name).is_dir():
                shutil.copytree(top / name, self.top / name, ignore=left_out)
            else:
                shutil.copy2(top / name, self.top / name)

    def fake(self, name: str, text: str) -> None:
        """Puts a script of bash first on the path of `run`."""
        write_script(self.folder / "bin" / name, text)

    def environment(self, **more: str) -> dict[str, str]:
        """Returns the environment of a tool, in which crnplan finds the inner loops that this user has compiled."""
        named = {
            "PATH": f"{self.folder}/bin:{PATH}",
            "HOME": str(self.folder),
            "LANG": "C.UTF-8",
        }
        loops = {"NUMBA_CACHE_DIR": str(own)} if (own := cache_folder()) else {}
        return {**named, **loops, "LOG": str(self.folder / "log"), **more}

    def run(self, *words: str | Path, text: str = "", **more: str) -> Ran:
        """Runs a command, whose name may be a path in the copy, to its end."""
        command = self.top / words[0]
        found = command if command.exists() else words[0]
        return subprocess.run(
            [os.fspath(found), *words[1:]],
            input=text,
            text=True,
            capture_output=True,
            env=self.environment(**more),
            timeout=SECONDS,
        )

    def start(self, *words: str, **more: str) -> subprocess.Popen[str]:
        """Starts a command of the copy, with a pipe for its input and its output."""
        return subprocess.Popen(
            [self.top / words[0], *words[1:]],
            env=self.environment(**more),
            text=True,
            stdin=subprocess.PIPE,
            stdout=subprocess.PIPE,
            stderr=subprocess.DEVNULL,
        )

    def logged(self) -> list[str]:
        """Returns the lines that the fakes have written down."""
        path = self.folder / "log"
        return path.read_text(encoding="utf-8").splitlines() if path.exists() else []
