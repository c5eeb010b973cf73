"""A desk that the command has opened in a process of its own, with folders of its own around it."""
from __future__ import annotations

import contextlib
import http.client
import os
import re
import socket
import subprocess
import sys
from pathlib import Path
from urllib.parse import urlencode, urlsplit

import psutil

from planner.tests.conftest import heed_interrupts
from planner.tests.desk.conftest import LONGEST

FORM = "application/x-www-form-urlencoded"
AROUND = "home", "tmp", "here"  # the folders around a desk


def listed(folder: Path) -> dict[str, int]:
    """Returns all that is in a folder, with the time of its last change."""
    return {
        str(path.relative_to(folder)): path.lstat().st_mtime_ns
        for path in folder.rglob("*")
    }


class Opened:
    """A desk in a process. `around` has all folders that it may take for its own: its home and so on."""

    def __init__(self, around: Path, *words: object) -> None:
        self.around, self.folder = around, around / "desk"
        for name in AROUND:
            (around / name).mkdir(exist_ok=True)
        caches = os.environ.get("XDG_CACHE_HOME") or Path.home() / ".cache"
        own = {
            "HOME": around / "home",
            "TMPDIR": around / "tmp",
            "XDG_CACHE_HOME": caches,
        }
        self.before = self.outside()
        self.process = subprocess.Popen(
            [sys.executable, "-m", "crnplan", "desk", self.folder, "--no-browser"]
            + [str(word) for word in words],
            env={**os.environ, **{name: str(path) for name, path in own.items()}},
            cwd=around / "here",
            stdin=subprocess.DEVNULL,
            stdout=subprocess.PIPE,
            stderr=subprocess.PIPE,
            text=True,
            preexec_fn=heed_interrupts,
        )
        assert self.process.stdout
        self.address = self.process.stdout.readline().strip()
        self.port = urlsplit(self.address).port or 0
        self.host = f"127.0.0.1:{self.port}"
        self.cookie = ""

    def outside(self) -> dict[str, dict[str, int]]:
        """Returns what is in the folders around the desk."""
        return {name: listed(self.around / name) for name in AROUND}

    def enter(self) -> None:
        """Opens the address, as a browser does."""
        line = http.client.HTTPConnection(self.host, timeout=LONGEST)
        line.request("GET", urlsplit(self.address).path)
        self.cookie = str(line.getresponse().headers["Set-Cookie"]).partition(";")[0]
        line.close()

    def get(self, path: str) -> tuple[int, str]:
        """Returns the status and the text of a page."""
        line = http.client.HTTPConnection(self.host, timeout=LONGEST)
        line.request("GET", path, headers={"Cookie": self.cookie})
        answer = line.getresponse()
        text = answer.read().decode("utf-8", "replace")
        line.close()
        return answer.status, text

    def post(self, path: str, **fields: str) -> tuple[int, str]:
        """Sends a form with the token of a page, and returns the status and the text of the answer."""
        token = re.findall('name="token" value="([0-9a-f]+)"', self.get("/plan")[1])[0]
        line = http.client.HTTPConnection(self.host, timeout=LONGEST)
        words = {"Cookie": self.cookie, "Origin": f"http://{self.host}"}
        body = urlencode({"token": token, **fields})
        line.request("POST", path, body, {**words, "Content-Type": FORM})
        answer = line.getresponse()
        text = answer.read().decode("utf-8", "replace")
        line.close()
        return answer.status, text

    def raw(self, data: bytes) -> bytes:
        """Returns all that is answered to bytes, until the other end is closed, perhaps before it has read all of them."""
        parts = []
        with (
            socket.create_connection(("127.0.0.1", self.port), LONGEST) as line,
            contextlib.suppress(ConnectionError),
        ):
            line.sendall(data)
            line.shutdown(socket.SHUT_WR)
            while part := line.recv(65_536):
                parts.append(part)
        return b"".join(parts)

    def processes(self) -> list[psutil.Process]:
        """Returns the process of the desk, and all that it has begun."""
        own = psutil.Process(self.process.pid)
        return [own, *own.children(recursive=True)]

    def ended(self) -> tuple[int, str]:
        """Waits for the end of the desk, and returns its status and what it has said on standard error."""
        _, errors = self.process.communicate(timeout=LONGEST)
        return self.process.returncode, errors

    def close(self) -> None:
        """Ends the desk by force, if it has not ended."""
        if self.process.poll() is None:
            self.process.kill()
            self.process.communicate(timeout=LONGEST)
