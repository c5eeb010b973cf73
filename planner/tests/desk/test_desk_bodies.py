"""Tests of the bodies of requests over a real socket: those of others are refused by their heads, and nothing is stored."""
from __future__ import annotations

import contextlib
import http.client
import os
import socket
import stat
import threading
from collections.abc import Iterator

import pytest
from waitress.wasyncore import close_all

from crnplan.desk.front import Front
from crnplan.desk.safety import COOKIE, TOKEN
from crnplan.desk.server import LOCAL, server_of
from planner.tests.desk.conftest import LONGEST, wait_for

LENGTH = 1_900_000_000
ANSWER = 20  # seconds, in which a loaded machine refuses a head
PIECE = bytes(1 << 20)
BOUND = "planner"
ROWS = b"item,date,quantity\n" + b"A,2026-11-02,3\n" * 100_000


class Served:
    """A desk that is served on a port in a thread of this process."""

    def __init__(self, front: Front) -> None:
        self.front = front
        self.server, _ = server_of(front, 0)
        self.port = int(self.server.effective_port)
        self.thread = threading.Thread(target=self.server.run)
        self.thread.start()
        self.own = {
            "Host": f"{LOCAL}:{self.port}",
            "Cookie": f"{COOKIE}-{self.port}={front.secret.derived('session')}",
            "Origin": f"http://{LOCAL}:{self.port}",
            "Content-Type": f"multipart/form-data; boundary={BOUND}",
        }

    def close(self) -> None:
        self.server.task_dispatcher.shutdown()
        # A request that ends wakes the loop too: it may have closed all, with the trigger, before the trigger is pulled.
        with contextlib.suppress(OSError):
            self.server.trigger.pull_trigger(lambda: close_all(self.server._map))
        self.thread.join(LONGEST)

    def connected(self) -> socket.socket:
        return socket.create_connection((LOCAL, self.port), ANSWER)

    def head(self, **words: str | None) -> bytes:
        """Returns the head of a file that is dropped, with some of its words in place of those of the planner's browser."""
        named = {name.replace("_", "-"): word for name, word in words.items()}
        lines = [f"{name}: {word}" for name, word in (self.own | named).items() if word]
        return "\r\n".join(["POST /files/drop HTTP/1.1", *lines, "\r\n"]).encode()

    def body(self) -> bytes:
        """Returns the body of a form that drops ROWS."""
        names = f'name="{TOKEN}"', 'name="files"; filename="demand.csv"'
        values = self.front.secret.derived(TOKEN).encode(), ROWS
        parts = [
            f"--{BOUND}\r\nContent-Disposition: form-data; {name}\r\n\r\n".encode()
            + value
            for name, value in zip(names, values)
        ]
        return b"\r\n".join([*parts, f"--{BOUND}--\r\n".encode()])


@pytest.fixture
def served(front: Front) -> Iterator[Served]:
    desk = Served(front)
    yield desk
    desk.close()


def stored() -> int:
    """Returns how many bytes there are in the files that this process has open without a name."""
    states = []
    for number in os.listdir("/proc/self/fd"):
        with contextlib.suppress(OSError):  # It was closed meanwhile.
            states.append(os.fstat(int(number)))
    files = [it for it in states if stat.S_ISREG(it.st_mode) and not it.st_nlink]
    return sum(it.st_size for it in files)


OTHERS: dict[str, dict[str, str | None]] = {
    "no cookie": {"Cookie": None},
    "another cookie": {"Cookie": f"{COOKIE}=x"},
    "another host": {"Host": "example.com"},
    "no host": {"Host": None},
    "another site": {"Sec_Fetch_Site": "cross-site"},
    "another origin": {"Origin": "http://example.com"},
    "no origin": {"Origin": None},
}


@pytest.mark.parametrize("name", OTHERS)
def test_head_of_others_is_refused_before_the_body(served: Served, name: str) -> None:
    """The refusal is the one of a page, and comes before a byte of the body is sent."""
    for way in ({"Content_Length": f"{LENGTH}"}, {"Transfer_Encoding": "chunked"}):
        with served.connected() as line:
            line.sendall(served.head(**{**OTHERS[name], **way}))
            answer = http.client.HTTPResponse(line)
            answer.begin()
            assert answer.status == 403 and b"crnplan desk has printed" in answer.read()
            assert answer.headers["Connection"] == "close"
            assert answer.headers["X-Content-Type-Options"] == "nosniff"
            assert line.recv(1) == b""


def test_body_of_others_is_stored_nowhere(served: Served) -> None:
    """Who sends on is cut off, and no file has grown meanwhile."""
    before, sent = stored(), 0
    with served.connected() as line:
        line.sendall(served.head(Cookie=None, Content_Length=f"{LENGTH}"))
        with pytest.raises(ConnectionError):
            while sent < 200 * len(PIECE):
                line.sendall(PIECE)
                sent += len(PIECE)
                assert stored() == before
    assert served.front.desk.state.files == []


def test_requests_behind_a_refused_one_are_dropped(served: Served) -> None:
    """A body that looks like a request of the planner is none."""
    inner = served.head().replace(b"POST /files/drop", b"GET /plan")
    with served.connected() as line:
        line.sendall(served.head(Origin=None, Content_Length=f"{len(inner)}") + inner)
        answer = http.client.HTTPResponse(line)
        answer.begin()
        assert answer.status == 403 and answer.read()
        assert line.recv(1) == b""


@pytest.mark.parametrize("is_ours", [True, False])
def test_a_body_is_asked_for_if_it_will_be_taken(served: Served, is_ours: bool) -> None:
    """Who waits before the body is asked to go on, or refused."""
    body = served.body()
    words = {} if is_ours else {"Cookie": None}
    length = f"{len(body)}"
    with served.connected() as line:
        line.sendall(served.head(Expect="100-continue", Content_Length=length, **words))
        first = line.recv(12)
        assert first == (b"HTTP/1.1 100" if is_ours else b"HTTP/1.1 403")
        if is_ours:
            assert line.recv(100) == b" Continue\r\n\r\n"
            line.sendall(body)
            assert line.recv(12) == b"HTTP/1.1 303"


@pytest.mark.parametrize("is_chunked", [True, False])
def test_files_of_the_planner_are_taken(served: Served, is_chunked: bool) -> None:
    body = served.body()
    line = http.client.HTTPConnection(LOCAL, served.port, timeout=LONGEST)
    pieces = (body[at : at + 70_000] for at in range(0, len(body), 70_000))
    sent = pieces if is_chunked else body
    line.request("POST", "/files/drop", sent, served.own, encode_chunked=is_chunked)
    assert line.getresponse().status == 303
    line.close()
    wait_for(lambda: not served.front.work)
    (file,) = served.front.desk.state.files
    assert (served.front.desk.path / file.place).read_bytes() == ROWS
