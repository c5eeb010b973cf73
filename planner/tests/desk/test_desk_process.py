"""Tests of the desk as a process: how it is opened and ended, what it leaves behind, and what bytes of others do to it."""
from __future__ import annotations

import html
import re
import shlex
import signal
import threading
from collections.abc import Iterator
from concurrent.futures import ThreadPoolExecutor
from pathlib import Path

import psutil
import pytest

from crnplan.desk import work
from crnplan.desk.kept import DESK
from crnplan.desk.server import THREADS, serve
from crnplan.errors import Refused
from crnplan.read.catalogue_reading import CATALOGUE
from crnplan.store.files import own_folder, read_folder
from planner.tests.conftest import Command
from planner.tests.desk.conftest import LONGEST, add_export, held, wait_for
from planner.tests.desk.conftest import opened as in_process
from planner.tests.desk.monday import warehouses
from planner.tests.desk.opened import Opened


ARENA = 1 << 26  # bytes


@pytest.fixture
def opened(tmp_path: Path) -> Iterator[Opened]:
    """Returns a new desk that was opened and entered."""
    desk = Opened(tmp_path)
    desk.enter()
    yield desk
    desk.close()


def leaves_nothing(desk: Opened, processes: list[psutil.Process]) -> bool:
    """Returns whether an ended desk has left no process, no temporary folder, and nothing outside its folder."""
    _, left = psutil.wait_procs(processes, timeout=20)
    unfinished = [*desk.folder.glob("unfinished-*"), *desk.folder.rglob("*.part")]
    is_closed = not (desk.folder / "kept/address").exists()
    return not left and not unfinished and is_closed and desk.outside() == desk.before


def test_interrupt_ends_it(opened: Opened) -> None:
    processes = opened.processes()
    opened.process.send_signal(signal.SIGINT)
    assert opened.ended() == (0, "")
    assert leaves_nothing(opened, processes)


def test_many_requests_at_once(opened: Opened) -> None:
    """More than there are threads wait for their turn, and nothing is printed of that."""
    with ThreadPoolExecutor(6 * THREADS) as threads:
        answers = [*threads.map(opened.get, ["/files"] * (12 * THREADS))]
    assert {status for status, _ in answers} == {200}
    opened.process.send_signal(signal.SIGINT)
    assert opened.ended() == (0, "")


def test_threads_share_memory(opened: Opened) -> None:
    """No thread has memory of its own, which the C library would reserve by 64 MB, at a multiple of that."""
    with ThreadPoolExecutor(THREADS) as threads:
        [*threads.map(opened.get, ["/files"] * (4 * THREADS))]
    maps = Path(f"/proc/{opened.process.pid}/maps").read_text()
    spans = [line.split()[0].split("-") for line in maps.splitlines()]
    starts = {int(start, 16) for start, _ in spans}
    ends = {int(end, 16) for _, end in spans}
    reserved = [place for place in starts if place % ARENA == 0]
    assert not [place for place in reserved if place + ARENA in ends]


def test_button_closes_it(opened: Opened) -> None:
    """The page that says so is still shown."""
    processes = opened.processes()
    status, text = opened.post("/close")
    assert status == 200 and "The desk is closed" in text
    assert opened.ended() == (0, "")
    assert leaves_nothing(opened, processes)


def test_second_start_shows_the_first(opened: Opened) -> None:
    """It prints the address of the first and ends; the first goes on."""
    second = Opened(opened.around)
    assert second.address == opened.address
    assert second.ended() == (0, "")
    assert opened.get("/plan")[0] == 200
    opened.process.send_signal(signal.SIGINT)
    assert opened.ended()[0] == 0
    third = Opened(opened.around)
    assert third.address != opened.address
    third.enter()
    assert third.get("/plan")[0] == 200
    third.close()


def files_in(plan: Path) -> dict[str, bytes]:
    """Returns what all files of a plan have that a user reads."""
    return {path.name: path.read_bytes() for path in plan.iterdir() if path.is_file()}


def test_killed_desk_goes_on(tmp_path: Path, program: Path, crnplan: Command) -> None:
    """A desk that is killed while it plans leaves no process. The next one goes on by itself, and its plan has the bytes of
    the command that the page shows. Meanwhile another browser sees the work, and begins no other.
    """
    with in_process(tmp_path / "desk") as front:
        add_export(front, warehouses(tmp_path))
    program = held(tmp_path, program)
    first = Opened(tmp_path, "--program", program)
    first.enter()
    assert first.post("/plan/begin", way="alone")[0] == 303
    wait_for(lambda: '"total"' in first.get("/progress")[1])
    first.enter()
    assert 'data-kind="plan"' in first.get("/files")[1]
    status, text = first.post("/plan/begin", way="alone")
    assert status == 400 and "other work is under way" in text
    processes = first.processes()
    assert len(processes) > 1
    first.process.kill()
    first.process.wait()
    (tmp_path / "hold").unlink()

    second = Opened(tmp_path, "--program", program)
    second.enter()
    wait_for(lambda: second.get("/progress")[1].strip() == "{}")
    assert not psutil.wait_procs(processes, timeout=60)[1]
    (commands,) = re.findall("(?s)<pre[^>]*>(.*?)</pre>", second.get("/plan")[1])
    (plan,) = (second.folder / "plans").iterdir()
    own = tmp_path / "by commands"
    for command in html.unescape(commands).split(" &&\n"):
        words = shlex.split(command)[1:]
        words[words.index(str(plan))] = str(own)
        assert crnplan(*words, "--program", program).status == 0
    assert files_in(plan) == files_in(own)
    second.process.send_signal(signal.SIGINT)
    assert second.ended() == (0, "")
    assert leaves_nothing(second, [])


PATHS = """/../../../../etc/passwd /%2e%2e/%2e%2e/%2e%2e/etc/passwd /..%2f..%2f..%2fetc/passwd /plan/../../etc/passwd
    /%00 /plan%00 /..%00/ //plan ///etc/passwd /\\..\\..\\ /plan;x /style.css/../server.py /static/icon.svg /words/en.toml
    /kept/desk.json /crnplan.toml /files/../crnplan.toml /%c0%ae%c0%ae/ /%ff /?plan=../../x""".split()
# What is sent in place of a sound request, and the first word of the answer. {own} has the sound words of a head.
HEADS = {
    "no host": ("GET /plan HTTP/1.1\r\n{cookie}\r\n", b"403"),
    "two hosts": ("GET /plan HTTP/1.1\r\nHost: x\r\n{own}\r\n", b"403"),
    "two hosts, ours first": ("GET /plan HTTP/1.1\r\n{own}Host: x\r\n\r\n", b"403"),
    "trace": ("TRACE /plan HTTP/1.1\r\n{own}\r\n", b"403"),
    "connect": ("CONNECT x:80 HTTP/1.1\r\n{own}\r\n", b"403"),
    "a large head": ("GET /plan HTTP/1.1\r\n{own}X: {large}\r\n\r\n", b"431"),
    "a large path": ("GET /{large} HTTP/1.1\r\n{own}\r\n", b"431"),
    "a large body": (
        "POST /plan/stop HTTP/1.1\r\n{own}Content-Length: 3000000000\r\n\r\n",
        b"413",
    ),
    "a length below 0": (
        "POST /plan/stop HTTP/1.1\r\n{own}Content-Length: -1\r\n\r\n",
        b"400",
    ),
    "two lengths": (
        "POST /plan/stop HTTP/1.1\r\n{own}Content-Length: 1\r\nContent-Length: 2\r\n\r\nxx",
        b"400",
    ),
    "an unknown encoding": (
        "POST /plan/stop HTTP/1.1\r\n{own}Transfer-Encoding: x\r\n\r\n",
        b"501",
    ),
    "a broken chunk": (
        "POST /plan/stop HTTP/1.1\r\n{own}Transfer-Encoding: chunked\r\n\r\nxyz\r\n",
        b"400",
    ),
    "no request": ("\x00\x01\x02\r\n\r\n", b"403"),
}


def test_bytes_of_others(opened: Opened) -> None:
    """Whatever is sent, nothing of the machine is shown, nothing is written, and the desk goes on."""
    cookie = f"Cookie: {opened.cookie}\r\nConnection: close\r\n"
    own = f"Host: {opened.host}\r\nOrigin: http://{opened.host}\r\n{cookie}"
    inside = {*opened.folder.rglob("*")}
    facts = {"own": own, "cookie": cookie, "large": "x" * 300_000}
    assert b" 200 " in opened.raw(f"GET /plan HTTP/1.1\r\n{own}\r\n".encode())
    for path in PATHS:
        answer = opened.raw(f"GET {path} HTTP/1.1\r\n{own}\r\n".encode())
        assert answer.split()[1] in (b"200", b"303", b"308", b"404"), (path, answer)
        assert b"root:" not in answer and b"crnplan folder" not in answer
    for name, (text, status) in HEADS.items():
        answer = opened.raw(text.format(**facts).encode("latin-1"))
        if answer or "large" not in name:
            assert answer.split()[1] == status, (name, answer)
        assert opened.cookie.encode() not in answer
        assert str(opened.folder).encode() not in answer
    assert opened.get("/plan")[0] == 200
    assert {*opened.folder.rglob("*")} == inside
    assert opened.outside() == opened.before


def test_work_waits_for_what_was_killed(tmp_path: Path) -> None:
    """Work that begins while the last one still ends, or a page reads its folder, waits for that, and is not refused."""
    for holding in (own_folder, read_folder):
        waiting = threading.Thread(target=work.wait_for, args=[tmp_path])
        with holding(tmp_path, CATALOGUE):
            waiting.start()
            waiting.join(0.3)
            assert waiting.is_alive()
        waiting.join(LONGEST)
        assert not waiting.is_alive()
    work.wait_for(tmp_path / "new")


def test_a_browser_is_led_by_a_file(opened: Opened) -> None:
    """Only the owner of the desk reads its address and the page that leads there; so others don't see it in a list of
    commands."""
    own = opened.folder / "kept"
    for name in ("address", "open.html"):
        assert (own / name).stat().st_mode & 0o777 == 0o600
    assert (own / "address").read_text("utf-8") == opened.address
    assert f'url={opened.address}"' in (own / "open.html").read_text("utf-8")
    assert opened.folder.stat().st_mode & 0o777 == 0o700


@pytest.mark.parametrize(
    "address", ["http://example.org/enter/" + 43 * "x", "--help", ""]
)
def test_no_other_address_is_shown(address: str, tmp_path: Path) -> None:
    """A folder that says where else a desk is, is refused as one in which a run works."""
    with own_folder(tmp_path, DESK) as folder:
        folder.inner("kept")
        (tmp_path / "kept/address").write_text(address, "utf-8")
        with pytest.raises(Refused, match="another run of crnplan works"):
            serve(tmp_path, opens=False)


def test_work_is_stopped_at_once(tmp_path: Path) -> None:
    """Work that has hardly begun is stopped as any other, and goes on, also where interrupts are ignored; work that is
    killed says so."""
    with in_process(tmp_path / "desk") as front:
        add_export(front, warehouses(tmp_path))
        usual = signal.signal(signal.SIGINT, signal.SIG_IGN)
        front.read()
        front.stop()
        signal.signal(signal.SIGINT, usual)
        state = front.desk.state
        assert (state.ended, state.said, state.read) == (work.STOPPED, [], -1)
        front.read()
        assert front.work
        front.work.process.kill()
        wait_for(lambda: front.work is None)
        (said,) = front.desk.state.said
        assert front.desk.state.ended == work.REFUSED and "status -9" in said
        front.read()
        wait_for(lambda: front.work is None)
        assert front.desk.state.ended == work.DONE and front.desk.catalogue
