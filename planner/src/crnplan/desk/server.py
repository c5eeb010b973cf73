"""Serves the pages of a desk on this machine."""
from __future__ import annotations

import contextlib
import ctypes
import logging
import os
import re
import signal
import tempfile
import threading
import webbrowser
from collections.abc import Callable, Iterator
from io import BytesIO
from pathlib import Path
from typing import Any

import waitress.server
from flask import Flask, redirect, send_file
from werkzeug.exceptions import HTTPException
from werkzeug.wrappers import Response

from ..errors import CrnplanError, Failed
from ..spelling import spelt
from ..drawing.rendering import rendered
from ..store.files import IN_KEPT, Busy, Folder, own_folder
from ..store.interrupts import heed_interrupt
from . import files, items, orders, past, plans, results, settings
from .front import FRONT, Front, page
from .kept import DESK, Desk
from .language import as_field
from .safety import MOST_UPLOAD, RequestJudge, Secret, channels_of, guard

LOCAL = "127.0.0.1"  # No other machine reaches the desk.
# A browser keeps some six connections. One that sends nothing for so long is closed.
THREADS, MOST_CONNECTIONS, SILENT_SECONDS = 4, 30, 60
# Settings of the C library's memory: M_ARENA_MAX and M_TRIM_THRESHOLD, in bytes.
MEMORY = {-8: 1, -1: 1 << 16}
# The address of the desk that runs, for who opens it a second time, and a page that leads there.
ADDRESS, WAY = f"{IN_KEPT}address", f"{IN_KEPT}open.html"
ADDRESS_FORM = re.compile(r"http://127\.0\.0\.1:[0-9]{1,5}/enter/[\w-]{43}", re.ASCII)
ICON = Path(__file__).with_name("static") / "icon.svg"
MODULES = files, settings, plans, results, items, orders, past


def spelling(answers: Callable[..., Any]) -> Callable[..., Any]:
    """Returns what answers requests with arguments of calls spelt as fields of the pages."""

    def spelt_answers(*words: Any) -> Any:
        with spelt(as_field):
            return answers(*words)

    return spelt_answers


def add_looks(app: Flask) -> None:
    """Has an application show the style, the script and the icon of its pages."""

    @app.get("/<any('style.css', 'script.js'):name>")
    def look(name: str) -> Response:
        # The table of a whole plan is on no page of the desk.
        facts = {"columns": [], "rows_a_group": 1}
        return send_file(
            BytesIO(rendered(f"desk/{name}", facts).encode()), download_name=name
        )

    @app.get("/icon.svg")
    def icon() -> Response:
        return send_file(ICON)


def application(front: Front, hosts: set[str]) -> Flask:
    """Returns the application of a desk, which is asked under the name of some hosts."""
    app = Flask(__name__, static_folder=None, template_folder=None)
    app.extensions[FRONT] = front
    setattr(app, "wsgi_app", spelling(app.wsgi_app))
    guard(app, RequestJudge(front.secret, hosts))
    add_looks(app)
    for module in MODULES:
        app.register_blueprint(module.pages)

    @app.get("/")
    def first() -> Response:
        return redirect("/today" if front.desk.state.plans else "/files", 303)

    @app.post("/close")
    def close() -> str:
        os.kill(os.getpid(), signal.SIGTERM)
        return page("closed.html")

    @app.errorhandler(CrnplanError)
    def refused(why: CrnplanError) -> tuple[str, int]:
        status = 500 if isinstance(why, Failed) else 400
        return page("refused.html", said=str(why).splitlines()), status

    @app.errorhandler(HTTPException)
    def failed(why: HTTPException) -> tuple[str, int]:
        return page("refused.html", said=[why.description or why.name]), why.code or 500

    return app


def save_memory() -> None:
    """Has threads take memory from one place, so that each can use what another has freed, and what is free given back:
    where the C library can. The figures of an item take 40 MB less."""
    with contextlib.suppress(AttributeError):
        for name, value in MEMORY.items():
            ctypes.CDLL(None).mallopt(name, value)


@contextlib.contextmanager
def rooms_in(room: Path) -> Iterator[None]:
    """Has what is written for a time stand in a folder within the block."""
    usual = tempfile.tempdir
    tempfile.tempdir = str(room)
    try:
        yield
    finally:
        tempfile.tempdir = usual


def keep_private(folder: Folder, name: str, text: str) -> None:
    """Keeps a text where its owner alone reads it."""
    place = folder.path / name
    # An old file would keep its mode, and may be open to others.
    place.unlink(missing_ok=True)
    with open(
        place, "x", opener=lambda name, flags: os.open(name, flags, 0o600)
    ) as file:
        file.write(text)


def show_address(path: Path, address: str, opens: bool) -> None:
    """Prints the address of the desk in a folder, and opens a browser there, by a file: others see the words of its command."""
    print(address, flush=True)
    if opens:
        way = (path / WAY).absolute().as_uri()
        threading.Thread(target=webbrowser.open, args=[way], daemon=True).start()


def show_other(path: Path, opens: bool) -> bool:
    """Shows the desk that runs in a folder. Returns whether its address is known."""
    place = path / ADDRESS
    address = place.read_text("utf-8") if place.is_file() else ""
    is_one = ADDRESS_FORM.fullmatch(address) is not None
    if is_one:
        show_address(path, address, opens)
    return is_one


@contextlib.contextmanager
def own_desk(path: Path) -> Iterator[Folder]:
    """Gives the folder of a desk, which its owner alone reads."""
    is_new = not path.exists()
    with own_folder(path, DESK) as folder, rooms_in(folder.room()):
        if is_new:
            path.chmod(0o700)
        try:
            yield folder
        finally:
            for name in (ADDRESS, WAY):
                (path / name).unlink(missing_ok=True)


def server_of(front: Front, port: int) -> tuple[Any, str]:
    """Returns the server of a desk and its address."""
    hosts = set[str]()
    logging.getLogger("waitress.queue").setLevel(logging.ERROR)  # Requests may wait.
    server: Any = waitress.server.create_server(
        application(front, hosts),
        host=LOCAL,
        port=port,
        threads=THREADS,
        connection_limit=MOST_CONNECTIONS,
        channel_timeout=SILENT_SECONDS,
        clear_untrusted_proxy_headers=True,
        max_request_body_size=MOST_UPLOAD,
        ident=None,
    )
    server.channel_class = channels_of(RequestJudge(front.secret, hosts))
    # Which port is free is known only now.
    hosts |= {f"{name}:{server.effective_port}" for name in (LOCAL, "localhost")}
    return server, f"http://{LOCAL}:{server.effective_port}/enter/{front.secret.text}"


def serve(
    path: Path, port: int = 0, opens: bool = True, program: str | None = None
) -> None:
    """Serves a desk until it is closed. Its address with the secret is the first line that is printed.

    If the desk is open already, the browser is opened there. Raises Refused for a folder that is no desk.
    """
    save_memory()
    with contextlib.ExitStack() as stack:
        try:
            folder = stack.enter_context(own_desk(path))
        except Busy:
            if show_other(path, opens):
                return
            raise
        front = Front(Desk(folder), Secret(), program)
        stack.enter_context(contextlib.closing(front))
        server, address = server_of(front, port)
        # The page that closes the desk, and a system that shuts down, end it as an interrupt does.
        signal.signal(signal.SIGTERM, signal.default_int_handler)
        stack.callback(server.close)
        stack.callback(heed_interrupt)
        with contextlib.suppress(KeyboardInterrupt):
            keep_private(folder, ADDRESS, address)
            keep_private(folder, WAY, rendered("desk/way.html", {"address": address}))
            front.go_on()
            show_address(path, address, opens)
            server.run()
