"""Says who may ask the desk, and what a page may do.

Only who has the secret of this start may ask: by the address once, then by a cookie. Forms have a token beside it. A request
for another host, or from another page, is refused: so is one that a name server has turned to this machine.
"""
from __future__ import annotations

import hashlib
import hmac
import secrets
from collections.abc import Set
from functools import partial
from hmac import compare_digest
from typing import Any

import werkzeug.formparser
from flask import Flask, Request, Response, abort, request
from waitress.channel import HTTPChannel
from waitress.parser import HTTPRequestParser
from werkzeug.datastructures import Headers
from werkzeug.exceptions import RequestEntityTooLarge
from werkzeug.sansio.request import Request as Head

from ..drawing.rendering import rendered

MOST_UPLOAD = 2_000_000_000  # bytes of a request
MOST_FORM = 4_000_000  # bytes of the fields of a form that are no files
# A page may load its style and script from the desk, and pictures in itself. It may be in no frame, and send forms to the
# desk alone.
POLICY = (
    "default-src 'none'; style-src 'self'; script-src 'self'; img-src 'self' data:; connect-src 'self'; "
    "form-action 'self'; frame-ancestors 'none'; base-uri 'none'"
)
# A whole page of a plan has its own style and script, which its own policy allows by their digests. It knows nothing of
# the desk.
WHOLE_PAGE = "sandbox allow-scripts; frame-ancestors 'none'; base-uri 'none'"
HEADERS = {
    "X-Content-Type-Options": "nosniff",
    "Referrer-Policy": "same-origin",
    "Cross-Origin-Opener-Policy": "same-origin",
    "Cross-Origin-Resource-Policy": "same-origin",
    "Cache-Control": "no-store",
}
METHODS = "GET", "HEAD", "POST"
SITES = (
    "same-origin",
    "none",
)  # of whom a request may come: a page of the desk, or the user
COOKIE, TOKEN = "crnplan-desk", "token"
# werkzeug 2.2.2 of Debian raises this for a large field, but does not import it.
setattr(werkzeug.formparser, "RequestEntityTooLarge", RequestEntityTooLarge)


class Secret:
    """The secret of a start of the desk, and what follows from it."""

    def __init__(self) -> None:
        self.text = secrets.token_urlsafe(32)

    def derived(self, use: str) -> str:
        """Returns a text for a use that says nothing of the secret, nor of that for another use."""
        return hmac.new(self.text.encode(), use.encode(), hashlib.sha256).hexdigest()


def is_equal(given: str, own: str) -> bool:
    """Returns whether texts are equal, in a time that does not tell where they differ."""
    return compare_digest(given.encode(), own.encode())


class BoundedRequest(Request):
    """A request of at most so many bytes."""

    max_content_length = MOST_UPLOAD
    max_form_memory_size = MOST_FORM


def refusal() -> Response:
    """Returns the answer to somebody else, with nothing of the desk."""
    text = "This page needs the address that crnplan desk has printed when it was opened.\n"
    return Response(text, 403, HEADERS, "text/plain")


def cookie_name(head: Head) -> str:
    """Returns the name of the desk's cookie, which has its port: all desks of a machine share their cookies."""
    return f"{COOKIE}-{head.host.rpartition(':')[2]}"


class RequestJudge:
    """Says by the heads of requests who asks the desk."""

    def __init__(self, secret: Secret, hosts: Set[str]) -> None:
        self.secret, self.hosts = secret, hosts
        self.session, self.token = secret.derived("session"), secret.derived(TOKEN)

    def knows(self, head: Head) -> bool:
        """Returns whether a request is for this desk."""
        return head.host in self.hosts and head.method in METHODS

    def admits(self, head: Head) -> bool:
        """Returns whether a request is of who has entered, and of no other page."""
        words, is_form = head.headers, head.method == "POST"
        return (
            self.knows(head)
            and words.get("Sec-Fetch-Site", "none") in SITES
            and is_equal(head.cookies.get(cookie_name(head), ""), self.session)
            and (not is_form or words.get("Origin") == f"http://{head.host}")
        )


class JudgedParser(HTTPRequestParser):  # type: ignore[misc]
    """A request whose body is taken only of who has entered: waitress stores all of it before it asks the application."""

    body_rcv: Any

    def __init__(self, judge: RequestJudge, settings: Any) -> None:
        super().__init__(settings)
        self.judge = judge

    def parse_header(self, text: bytes) -> None:
        """Reads the head of a request, and refuses a body of others, which is then not read."""
        super().parse_header(text)
        words = {name.replace("_", "-"): word for name, word in self.headers.items()}
        head = Head(
            self.command, "http", None, "", self.path, b"", Headers(words), None
        )
        if self.body_rcv is not None and not self.judge.admits(head):
            # waitress asks the error of a request for the answer: see `to_response`.
            self.error, self.body_rcv = self, None
            self.content_length, self.expect_continue = 0, False

    @staticmethod
    def to_response() -> tuple[str, list[tuple[str, str]], bytes]:
        """Returns the refusal as waitress sends it before it closes the connection."""
        answer = refusal()
        return answer.status, answer.headers.to_wsgi_list(), answer.get_data()


def channels_of(judge: RequestJudge) -> type[HTTPChannel]:
    """Returns the class of connections that take bodies as a judge says."""
    return type(
        "Channel", (HTTPChannel,), {"parser_class": partial(JudgedParser, judge)}
    )


def guard(app: Flask, judge: RequestJudge) -> None:
    """Has an application answer only who has the secret."""
    app.request_class = BoundedRequest

    @app.before_request
    def check() -> None:
        is_entering = request.endpoint == "enter" and judge.knows(request)
        if not is_entering and not judge.admits(request):
            abort(refusal())
        if request.method == "POST":
            if not is_equal(request.form.get(TOKEN, ""), judge.token):
                abort(refusal())

    @app.get("/enter/<given>")
    def enter(given: str) -> Response:
        if not is_equal(given, judge.secret.text):
            abort(refusal())
        # A redirect would be a request of the page that has led here, which may be no page of the desk.
        answer = Response(rendered("desk/way.html", {"address": "/"}))
        name = cookie_name(request)
        answer.set_cookie(name, judge.session, httponly=True, samesite="Strict")
        return answer

    @app.after_request
    def close(answer: Response) -> Response:
        for name, value in HEADERS.items():
            answer.headers[name] = value
        answer.headers.setdefault("Content-Security-Policy", POLICY)
        return answer
