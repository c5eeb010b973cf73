"""Tests of who may ask the desk, and of what the answers to others say: nothing."""
from __future__ import annotations

from dataclasses import dataclass, field, replace

import pytest
from werkzeug.test import Client, TestResponse

from crnplan.desk.front import PAGES, Front
from crnplan.desk.server import application
from crnplan.desk.safety import COOKIE, MOST_FORM, TOKEN, Secret
from planner.tests.desk.conftest import HOST, ORIGIN, Planner

# What a page may do, written from what the desk needs: its own style, script and pictures, and forms to itself.
ALLOWED = {
    "default-src": {"'none'"},
    "style-src": {"'self'"},
    "script-src": {"'self'"},
    "img-src": {"'self'", "data:"},
    "connect-src": {"'self'"},
    "form-action": {"'self'"},
    "frame-ancestors": {"'none'"},
    "base-uri": {"'none'"},
}


@dataclass(frozen=True)
class Asked:
    """A request: what is asked for, and the words of its head; a form has fields."""

    method: str = "GET"
    path: str = "/plan"
    words: dict[str, str] = field(default_factory=dict)
    fields: dict[str, str] | None = None

    def having(self, **words: str | None) -> Asked:
        """Returns this request with words of its head in place of others, or without them."""
        named = {name.replace("_", "-"): word for name, word in words.items()}
        both = {**self.words, **named}
        return replace(
            self, words={name: word for name, word in both.items() if word is not None}
        )

    def answer(self, client: Client) -> TestResponse:
        """Returns the answer of a client that keeps no cookies."""
        return client.open(
            self.path, method=self.method, headers=self.words, data=self.fields
        )


@pytest.fixture
def client(planner: Planner) -> Client:
    """Returns a client of the desk of the planner that keeps no cookies."""
    return planner.client.application.test_client(use_cookies=False)


@pytest.fixture
def asked(planner: Planner) -> Asked:
    """Returns the request of a page, as the planner's browser sends it."""
    (cookie,) = planner.client.cookie_jar or ()
    return Asked(words={"Host": HOST, "Cookie": f"{cookie.name}={cookie.value}"})


@pytest.fixture
def sent(planner: Planner, asked: Asked) -> Asked:
    """Returns the request of a form, as the planner's browser sends it."""
    form = replace(
        asked, method="POST", path="/plan/stop", fields={TOKEN: planner.token}
    )
    return form.having(Origin=ORIGIN)


def is_refused(answer: TestResponse, front: Front) -> bool:
    """Returns whether a request is refused, and nothing of the desk said."""
    own = str(front.desk.path), front.secret.text, front.secret.derived(TOKEN)
    is_silent = not any(word in answer.text for word in own)
    return answer.status_code == 403 and is_silent and "<" not in answer.text


OWN = f"{COOKIE}-{HOST}"
OTHERS: dict[str, dict[str, str | None]] = {
    "no cookie": {"Cookie": None},
    "an empty cookie": {"Cookie": f"{OWN}="},
    "another cookie": {"Cookie": f"{OWN}={Secret().derived('session')}"},
    "a cookie of other bytes": {"Cookie": f"{OWN}=\xff\xfe"},
    "another host": {"Host": "example.com"},
    "a host that ends with ours": {"Host": f"example.{HOST}"},
    "a host that begins with ours": {"Host": f"{HOST}.example.com"},
    "another port": {"Host": f"{HOST}:1"},
    "a host for proxies": {"Host": "example.com", "X-Forwarded-Host": HOST},
    "another site": {"Sec-Fetch-Site": "cross-site"},
    "another port of this machine": {"Sec-Fetch-Site": "same-site"},
    "an unknown site": {"Sec-Fetch-Site": "?"},
}
OTHER_FORMS: dict[str, dict[str, str | None]] = {
    **OTHERS,
    "no origin": {"Origin": None},
    "no site as origin": {"Origin": "null"},
    "an empty origin": {"Origin": ""},
    "the origin of another port": {"Origin": f"{ORIGIN}:1"},
    "another scheme": {"Origin": f"https://{HOST}"},
    "an origin that begins with ours": {"Origin": f"{ORIGIN}.example.com"},
    "the origin of another name of ours": {"Origin": "http://127.0.0.1"},
    "another content": {"Content-Type": "text/plain"},
    "an object as content": {"Content-Type": "application/json"},
}


@pytest.mark.parametrize("name", OTHERS)
def test_page_is_shown_to_its_planner_alone(
    front: Front, client: Client, asked: Asked, name: str
) -> None:
    assert asked.answer(client).status_code == 200
    for path in ("/plan", "/", "/progress", "/style.css", "/icon.svg", "/no-page"):
        other = replace(asked, path=path).having(**OTHERS[name])
        assert is_refused(other.answer(client), front), path


@pytest.mark.parametrize("name", OTHER_FORMS)
def test_form_is_taken_of_its_planner_alone(
    front: Front, client: Client, sent: Asked, name: str
) -> None:
    assert sent.answer(client).status_code == 303
    assert is_refused(sent.having(**OTHER_FORMS[name]).answer(client), front)


@pytest.mark.parametrize("token", [None, "", "0", 64 * "0", "\0", "é"])
def test_form_needs_its_token(
    front: Front, client: Client, sent: Asked, token: str | None
) -> None:
    fields = {} if token is None else {TOKEN: token}
    assert is_refused(replace(sent, fields=fields).answer(client), front)
    in_query = replace(sent, path=f"/plan/stop?{TOKEN}={sent.fields}", fields=fields)
    assert is_refused(in_query.answer(client), front)


@pytest.mark.parametrize(
    "method", ["TRACE", "OPTIONS", "PUT", "DELETE", "PATCH", "CONNECT", "X"]
)
def test_other_methods_are_refused(
    front: Front, client: Client, sent: Asked, method: str
) -> None:
    assert is_refused(replace(sent, method=method).answer(client), front)


@pytest.mark.parametrize("given", ["x", "%00", "%ff", "é", "..%2f", "x" * 10_000])
def test_address_needs_the_secret(
    front: Front, client: Client, asked: Asked, given: str
) -> None:
    entering = replace(asked, path=f"/enter/{given}").having(Cookie=None)
    answer = entering.answer(client)
    assert is_refused(answer, front) and "Set-Cookie" not in answer.headers


def test_address_is_no_form(front: Front, client: Client, sent: Asked) -> None:
    path = f"/enter/{front.secret.text}"
    posted = replace(sent, path=path).having(Cookie=None)
    assert is_refused(posted.answer(client), front)


def test_cookie_is_for_this_desk_alone(
    front: Front, client: Client, asked: Asked
) -> None:
    """No script reads the cookie, no other site has it sent, and it says nothing of the secret."""
    entering = replace(asked, path=f"/enter/{front.secret.text}").having(Cookie=None)
    answer = entering.answer(client)
    name, *traits = answer.headers["Set-Cookie"].split("; ")
    assert {*traits} == {"HttpOnly", "SameSite=Strict", "Path=/"}
    assert name.startswith(COOKIE) and front.secret.text not in name
    assert answer.status_code == 200 and 'url=/"' in answer.text
    other = Secret()
    assert other.derived("session") not in name and other.text != front.secret.text
    assert len({front.secret.derived(use) for use in ("session", TOKEN, "")}) == 3


def test_desks_of_a_machine_have_cookies_of_their_own(front: Front) -> None:
    """Browsers send the cookies of a machine to all its ports."""
    hosts = "localhost:1", "localhost:2"
    client = application(front, {*hosts}).test_client()
    path = f"/enter/{front.secret.text}"
    answers = [client.get(path, headers={"Host": host}) for host in hosts]
    cookies = {it.headers["Set-Cookie"].partition("=")[0] for it in answers}
    assert len(cookies) == 2


def test_each_page_says_what_it_may_do(planner: Planner) -> None:
    """Each answer has the policy: pages, files of the desk, refusals, and what is not there."""
    pages = [f"/{page}" for page in PAGES]
    for path in (*pages, "/style.css", "/script.js", "/icon.svg", "/no-page"):
        answer = planner.get(path)
        assert answer.status_code == (404 if path == "/no-page" else 200)
        parts = answer.headers["Content-Security-Policy"].split("; ")
        policy = {name: {*words} for name, *words in map(str.split, parts)}
        assert policy == ALLOWED, path
        assert answer.headers["X-Content-Type-Options"] == "nosniff"
        assert answer.headers["Referrer-Policy"] == "same-origin"
        assert answer.headers["Cross-Origin-Opener-Policy"] == "same-origin"
        assert answer.headers["Cross-Origin-Resource-Policy"] == "same-origin"
        assert answer.headers["Cache-Control"] == "no-store"
        assert "Access-Control-Allow-Origin" not in answer.headers


def test_forms_are_bounded(planner: Planner, client: Client, sent: Asked) -> None:
    """A field that is too large is refused, and thousands of fields are nothing special."""
    large = {TOKEN: planner.token, "back": "x" * (MOST_FORM + 1)}
    assert replace(sent, fields=large).answer(client).status_code == 413
    assert planner.post("/plan/stop", large).status_code == 413
    assert "Content-Security-Policy" in planner.post("/plan/stop", large).headers
    many = {f"field {number}": "x" for number in range(5_000)}
    many[TOKEN] = planner.token
    assert replace(sent, fields=many).answer(client).status_code == 303
