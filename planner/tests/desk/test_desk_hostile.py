"""Tests of hostile names, values and files: each is refused in words, and nothing outside the desk is read or written."""
from __future__ import annotations

import json
import os
import re
from collections.abc import Iterator
from pathlib import Path
from types import ModuleType
from typing import Any, ClassVar

import pytest
from flask import Request
from werkzeug.datastructures import ImmutableMultiDict

from crnplan.desk import server
from crnplan.desk.front import PAGES, Front
from crnplan.desk.kept import FILES, STATE, UNKNOWN
from crnplan.errors import CrnplanError, Refused
from crnplan.drawing.rendering import rendered
from planner.tests.desk.conftest import HOST, Planner, add_made_plan, file_of, opened
from planner.tests.desk.monday import warehouses

DEMAND = b"item,date,quantity\nA,2026-11-02,3\n"


def inside(folder: Path) -> set[str]:
    return {str(path.relative_to(folder)) for path in folder.rglob("*")}


@pytest.mark.parametrize("at", [f"{FILES}/{UNKNOWN}", "plans", "kept", "files"])
def test_symlink_is_not_followed(tmp_path: Path, at: str) -> None:
    """A desk that somebody has sent writes nothing outside its folder."""
    outside = tmp_path / "outside"
    outside.mkdir()
    with opened(tmp_path / "desk"):
        pass
    place = tmp_path / "desk" / at
    if place.is_dir():
        os.rename(place, tmp_path / "old")
    place.symlink_to(outside)
    with pytest.raises(CrnplanError, match="symlink|has not made it"):
        with opened(tmp_path / "desk") as front:
            front.desk.add_file("a.csv", file_of(DEMAND, "a.csv")[0])
    assert inside(outside) == set()


@pytest.mark.parametrize("name", [STATE, "crnplan.toml", "kept/address"])
def test_file_of_the_desk_replaces_a_symlink(tmp_path: Path, name: str) -> None:
    """What a symlink leads to is not written."""
    outside = tmp_path / "outside"
    with opened(tmp_path / "desk"):
        pass
    place = tmp_path / "desk" / name
    outside.write_bytes(place.read_bytes() if place.exists() else b"")
    before = outside.read_bytes()
    place.unlink(missing_ok=True)
    place.symlink_to(outside)
    with opened(tmp_path / "desk") as front:
        front.desk.keep_words({"currency": "EUR"})
        front.desk.add_file("a.csv", file_of(DEMAND, "a.csv")[0])
        server.keep_private(front.desk.folder, server.ADDRESS, "address")
    assert outside.read_bytes() == before and not place.is_symlink()


KEYS = {"files": [], "placed": [], "begun": None, "overrides": {}}
BROKEN: list[object] = [
    [],
    None,
    1,
    {"x": 1},
    {"files": 1},
    KEYS | {"x": 1},
    KEYS | {"files": [{}]},
    KEYS | {"plans": ["../../elsewhere"]},
    KEYS | {"plans": ["/elsewhere"]},
    KEYS | {"files": [{"kind": "..", "name": "../x", "called": "x"}]},
    KEYS | {"moves": {"files/../../x": ""}},
    KEYS | {"moves": {"x": "/x"}},
    KEYS | {"begun": {"kind": "plan", "out": "../x"}},
    KEYS | {"begun": {"kind": "plan", "after": "/x"}},
    KEYS | {"begun": {"kind": "plan", "x": ""}},
]


def test_whole_state_is_taken(tmp_path: Path) -> None:
    with opened(tmp_path / "desk"):
        pass
    (tmp_path / "desk" / STATE).write_text(json.dumps(KEYS | {"next_file": 7}), "utf-8")
    with opened(tmp_path / "desk") as front:
        assert front.desk.state.next_file == 7


@pytest.mark.parametrize("test", ["", "tests/last"])
def test_state_of_an_earlier_version_is_taken(tmp_path: Path, test: str) -> None:
    """Work that was begun goes on, but for a plan as a test on the past found best, which is made no longer."""
    with opened(tmp_path / "desk"):
        pass
    begun = {"kind": "plan", "out": "plans/x", "after": "", "test": test, "changed": 0}
    text = json.dumps(KEYS | {"begun": begun, "ended": "stopped"})
    (tmp_path / "desk" / STATE).write_text(text, "utf-8")
    with opened(tmp_path / "desk") as front:
        assert (front.desk.state.begun is None) == bool(test)


@pytest.mark.parametrize("text", ["", "{", "\0", *map(json.dumps, BROKEN)])
def test_damaged_state_is_refused_in_words(tmp_path: Path, text: str) -> None:
    with opened(tmp_path / "desk"):
        pass
    (tmp_path / "desk" / STATE).write_text(text, "utf-8")
    with pytest.raises(Refused, match="desk.json"):
        with opened(tmp_path / "desk"):
            pass
    assert (tmp_path / "desk" / STATE).read_text("utf-8") == text


BACKS = "https://example.com //example.com /\\example.com \\\\x javascript:1 /plan/stop x".split()


@pytest.mark.parametrize("back", [*BACKS, "\r\nSet-Cookie: a=b", "/settings"])
def test_answer_leads_to_a_page_of_the_desk(planner: Planner, back: str) -> None:
    answer = planner.post("/plan/stop", {"back": back})
    assert answer.status_code == 303
    assert answer.location == ("/settings" if back == "/settings" else "/plan")


VALUES = [
    "../../etc/passwd",
    "..",
    "%2e%2e/",
    "\0",
    "/etc/passwd",
    "-1",
    "0",
    "99999999999999999999999",
    "1e999",
    "nan",
    "٣",
    "<img src=x onerror=alert(1)>",
    "' or 1=1 --",
    "\u202e\ufffe",
    "x" * 3_000,
    "{{ 7*7 }}",
]
SOURCES = re.compile(
    r"""(?:args|form|values)(?:\.get|\.getlist)?[\[(]\s*["']([\w-]+)["']"""
)


@pytest.fixture
def full(front: Front, tmp_path: Path, monkeypatch: pytest.MonkeyPatch) -> Planner:
    """Returns who asks a desk that has files and a plan, and begins no work."""
    export = warehouses(tmp_path)
    for path in (export.demand, export.masters):
        with path.open("rb") as data:
            front.desk.add_file(path.name, data)
    for file, kind in zip([*front.desk.state.files], ("demand", "items")):
        front.desk.set_file(file.name, kind, "")
    add_made_plan(front, 12)
    monkeypatch.setattr(front, "begin", lambda begun: None)
    monkeypatch.setattr(server.os, "kill", lambda *words: None)
    return Planner(front)


def names_in(module: ModuleType) -> list[str]:
    """Returns the names of queries and forms in a module of pages."""
    text = Path(str(module.__file__)).read_text("utf-8")
    shown = [rendered.__module__ and path.read_text("utf-8") for path in templates()]
    fields = re.findall(r'name="([\w-]+)"', "".join(shown))
    return sorted({*SOURCES.findall(text), *(it for it in fields if f'"{it}"' in text)})


def templates() -> list[Path]:
    folder = Path(str(server.__file__)).parents[1] / "templates/desk"
    return sorted(folder.glob("*.html"))


def asked_of(planner: Planner) -> Iterator[tuple[str, str, list[str]]]:
    """Yields each method and path of the desk, hostile names in it, with the names of what may be asked or sent."""
    modules = {module.pages.name: module for module in server.MODULES}
    for rule in planner.client.application.url_map.iter_rules():
        name = rule.endpoint.partition(".")[0]
        if name in modules:
            known = names_in(modules[name])
            for method in {"GET", "POST"} & (rule.methods or set()):
                yield method, rule.rule, known


class Looked(ImmutableMultiDict[str, str]):
    """What is asked or sent. It keeps the names that a page looks for; that of all is "" if it takes whatever there is."""

    names: ClassVar[set[str]] = set()

    def __contains__(self, name: object) -> bool:
        self.names.add(str(name))
        return super().__contains__(name)

    def __getitem__(self, name: str) -> str:
        self.names.add(name)
        return super().__getitem__(name)

    def getlist(self, name: str, *words: Any) -> list[Any]:
        self.names.add(name)
        return super().getlist(name, *words)

    def items(self, *words: Any) -> Any:
        self.names.add("")
        return super().items(*words)

    def __iter__(self) -> Iterator[str]:
        self.names.add("")
        return super().__iter__()


def test_values_are_refused_in_words(
    full: Planner, monkeypatch: pytest.MonkeyPatch
) -> None:
    """No value of a query, a form or a path is an internal error, whatever it names. A name that a page doesn't look for is
    asked or sent once."""
    monkeypatch.setattr(Request, "parameter_storage_class", Looked)
    faults, looked = [], 0

    def ask(method: str, path: str, **fields: str) -> None:
        Looked.names.clear()
        answer = (
            full.get(path, **fields) if method == "GET" else full.post(path, fields)
        )
        if answer.status_code >= 500 or b"root:" in answer.data:
            faults.append((method, path, fields, answer.status_code))

    for method, rule, names in asked_of(full):
        for part in ("x", "%00", "..%2f", "-1") if "<" in rule else ("x",):
            ask(method, re.sub(r"<[^>]*>", part, rule))
        path = re.sub(r"<[^>]*>", "x", rule)
        for name in names:
            ask(method, path, **{name: VALUES[0]})
            if Looked.names & {name, ""}:
                looked += 1
                for value in VALUES[1:]:
                    ask(method, path, **{name: value})
    assert faults == [] and looked > 15
    assert full.get(f"/{PAGES[0]}").status_code == 200


def sent_by(text: str) -> list[tuple[str, str]]:
    """Returns the method and the path of each form of a template, and of each button that sends its form elsewhere. A value that
    is put in is any word."""
    forms = re.findall(r'<form method="(\w+)" action="([^"]*)"', text)
    assert len(forms) == text.count("<form")
    elsewhere = [("post", path) for path in re.findall('formaction="([^"]*)"', text)]
    return [
        (method.upper(), re.sub("{{.*?}}", "x", path).partition("#")[0])
        for method, path in forms + elsewhere
    ]


def test_forms_are_sent_where_the_desk_takes_them(planner: Planner) -> None:
    """Each form and button of a page has an address that takes it, and each address that takes forms has one of these."""
    rules = planner.client.application.url_map
    bound = rules.bind(HOST)
    sent = [it for path in templates() for it in sent_by(path.read_text("utf-8"))]
    assert [it for it in sent if not bound.test(it[1], it[0])] == []
    named = set()
    for method, path in sent:
        rule, words = bound.match(path, method, return_rule=True)
        if method == "POST":
            named.add(re.sub("<any[^>]*>", str(words.get("way")), rule.rule))
    takes = set()
    for rule in rules.iter_rules():
        ways = re.findall(r"\w+", "".join(re.findall(r"any\((.*?)\)", rule.rule)))
        if "POST" in (rule.methods or ()):
            takes |= {re.sub("<any[^>]*>", way, rule.rule) for way in ways or [""]}
    assert named == takes
