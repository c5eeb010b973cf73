"""Tests of the words of the desk: both languages have the same, each is used, and pages have no others."""
from __future__ import annotations

import re
import string
from collections.abc import Iterator, Mapping
from html.parser import HTMLParser
from pathlib import Path
from typing import Any

import pytest

from crnplan.desk import language
from crnplan.desk.front import PAGES as FIRST_PAGES
from crnplan.desk.front import Front
from crnplan.desk.language import ENGLISH, LANGUAGES, words_of
from planner.tests.desk.conftest import Planner, add_export, add_made_plan
from planner.tests.desk.monday import warehouses

DESK = Path(language.__file__).parent
# Places of values that are English words, which another language may leave out.
ENGLISH_VALUES = {"every", "period"}
PAGES = DESK.parent / "templates/desk"


def flat(tree: Mapping[str, Any], before: str = "") -> Iterator[tuple[str, str]]:
    """Yields each name of a table with its words."""
    for name, value in tree.items():
        if isinstance(value, Mapping):
            yield from flat(value, f"{before}{name}.")
        else:
            yield f"{before}{name}", value


def places(text: str) -> set[str]:
    """Returns what stands in {} in a text."""
    return {name for _, name, *_ in string.Formatter().parse(text) if name}


@pytest.mark.parametrize("other", [it for it in LANGUAGES if it != ENGLISH])
def test_languages_have_the_same_words(other: str) -> None:
    """Each name with the same places, none of them empty in one language alone, and no sentence left in English."""
    english, own = dict(flat(words_of(ENGLISH))), dict(flat(words_of(other)))
    assert {*english} == {*own}
    for name, text in english.items():
        assert places(own[name]) <= places(text), name
        assert places(text) - places(own[name]) <= ENGLISH_VALUES, name
    assert [name for name in own if bool(own[name]) != bool(english[name])] == []
    sentences = {
        name for name, text in english.items() if " " in re.sub(r"\{\w*\}", "", text)
    }
    same = {name for name in sentences if english[name] == own[name]}
    assert same <= {"all.title"}


def texts_of_templates() -> Iterator[tuple[str, str]]:
    """Yields what stands in the templates between tags, without their expressions, and in attributes that are shown."""
    for path in sorted(PAGES.glob("*.html")):
        text = path.read_text("utf-8")
        bare = re.sub(r"\{#.*?#\}|\{%.*?%\}|\{\{.*?\}\}", "\0", text, flags=re.DOTALL)
        for part in re.findall(r">([^<>]*)<", bare):
            yield path.name, part
        shown = r'(?:aria-label|title|alt|placeholder)="([^"]*)"'
        for part in re.findall(shown, bare):
            yield path.name, part


def test_templates_have_no_words() -> None:
    """What a page says stands in the table of a language; only the program's name stands anywhere."""
    found = [
        (name, word)
        for name, part in texts_of_templates()
        for word in re.findall(r"[^\W\d_]{2,}", part)
    ]
    assert [it for it in found if it[1] != "crnplan"] == []


class Texts(HTMLParser):
    """The texts of a page: all of them, and those of what is pressed, chosen or filled in."""

    OWN = "button", "label", "legend", "nav", "option", "h1", "h2"
    SILENT = "script", "style", "pre", "title"

    def __init__(self, page: str) -> None:
        super().__init__()
        self.inside, self.all, self.own = list[str](), list[str](), list[str]()
        self.feed(page)

    def handle_starttag(self, tag: str, attrs: object) -> None:
        self.inside.append(tag)

    def handle_endtag(self, tag: str) -> None:
        while tag in self.inside and self.inside.pop() != tag:
            pass

    def handle_data(self, data: str) -> None:
        if not {*self.inside} & {*self.SILENT}:
            self.all.append(data)
            if {*self.inside} & {*self.OWN}:
                self.own.append(data)


def english_in(page: str, other: str) -> list[str]:
    """Returns the words of English that a page in another language has: phrases anywhere, words where they are our own."""
    texts, own = Texts(page), dict(flat(words_of(other)))
    anywhere, ours = " ".join(" ".join(texts.all).split()), {*map(str.strip, texts.own)}
    german = {*own.values()}
    found = []
    for text in {*dict(flat(words_of(ENGLISH))).values()} - german:
        parts = [part.strip() for part in re.split(r"\{\w*\}", text)]
        phrases = [part for part in parts if part.count(" ") > 1]
        if text in ours or any(part in anywhere for part in phrases):
            found.append(text)
    return found


@pytest.mark.parametrize("other", [it for it in LANGUAGES if it != ENGLISH])
def test_pages_have_no_english(front: Front, tmp_path: Path, other: str) -> None:
    """Each page in another language says all of our own words in it, empty and full. What a plan's own page says, which is
    in English, is no word of the desk."""
    planner = Planner(front, other)
    pages = [f"/{page}" for page in FIRST_PAGES]
    assert [(it, english_in(planner.get(it).text, other)) for it in pages] == [
        (it, []) for it in pages
    ]
    add_export(front, warehouses(tmp_path))
    report = (add_made_plan(front, 12) / "report.html").read_text("utf-8")
    report += words_of(ENGLISH)["result"]["past"]  # stands beside that page's words
    front.read()
    planner.wait()
    pages += ["/item?item=P00001", "/result?words=bearing", "/no-page"]
    for it in pages:
        answer = planner.get(it)
        assert f'<html lang="{other}">' in answer.text
        found = english_in(answer.text, other)
        assert [text for text in found if text not in report] == [], it


def test_english_is_found() -> None:
    """The words of an English page are found in it, and those of another language are not."""
    words = dict(flat(words_of(ENGLISH)))
    assert english_in(f"<h1>{words['pages.files']}</h1>", "de") == [
        words["pages.files"]
    ]
    assert english_in(f"<p>{words['all.closed']}</p>", "de") == [words["all.closed"]]
    german = dict(flat(words_of("de")))
    assert english_in(f"<h1>{german['pages.files']}</h1>", "de") == []
