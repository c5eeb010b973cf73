"""Reads a page: its texts, tables, pictures and links, its style and script, and whether each element is closed."""
from __future__ import annotations

import base64
import csv
import hashlib
import re
from collections import Counter, defaultdict
from functools import cached_property
from html.parser import HTMLParser
from pathlib import Path

VOID = {"meta", "link", "br", "line", "rect", "path", "col", "input"}
Row = dict[str, str]


def rows_of(path: Path) -> list[Row]:
    """Returns the rows of a CSV table, without the apostrophe before texts that a spreadsheet would run."""
    with path.open(encoding="utf-8", newline="") as file:
        return [
            {name: re.sub("^'(?=[=@+-])", "", cell) for name, cell in row.items()}
            for row in csv.DictReader(file)
        ]


class Page(HTMLParser):
    """A page that is read.

    `tables` has the rows of each table by its label, or that of the region that scrolls it, the heading first; `pictures` the
    title or label of each picture with its description; `policy` the sources of its security policy by directive;
    `links` the address of each link by its text, `addresses` all that the page names; `parts` the texts of elements by
    their identity or tag.
    """

    def __init__(self, page: Path) -> None:
        super().__init__()
        self.source = page.read_text("utf-8")
        self.open: list[str] = []
        self.texts: list[str] = []
        self.links: Row = {}
        self.addresses: list[str] = []
        self.attributes: set[str] = set()
        self.elements: Counter[str] = Counter()
        self.tables: dict[str, list[list[str]]] = {}
        self.columns: list[str] = []
        self.pictures: Row = {}
        self.policy: Row = {}
        self.parts: defaultdict[str, list[str]] = defaultdict(list)
        self._rows: list[list[str]] = []
        self._labels: list[str] = []
        self.feed(self.source)
        self.close()

    def handle_starttag(self, tag: str, attrs: list[tuple[str, str | None]]) -> None:
        its = {name: value or "" for name, value in attrs}
        self.attributes |= its.keys()
        self.elements[tag] += 1
        self.addresses += [
            value
            for name, value in its.items()
            if name in ("src", "href", "xlink:href")
        ]
        self.columns += [its["data-name"]] if "data-name" in its else []
        if its.get("http-equiv") == "Content-Security-Policy":
            self.policy = dict(
                rule.strip().split(" ", 1) for rule in its["content"].split(";")
            )
        if its.get("role") == "img":
            self._labels = (
                its["aria-labelledby"].split() if "aria-labelledby" in its else []
            )
            if "aria-label" in its:
                self.pictures[its["aria-label"]] = its["aria-label"]
        if its.get("role") == "region" or tag == "table" and "aria-label" in its:
            self._rows = self.tables[its["aria-label"]] = []
        if tag == "tr":
            self._rows.append([])
        if tag in ("td", "th"):
            self._rows[-1].append("")
        if tag in ("title", "desc") and its.get("id") in self._labels:
            self.parts[its["id"]] = [""]
        if tag not in VOID:
            self.open.append(f"{tag}#{its['id']}" if "id" in its else tag)

    def handle_startendtag(self, tag: str, attrs: list[tuple[str, str | None]]) -> None:
        """Reads the attributes of an element without content."""
        self.attributes |= {name for name, _ in attrs}

    def handle_endtag(self, tag: str) -> None:
        ended = self.open.pop()
        assert ended.partition("#")[0] == tag
        if tag == "desc" and ended.partition("#")[2] in self._labels:
            title, text = ("".join(self.parts[label]) for label in self._labels)
            self.pictures[title] = text

    def handle_data(self, data: str) -> None:
        tag, _, identity = (self.open or [""])[-1].partition("#")
        self.parts[identity or tag].append(data)
        if tag in ("style", "script"):
            return
        self.texts.append(data)
        if tag == "a":
            self.links[data] = self.addresses[-1]
        if {"td", "th"} & {name.partition("#")[0] for name in self.open}:
            self._rows[-1][-1] += data

    @cached_property
    def words(self) -> str:
        """Returns all texts as one, with single spaces."""
        return " ".join(" ".join(self.texts).split())

    @cached_property
    def items(self) -> dict[str, Row]:
        """Returns the rows of the table of items of a catalogue by item."""
        return {
            row[0]: dict(zip(self.columns, row, strict=True))
            for row in self.tables["All items"][1:]
        }

    def check_alone(self) -> None:
        """Checks that all is closed, and that nothing can run or be asked for but the own style, script and pages."""

        def digest(part: str) -> str:
            """Returns the source of a content security policy that allows an element."""
            text = "".join(self.parts[part])
            return (
                f"'sha256-{base64.b64encode(hashlib.sha256(text.encode()).digest()).decode()}'"
                if text
                else "'none'"
            )

        assert not self.open
        assert not [
            name for name in self.attributes if name == "style" or name.startswith("on")
        ]
        assert self.policy == {
            "default-src": "'none'",
            "style-src": digest("style"),
            "script-src": digest("script"),
            "img-src": "data:",
            "base-uri": "'none'",
            "form-action": "'none'",
        }
        for address in self.addresses:
            assert address == "data:," or address.startswith("items/")
        source = self.source
        for allowed in filter(None, self.policy.values()):
            source = source.replace(allowed, "")  # A digest may have two slashes.
        assert not re.search(r"https?:|//[a-z]|url\(|@import", source)
        assert not {
            "img",
            "iframe",
        } & {*self.elements}
