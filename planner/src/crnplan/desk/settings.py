"""The page Settings: how the catalogue is planned, as a form over crnplan.toml."""
from __future__ import annotations

from collections.abc import Mapping
from typing import Any

from flask import Blueprint, redirect, request
from werkzeug.datastructures import MultiDict
from werkzeug.wrappers import Response as Redirect

from ..errors import Refused
from ..plan.how import Settings
from ..read.items import Reading
from ..read.configuration import made_from
from ..vocabulary import FLAG, PAIRS, TEXTS, Word, plain, words_of
from .files import read_anew, read_last, said_of
from .front import Front, front, page
from .kept import Desk

pages = Blueprint("settings", __name__)
# The words of each part of the form.
PARTS = {
    "money": ("currency", "setup", "holding_rate"),
    "service": ("fill", "service", "alike", "together", "at_least", "correct"),
    "time": (
        "every",
        "start",
        "end",
        "lead",
        "lead_from",
        "review",
        "season",
        "follow",
    ),
    "orders": ("order_min", "s_min", "max_coverage", "supplier_min"),
    "rows": ("where", "net", "negate", "empty", "twice", "far"),
}
KNOWN = words_of(Reading, Settings)
WORDS = {name: KNOWN[name] for names in PARTS.values() for name in names}
# Of what the names of values by name are, and what is said of where values are from.
NAMES = {"service": "category", "together": "category", "supplier_min": "supplier"}
ROLES = {
    **{name: name for name in ("setup", "fill", "lead", "review")},
    "holding_rate": "holding",
    "service": "fill",
}
MOST_NAMES = 100


def in_fields(word: Word, value: Any) -> Any:
    """Returns what crnplan.toml has of a word as its fields show it: by name, as several texts, or as it is."""
    if word.kind.shape == PAIRS and not isinstance(value, Mapping):
        is_of_all = isinstance(value, str) and "=" not in value
        return {"": value} if is_of_all else plain(word.meant(value))
    return word.meant(value) if word.kind.shape in (FLAG, TEXTS) else value


def typed(form: MultiDict[str, str]) -> dict[str, Any]:
    """Returns what stands in the fields of a form that are not empty."""
    values = dict[str, Any]()
    for name, word in WORDS.items():
        texts = [text.strip() for text in form.getlist(name)]
        values[name] = "".join(texts)
        if word.kind.shape == PAIRS:
            pairs = zip(form.getlist(f"{name} of"), texts)
            values[name] = {key.strip(): text for key, text in pairs if text}
        if word.kind.shape == TEXTS:
            values[name] = [*filter(None, map(str.strip, "".join(texts).splitlines()))]
        if word.kind.shape == FLAG:
            values[name] = bool(values[name])
    return {name: value for name, value in values.items() if value}


def faults_of(desk: Desk, values: Mapping[str, Any]) -> dict[str, str]:
    """Keeps what was typed, or returns what is wrong with it by the name of the field, and under no name with all of it."""
    keys = {word.key for word in WORDS.values()}
    tree = {key: value for key, value in desk.tree.items() if key not in keys}
    faults = dict[str, str]()
    for name, value in values.items():
        tree[WORDS[name].key] = value
        try:
            WORDS[name].meant(value)
        except Refused as why:
            faults[name] = str(why)
    try:
        if not faults:
            made_from(Reading, tree)
            made_from(Settings, tree)
            desk.keep_words(tree)
    except Refused as why:
        faults[""] = str(why)
    return faults


def form_page(own: Front, values: Mapping[str, Any], faults: Mapping[str, str]) -> str:
    """Returns the page with values in its fields, and what is wrong with them."""
    read = read_last(own)
    names = dict[str, list[str]]()
    for name, column in NAMES.items():
        known = [one for one, in read.get(column, ())]
        rest = [""] * (name == "together") + known[:MOST_NAMES]
        names[name] = [*dict.fromkeys([*values.get(name, {}), *rest])]
    return page(
        "settings.html",
        parts=PARTS,
        words=WORDS,
        values=values,
        faults=faults,
        said=said_of(own.desk),
        names=names,
        roles=ROLES,
        sources=read.get("sources", {}),
        lateness=read.get("lateness"),
    )


@pages.get("/settings")
def settings() -> str:
    own = front()
    tree = own.desk.tree
    values = {
        name: in_fields(word, tree[word.key])
        for name, word in WORDS.items()
        if word.key in tree
    }
    return form_page(own, values, {})


@pages.post("/settings")
def save() -> tuple[str, int] | Redirect:
    own = front()
    values = typed(request.form)
    faults = faults_of(own.desk, values)
    if faults:
        return form_page(own, values, faults), 400
    read_anew(own)
    return redirect("/settings", 303)
