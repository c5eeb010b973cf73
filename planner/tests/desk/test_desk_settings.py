"""Tests of the page Settings: what is typed is judged and kept, and the page says how many items each field concerns."""
from __future__ import annotations

import re

import pytest

from crnplan.desk.language import LANGUAGES, words_of
from crnplan.desk.settings import WORDS
from planner.tests.desk.conftest import Planner, file_of

# What is typed in fields, and what crnplan.toml has for it by the key.
TYPED = {
    "setup": " 45 ",
    "holding_rate": "20%",
    "fill": "97%",
    "service of": ["A", "B"],
    "service": ["98%", ""],
    "lead": "14 days",
    "order_min": "3",
    "every": "week",
    "season": "none",
    "start": "2026-01-01",
    "supplier_min of": [" Bosch ", ""],
    "supplier_min": ["500", ""],
    "where": "Location=Main\r\n\r\nLocation=East\r\n",
    "net": "yes",
    "currency": "",
}
KEPT = {
    "setup": "45",
    "holding_rate": "20%",
    "fill": "97%",
    "service": {"A": "98%"},
    "lead": "14 days",
    "order_min": "3",
    "every": "week",
    "season": "none",
    "from": "2026-01-01",
    "supplier_min": {"Bosch": "500"},
    "where": ["Location=Main", "Location=East"],
    "net": True,
}


def test_what_is_typed_is_kept(planner: Planner) -> None:
    """Fields are the keys of crnplan.toml, empty ones are left out, and what others keep there stays."""
    own = {"seed": "x", "demand": {"quantity": "Menge"}}
    planner.desk.keep_words({**own, "review": "4"})
    assert planner.post("/settings", TYPED).status_code == 303
    assert planner.desk.tree == {**KEPT, **own}
    page = planner.get("/settings").text
    assert 'name="setup" value="45"' in page and "Location=Main\nLocation=East" in page
    assert planner.post("/settings", {}).status_code == 303
    assert planner.desk.tree == own


def test_items_are_met_together(planner: Planner) -> None:
    """A share of all together stands alone in a file of others, and by class on the page."""
    planner.desk.keep_words({"together": "95%", "at_least": "85%"})
    page = planner.get("/settings").text
    assert re.search(r'name="together of" value="">.*?value="95%"', page, re.DOTALL)
    form = {"together of": ["", "A"], "together": ["95%", "98%"], "at_least": "85%"}
    assert planner.post("/settings", form).status_code == 303
    assert planner.desk.tree == {"together": {"": "95%", "A": "98%"}, "at_least": "85%"}


@pytest.mark.parametrize(
    "typed,said",
    [
        ({"setup": "dear"}, "&#39;dear&#39; is no cost"),
        ({"holding_rate": "20"}, "may be 20% or 20 as a share"),
        ({"lead": "14 dyas"}, "is no time"),
        ({"order_min": "many"}, "is not a whole number"),
        ({"order_min": "0"}, "is not from 1 to 1,000,000"),
        ({"every": "year"}, "is not one of day, week, month"),
        ({"start": "2026-13-01"}, "“first day of the record”"),
        ({"service of": "A", "service": "all"}, "&#39;all&#39; is no share"),
        ({"where": "Main"}, "is not COLUMN=VALUE"),
        ({"at_least": "85%"}, "“least share of each item”"),
    ],
)
def test_a_refused_setting_keeps_what_was_there(
    typed: dict[str, str], said: str, planner: Planner
) -> None:
    """What can't be meant is said, nothing is kept, and all that was typed stands in the form again."""
    before = {"fill": "97%"}
    planner.desk.keep_words(before)
    answer = planner.post("/settings", {"currency": "EUR", **typed})
    assert answer.status_code == 400 and said in answer.text, answer.text
    assert 'name="currency" value="EUR"' in answer.text
    name, *_ = (field for field in typed if " of" not in field)
    if name not in ("every", "where"):
        assert f'value="{typed[name]}"' in answer.text
    assert planner.desk.tree == before


def test_hostile_values_stay_texts(planner: Planner) -> None:
    """What is typed is shown as it is; names of classes and suppliers are keys of a table."""
    typed = '"><script>alert(1)</script>'
    form = {"supplier_min of": typed, "supplier_min": "5", "lead": typed}
    answer = planner.post("/settings", form)
    assert answer.status_code == 400 and "<script>alert" not in answer.text
    assert planner.post("/settings", {**form, "lead": ""}).status_code == 303
    assert planner.desk.tree == {"supplier_min": {typed: "5"}}
    assert "<script>alert" not in planner.get("/settings").text


def read_files(planner: Planner) -> None:
    """Drops demand, masters and receipts of three items: A says its share, B is of a class, and C says nothing."""
    rows = [
        f"{item},2026-{month:02}-05,{month}" for item in "ABC" for month in range(1, 10)
    ]
    masters = "item,class,supplier,price,fill,lead (days)\nA,X,Bosch,5,90%,14\nB,Y,Bosch,5,,14\nC,Z,Zorn,5,,\n"
    days = "".join(f"A,2026-0{month}-01,2026-0{month}-21\n" for month in range(1, 7))
    texts = {
        "demand.csv": "\n".join(["item,date,quantity", *rows]),
        "items.csv": masters,
        "orders.csv": f"item,ordered,received\n{days}",
    }
    files = [file_of(text.encode(), name) for name, text in texts.items()]
    assert planner.post("/files/drop", {"files": files}).status_code == 303
    planner.wait()


def test_fields_say_how_many_items_they_concern(planner: Planner) -> None:
    """Of three items all have costs of this page; one each has its share from the masters, by its class, and of all."""
    read_files(planner)
    assert "Nothing can be planned from the files yet" in planner.get("/settings").text
    form = {"setup": "45", "holding_rate": "20%", "fill": "97%", "lead": "14 days"}
    form |= {"currency": "EUR"}
    service = {"service of": ["Y"], "service": ["98%"]}
    assert planner.post("/settings", {**form, **service}).status_code == 303
    assert planner.wait() == []
    page = planner.get("/settings").text
    concerns = re.findall(r'id="hint-(\w+)">[^<]*\s*<br>concerns (\d+) of (\d+)', page)
    assert concerns == [
        ("setup", "3", "3"),
        ("holding_rate", "3", "3"),
        ("fill", "1", "3"),
        ("service", "1", "3"),
        ("lead", "1", "3"),
    ]
    assert "now from: class 1, this page 1, masters 1" in page
    assert re.findall(r'name="service of" value="(\w)"', page) == ["Y", "X", "Z"]
    assert re.findall(r'name="supplier_min of" value="(\w+)"', page) == [
        "Bosch",
        "Zorn",
    ]
    _, _, lateness = page.partition("Lead times of suppliers")
    cells = re.findall(r'<td(?: class="left data")?>(.*?)</td>', lateness)
    assert cells[:5] == ["Bosch", "1", "6", "14.0", "20.0"], cells


def test_each_field_has_its_words() -> None:
    """Each language has a label and a hint of each field, and of each choice."""
    for language in LANGUAGES:
        words = words_of(language)
        for name, word in WORDS.items():
            assert words["fields"][name] and words["hints"][name]
            if word.kind.shape == "choice":
                assert {*words["choices"][name]} == {*word.kind.choices}
