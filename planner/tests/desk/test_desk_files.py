"""Tests of the page Files: what exports are is found, corrected and kept for the next week, and hostile names stay texts."""
from __future__ import annotations

import gzip
import re
import tomllib
from collections.abc import Sequence
from dataclasses import replace
from pathlib import Path

import pytest
import xlsxwriter

from crnplan import sentences
from crnplan.desk import kept
from crnplan.desk.language import words_of
from planner.tests.desk import exports, monday
from planner.tests.desk.conftest import Planner, file_of

RECORD_WORDS = Path(sentences.__file__).with_name("record_sentences.toml")
# The kinds of the files of each company, by the order of their names.
WIDE = {"articles.xlsx": "items", "commandes.csv": "on_order", "ventes.xlsx": "demand"}
WAREHOUSES = {
    "items.csv": "items",
    "open.csv": "on_order",
    "sales.csv": "demand",
    "stock.csv": "stock",
}
JAPANESE = {"出荷.csv": "demand", "商品.csv": "items", "発注残.csv": "on_order"}
SAP = {"MB51.csv": "demand", "Material.csv": "items"}
SHOP = {"sales.csv": "demand", "items.csv": "items"}


def drop(planner: Planner, data: bytes, name: str) -> None:
    """Drops a file on the page, whatever becomes of it."""
    planner.post("/files/drop", {"files": [file_of(data, name)]})


def dropped(planner: Planner, files: Sequence[Path], way: str = "replace") -> None:
    """Drops files on the page, and waits until they are read."""
    given = [file_of(path.read_bytes(), path.name) for path in files]
    answer = planner.post("/files/drop", {"files": given, "way": way})
    assert answer.status_code == 303, answer.text
    planner.wait()


def kinds(planner: Planner) -> dict[str, str]:
    """Returns the kind of each file by how its owner calls it."""
    return {file.called: file.kind for file in planner.desk.state.files}


def ours(planner: Planner, called: str) -> str:
    """Returns our name of a file."""
    (file,) = (one for one in planner.desk.state.files if one.called == called)
    return file.name


def exported(company: str, folder: Path) -> list[Path]:
    """Makes the files of a company."""
    folder.mkdir()
    if company in monday.EXPORTS:
        monday.EXPORTS[company](folder)
    else:
        exports.SYSTEMS[company](folder, exports.PARTS)
    return sorted(folder.iterdir())


@pytest.mark.parametrize(
    "company,expected",
    [("wide", WIDE), ("warehouses", WAREHOUSES), ("sap", SAP), ("shop", SHOP)],
)
def test_exports_are_known_by_their_columns(
    company: str, expected: dict[str, str], planner: Planner, tmp_path: Path
) -> None:
    """The files of a company are of the kinds that it has written, whichever are dropped at once."""
    dropped(planner, exported(company, tmp_path / "made"))
    assert kinds(planner) == expected


@pytest.mark.parametrize(
    "table,kind",
    [
        (
            "Order,SKU,Order date,Qty,Unit price,Status\n1,A,06/14/2025,1,$9,Shipped",
            "demand",
        ),
        ("SKU,On hand,Committed,Available\nA,16,2,14", "stock"),
        ("SKU,Description\nA,Nut", "unknown"),
        (
            "Order,SKU,Order date,Receipt date,Qty\n1,A,2025-06-02,2025-06-09,5",
            "orders",
        ),
        ("PO,Part no.,Qty ordered,Qty received\n7,A,4,1", "on_order"),
        ("Artikelnummer;Bestellmenge offen;Liefertermin\nA;5;01.12.2026", "on_order"),
        ("Part no.;Std cost\nA;5", "items"),
    ],
)
def test_a_file_is_of_the_kind_of_its_columns(
    table: str, kind: str, planner: Planner
) -> None:
    """Dates of sales may be those of orders. A file with names of items alone is no master, and one of two columns of stock
    makes a stock, as which it is shown."""
    drop(planner, table.encode(), "one.csv")
    assert kinds(planner) == {"one.csv": kind}
    page = planner.get("/files").text
    assert (">stock of today: one.csv<" in page) == (kind == "stock")


def test_a_file_keeps_its_words(planner: Planner) -> None:
    """The name of a file in the desk has the words of its own one that are letters of ASCII, and messages have it."""
    names = "Offene Bestellungen 2.csv", "Zählung <b>%.csv", "出荷.csv"
    for name in names:
        drop(planner, b"a,b\n1,2\n", name)
    files = planner.desk.state.files
    ours = ["0001-offene-bestellungen-2.csv", "0002-zahlung-b.csv", "0003.csv"]
    assert [file.name for file in files] == ours
    assert all((planner.desk.path / file.place).is_file() for file in files)


def test_an_encoding_is_chosen_once(planner: Planner, tmp_path: Path) -> None:
    """Files in cp932 that are too short to show it are asked for; the next ones are dropped and known."""
    files = exported("japanese", tmp_path / "made")
    dropped(planner, files)
    assert kinds(planner)["出荷.csv"] == "unknown"
    for called in JAPANESE:
        name, kind = ours(planner, called), kinds(planner)[called]
        form = {"kind": kind, "encoding": "cp932"}
        assert planner.post(f"/files/{name}", form).status_code == 303
    assert kinds(planner) == JAPANESE
    written = planner.desk.tree["written"]
    assert {kind: one["encoding"] for kind, one in written.items()} == dict.fromkeys(
        JAPANESE.values(), "cp932"
    )
    dropped(planner, files)
    assert kinds(planner) == JAPANESE and len(planner.desk.state.files) == 3


def test_a_wrong_role_is_corrected_and_kept_for_the_next_week(
    planner: Planner,
) -> None:
    """A column that is no quantity of demand is corrected once: the file of the next week is read by the same words."""
    heading = "Part;Day;Quantity;Picked"
    first = f"{heading}\nA;2026-01-05;12;3\nA;2026-01-12;12;4\n"
    drop(planner, first.encode(), "week 1.csv")
    name = ours(planner, "week 1.csv")
    roles = {"role-0": "item", "role-1": "date", "role-2": "", "role-3": "quantity"}
    answer = planner.post(f"/files/{name}", {"kind": "demand", **roles, "unit-3": ""})
    assert answer.status_code == 303
    assert planner.desk.tree["demand"] == {"quantity": "Picked"}

    second = f"{heading}\nA;2026-01-19;12;5\n"
    drop(planner, second.encode(), "week 2.csv")
    assert kinds(planner) == {"week 2.csv": "demand"}
    page = planner.get("/files").text
    assert chosen_in(page, "role-3") == "quantity" and chosen_in(page, "role-2") == ""
    assert "chosen by you" in page


def chosen_in(page: str, field: str) -> str:
    """Returns what is chosen in a list of a page."""
    (options,) = re.findall(rf'<select id="\w+{field}".*?</select>', page, re.DOTALL)
    (chosen,) = re.findall(r'value="([^"]*)" selected', options)
    return str(chosen)


def test_units_and_signs_are_chosen_and_taken_back(planner: Planner) -> None:
    """What is chosen of a column, its dates and its file stands in crnplan.toml until it is left to the file again."""
    table = b"item;lead;price;since\nA;14;1.234;03/04/2026\n"
    drop(planner, table, "masters.csv")
    name = ours(planner, "masters.csv")
    roles = {"kind": "items", "role-1": "lead", "role-2": "price", "role-3": "since"}
    chosen = {"unit-1": "day", "unit-2": "100", "decimal-2": ",", "first": "month"}
    written = {"delimiter": ";", "encoding": "cp1252"}
    planner.post(f"/files/{name}", {**roles, **chosen, **written})
    tree = planner.desk.tree
    assert tree["units"] == {"items.lead": "day", "items.price": "100"}
    own = {**written, "day_first": {"/": False, "-": False}, "decimal": {"price": ","}}
    assert tree["written"] == {"items": own}
    page = planner.get("/files").text
    assert [chosen_in(page, field) for field in chosen] == [*chosen.values()]

    none = dict.fromkeys([*chosen, *written], "")
    planner.post(f"/files/{name}", {**roles, **none})
    assert planner.desk.tree == {}


def test_two_columns_of_a_role_are_refused(planner: Planner) -> None:
    """Nothing is kept of a form by which two columns have one role, or that names what is not there."""
    table = b"item,date,quantity\nA,2026-01-05,1\n"
    drop(planner, table, "demand.csv")
    before, name = planner.desk.tree, ours(planner, "demand.csv")
    for fields in (
        {"kind": "demand", "role-1": "quantity", "role-2": "quantity"},
        {"kind": "demand", "role-1": "no role"},
        {"kind": "demand", "role-2": "quantity", "unit-2": "<b>"},
        {"kind": "../../etc"},
        {"kind": "demand", "sheet": "other"},
        {},
    ):
        assert planner.post(f"/files/{name}", fields).status_code == 400, fields
    assert planner.post("/files/9999.csv", {"kind": "demand"}).status_code == 400
    assert planner.post("/files/drop", {}).status_code == 400
    assert planner.get("/files/rejects.csv").status_code == 400
    assert planner.desk.tree == before and kinds(planner) == {"demand.csv": "demand"}


def test_several_files_of_a_kind_stand_together(planner: Planner) -> None:
    """Files that are dropped at once stand beside each other, and replace those of the week before, unless it is said."""

    def week(day: int) -> tuple[object, str]:
        text = f"item,date,quantity\nA,2026-01-{day:02},1\n"
        return file_of(text.encode(), f"{day}.csv")

    planner.post("/files/drop", {"files": [week(5), week(6)]})
    planner.post("/files/drop", {"files": [week(12), week(13)]})
    assert kinds(planner) == {"12.csv": "demand", "13.csv": "demand"}
    planner.post("/files/drop", {"files": [week(14)], "way": "beside"})
    assert len(kinds(planner)) == 3
    assert (
        planner.post(f"/files/{ours(planner, '12.csv')}/remove", {}).status_code == 303
    )
    assert kinds(planner) == {"13.csv": "demand", "14.csv": "demand"}


def test_a_sheet_is_chosen_once(planner: Planner, tmp_path: Path) -> None:
    """Of a workbook with several sheets one is chosen, and that of the next week is taken by its name."""
    path = tmp_path / "book.xlsx"
    with xlsxwriter.Workbook(str(path)) as book:
        book.add_worksheet("Notes").write(0, 0, "nothing")
        sheet = book.add_worksheet("Stock")
        for line, row in enumerate([["item", "stock"], ["A", 3], ["B", 4]]):
            sheet.write_row(line, 0, row)
    dropped(planner, [path])
    assert kinds(planner) == {"book.xlsx": "unknown"}
    page = planner.get("/files").text
    assert "The workbook has several sheets" in page and ">Notes</option>" in page
    form = {"kind": "unknown", "sheet": "Stock"}
    assert planner.post(f"/files/{ours(planner, 'book.xlsx')}", form).status_code == 303
    assert kinds(planner) == {"book.xlsx": "stock"}
    dropped(planner, [path])
    (file,) = planner.desk.state.files
    assert (file.kind, file.sheet) == ("stock", "Stock")
    broken = path.read_bytes()[:200]
    drop(planner, broken, "broken.xlsx")
    assert kinds(planner)["broken.xlsx"] == "unknown"
    assert planner.get("/files").status_code == 200


HOSTILE = "<script>alert(1)</script>\"'{{ 7 * 7 }}"


def test_hostile_headings_and_names_stay_texts(planner: Planner) -> None:
    """What stands in a file, and its name, is shown as it is, and leads nowhere."""
    heading = f'item,date,quantity,"{HOSTILE.replace(chr(34), chr(34) * 2)}"'
    table = f"{heading}\nA,2026-01-05,1,=1+1\n\u202eB,2026-01-05,1,../../x\n"
    name = "../../../etc/<img src=x onerror=alert(1)>.csv"
    drop(planner, table.encode(), name)
    (file,) = planner.desk.state.files
    assert file.name == "0001-img-src-x-onerror-alert-1.csv"
    assert file.place == f"files/demand/{file.name}"
    for role in ("returned", "promotion"):
        form = {"kind": "demand", "role-3": role}
        assert planner.post(f"/files/{file.name}", form).status_code == 303
    text = planner.get("/files").text
    assert "<script>alert" not in text and "<img" not in text and ">49<" not in text
    assert "{{ 7 * 7 }}" in text
    assert planner.desk.tree["demand"] == {"promotion": HOSTILE}


def test_a_likely_encoding_is_offered(planner: Planner, tmp_path: Path) -> None:
    """The only encoding in which SAP's masters are likely written is chosen in the list, and kept as soon as that is saved."""
    dropped(planner, exported("sap", tmp_path / "made"))
    page = planner.get("/files").text
    _, _, masters = page.partition("Material.csv</h2>")
    assert chosen_in(masters, "encoding") == "cp1252" and "Höchstbestand" in masters
    assert "Likely it is cp1252" in page and "None" not in page


def test_rows_that_cannot_be_read_are_said(planner: Planner) -> None:
    """A quote that is not closed is said beside the rows above it."""
    table = b'item,date,quantity\nA,2026-01-05,1\nB,"2026-01-05"x,2\n'
    drop(planner, table, "demand.csv")
    page = planner.get("/files").text
    assert kinds(planner) == {"demand.csv": "demand"}
    assert '<td class="left data">A</td>' in page and "quote" in page


def read_files(planner: Planner) -> None:
    """Drops demand of which a row is wrong, and masters; both are read."""
    rows = [f"A,2026-{month:02}-05,{month}" for month in range(1, 10)]
    demand = "\n".join(["item,date,quantity", *rows, "A,2026-01-06,many"])
    masters = "item,setup,holding,fill,lead (weeks)\nA,10,1,95%,2\n"
    files = [file_of(demand.encode(), "d.csv"), file_of(masters.encode(), "m.csv")]
    assert planner.post("/files/drop", {"files": files}).status_code == 303
    assert planner.wait() == []


def test_what_was_read_is_shown(planner: Planner) -> None:
    """Nine rows of demand, together 45, are used. The tenth is left out, and stands in the table to download."""
    read_files(planner)
    page = planner.get("/files").text
    _, _, controls = page.partition("Control totals")
    cells = re.findall(r'<td(?: class="left data")?>(.*?)</td>', controls)
    assert cells[:6] == ["0001-d.csv", "read", "10", "45", "-", "2026-01-05"], cells
    assert "0001-d.csv:11, item A: &#39;many&#39; is not a number" in page
    assert "crnplan plan" in page and "--check" in page
    answer = planner.get("/files/rejects.csv")
    assert answer.headers["Content-Disposition"] == "attachment; filename=rejects.csv"
    heading, row = answer.text.splitlines()
    assert heading.startswith("kind,file,line,item")
    assert row.startswith("row,0001-d.csv,11,A,quantity,many,")


def test_a_change_begins_to_read_anew(planner: Planner) -> None:
    """A change while the files are read, or after it, has them read as they are now, and so does the button."""
    read_files(planner)
    name = ours(planner, "m.csv")
    for role in ("", "lead"):
        form = {"kind": "items", "role-4": role}
        assert planner.post(f"/files/{name}", form).status_code == 303
    assert planner.wait() == []
    state = planner.desk.state
    assert state.read == state.changed
    assert planner.post("/files/read", {}).status_code == 303
    assert planner.wait() == []


def test_what_could_not_be_read_stands_at_the_top(planner: Planner) -> None:
    """Masters without costs can't be planned: the page says what to choose, in its language."""
    files = [
        file_of(b"item,date,quantity\nA,2026-01-05,1\n", "d.csv"),
        file_of(b"item,lead (weeks)\nA,2\n", "m.csv"),
    ]
    planner.post("/files/drop", {"files": files})
    for called, kind in (("d.csv", "demand"), ("m.csv", "items")):
        planner.post(f"/files/{ours(planner, called)}", {"kind": kind})
    assert "no column looks like the setup" in planner.wait()[0]
    page = planner.get("/files").text
    assert 'role="alert"' in page and "No column says what an order costs" in page
    german = Planner(planner.front, "de").get("/files").text
    assert "Keine Spalte sagt, was eine Bestellung kostet" in german


def test_sheets_beside_files_are_said_on_the_page(planner: Planner) -> None:
    """Several files of which one is a sheet are no table: the page says it, and stays usable."""
    table = b"item,date,quantity\nA,2026-01-05,1\n"
    planner.post("/files/drop", {"files": [file_of(table, f"{it}.csv") for it in "ab"]})
    with planner.desk.changing() as state:
        state.files[0] = replace(state.files[0], sheet="x")
    page = planner.get("/files")
    assert page.status_code == 200 and "is a sheet of a workbook" in page.text


@pytest.mark.parametrize("language", ["en", "de"])
def test_words_of_the_page_fit_what_can_be_wrong(language: str) -> None:
    """What the page says of a fault names facts that the fault has: those of the words of commands."""
    own = tomllib.loads(RECORD_WORDS.read_text("utf-8"))
    field = re.compile(r"{([^}!:]*)")
    for code, text in words_of(language)["remarks"].items():
        said = own[code] if isinstance(own[code], str) else " ".join(own[code])
        known = {*field.findall(said), "role", "name", "unit", "why"}
        assert {*field.findall(text)} <= known, code


def test_a_heading_that_says_nothing_is_known_the_next_week(planner: Planner) -> None:
    """Columns without usual names are chosen once: a file with the same heading is then of the same kind."""
    table = b"c1;c2;c3\nA;2026-01-05;1\nB;2026-01-05;2\n"
    drop(planner, table, "1.csv")
    assert kinds(planner) == {"1.csv": "unknown"}
    name = ours(planner, "1.csv")
    roles = {"role-0": "item", "role-1": "date", "role-2": "quantity"}
    for own in ({}, roles):
        assert (
            planner.post(f"/files/{name}", {"kind": "demand", **own}).status_code == 303
        )
    assert planner.desk.tree["demand"] == {"item": "c1", "date": "c2", "quantity": "c3"}
    drop(planner, table, "2.csv")
    assert kinds(planner) == {"2.csv": "demand"}


def test_a_kind_is_chosen_once(planner: Planner) -> None:
    """Until the kind of a file is chosen, the page says which earlier files are in use. The file then replaces the one of its
    kind, and the next one with its heading is known."""
    seen = []
    for data, called in (
        (b"item,setup,holding\nA,1,2\n", "old.csv"),
        (b"Artikel-Kennung;Kosten\nA;1\n", "new.csv"),
        (b"Artikel-Kennung;Kosten\nA;2\n", "next.csv"),
    ):
        drop(planner, data, called)
        seen.append(kinds(planner))
        if called == "new.csv":
            page = planner.get("/files").text
            assert "in use: masters of items (<bdi>old.csv</bdi>)." in page
            planner.post(f"/files/{ours(planner, called)}", {"kind": "items"})
            assert kinds(planner) == {"new.csv": "items"}
    assert seen == [
        {"old.csv": "items"},
        {"old.csv": "items", "new.csv": "unknown"},
        {"next.csv": "items"},
    ]


def test_another_system_is_known_beside_stated_columns(planner: Planner) -> None:
    """Columns that were chosen of one system hide nothing of another one: its file is known, and what to choose is said."""
    planner.desk.keep_words({"demand": {"quantity": "Picked"}})
    table = b"item,date,quantity\nA,2026-01-05,1\n"
    drop(planner, table, "other.csv")
    assert kinds(planner) == {"other.csv": "demand"}
    assert "The column Picked, which was chosen" in planner.get("/files").text
    form = {"kind": "demand", "role-2": "quantity"}
    planner.post(f"/files/{ours(planner, 'other.csv')}", form)
    assert planner.desk.tree == {"demand": {"quantity": "quantity"}}


def test_a_column_that_is_found_may_be_left(planner: Planner) -> None:
    """A column with a usual name that is not used is stated as none, and stays so when the form is saved again."""
    table = b"item,date,quantity,returned\nA,2026-01-05,1,0\n"
    drop(planner, table, "demand.csv")
    form = {"kind": "demand", "role-3": ""}
    for _ in range(2):
        planner.post(f"/files/{ours(planner, 'demand.csv')}", form)
        assert planner.desk.tree == {"demand": {"returned": ""}}


def test_packed_file_is_kept_unpacked(
    planner: Planner, monkeypatch: pytest.MonkeyPatch
) -> None:
    """So each look at it reads its first rows alone. What is no such file, or unpacks to too much, is refused and leaves
    nothing."""
    rows = b"item,date,quantity\nA,2026-01-05,3\n"
    sent = {"files": file_of(gzip.compress(rows), "sales.csv.gz")}
    assert planner.post("/files/drop", sent).status_code == 303
    (file,) = planner.desk.state.files
    assert (file.kind, file.name, file.called) == (
        "demand",
        "0001-sales-csv.csv",
        "sales.csv.gz",
    )
    assert (planner.desk.path / file.place).read_bytes() == rows
    monkeypatch.setattr(kept, "MOST_FILE", 1_000)
    for data in (rows, gzip.compress(bytes(1_001)), gzip.compress(rows)[:-9]):
        sent = {"files": file_of(data, "bomb.csv.gz")}
        assert planner.post("/files/drop", sent).status_code == 400
    assert planner.desk.state.files == [file]
    left = [
        path
        for path in planner.desk.path.rglob("*")
        if path.suffix in (".csv", ".part")
    ]
    assert left == [planner.desk.path / file.place]
