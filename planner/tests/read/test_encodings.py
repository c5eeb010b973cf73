"""Tests of files that are not in UTF-8: what they are likely in is named with what it reads, and a stated one is taken."""
from __future__ import annotations

from pathlib import Path
from typing import Any

import pytest

from crnplan import read_catalogue
from crnplan.errors import RefusedFaults
from crnplan.read.encodings import MOST_NAMED, is_mixed, likely_encodings
from planner.tests.read.catalogues import (
    MASTER,
    TODAY,
    WEEKS,
    cases_of,
    items_of,
    masters_of,
    read_text,
    weekly,
)

CASES = cases_of("encodings")


@pytest.mark.parametrize("encoding, is_first, is_only, text", CASES["exports"])
def test_a_file_in_another_encoding(
    encoding: str, is_first: bool, is_only: bool, text: str, tmp_path: Path
) -> None:
    """One of the likely encodings gives the text, and its cell is the true one. Texts with a language are decided. The file
    is refused with all of them and what each reads, and is read if its own is stated.
    """
    path, data = tmp_path / "demand.csv", text.encode(encoding)
    path.write_bytes(data)
    likely = likely_encodings(data)
    (right,) = [name for name in likely if data.decode(name, "replace") == text]
    assert likely[right] in text and not likely[right].isascii()
    assert len({*likely.values()}) == len(likely) <= MOST_NAMED
    assert not is_first or next(iter(likely)) == right
    assert not is_only or len(likely) == 1
    item, _, date, quantity = text.splitlines()[0].replace(";", ",").split(",")
    names = {"item": item, "date": date, "quantity": quantity}
    masters = masters_of(MASTER)
    words: dict[str, Any] = {"columns": {"demand": names}, "today": TODAY}
    with pytest.raises(RefusedFaults) as refused:
        read_catalogue(path, masters, **words)
    (fault,) = refused.value.faults
    assert fault.line == 1 and "is not UTF-8; say " in str(fault)
    for name, cell in likely.items():
        assert f"encoding={name}" in str(fault) and repr(cell) in str(fault)
    found = read_catalogue(path, masters, encoding=encoding, **words)
    assert found.controls.units[0] >= 8


@pytest.mark.parametrize("encoding, heading, more", CASES["catalogues"])
def test_a_catalogue_in_another_encoding(
    encoding: str, heading: str, more: str, tmp_path: Path
) -> None:
    """A file that is not UTF-8 is refused with the name of its encoding among others, by which it is read."""
    rows = weekly([2] * WEEKS).replace("\n", f",{more}\n")
    data = f"{heading}\n{rows}".encode(encoding)
    named = f"say .*encoding={encoding.replace('latin-1', 'cp1252')}"
    with pytest.raises(RefusedFaults, match=named):
        read_text(tmp_path, data)
    item = items_of(read_text(tmp_path, data, encoding=encoding))["A"]
    assert item.counts == (2,) * WEEKS


@pytest.mark.parametrize("encoding", ["utf-8", "utf-8-sig", "utf-16"])
def test_unicode_needs_no_word(tmp_path: Path, encoding: str) -> None:
    """UTF-8, and texts with a byte order mark, are read without a word."""
    path = tmp_path / "demand.csv"
    path.write_bytes(CASES["exports"][0][-1].encode(encoding))
    names = {"item": "品目コード", "date": "日付", "quantity": "数量"}
    columns = {"demand": names}
    found = read_catalogue(path, masters_of(MASTER), columns=columns, today=TODAY)
    assert found.controls.units[0] == 5 + 6 + 2


def test_a_byte_that_no_text_has(tmp_path: Path) -> None:
    """If no encoding is likely, none is named."""
    path = tmp_path / "demand.csv"
    path.write_bytes(b"n\n\xb10,5\xb0\n")
    assert not likely_encodings(path.read_bytes())
    said = "the byte 0xb1 is not utf-8; say another encoding, or export the file as CSV in UTF-8"
    with pytest.raises(RefusedFaults, match=said):
        read_catalogue(path, masters_of(MASTER))


def test_half_a_letter_of_utf_16_far_down(tmp_path: Path) -> None:
    """Half of a pair of UTF-16 beyond what is looked at first is refused. Each row has 30 bytes."""
    text = "item,date,quantity\n" + "A,2026-03-02,1\n" * 40_000 + "\udc00"
    said = "demand.csv:40002:1: the byte 0x00 is not utf-16; say another encoding"
    with pytest.raises(RefusedFaults, match=said):
        read_text(tmp_path, text.encode("utf-16", "surrogatepass"))


def test_words_of_two_alphabets_are_of_no_language() -> None:
    """German read as Arabic has letters of both in a word. True texts have few such words."""
    german, russian = "Würth Großhandel, Bügelsäge, Dübel", "Болт, гайка М8, USBкабель"
    assert is_mixed(german.encode("cp1252").decode("cp1256"))
    assert not is_mixed(german) and not is_mixed("Φίλτρο, Φλάντζα")
    assert not is_mixed(f"{russian}, Подшипник, Шайба, Ключ")
