"""Says in which encodings bytes that are not UTF-8 are likely written, as charset-normalizer finds.

Short texts often have several: each is given with what a cell would be, so that a reader sees which is right.
"""
from __future__ import annotations

import re
import unicodedata

# What systems and spreadsheets write, more usual ones first. Others that decode the same bytes to the same text are not
# named: shift_jis is part of cp932, euc_kr of cp949, gbk of gb18030, latin-1 nearly of cp1252.
USUAL = (
    "cp1252",
    "cp1250",
    "cp1251",
    "cp1253",
    "cp1254",
    "cp1255",
    "cp1256",
    "cp1257",
    "cp1258",
    "cp874",
    "cp932",
    "gb18030",
    "big5",
    "cp949",
)
MOST_NAMED, MOST_BYTES = 3, 65_536
SMALL = 2_560  # bytes, which the library looks at whole, and not at samples
# The share of odd letters up to which a text is taken for one, and by how much its score may be below the best one.
ODD, FAR = 0.3, 0.3
MIXED = 0.2  # the share of words in two alphabets up to which a text is taken for one
# A cell with letters that are not ASCII.
CELL = re.compile(rb'[^,;\t\r\n"]*[\x80-\xff][^,;\t\r\n"]*')
WORD = re.compile(r"[^\W\d_]+")
# Alphabets, no two of which have letters of one word. Others may stand beside Latin letters.
ALPHABETS = {"LATIN", "ARABIC", "CYRILLIC", "GREEK", "HEBREW", "THAI"}


def is_mixed(text: str) -> bool:
    """Returns whether many words with letters that are not ASCII are written in two alphabets, as those of no language are."""
    words = [word for word in WORD.findall(text) if not word.isascii()]
    mixed = 0
    for word in words:
        names = {unicodedata.name(letter, "").partition(" ")[0] for letter in word}
        mixed += len(names & ALPHABETS) > 1
    return mixed > MIXED * len(words)


def likely_encodings(data: bytes) -> dict[str, str]:
    """Returns the likely encodings of bytes that are not UTF-8, the likeliest first, each with what the first cell would be
    that differs among them; none if there is no likely one."""
    from charset_normalizer import from_bytes

    if len(data) > SMALL:
        data = b"".join(
            line for line in data.splitlines(keepends=True) if not line.isascii()
        )[:MOST_BYTES]
    # How much a text is like its language, less the share of its odd letters. Texts too short for both are alike.
    scores: dict[str, float] = {}
    for match in from_bytes(data, cp_isolation=[*USUAL], threshold=ODD):
        name = next(name for name in USUAL if name in match.could_be_from_charset)
        if not is_mixed(str(match)):
            scores[name] = match.coherence - match.chaos
    ranked = sorted(scores, key=scores.__getitem__, reverse=True)[:MOST_NAMED]
    names = [name for name in ranked if scores[name] >= scores[ranked[0]] - FAR]
    differing = list[str]()
    for cell in CELL.findall(data):
        texts = [cell.decode(name, "replace").strip() for name in names]
        if len({*texts}) > len({*differing}):
            differing = texts
    return dict(zip(names, differing))
