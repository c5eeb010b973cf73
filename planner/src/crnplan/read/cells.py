"""Says what a cell of a table is, and what is wrong with one."""
from __future__ import annotations

import datetime
import re
import tomllib
import unicodedata
from collections.abc import Iterable, Sequence
from dataclasses import dataclass
from pathlib import Path
from typing import Union

import numpy as np
import numpy.typing as npt

from ..spelling import worded
from ..remarks import Remark, Value
from ..sentences import message


@dataclass(frozen=True)
class Shown:
    """A number of a workbook with what its format shows before and behind it, as `$` and ` kg`. `digits` is the number in
    full, with the point as its decimal sign."""

    before: str
    digits: str
    behind: str

    def __str__(self) -> str:
        return f"{self.before}{self.digits}{self.behind}"


# A cell of a file is a text; one of a sheet or a frame may be a number or a date too.
Cell = Union[str, int, float, datetime.date, Shown, None]
CellFault = tuple[str, Cell, Remark]  # a role, its cell, and what is wrong
Numbers = npt.NDArray[np.int64]
Flags = npt.NDArray[np.bool_]
MOST_NAMED = 8  # lines of a note
# Letters that are no letter with an accent.
LETTERS = str.maketrans({"ł": "l", "ø": "o", "æ": "ae"})
UNPRINTABLE = re.compile(r"[\x00-\x1f\x7f-\x9f\u2028\u2029]+")
HEADINGS = tomllib.loads(Path(__file__).with_name("headings.toml").read_text("utf-8"))
# A row that has the sum of those above.
TOTAL = re.compile(
    rf"\W*(?:grand |sub)?(?:{'|'.join(HEADINGS['total']['words'])})\b", re.IGNORECASE
)


def fault(role: str, cell: Cell, code: str, **facts: Value) -> CellFault:
    return role, cell, Remark(code, facts)


class Unreadable(ValueError):
    """A cell that is no number or no date. Its remark says why."""

    def __init__(self, code: str, cell: object = None, **facts: Value) -> None:
        super().__init__(code)
        self.remark = Remark(
            code, facts if cell is None else {"text": shown(str(cell)), **facts}
        )

    def __str__(self) -> str:
        return worded(message(self.remark))


def shown(text: str) -> str:
    """Returns a text, cut if it is long."""
    return text if len(text) <= 30 else f"{text[:30]}..."


def on_one_line(text: str) -> str:
    """Returns a text, cut if it is long, with escapes for its control characters."""
    return UNPRINTABLE.sub(
        lambda signs: signs[0].encode("unicode_escape").decode(), shown(text)
    )


def without_accents(text: str) -> str:
    letters = unicodedata.normalize("NFKD", text)
    return "".join(letter for letter in letters if not unicodedata.combining(letter))


def plain_name(name: str) -> str:
    """Returns the words of a name in lower case, without signs and accents; s and S stay as they are."""
    words: list[str] = re.findall(r"[^\W_]+|%", re.sub("/ *(?=[0-9])", " per ", name))
    plain = without_accents(" ".join(words).casefold().translate(LETTERS))
    return words[0] + plain[1:] if words[:1] in (["s"], ["S"]) else plain


def some_of(texts: Iterable[str], most: int) -> str:
    """Returns texts with commas between, at most so many, and `..` for the others."""
    some = [*texts]
    if len(some) > most:
        some[most:] = [".."]
    return ", ".join(some)


def named_lines(lines: Sequence[int | str]) -> str:
    """Returns `line 3` or `lines 3, 5, 8`. Only the first lines are named."""
    text = some_of(map(str, lines), MOST_NAMED)
    return f"lines {text}" if len(lines) > 1 else f"line {text}"


def text_of(cell: Cell) -> str:
    """Returns a cell as a text without blanks around it."""
    if isinstance(cell, str):
        return cell.strip()
    return "" if cell is None else str(cell)


def printable(cell: Cell) -> str:
    """Returns the text of a cell on one line, with blanks for its control characters."""
    return UNPRINTABLE.sub(" ", text_of(cell))


def bare_cell(cell: Cell) -> Cell:
    """Returns a cell without blanks around it; the empty text if it has nothing."""
    return cell.strip() if isinstance(cell, str) else "" if cell is None else cell
