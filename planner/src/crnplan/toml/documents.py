"""Reads TOML documents: their trees, fault 1 of a text that is none, and the place of each table, key and entry.

crnsim reads TOML 1.1 and Python's tomllib TOML 1.0. TOML 1.1 has more inline tables (line ends, comments and a comma at
their end), more escapes (backslash e, and backslash x with two digits) and times without seconds. So a document is read
in its older spelling. All else stays at its place there, but for what follows such an escape or time. Leap seconds and
the year 0, which crnsim knows too, have no older spelling. Which documents crnsim takes is proved of the program; this
module is not.
"""
from __future__ import annotations

import math
import re
import sys
import tomllib
from bisect import bisect_right
from collections.abc import Callable, Iterator
from operator import itemgetter
from pathlib import Path as FilePath
from typing import Any, NamedTuple

from ..errors import Fault, Refused
from ..formats import MOST_BYTES, MOST_LEVELS

TEXT = r'"""(?:\\.|[^\\])*?"{3,5}|\'\'\'.*?\'{3,5}|"(?:\\.|[^"\\\n])*"|\'[^\'\n]*\''
TOKEN = re.compile(
    rf"{TEXT}|#[^\n]*|(?<![+0-9-])[0-9]{{2}}:[0-9]{{2}}(?::[0-9]{{2}})?|[^\S\n]+|.",
    re.DOTALL,
)
SHORT_TIME = re.compile("[0-9]{2}:[0-9]{2}")
ESCAPE = re.compile(r"\\(?:x([0-9A-Fa-f]{2})|(e)|.)", re.DOTALL)
# Blanks, line ends and comments, and the character behind them.
NEXT = re.compile(r"(?:\s|#[^\n]*)*(.?)")


def shown(value: Any) -> str:
    """Returns a value as text, cut if it is long."""
    if type(value) is int and value.bit_length() >= 1000:
        return "with some hundreds of digits"
    if type(value) in (str, list, dict):
        text = ascii(value)
    else:
        text = getattr(value, "spelt", " ".join(str(value).lower().split()))
    return text if len(text) <= 40 else f"{text[:40]}..."


def _older_escape(sign: re.Match[str]) -> str:
    """Returns an escape as TOML 1.0 spells it."""
    older = rf"\u00{sign[1]}" if sign[1] else sign[0]
    return r"\u001b" if sign[2] else older


def _is_newer(text: str, match: re.Match[str], last: str) -> bool:
    """Returns whether a token of an inline table is one that TOML 1.0 has not there: a comment, an end of line, or a comma
    at the end. `last` is the token before."""
    token = match[0]
    if token[0] == "#":
        return True
    following = NEXT.match(text, match.end())
    after = following[1] if following else ""
    if token == ",":
        return after == "}" and last != "{"
    return not {last, after} & {"=", "."}


def older_text(text: str) -> str:
    """Returns the text as TOML 1.0 spells it. Raises RecursionError if more is within each other than crnsim takes."""
    older: list[str] = []
    brackets: list[str] = []
    last, dots = "", 0
    for match in TOKEN.finditer(text):
        token = spelt = match[0]
        if token in ('"', "'"):
            # A text that does not end: nothing after it is known, and no reader takes it.
            return "".join(older) + text[match.start() :]
        if brackets and brackets[-1] == "{" and token[0] in "\n#,":
            if _is_newer(text, match, last):
                spelt = " " * len(token)
        elif token in "[{":
            brackets.append(token)
        elif token in "]}" and brackets:
            brackets.pop()
        elif token[0] == '"':
            spelt = ESCAPE.sub(_older_escape, token)
        elif SHORT_TIME.fullmatch(token):
            spelt = f"{token}:00"
        dots += token == "."
        if token in "=,[]{}\n":
            dots = 0
        if max(len(brackets), dots + 1) > MOST_LEVELS:
            raise RecursionError
        if not token.isspace() and not token.startswith("#"):
            last = token
        older.append(spelt)
    return "".join(older)


MARK = b"\xef\xbb\xbf"
BYTE_ORDER_MARKS = (b"\xff\xfe", b"\xfe\xff")
OWN = r'"\u0000"'  # a key that stands for its table
DOCUMENT = "the document"

Tree = dict[str, Any]
# Keys, and numbers of entries, counted from 1: ("policy", 3, "s").
Path = tuple[str | int, ...]
Place = tuple[
    int, int
]  # a line and a column, each counted from 1; 0 if it is not known


class TreeFault(NamedTuple):
    """A fault of a document: the number of its rule (of a scenario, as in docs/FORMATS.md), its path, what is wrong, and
    perhaps what to do; then its place, 0 if not known, and that in words."""

    rule: int
    path: Path
    what: str
    advice: str = ""
    line: int = 0
    column: int = 0
    where: str = DOCUMENT

    @property
    def reason(self) -> str:
        return f"{self.what}; {self.advice}" if self.advice else self.what

    def fault(self, file: str) -> Fault:
        where = "" if self.rule == 1 and self.line else f"{self.where}: "
        return Fault(
            f"fault {self.rule}: {where}{self.reason}", file, self.line, self.column
        )


class SpeltFloat(float):
    """A number with a point that keeps its spelling. Raises OverflowError if it is beyond the greatest."""

    spelt: str

    def __new__(cls, spelt: str) -> SpeltFloat:
        value = super().__new__(cls, spelt)
        if math.isinf(value) and "inf" not in spelt:
            raise OverflowError(spelt)
        value.spelt = spelt
        return value


def _no_document(what: str, line: int = 0, column: int = 0) -> TreeFault:
    """Returns fault 1 at a place, or of the whole document."""
    return TreeFault(1, (), what, "", line, column)


def place_in(starts: list[int], offset: int) -> Place:
    """Returns the place of an offset in a text whose lines start so."""
    line = bisect_right(starts, offset)
    return line, offset - starts[line - 1] + 1


def line_starts(text: str) -> list[int]:
    """Returns the offset of each line."""
    return [0, *(match.end() for match in re.finditer("\n", text))]


def _unread(text: str, fault: tomllib.TOMLDecodeError) -> TreeFault:
    """Returns fault 1 of a text that is no TOML document, as Python's reader reports it of the older spelling."""
    message, _, at = str(fault).rpartition(" (at ")
    place = re.match(r"line ([0-9]+), column ([0-9]+)", at)
    offset = len(text)
    if place:
        starts = line_starts(older_text(text))
        offset = starts[int(place[1]) - 1] + int(place[2]) - 1
    return _no_document(message, *place_in(line_starts(text), offset))


def read_bytes(path: str | FilePath) -> bytes:
    """Returns the bytes of a file, or for `-` of standard input. Raises Refused if crnsim would not read them."""
    try:
        if str(path) == "-":
            return check_size(sys.stdin.buffer.read(MOST_BYTES + 1), "")
        with open(path, "rb") as file:
            return check_size(file.read(MOST_BYTES + 1), str(path))
    except OSError as fault:
        raise Refused(f"{path}: {fault.strerror}") from fault


def check_size(data: bytes, name: str) -> bytes:
    """Returns the bytes. Raises Refused if they are more than crnsim reads."""
    if len(data) > MOST_BYTES:
        raise Refused(
            f"{name or 'the scenario'}: crnsim reads no scenario of more than {MOST_BYTES:,} bytes (leave "
            "out comments)"
        )
    return data


def text_of_document(data: bytes) -> str:
    """Returns the text of a document's bytes, with line feeds alone."""
    return data.removeprefix(MARK).decode("utf-8").replace("\r\n", "\n")


def _not_utf8(data: bytes, offset: int) -> TreeFault:
    """Returns fault 1 of bytes that are no UTF-8 from an offset on."""
    if data[:2] in BYTE_ORDER_MARKS:
        return _no_document("this is UTF-16, not UTF-8", 1)
    before = data[:offset].decode("utf-8")
    place = place_in(line_starts(before), len(before))
    return _no_document(f"the byte {data[offset]:#04x} is no UTF-8", *place)


def read_document(data: bytes) -> tuple[Tree, list[TreeFault]]:
    """Returns the tree of a document, and its faults 1."""
    text = ""
    try:
        text = text_of_document(data)
        tree = tomllib.loads(older_text(text), parse_float=SpeltFloat)
    except UnicodeDecodeError as fault:
        return {}, [_not_utf8(data, fault.start)]
    except tomllib.TOMLDecodeError as fault:
        return {}, [_unread(text, fault)]
    except OverflowError as fault:
        return {}, [_no_document(f"the number {str(fault)[:40]} is too great")]
    except RecursionError:
        what = f"lists and tables within each other, or parts of a key, are more than {MOST_LEVELS}"
        return {}, [_no_document(what)]
    except ValueError:
        return {}, [_no_document("an integer is beyond 64 bits")]
    faults = []
    for path, value in parts_of(tree):
        if type(value) is int and not -(2**63) <= value < 2**63:
            what = f"the integer {shown(value)} is beyond 64 bits"
            faults.append(TreeFault(1, path, what))
    return tree, faults


def parts_of(value: Any, path: Path = ()) -> Iterator[tuple[Path, Any]]:
    """Yields each path of a tree with what stands there."""
    yield path, value
    if isinstance(value, dict):
        for name, part in value.items():
            yield from parts_of(part, (*path, name))
    elif isinstance(value, list):
        for number, part in enumerate(value, 1):
            yield from parts_of(part, (*path, number))


def marked_text(text: str) -> str:
    """Returns a document that tomllib has read with marks in place of its values: the offset of each entry of a list,
    and of the key of any other value. Lists end with their own mark, and tables have it at the key OWN, as texts.
    """
    marked: list[str] = []
    opened: list[str] = []
    state, start = "line", 0
    for match in TOKEN.finditer(f"{text}\n"):
        token = match[0]
        if token[0] == "#" or token.isspace() and (opened or token != "\n"):
            continue
        if state == "line" or state == "value" and marked[-1] != "=":
            start = match.start()
        if token == "\n":
            marked.append(f'\n{OWN} = "{start}"\n' if state == "header" else token)
            state = "line"
        elif token in ("]", "}") and opened:
            closing, state = opened.pop(), "end"
            marked.append(closing + "," * bool(opened))
        elif token == "," and opened:
            state = "value" if opened[-1].endswith("]") else "line"
        elif state == "value" and token in ("[", "{"):
            opened.append(f'"{start}"]' if token == "[" else f'{OWN} = "{start}"}}')
            marked.append(token)
            state = "value" if token == "[" else "line"
        elif state == "value":
            marked.append(f"{start}" + "," * bool(opened))
            state = "end"
        elif state != "end":
            marked.append(token)
            if state == "line":
                state = "header" if token == "[" and not opened else "key"
            elif state == "key" and token == "=":
                state = "value"
    return "".join(marked)


def places_of(text: str, tree: Any) -> dict[Path, Place]:
    """Returns the place of each path of a document, where it first stands. If these would not be the paths of the tree,
    it returns nothing: none is better than a wrong one."""
    try:
        marked = tomllib.loads(older_text(marked_text(text)))
    except tomllib.TOMLDecodeError:
        return {}
    marks: list[tuple[int, Path]] = []
    for path, mark in parts_of(marked):
        if isinstance(mark, int):
            marks.append((mark, path))
        elif isinstance(mark, str):
            marks.append((int(mark), path[:-1]))
    starts = line_starts(text)
    places: dict[Path, Place] = {}
    for offset, path in sorted(marks, key=itemgetter(0)):
        place = place_in(starts, offset)
        for length in range(1, len(path) + 1):
            places.setdefault(path[:length], place)
    of_tree = {path for path, _ in parts_of(tree) if path}
    return places if places.keys() == of_tree else {}


def read_judged(
    data: bytes, judge: Callable[[Tree], list[TreeFault]]
) -> tuple[Tree, list[TreeFault]]:
    """Returns the tree of a document, and with their places its faults 1, or else those that a judge finds in it."""
    tree, faults = read_document(data)
    faults = faults or judge(tree)
    if not faults or not tree:
        return tree, faults
    places = places_of(text_of_document(data), tree)
    placed = []
    for fault in faults:
        paths = (fault.path[:length] for length in range(len(fault.path), 0, -1))
        line, column = next((places[path] for path in paths if path in places), (0, 0))
        placed.append(fault._replace(line=line, column=column))
    return tree, placed
