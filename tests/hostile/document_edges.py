"""Texts at the edge of what is a document: with byte order marks and in other encodings, with numbers at the ends of 64
bits and of doubles, and with as many levels as a document may have, or one more.

What is no document has fault 1. Each of these that is one is a scenario, or has another fault.
"""
from __future__ import annotations

from collections.abc import Iterator

from crnplan.formats import MOST_LEVELS

from tests.hostile.second_reader import MARK
from tests.stored import stored, swapped

Named = Iterator[tuple[str, bytes]]
GOOD = stored("tests/program/five_periods.toml")
LEVELS = [MOST_LEVELS - 1, MOST_LEVELS, MOST_LEVELS + 1, 2 * MOST_LEVELS]
INTEGERS = {
    "2^63 - 1": 2**63 - 1,
    "2^63": 2**63,
    "-2^63": -(2**63),
    "-2^63 - 1": -(2**63) - 1,
    "2^64 - 1": 2**64 - 1,
    "2^64": 2**64,
    "2^64 + 1": 2**64 + 1,
    "1 - 2^64": 1 - 2**64,
    "2^128 + 1": 2**128 + 1,
    "10^400": 10**400,
}
DOUBLES = {
    it: it
    for it in (
        "1e308",
        "-1e308",
        "1e309",
        "-1e309",
        "1E+309",
        "1_0e308",
        "0.1e310",
        "1000.0e306",
        "179769313486231570e291",
        "1.7976931348623157e308",
        "1.7976931348623158e308",
        "1.7976931348623159e308",
        "-1.7976931348623159e308",
        "1e-400",
        "-1e-400",
        "5e-324",
        "0e309",
        "0.0e999999",
        "1e99999999999999999999",
        "1e-99999999999999999999",
        "inf",
        "+inf",
        "-inf",
        "nan",
        "+nan",
        "-nan",
        "infinity",
        "Inf",
        "NaN",
        "1e",
        "1.e308",
    )
}
DOUBLES |= {
    "300 digits and a point": "9" * 300 + ".0",
    "400 digits and a point": "9" * 400 + ".0",
    "400 zeros behind the point": "0." + "0" * 400 + "1e401",
    "half a step above the greatest": f"{2**1024 - 2**970}.0",
    "nearly so": f"{2**1024 - 2**970 - 1}.0",
}
# Texts with quotes, backslashes, brackets and number signs that mean nothing there.
TEXTS = [
    b'"\\"["',
    b'"\\\\"',
    b"'\\'",
    b"'\"['",
    b'"\'["',
    b'"""["[\\"""""',
    b"'''['[''''",
    b'"""]\\\\"""',
    b'"#["',
    b"'#]'",
]
# Where a value stands in a scenario, and within how many lists and tables.
PLACES = {
    "the version": (b"version = 1", b"version = %s", 0),
    "a stock": (b"initial = 10", b"initial = %s", 0),
    "a list": (b"values = [3]", b"values = [%s]", 2),
    "a name": (b'name = "A"', b"name = %s", 2),
    "another key": (b"ring = 2\n", b"ring = 2\ncolour = %s\n", 0),
}


def placed(value: bytes) -> Named:
    """Yields a scenario with this value at each place, and its name."""
    yield from (
        (name, swapped(GOOD, old, new % value))
        for name, (old, new, _) in PLACES.items()
    )


def mark_texts() -> Named:
    """Yields texts with the byte order mark, whole, in part and twice, at the beginning and elsewhere."""
    line_end = GOOD.index(b"\n") + 1
    texts = {
        "alone": MARK,
        "twice, alone": 2 * MARK,
        "before a scenario": MARK + GOOD,
        "twice": 2 * MARK + GOOD,
        "before a comment": MARK + b"# \n" + GOOD,
        "before a header": MARK + b"[a]\n",
        "before no document": MARK + b"[",
        "before a fault": MARK + swapped(GOOD, b"initial = 10", b"initial = -1"),
        "before lines with carriage returns": MARK + GOOD.replace(b"\n", b"\r\n"),
        "after a space": b" " + MARK + GOOD,
        "after an empty line": b"\n" + MARK + GOOD,
        "after a comment": b"#\n" + MARK + GOOD,
        "after the first line": GOOD[:line_end] + MARK + GOOD[line_end:],
        "at the end": GOOD + MARK,
        "in a comment": b"# " + MARK + b"\n" + GOOD,
        "in the last comment": GOOD + b"#" + MARK,
        "in a key": swapped(GOOD, b"version", b"ver" + MARK + b"sion"),
        "before a value": swapped(GOOD, b"version = ", b"version = " + MARK),
        "after a value": swapped(GOOD, b"version = 1", b"version = 1" + MARK),
        "in a name": swapped(GOOD, b'"A"', b'"' + MARK + b'A"'),
        "in a name, escaped": swapped(GOOD, b'"A"', b'"\\uFEFFA"'),
        "in a word": GOOD.replace(b'"0', b'"' + MARK + b"0"),
        "in a quoted key": GOOD + b'"' + MARK + b'" = 1\n',
        "before a quoted key": GOOD + MARK + b'"a" = 1\n',
        "its first byte": MARK[:1] + GOOD,
        "its first two bytes": MARK[:2] + GOOD,
        "its last two bytes": MARK[1:] + GOOD,
        "its letter turned": b"\xef\xbf\xbe" + GOOD,
        "of UTF-16, low byte first": b"\xff\xfe" + GOOD,
        "of UTF-16": b"\xfe\xff" + GOOD,
    }
    yield from ((f"the mark {name}", text) for name, text in texts.items())


def encoded_texts() -> Named:
    """Yields a scenario in other encodings, and letters of some in a comment and in a name."""
    for name in (
        "utf-16",
        "utf-16-le",
        "utf-16-be",
        "utf-32",
        "utf-32-le",
        "utf-32-be",
    ):
        yield name, GOOD.decode().encode(name)
    yield "utf-16-be with its mark", b"\xfe\xff" + GOOD.decode().encode("utf-16-be")
    letters = {
        "of two bytes": b"\xc3\xa4",
        "of Latin-1": b"\xe4",
        "of two bytes for one": b"\xc1\xa1",
        "half of a pair": b"\xed\xa0\x80",
        "the greatest": b"\xf4\x8f\xbf\xbf",
        "too great": b"\xf4\x90\x80\x80",
        "cut off": b"\xf0\x9f\x98",
        "an end alone": b"\x80",
        "delete": b"\x7f",
        "the byte 0": b"\0",
    }
    for name, letter in letters.items():
        yield f"a comment with a letter, {name}", b"# " + letter + b"\n" + GOOD
        yield f"a name with a letter, {name}", swapped(
            GOOD, b'"A"', b'"' + letter + b'"'
        )


def spellings_of(number: int) -> Iterator[tuple[str, str]]:
    """Yields an integer in all bases, with a sign, underscores and zeros before it."""
    spellings = {
        "in tens": f"{number}",
        "with underscores": f"{number:_}",
        "in sixteens": hex(number),
        "in eights": oct(number),
        "in twos": bin(number),
    }
    if number > 0:
        spellings |= {
            "with a sign": f"+{number}",
            "in sixteens, with zeros": f"0x{number:0400X}",
            "in sixteens, with underscores": f"0x{number:_x}",
        }
    yield from spellings.items()


def number_texts() -> Named:
    """Yields integers and doubles about the ends of their ranges, at several places."""
    numbers = {
        f"{name} {way}": spelt
        for name, it in INTEGERS.items()
        for way, spelt in spellings_of(it)
    }
    for name, spelt in (numbers | DOUBLES).items():
        yield from (
            (f"{name} as {place}", text) for place, text in placed(spelt.encode())
        )


def dotted(count: int, part: bytes = b"a", point: bytes = b".") -> bytes:
    """Returns a key of so many parts."""
    return point.join([part] * count)


def inner_shapes(count: int, half: int) -> Named:
    """Yields documents of so many lists and inline tables within each other; half of them of one kind."""
    more = count - half
    yield "lists", b"a = " + b"[" * count + b"]" * count
    yield "lists with a number", b"a = " + b"[" * count + b"1" + b"]" * count
    yield "lists line by line", b"a = " + b"[ # [\n" * count + b"]\n" * count
    yield "inline tables", b"a = " + b"{a=" * count + b"1" + b"}" * count
    yield "inline tables, the last one empty", b"a = " + b"{a=" * (
        count - 1
    ) + b"{}" + b"}" * (count - 1)
    yield "lists and tables by turns", b"a = " + b"[{a=" * half + (
        b"1" if half == more else b"[]"
    ) + b"}]" * half
    yield "a list of tables", b"a = " + b"[" * half + b"{a=" * more + b"1" + b"}" * more + b"]" * half
    yield "a table of lists", b"a = " + b"{a=" * half + b"[" * more + b"]" * more + b"}" * half


def key_shapes(count: int) -> Named:
    """Yields documents with a key or a header of so many parts."""
    yield "a dotted key", dotted(count) + b" = 1"
    yield "a dotted key with spaces", dotted(count, b"a", b" . ") + b" = 1"
    yield "a dotted key of quoted parts", dotted(count, b'"."') + b" = 1"
    yield "a dotted key in an inline table", b"a = {" + dotted(count) + b" = 1}"
    yield "a header", b"[" + dotted(count) + b"]"
    yield "a header of a list", b"[[" + dotted(count) + b"]]"
    yield "a header of quoted parts", b"[ " + dotted(count, b"'.'") + b" ]"
    yield "headers below each other", b"".join(
        b"[" + dotted(it) + b"]\n" for it in range(1, count + 1)
    )
    yield "headers of lists below each other", b"".join(
        b"[[" + dotted(it) + b"]]\n" for it in range(1, count + 1)
    )


def mixed_shapes(count: int, half: int) -> Named:
    """Yields documents in which keys, headers, lists and tables have so many levels together, or each."""
    more = count - half
    lists, tables = b"[" * more + b"]" * more, b"{a=" * more + b"1" + b"}" * more
    all_lists, all_tables = (
        b"[" * count + b"]" * count,
        b"{a=" * count + b"1" + b"}" * count,
    )
    yield "a key within a key", dotted(half) + b" = {" + dotted(more) + b" = 1}"
    yield "a key below a header", b"[" + dotted(half) + b"]\n" + dotted(more) + b" = 1"
    yield "a key below a header of a list", b"[[" + dotted(half) + b"]]\n" + dotted(
        more
    ) + b" = 1"
    yield "a key, and lists", dotted(half) + b" = " + lists
    yield "a key, and tables", dotted(half) + b" = " + tables
    yield "a header, and lists", b"[" + dotted(half) + b"]\na = " + lists
    yield "a header, and tables", b"[" + dotted(half) + b"]\na = " + tables
    yield "tables of dotted keys", b"a = " + b"{a.a=" * half + b"1" + b"}" * half
    yield "lists of tables of dotted keys", b"a = " + b"[{a.a=" * half + b"1" + b"}]" * half
    yield "a key of all, and all lists", dotted(count) + b" = " + all_lists
    yield "a header of all, and a key of all", b"[" + dotted(count) + b"]\n" + dotted(
        count
    ) + b" = " + all_tables


def flat_shapes() -> Named:
    """Yields documents with brackets and points that are no levels."""
    yield "lists beside each other", b"a = [" + b"[]," * 200 + b"]"
    yield "tables beside each other", b"a = [" + b"{a.a=1}," * 200 + b"]"
    yield "keys beside each other", b"".join(
        b"a.a.a%d = 1.5\n" % it for it in range(200)
    )
    yield "headers beside each other", b"".join(
        b"[a.a.a%d]\n" % it for it in range(200)
    )
    yield "brackets in a comment", b"# " + b"[{" * 200
    yield "points in a comment", b"# " + b"." * 200
    quotes = {
        "a text": b'"',
        "a plain text": b"'",
        "a long text": b'"""',
        "a long plain text": b"'''",
    }
    for name, quote in quotes.items():
        yield f"brackets in {name}", b"a = " + quote + b"[{#" * 200 + quote
        yield f"points in {name}", b"a = " + quote + b"." * 200 + quote


def quoted_shapes(count: int) -> Named:
    """Yields documents with so many levels between texts, or at a key, of brackets, quotes and backslashes."""
    for text in TEXTS:
        inner = b"[" * (count - 1) + b"]" * (count - 1)
        yield f"lists between two texts {text.decode()}", b"a = [" + text + b", " + inner + b", " + text + b"]"
        if text[:3] not in (b'"""', b"'''"):
            yield f"lists at the key {text.decode()}", b"a = {" + text + b" = " + inner + b"}"


def level_texts() -> Named:
    """Yields levels of all shapes behind a scenario, and lists at each place."""
    for count in LEVELS:
        shapes = [
            *inner_shapes(count, count // 2),
            *key_shapes(count),
            *mixed_shapes(count, count // 2),
            *quoted_shapes(count),
        ]
        yield from (
            (f"{name}, {count} levels", GOOD + shape + b"\n") for name, shape in shapes
        )
        for place, (old, new, within) in PLACES.items():
            lists = b"[" * (count - within) + b"]" * (count - within)
            yield f"lists as {place}, {count} levels", swapped(GOOD, old, new % lists)
    yield from (
        (f"{name}, no levels", GOOD + shape + b"\n") for name, shape in flat_shapes()
    )
