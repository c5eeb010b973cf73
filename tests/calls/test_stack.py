"""What a function of the program keeps on the stack of its thread is small, and only the start of threads calls itself."""
from __future__ import annotations

import json
from collections.abc import Mapping
from pathlib import Path
from typing import Any

import pytest

from tools.calls import CODE, Function, Names, led_to, libraries

# The most bytes of a local variable: what writes CSV has a buffer. Of these a thread's stack has room for dozens.
MOST_BYTES = 32_768
# The one function that calls itself: once for each policy.
RECURSIVE = {"crn_run::threads::start_from"}
# The bytes of an address. A reference to a slice has a length too.
WORD = 8


def bytes_of(of: Any, shapes: Mapping[str, Any], given: list[Any]) -> int:
    """Returns about how many bytes a value of a type takes, where `given` are the types that it is made for."""
    if isinstance(of, list):
        return sum(bytes_of(it, shapes, given) for it in of)
    if not isinstance(of, dict):
        return WORD
    ((name, parts),) = of.items()
    if name == "Int":
        return int(parts) // 8
    if name == "Array":
        return int(parts[1].get("Lit", 1)) * bytes_of(parts[0], shapes, given)
    if name == "Param":
        return bytes_of(given[parts], shapes, []) if parts < len(given) else 0
    if name == "Named":
        shape = shapes.get(parts[0]["name"], {})
        its = shape.get("Variants", [shape.get("Fields", [])])
        return max((bytes_of(it, shapes, parts[1]) for it in its), default=0)
    return bytes_of(parts, shapes, given) if name == "Struct" else 2 * WORD


def largest_in(code: dict[str, Any]) -> int:
    """Returns about how many bytes the largest local variable of a function takes."""
    shapes = {it["name"]: it["shape"] for it in code["types"]}
    return max((bytes_of(it["ty"], shapes, []) for it in code["locals"]), default=0)


@pytest.fixture(scope="module")
def code(top: Path) -> dict[str, Any]:
    """Returns the code of the functions of the program's libraries, by name."""
    found: dict[str, Any] = {}
    for name in libraries(top):
        found |= dict(json.loads((top / CODE.format(name)).read_text("utf-8")))
    return found


def test_local_variables_are_small(code: dict[str, Any], check_all: Any) -> None:
    sizes = {name: largest_in(its) for name, its in code.items()}
    check_all((name, size <= MOST_BYTES or size) for name, size in sizes.items())


def test_only_the_start_of_threads_calls_itself(code: dict[str, Any]) -> None:
    names = Names(code)
    called = {
        name: {use.of for use in Function(name, its, names).uses()}
        for name, its in code.items()
    }
    led = {name: led_to(called, called[name] & code.keys()) for name in code}
    assert {name for name in code if name in led[name]} == RECURSIVE


WORDS = {"Array": [{"Int": 64}, {"Lit": 1 << 27}]}
PAIR = {"Fields": [{"Int": 8}, {"Array": [{"Param": 0}, {"Lit": 3}]}]}


@pytest.mark.parametrize(
    ("of", "size"),
    [
        (WORDS, 1 << 30),
        ("Ptr", 8),
        ({"Ref": [{"Static": 0}, "Mut", WORDS]}, 16),
        ({"Named": [{"name": "Pair"}, [{"Int": 32}]]}, 13),
        ({"Named": [{"name": "Either"}, []]}, 1 << 30),
        ({"Param": 1}, 0),
    ],
    ids=lambda it: str(it)[:20],
)
def test_sizes_of_types(of: Any, size: int) -> None:
    """By hand: a byte and three numbers of four, and the larger of two variants."""
    shapes = {"Pair": PAIR, "Either": {"Variants": [[{"Int": 8}], [WORDS]]}}
    assert bytes_of(of, shapes, []) == size
    types = [{"name": name, "shape": shape} for name, shape in shapes.items()]
    assert largest_in({"types": types, "locals": [{"ty": "Unit"}, {"ty": of}]}) >= size
