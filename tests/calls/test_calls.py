"""The functions of the program call and make what calls.toml says, and no more that a contract does not see."""
from __future__ import annotations

import json
import re
import shutil
import tomllib
from collections import Counter
from collections.abc import Callable
from fnmatch import filter as matching
from fnmatch import fnmatchcase
from pathlib import Path
from typing import Any

import pytest

from tools.calls import Function, Names, Pins, Use, led_to, libraries, loop_of, uses_of

HERE = Path(__file__).resolve().parent
# What no plain function may lead to.
STEPS = ("Prim", "Foreign", "Fork", "core::alloc::AllocError {")
# `body` is code as a check leaves it, of a function with two parameters. What is written by hand beside each call is how
# often a run makes it, and with what.
LOCAL = {"ty": {"Int": 64}, "home": "ValueLocal"}
LOCALS = [LOCAL] * 8 + [{**LOCAL, "home": "MemorySlot"}]


def place(local: int, *steps: dict[str, Any]) -> dict[str, Any]:
    """Returns a place: a local variable, or a part of it."""
    return {"local": local, "steps": [*steps]}


def call(name: str, *given: Any, into: int) -> dict[str, Any]:
    """Returns a call of a function, whose result is stored in a local variable."""
    return {"Call": [{"Fn": [name, {"types": [], "dicts": []}]}, [*given], place(into)]}


def assigned(into: int, value: Any) -> dict[str, Any]:
    """Returns a statement that stores a value in a local variable."""
    return {"Assign": [place(into), value]}


def uses_in(*body: Any) -> list[Use]:
    """Returns the uses of a function with this body."""
    generics: dict[str, Any] = {"impls": [], "bounds": [], "method_of": None}
    code = {"params": 2, "locals": LOCALS, "types": [], "generics": generics}
    return [*Function("f", {**code, "body": [*body]}, Names({})).uses()]


@pytest.fixture(scope="module")
def pins() -> Pins:
    """Returns the pinned uses."""
    return Pins.of((HERE / "calls.toml").read_text("utf-8"))


@pytest.fixture(scope="module")
def uses(top: Path, tool: Callable[[str], Any]) -> list[Use]:
    """Returns all uses of the program's libraries. These must have been proved as they are."""
    kit = tool("rounds").load_kit()
    for name in libraries(top):
        crate = kit.Crate(f"{top}/crates/{name}", str(top), {})
        stamp = kit.text_of(f"{crate.folder}/out/rlib/stamp")
        assert stamp in (None, crate.stamp()), f"{name} has changed: run tools/build"
    return uses_of(top)


@pytest.fixture(scope="module")
def kit(pins: Pins) -> dict[str, set[str]]:
    """Returns what the functions of the kit's libraries with plain functions use, by their names."""
    folder = Path(shutil.which("rt") or "rt").resolve().parents[1] / "rlibs"
    code: dict[str, Any] = {}
    for name in {plain.partition("::")[0] for plain in pins.plain}:
        text = (folder / f"{name}.rlib/toolchain/mir.json").read_text("utf-8")
        code |= dict(json.loads(text))
    names, used = Names(code), dict[str, set[str]]()
    for name, its in code.items():
        function = Function(name, its, names)
        parts = ((*function.made(it), *function.named(it)) for it in its["body"])
        used[name] = {it for part in parts for it in part}
    return used


@pytest.fixture(scope="module")
def repeating(kit: dict[str, set[str]]) -> set[str]:
    """Returns the functions of the kit that repeat something, but for those that free or format a value."""
    users: dict[str, set[str]] = {}
    for name, used in kit.items():
        for it in used:
            users.setdefault(it, set()).add(name)
    found = led_to(
        users, {name for name in kit if loop_of(name) in kit[name] or name in kit[name]}
    )
    return {
        it
        for it in found
        if not it.endswith(("::drop", "++Drop")) and not it.startswith("core::fmt::")
    }


def test_uses(uses: list[Use], pins: Pins, repeating: set[str]) -> None:
    """Each use that is pinned is there, and no other; each plain pattern is for some use."""
    assert pins.refused(uses, repeating) == []
    used = {use.of for use in uses}
    assert [plain for plain in pins.plain if not matching(used, plain)] == []


@pytest.mark.parametrize(
    "wrong",
    tomllib.loads((HERE / "wrong.toml").read_text("utf-8"))["wrong"],
    ids=lambda wrong: wrong["what"],
)
def test_wrong_uses(wrong: dict[str, Any], pins: Pins, repeating: set[str]) -> None:
    """Each wrong use is refused beside those that are pinned."""
    pinned = [
        use_of(f"{line} uses {of}")
        for listed in (pins.listed, pins.within)
        for of, lines in listed.items()
        for line in lines.elements()
    ]
    new = [use_of(line) for line in wrong["uses"]]
    assert pins.refused(pinned, repeating) == []
    assert sorted(pins.refused([*pinned, *new], repeating)) == sorted(
        f"new: {line}" for line in wrong["uses"]
    )


def use_of(line: str) -> Use:
    """Returns the use that a line says."""
    by, of = line.split(" uses ")
    how = "".join(it.group() for it in re.finditer(r"\b(?:if|loop) ", by))
    return Use(of, by.removeprefix(how), how, "")


def test_a_use_in_a_branch_and_a_loop() -> None:
    used = uses_in(
        *("Seq", call("a", into=3)),
        *("Seq", {"If": {"Copy": place(1)}}, call("b", into=4), "Skip"),
        *("Seq", "Block", "Loop", "Seq", call("c", into=5), {"Exit": 1}),
        *("Seq", {"Switch": [{"Copy": place(1)}, [[0], [1]], True]}, "Skip"),
        *("Seq", "Loop", call("d", into=6), "Return", call("e", into=7)),
        call("f", into=7),
    )
    assert [(it.of, it.how) for it in used] == [
        ("a", ""),
        ("b", "if "),
        ("f::{loop}", ""),
        ("c", "loop "),
        ("f::{loop}", "if "),
        ("d", "if loop "),
        ("e", "if "),
        ("f", ""),
    ]


def test_arguments_are_followed_to_their_source() -> None:
    used = uses_in(
        *("Seq", call("size", {"Copy": place(2)}, into=3)),
        *(
            "Seq",
            assigned(4, {"Op2": ["Add", {"Copy": place(3)}, {"Int": {"value": 7}}]}),
        ),
        *(
            "Seq",
            call("room", {"Copy": place(1, {"Field": 2})}, {"Copy": place(4)}, into=5),
        ),
        "Return",
    )
    assert used[-1].arguments == "(arg1.2, Add(size(arg2), 7))"


NINE = {"Opd": {"Int": {"value": 9}}}
SIZE = ("Seq", call("size", into=3))
ROOM = call("room", {"Copy": place(3)}, into=4)


def test_an_argument_that_the_same_turn_of_a_loop_stores_is_known() -> None:
    """The last store is in that turn, whatever the loop stores later; in a loop within it is not."""
    turn = (
        "Seq",
        {"Assign": [place(3), {"Opd": {"Copy": place(2)}}]},
        "Seq",
        ROOM,
        assigned(3, NINE),
    )
    used = uses_in(*SIZE, "Loop", *turn)
    assert [it.arguments for it in used if it.of == "room"] == ["(arg2)"]
    inner = uses_in(*SIZE, "Loop", *turn[:2], "Loop", *turn[2:])
    assert [it.arguments for it in inner if it.of == "room"] == ["(..)"]


@pytest.mark.parametrize(
    "body",
    [
        (*SIZE, "Seq", {"If": {"Copy": place(1)}}, assigned(3, NINE), "Skip", ROOM),
        (*SIZE, "Seq", {"Assign": [place(3, {"Field": 0}), NINE]}, ROOM),
        (*SIZE, "Loop", "Seq", ROOM, assigned(3, NINE)),
        ("Seq", call("size", into=8), call("room", {"Copy": place(8)}, into=4)),
        (ROOM,),
    ],
    ids=["in a branch", "in part", "in a loop", "in memory", "nowhere"],
)
def test_a_changed_argument_is_unknown(body: tuple[Any, ...]) -> None:
    (given,) = (it.arguments for it in uses_in(*body) if it.of == "room")
    assert given == "(..)"


def test_what_is_named_and_not_called() -> None:
    """A function that is handed on, an impl, and steps that no function makes are uses too."""
    handed = {"Fn": ["a", {"types": [], "dicts": [{"Impl": ["b", [], []]}]}]}
    fork = {"Call": [{"Fork": [handed, "Unit"]}, [], place(3)]}
    pointer = {"CallV": [{"Copy": place(1)}, {}, [], place(4)]}
    load = {"Call": [{"Prim": "Load"}, [], place(5)]}
    used = uses_in("Seq", fork, "Seq", pointer, load)
    assert [it.of for it in used] == ["Fork", "a", "b", "CallV", "Prim Load"]


def test_pins() -> None:
    """A use is refused if it is new, gone, more often, in a loop or with another argument, unless it is plain."""
    pins = Pins.of(
        """
        plain = ["core::int::*"]
        [[group]]
        [group.uses]
        "crn_a::once" = ["2 crn_a::f"]
        "std::room" = ["crn_a::g(arg1, 8)"]
        """
    )
    once, room = Use("crn_a::once", "crn_a::f", "", "(1)"), Use(
        "std::room", "crn_a::g", "", "(arg1, 8)"
    )
    right = [once, once, room]
    assert pins.refused([*right, Use("core::int::max", "crn_a::f", "", "")]) == []
    assert pins.refused([*right, once]) == ["new: crn_a::f uses crn_a::once"]
    assert pins.refused([*right, Use("std::sleep", "crn_a::f", "", "()")]) == [
        "new: crn_a::f uses std::sleep"
    ]
    changed = [once, once._replace(how="loop "), room._replace(arguments="(arg1, 9)")]
    assert Counter(it.partition(":")[0] for it in pins.refused(changed)) == {
        "new": 2,
        "gone": 2,
    }


def test_whole_crates() -> None:
    """In a crate that is listed whole, a call is refused, of a function of the repository or of one that repeats
    something; a value, what frees one, and what is plain and short are free. In one that
    is listed for its loops only the latter is refused, and elsewhere neither."""
    pins = Pins.of(
        """
        plain = ["core::*"]
        [[group]]
        whole = ["crn_a"]
        loops = ["crn_d"]
        [group.uses]
        "crn_b::asked" = ["crn_a::f"]
        """
    )
    asked = Use("crn_b::asked", "crn_a::f", "", "")
    free = [
        "crn_b::Value {",
        "crn_a::Value+Destruct::drop",
        "crn_b::ValueEq",
        "core::max",
    ]
    uses = [asked, *(Use(of, "crn_a::f", "", "") for of in free)]
    assert pins.refused(uses, {"core::fold"}) == []
    calls = [Use(of, "crn_a::f", "", "") for of in ("core::fold", "crn_b::pick")]
    assert pins.refused([*uses, *calls], {"core::fold"}) == [
        "new: crn_a::f uses core::fold",
        "new: crn_a::f uses crn_b::pick",
    ]
    elsewhere = [it._replace(by="crn_c::f") for it in (asked, *calls)]
    assert pins.refused([asked, *elsewhere], {"core::fold"}) == []
    model = [it._replace(by="crn_d::f") for it in calls]
    assert pins.refused([asked, *model], {"core::fold"}) == [
        "new: crn_d::f uses core::fold"
    ]


def test_a_function_that_calls_itself(monkeypatch: pytest.MonkeyPatch) -> None:
    """It has a loop of its crate, also if it calls itself through another; one that only calls it has none."""
    calls = {"crn_a::f": "crn_b::g", "crn_b::g": "crn_a::f", "crn_a::h": "crn_a::f"}
    generics: dict[str, Any] = {"impls": [], "bounds": [], "method_of": None}
    code = {"params": 0, "locals": LOCALS, "types": [], "generics": generics}
    found = {
        name: Function(name, {**code, "body": [call(of, into=1)]}, Names({}))
        for name, of in calls.items()
    }
    monkeypatch.setattr("tools.calls.functions", lambda _: found)
    loops = [(it.of, it.by) for it in uses_of() if "{loop}" in it.of]
    assert loops == [("crn_a::{loop}", "crn_a::f"), ("crn_b::{loop}", "crn_b::g")]


@pytest.mark.parametrize(
    "steps", [[], [{"Deref": {"Named": [{"name": "crn_a::Made"}, []]}}]]
)
def test_a_stored_field_makes_a_value(steps: list[Any]) -> None:
    """Of the type in which it stands, by itself or behind an address."""
    stored = {"Assign": [place(3, *steps, {"Field": 0}), NINE]}
    function = Function("f", {**MADE, "body": [stored]}, Names({}))
    assert [it.of for it in function.uses()] == ["crn_a::Made {"]


MADE: dict[str, Any] = {
    "params": 0,
    "locals": [*LOCALS[:3], {**LOCAL, "ty": {"Named": [{"name": "crn_a::Made"}, []]}}],
    "types": [],
    "generics": {"impls": [], "bounds": [], "method_of": None},
}


def test_what_is_plain_takes_no_step(pins: Pins, kit: dict[str, set[str]]) -> None:
    """What the code of the kit leads to from what is plain is no step of the processor or the system, and makes no error
    of it."""
    plain = [it for it in kit if any(fnmatchcase(it, plain) for plain in pins.plain)]
    for name in led_to({it: used & kit.keys() for it, used in kit.items()}, plain):
        assert [it for it in kit[name] if it.startswith(STEPS)] == [], name
