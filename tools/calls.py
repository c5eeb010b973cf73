#!/usr/bin/env python3
"""Lists what the functions of the program call, and which values they make: tools/calls.py [NAME ..].

A check leaves the code of each function of a library: that which is proved, and of which the program is built. Every name is
resolved there, of methods and macros too, and a `drop` is a call. So it shows a call by whatever path, import or comment the
source hides it. Of the program itself no such code is left. `rattle check --list-calls` prints the same names of other
crates, but not who calls them.

Prints a line for each function that is called, and for each type of which a value is made, and below it a line for each
function that does so. `2` stands before one that does it twice, `if` before one where a branch decides, `loop` before one
that repeats it. Who stores a field makes a value too, and who calls itself has a loop. With names, prints only what contains
one of them, and with which arguments.
"""
from __future__ import annotations

import json
import re
import sys
import tomllib
from collections import Counter, defaultdict
from collections.abc import Container, Iterable, Iterator, Mapping
from fnmatch import fnmatchcase
from pathlib import Path
from typing import Any, NamedTuple

TOP = Path(__file__).resolve().parents[1]
PROGRAM = "crnsim"
# Where the code of a library is.
CODE = "crates/{0}/out/rlib/{0}.rlib/toolchain/mir.json"
# What stands for steps that no function makes: of the processor or the system, and through a pointer.
BARE = ("Prim", "Foreign", "Fork", "CallV")
# Where a statement that stores a value has the place for it.
STORES = {"Assign": 0, "Call": 2, "CallV": 3, "LendStatic": 0}
# How the names of the repository's crates begin.
OURS = "crn_"
# The name of a function, which is none of a type, of an impl or of what frees a value.
FUNCTION = re.compile(r"^(?!.*\+Destruct).*::[a-z_][a-z0-9_]*$")
# A longer account of what an argument is made of says no more.
MOST_LETTERS = 160

Node = Any
# The branches and loops that a statement stands in, from the outermost on.
Within = tuple[tuple[str, str], ...]
# By what is used, the lines on who uses it, with how often.
Listed = Mapping[str, Counter[str]]


class Use(NamedTuple):
    """A call, a function that is named, or a value that is made: which, where, how often a run of that function does it
    (`if`, `loop`), and with which arguments."""

    of: str
    by: str
    how: str
    arguments: str


class Names:
    """The names of methods, which code gives by their numbers."""

    def __init__(self, functions: Mapping[str, dict[str, Node]]) -> None:
        """Reads the declarations of traits, and the impls that functions use."""
        self.impls: dict[str, list[str]] = {}
        self.traits: dict[tuple[str, int], str] = {}
        for name, code in functions.items():
            of = code["generics"]["method_of"] or {}
            if "Trait" in of:
                trait, number = of["Trait"]
                self.traits[trait, number] = name.removesuffix("+decl")
            for impl in code["generics"]["impls"]:
                self.impls[impl["name"]] = impl["methods"]

    def method(self, code: dict[str, Node], which: list[Node]) -> str:
        """Returns the name of a method that code calls: of an impl, or of the trait of one of its bounds. A method of
        another crate's trait keeps its number."""
        (source, at), number = next(iter(which[0].items())), which[1]
        if source == "Impl":
            return self.impls[at[0]][number]
        trait = code["generics"]["bounds"][at]["of"]
        return self.traits.get((trait, number), f"{trait}::{number}")


class Function:
    """The code of a function."""

    def __init__(self, name: str, code: dict[str, Node], names: Names) -> None:
        """Takes the code in."""
        self.name, self.code, self.names = name, code, names
        parameters = range(1, code["params"] + 1)
        # How often each local variable is stored, parameters at the start.
        places = [it for it in map(stored_in, code["body"]) if it]
        self.stored = Counter([*parameters, *(it["local"] for it in places)])
        # What each holds at the statement that is looked at, and within what that was stored.
        self.values: dict[int, tuple[str, Within]] = {
            at: (f"arg{at}", ()) for at in parameters
        }

    def uses(self) -> Iterator[Use]:
        """Yields all that it calls, names or makes."""
        for node, within in statements(self.code["body"]):
            how = "".join(dict.fromkeys(f"{name} " for name, _ in within))
            given = self.arguments(node["Call"], within) if kind(node) == "Call" else ""
            used = [*self.made(node), *self.named(node), *self.changed(node)]
            for at, name in enumerate(used):
                yield Use(name, self.name, how, "" if at else given)
            self.store(node, within, f"{last(used[0], 2)}{given}" if given else "")

    def store(self, node: Node, within: Within, result: str) -> None:
        """Notes what a statement stores; `result` is that of a call."""
        if place := stored_in(node):
            is_whole, name = not place["steps"], kind(node)
            value = self.value(node[name][1], within) if name == "Assign" else result
            self.values[place["local"]] = value if is_whole and value else "..", within

    def named(self, node: Node) -> Iterator[str]:
        """Yields what a part of the code names: functions, methods, the impls that it passes on, loops of its crate, and
        bare steps."""
        if node == "Loop":
            yield loop_of(self.name)
        if isinstance(node, list):
            for it in node:
                yield from self.named(it)
        if not isinstance(node, dict):
            return
        for key, value in node.items():
            if key in ("Fn", "Impl"):
                yield value[0]
            elif key == "Method":
                yield self.names.method(self.code, value)
            elif key in BARE:
                yield f"{key} {value}" if key == "Prim" else key
            yield from self.named(value)

    def made(self, node: Node) -> Iterator[str]:
        """Yields the type of the value that a statement makes, if it has a name, and for an enum the variant's number."""
        if kind(node) != "Assign" or kind(node["Assign"][1]) != "Aggregate":
            return
        place, parts = node["Assign"][0], node["Assign"][1]["Aggregate"]
        of = self.code["locals"][place["local"]]["ty"]
        name = of["Named"][0]["name"] if kind(of) == "Named" else ""
        shapes = [it["shape"] for it in self.code["types"] if it["name"] == name]
        is_enum = any("Variants" in it for it in shapes)
        number = f"#{parts[0]['Int']['value']}" if is_enum else ""
        if "::" in name:
            yield f"{name}{number} {{"

    def changed(self, node: Node) -> Iterator[str]:
        """Yields the type of the value of which a statement stores a field, if it has a name, as if it made one."""
        place = stored_in(node) or {"steps": []}
        steps = [kind(it) for it in place["steps"]]
        if "Field" not in steps:
            return
        before = place["steps"][: steps.index("Field")]
        local = self.code["locals"][place["local"]]["ty"]
        of = before[-1].get("Deref") if before else local
        if kind(of) == "Named":
            yield f"{of['Named'][0]['name']} {{"

    def arguments(self, call: list[Node], within: Within) -> str:
        """Returns what a call is given: its types of this repository and its arguments."""
        types = call[0]["Fn"][1]["types"] if "Fn" in call[0] else []
        names = [it["Named"][0]["name"] for it in types if kind(it) == "Named"]
        ours = ", ".join(last(it) for it in names if it.startswith(OURS))
        given = ", ".join(self.operand(it, within) for it in call[1])
        return f"<{ours}>({given})" if ours else f"({given})"

    def value(self, node: Node, within: Within) -> str:
        """Returns what is stored: a literal, a place, or what is made of some, but for casts."""
        name = kind(node)
        if name == "Opd":
            return self.operand(node[name], within)
        if name == "AddrOf":
            return self.place(node[name], within)
        if name == "Aggregate":
            return f"{{{', '.join(self.operand(it, within) for it in node[name])}}}"
        if name in ("Op1", "Op2"):
            operation, *operands = node[name]
            parts = ", ".join(self.operand(it, within) for it in operands)
            is_cast = kind(operation) == "Cast"
            return parts if is_cast else f"{kind(operation)}({parts})"
        return name

    def operand(self, node: Node, within: Within) -> str:
        """Returns a literal, or what a place holds."""
        if kind(node) == "Int":
            return str(node["Int"]["value"])
        return self.place(node["Copy"], within) if kind(node) == "Copy" else kind(node)

    def place(self, node: Node, within: Within) -> str:
        """Returns what a place holds: a parameter, or what was stored there, and the numbers of its fields; `..` if
        several values may stand there, or if it is long."""
        value, path = self.values.get(node["local"], ("..", ()))
        is_last = within[: len(path)] == path and "loop" not in dict(
            within[len(path) :]
        )
        is_known = is_last or self.stored[node["local"]] < 2
        # What lies in memory may be changed through a pointer.
        is_own = self.code["locals"][node["local"]]["home"] == "ValueLocal"
        if not (is_known and is_own) or len(value) > MOST_LETTERS:
            value = ".."
        return value + "".join(
            f".{it['Field']}" for it in node["steps"] if "Field" in it
        )


def kind(node: Node) -> str:
    """Returns the kind of a statement, an operand or a type."""
    return node if isinstance(node, str) else str(next(iter(node)))


def stored_in(node: Node) -> Node:
    """Returns the place in which a statement stores a value, or None."""
    at = STORES.get(kind(node))
    return None if at is None else node[kind(node)][at]


def last(name: str, count: int = 1) -> str:
    """Returns the last parts of a name."""
    return "::".join(name.split("::")[-count:])


def statements(body: list[Node]) -> Iterator[tuple[Node, Within]]:
    """Yields the statements of a body, which stand in it as a tree from its root on, and within what each is."""
    waiting: list[Within] = [()]
    for at, node in enumerate(body):
        within, name = waiting.pop(), kind(node)
        yield node, within
        if name == "Seq":
            waiting += [within] * 2
        elif name == "Block":
            waiting.append(within)
        elif name == "Loop":
            waiting.append((*within, ("loop", str(at))))
        elif name in ("If", "Switch"):
            count = 2 if name == "If" else len(node[name][1]) + node[name][2]
            waiting += [(*within, ("if", f"{at}.{arm}")) for arm in range(count)]


def libraries(top: Path = TOP) -> list[str]:
    """Returns the repository's libraries that the program stands on, from crates.txt."""
    rows = (line.partition(":") for line in (top / "crates.txt").open(encoding="utf-8"))
    uses = {name: words.split() for name, colon, words in rows if colon}
    found, waiting = set[str](), [PROGRAM]
    while waiting:
        new = {*uses[waiting.pop()]} & {*uses} - found
        found |= new
        waiting += new
    return sorted(found)


def functions(top: Path = TOP) -> dict[str, Function]:
    """Returns the functions of these libraries, by name."""
    found: dict[str, dict[str, Node]] = {}
    for name in libraries(top):
        found |= dict(json.loads((top / CODE.format(name)).read_text("utf-8")))
    names = Names(found)
    return {name: Function(name, code, names) for name, code in found.items()}


def uses_of(top: Path = TOP) -> list[Use]:
    """Returns all that the functions of these libraries call, name or make. One that calls itself, maybe through others,
    has a loop of its crate by that."""
    uses = [use for function in functions(top).values() for use in function.uses()]
    called = defaultdict[str, set[str]](set)
    for use in uses:
        called[use.by].add(use.of)
    led = {name: led_to(called, [name]) for name in called}
    return uses + [
        use._replace(of=loop_of(use.by), arguments="")
        for use in uses
        if use.by in led.get(use.of, ())
    ]


def loop_of(name: str) -> str:
    """Returns what stands for a loop in a function's crate."""
    return f"{name.partition('::')[0]}::{{loop}}"


def led_to(called: Mapping[str, set[str]], names: Iterable[str]) -> set[str]:
    """Returns these functions, and those to which their calls lead."""
    found, waiting = {*names}, [*names]
    while waiting:
        new = called.get(waiting.pop(), set()) - found
        found |= new
        waiting += new
    return found


class Pins(NamedTuple):
    """The pinned uses: patterns of what any function may use, and of what else who uses it, how, and how often. In the
    crates that are listed whole, this holds of each call, of functions of the repository and of those that repeat
    something; in those that are listed for their loops, of the latter alone."""

    plain: list[str]
    listed: dict[str, Counter[str]]
    whole: tuple[str, ...]
    loops: tuple[str, ...]
    within: dict[str, Counter[str]]

    @staticmethod
    def of(text: str) -> Pins:
        """Reads a list such as tests/calls/calls.toml."""
        read = tomllib.loads(text)
        pins = Pins(read["plain"], defaultdict(Counter), (), (), defaultdict(Counter))
        for group in read["group"]:
            whole, loops = (
                tuple(f"{it}::" for it in group.get(name, ()))
                for name in ("whole", "loops")
            )
            listed = pins.within if whole + loops else pins.listed
            pins = pins._replace(whole=pins.whole + whole, loops=pins.loops + loops)
            for of, lines in group["uses"].items():
                for line in lines:
                    first, _, rest = line.partition(" ")
                    count, by = (int(first), rest) if first.isdecimal() else (1, line)
                    listed[of][by] += count
        return pins

    def lists(self, use: Use, repeating: Container[str]) -> Listed | None:
        """Returns the list in which a use must stand, or None if it is free."""
        is_ours = use.of.startswith(OURS)
        is_free = is_ours or any(fnmatchcase(use.of, plain) for plain in self.plain)
        if use.of in self.listed or not is_free:
            return self.listed
        is_call = FUNCTION.search(use.of) if is_ours else use.of in repeating
        crates = self.whole if is_ours else self.whole + self.loops
        return self.within if is_call and use.by.startswith(crates) else None

    def refused(self, uses: Iterable[Use], repeating: Container[str] = ()) -> list[str]:
        """Returns what differs between uses and the pinned ones. Of other crates, `repeating` are functions that repeat
        something."""
        all_listed = {**self.within, **self.listed}
        found = defaultdict[str, Counter[str]](Counter)
        for use in uses:
            if (listed := self.lists(use, repeating)) is not None:
                given = "(" in "".join(listed.get(use.of, ()))
                found[use.of][f"{use.how}{use.by}{use.arguments * given}"] += 1
        new = [f"new: {line} uses {of}" for of, line in pairs(found, all_listed)]
        return new + [
            f"gone: {line} used {of}" for of, line in pairs(all_listed, found)
        ]


def pairs(one: Listed, other: Listed) -> Iterator[tuple[str, str]]:
    """Yields what one list has and another lacks."""
    for of, lines in sorted(one.items()):
        for line, count in sorted((lines - other.get(of, Counter())).items()):
            yield of, f"{count} {line}" if count > 1 else line


def main(words: list[str]) -> None:
    """Prints the list."""
    listed = defaultdict[str, Counter[str]](Counter)
    try:
        uses = uses_of()
    except FileNotFoundError as fault:
        sys.exit(f"tools/calls.py: there is no {fault.filename}: run tools/build")
    for use in uses:
        if not words or any(word in use.of for word in words):
            listed[use.of][f"{use.how}{use.by}{use.arguments if words else ''}"] += 1
    for of, by in sorted(listed.items()):
        lines = (
            f"{count} {by}" if count > 1 else by for by, count in sorted(by.items())
        )
        print(of, *lines, sep="\n    ")


if __name__ == "__main__":
    main(sys.argv[1:])
