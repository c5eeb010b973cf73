#!/usr/bin/env python3
"""Which definitions public contracts state: tools/definitions.py reached [CRATE::FUNCTION ..], `kinds` for all, or
`pages`.

`reached` prints what the contracts of the named functions reach of `specs/`, through definitions, types of signatures
and ghost parts of types; with no name, what any public function or type reaches. `kinds` sorts all: "stated" is reached
so, "kept" only from the `ghost invariant` of such a type, of which callers learn nothing, "private" only from private
functions, types, closures and the clauses of loops, "proof" only from proofs and tactics, "unused" from nowhere.

`pages` writes anew what stands in docs/DEFINITIONS.md and docs/PROOFS.md between `<!-- MARK -->` and `<!-- end -->`:

    reached by CONTRACT   the definitions that it reaches and none above has reached, in the order in which it reaches
                          them, but for those that the page explains: their names are in bold and in code. A statement
                          or a type has its meaning, which is the comment above it. A function is only named; if the
                          contracts of CHAIN reach all functions of a file, the first list with one of them says so
    ensures CONTRACT      its `ensures` clauses, as they stand in the source

It goes by names and scopes, not by types: what a binder hides, or stands behind a dot, is no definition. In doubt it
counts as stated: all fields of a type, private ones too, and each type that a signature names. Public is what the root
of a crate gives out, and in the program what `main` calls, also through functions without clauses.
"""
import collections
import itertools
import pathlib
import re
import sys

from rattle_text import (
    CLAUSE,
    definitions_of,
    free_names,
    items_of,
    members_of,
    names_of,
    tokens_of,
    uses_of,
)

SORTS, MARKS = ("stated", "kept", "private", "proof", "unused"), {
    "stated": "",
    "kept": " (by an invariant alone)",
}
# The contracts from which docs/READING.md goes down.
CHAIN = (
    "crn_engines::simulate",
    "crn_run::run_all",
    "crn_ring::Reader::take_batch",
    "crn_run::run_policy",
    "crn_steps::laws::steps_are_a_run",
    "crn_proto::laws::every_schedule",
    "crn_cipher::block",
    "crn_proto::laws::progress",
    "crn_proto::laws::progress_in_batches",
)
IMPL = re.compile(
    r"impl\s*(?:<(?:[^<>]|<[^<>]*>)*>)?\s*(?:(\S+?)(?:<.*>)?\s+for\s+)?[&\s]*([\w:]+)",
    re.DOTALL,
)


class Repository:
    """The definitions, types and functions, each a sort, a crate, a module and a name; and which names which."""

    def __init__(self, top=pathlib.Path(__file__).resolve().parent.parent):
        self.top, self.definitions, self.exports, self.local, self.imports = (
            pathlib.Path(top),
            {},
            {},
            {},
            {},
        )
        self.edges, self.methods, self.calls = (
            collections.defaultdict(set) for _ in range(3)
        )
        self.traits = set()
        specs = self.files("specs/**/*.antt")
        for key, text in specs.items():
            self.exports[key] = {
                here: (path, name)
                for path, name, here, public in uses_of(text)
                if public
            }
            for it in definitions_of(text):
                self.definitions["definition", *key, it.name] = it
                names = [
                    it.name,
                    *it.name.split("◌"),
                    *(name for name, _ in members_of(it) if it.kind == "data"),
                ]
                self.exports[key].update(
                    {name: ("definition", *key, it.name) for name in names if name}
                )
        for node, it in self.definitions.items():
            look = self.scope(uses_of(specs[node[1:3]]), self.exports[node[1:3]].get)
            self.edges[node].update(map(look, names_of(it, look)))
        code = self.files("src/**/*.rt")
        self.items = {key: items_of(text) for key, text in code.items()}
        for key, items in self.items.items():
            self.local[key] = {
                it.name: ("function" if it.kind == "fn" else "type", *key, it.name)
                for it in items
                if it.kind in ("fn", "struct", "enum", "trait", "type")
            }
            self.imports[key] = {
                here: path for it in items for here, path in it.imports
            }
            for path, name in re.findall(r"crate::specs::([\w:]+)::(\w+)", code[key]):
                self.edges["proof", *key, ""].add(
                    self.exports.get((key[0], path.replace("::", ".")), {}).get(name)
                )
        for key, items in self.items.items():
            self.read_items(
                key, items, lambda it, key=key: self.item_at(key, it.split(".")[:1])
            )
        for (crate, module), text in self.files("proofs/**/*.antt").items():
            node = (
                "private" if module.endswith("Invariants") else "proof",
                crate,
                module,
                "",
            )
            self.edges[node].update(map(self.scope(uses_of(text)), tokens_of(text)))

    def files(self, pattern):
        """The texts of some files of each crate, by crate and module."""
        texts = {}
        for path in sorted(self.top.glob(f"crates/*/{pattern}")):
            crate, _, *module = (
                path.relative_to(self.top / "crates").with_suffix("").parts
            )
            texts[
                crate, "" if module in (["lib"], ["main"]) else ".".join(module)
            ] = path.read_text(encoding="utf-8")
        return texts

    def scope(self, uses, outer=lambda it: None):
        """What names stand for under imports, and else by an outer scope."""
        names = {
            part: (path, name)
            for path, name, here, _ in uses
            for part in [here, *here.split("◌")]
            if part
        }

        def look(token):
            """What a name stands for, behind the dot of a module too."""
            first, _, rest = token.partition(".")
            path, name = names.get(first, (None, None))
            return (
                self.definition_at(path, name or rest.split(".")[0])
                if path
                else outer(token)
            )

        return look

    def definition_at(self, path, name):
        """The definition, or the type, that a name of a module of specs stands for."""
        path = [it for it in path if it not in ("TheVariants", "TheInside")]
        if path[3:4] == ["declared"]:
            return "type", path[1], ".".join(path[4:-1]), path[-1]
        found = self.exports.get(("".join(path[1:2]), ".".join(path[3:])), {}).get(name)
        return self.definition_at(*found) if found and len(found) == 2 else found

    def item_at(self, key, path):
        """The function or the type of the code that a path stands for."""
        while path:
            (crate, module), first, path = key, path[0], path[1:]
            inner, above = (crate, f"{module}.{first}".strip(".")), (
                crate,
                module.rpartition(".")[0],
            )
            if first in ("crate", "self", "super") or (first, "") in self.items:
                key = {"crate": (crate, ""), "self": key, "super": above}.get(
                    first, (first, "")
                )
            elif path and inner in self.items:
                key = inner
            elif first in self.local[key]:
                return self.local[key][first]
            else:
                path = (
                    self.imports[key][first] + path
                    if self.imports[key].get(first, [first])[0] != first
                    else []
                )
        return None

    def read_items(self, key, items, outer, owner=None, trait=False):
        """What items of code name; those of an impl or a trait belong to its type."""
        look = self.scope(
            [use for it in items if it.kind == "use" for use in uses_of(it.head)], outer
        )
        for it in items:
            node = owner or ("type", *key, it.name)
            if it.kind == "ghost":
                self.add(
                    ("kept", *node[1:]) if it.name == "invariant" else node,
                    key,
                    "",
                    it.clauses,
                    look,
                )
            elif it.kind in ("struct", "enum", "type"):
                fields = re.findall(r"(?<!ghost )\b(\w+)\s*:(?!:)", it.body)
                self.add(
                    node, key, it.head + it.body, CLAUSE.findall(it.body), look, fields
                )
            elif it.kind in ("impl", "trait"):
                of, name = (
                    IMPL.match(it.head).groups()
                    if it.kind == "impl"
                    else (it.name, it.name)
                )
                inner = (
                    self.item_at(key, name.split("::"))
                    or self.item_at(key, (of or "").split("::"))
                    or node
                )
                self.traits.update([node] if it.kind == "trait" else [])
                self.read_items(key, items_of(it.body), look, inner, bool(of))
            elif it.kind == "fn":
                node = "function", *key, f"{owner[3]}::{it.name}" if owner else it.name
                bound = ["self", "result", *re.findall(r"(\w+)\s*:(?!:)", it.head)]
                self.add(node, key, it.head, it.clauses, look, bound)
                self.add(("private", *node[1:]), key, "", CLAUSE.findall(it.body), look)
                self.edges[node].update([owner] if owner else [])
                if owner in self.traits:
                    # A clause may name what a bound's trait shows, and a body may call it.
                    self.edges[owner].add(node)
                self.methods[owner].update([node] if it.public or trait else [])
                called = re.findall(
                    r"([A-Za-z_][\w:]*)\s*\(", it.body if not it.clauses else ""
                )
                self.calls[node].update(
                    self.item_at(key, path.split("::")) for path in called
                )

    def add(self, node, key, head, terms, look, bound=()):
        """Notes the types that a head names, and what terms name."""
        types = [
            self.item_at(key, path.strip(":").split("::"))
            for path in re.findall(r"[A-Za-z_][\w:]*", head)
        ]
        self.edges[node].update(it for it in types if it and it[0] == "type")
        found = [
            look(name) for term in terms for name in free_names(tokens_of(term), bound)
        ]
        self.edges[node].update(it for it in found if it and it[0] != "function")

    def given_out(self, key, prefix):
        """The functions and types that a module gives out, by their paths from outside."""
        for it in (it for it in self.items[key] if it.public):
            for name, path in it.imports or [(it.name, [it.name])]:
                inner = key[0], ".".join([key[1], *path]).strip(".")
                yield from self.given_out(
                    inner, f"{prefix}::{name}"
                ) if inner in self.items else ()
                yield f"{prefix}::{name}", self.item_at(key, path)

    def public(self):
        """All that is public, each with its path from outside."""
        found = [
            it
            for key in self.items
            if not key[1]
            for it in self.given_out(key, key[0])
            if it[1]
        ]
        found += [
            (f"{path}::{it[3].rpartition('::')[2]}", it)
            for path, owner in found
            for it in self.methods[owner]
        ]
        called = [it for it in self.calls if it[2:] == ("", "main")]
        for caller in called:
            called += [
                it
                for it in self.calls[caller]
                if it and it[0] == "function" and it not in called
            ]
        return found + [(f"{it[1]}::{it[3]}", it) for it in called]

    def reached(self, nodes):
        """All that is reached from some nodes."""
        found, further = set(), set(nodes)
        while further:
            found |= further
            further = set().union(*(self.edges[it] for it in further)) - found - {None}
        return found

    def sorts(self, roots):
        """The sort of each definition, where these are the public functions and types."""
        stated = self.reached(roots)
        kept = self.reached(("kept", *it[1:]) for it in stated if it[0] == "type")
        private = self.reached(
            [
                it
                for it in self.edges
                if it[0] in ("function", "type", "kept", "private")
            ]
        )
        proof = self.reached([it for it in self.edges if it[0] == "proof"])
        levels = list(zip(SORTS, (stated, kept, private, proof, self.definitions)))
        return {
            it: next(sort for sort, nodes in levels if it in nodes)
            for it in self.definitions
        }

    def levels(self, nodes):
        """What is reached from some nodes, level by level, each level in the order of the files."""
        found, further = set(), set(nodes)
        while further:
            yield from sorted(
                further & set(self.definitions),
                key=lambda it: (*it[1:3], self.definitions[it].line),
            )
            found |= further
            further = set().union(*(self.edges[it] for it in further)) - found - {None}

    def meaning(self, node):
        """The comment right above a definition, as one line, and "" if it has none."""
        lines = (
            (self.top / place_of(node))
            .read_text(encoding="utf-8")
            .split("\n")[: self.definitions[node].line - 1]
        )
        stripped = (it.strip() for it in reversed(lines))
        above = list(
            itertools.takewhile(
                lambda it: it.startswith("-- ") and not it.startswith("-- --"), stripped
            )
        )
        return " ".join(it.removeprefix("-- ") for it in reversed(above))


def place_of(node):
    """The file of a definition, from the top."""
    return f"crates/{node[1]}/specs/{node[2].replace('.', '/')}.antt"


# The pages with parts that `pages` writes, and such a part: its mark, what it is of, and what stands there.
PAGES = ("docs/DEFINITIONS.md", "docs/PROOFS.md")
PART = re.compile(
    r"^<!-- (reached by|ensures) (\S+) -->\n(.*?)^<!-- end -->$",
    re.MULTILINE | re.DOTALL,
)


def is_statement(name):
    """Whether a definition is a statement or a type, and no function: it begins with a capital letter."""
    return name.lstrip("◌")[:1].isupper()


def lines_of(repository, nodes, told, sorts, listed):
    """The lines of a list: the files in the order in which they are reached, in each its definitions.

    It takes the names that the page explains, the sorts by the contracts of CHAIN, and what stands in the lists above.
    """
    for place in dict.fromkeys(place_of(it) for it in nodes):
        here = sorted(
            (it for it in nodes if place_of(it) == place),
            key=lambda it: repository.definitions[it].line,
        )
        explained = [it for it in here if is_statement(it[3]) and it[3] not in told]
        functions = [
            it
            for it in repository.definitions
            if place_of(it) == place and not is_statement(it[3])
        ]
        is_whole = len(functions) > 1 and all(sorts[it] == "stated" for it in functions)
        named = [
            f"`{it[3]}`"
            for it in here
            if it not in explained
            and not (is_whole and it in functions)
            and it[3] not in told
        ]
        if is_whole and not set(functions) & set(listed) and set(functions) & set(here):
            named.append("all functions")
        if not named and not explained:
            continue
        yield f"\n[`{here[0][1]}`, {here[0][2]}](../{place}){': ' if named else ''}{', '.join(named)}"
        yield from [
            "",
            *(f"- `{it[3]}`: {repository.meaning(it)}" for it in explained),
        ] if explained else []


def clauses_of(repository, node, kinds="ensures"):
    """The clauses of some kinds of a function, as they stand in the source, without what they are indented by."""
    crate, module, (*owner, name) = *node[1:3], node[3].split("::")
    paths = [
        f"crates/{crate}/src/{it}.rt"
        for it in ([module.replace(".", "/")] if module else ["lib", "main"])
    ]
    text = next(
        (repository.top / it).read_text(encoding="utf-8")
        for it in paths
        if (repository.top / it).exists()
    )
    if owner:
        impls = re.findall(r"^impl\b.*?^}", text, re.MULTILINE | re.DOTALL)
        of = {it: IMPL.match(it)[2].split("::")[-1] for it in impls}
        text = "\n".join(it for it in impls if of[it] == owner[0])
    head = re.search(rf"^( *)pub fn {name}\b.*?^\1{{", text, re.MULTILINE | re.DOTALL)[
        0
    ]
    clauses = re.findall(
        rf"^( *)((?:{kinds})\b.*?)(?=^ *(?:requires\b|ensures\b|ghost\b|\{{$|\{{\}}$))",
        head + "\n{\n",
        re.MULTILINE | re.DOTALL,
    )
    return [
        line.removeprefix(indent)
        for indent, clause in clauses
        for line in clause.rstrip().split("\n")
    ]


def filled(repository, text):
    """The text of a page in which each part is written anew."""
    public, shown = dict(repository.public()), set()
    sorts = repository.sorts([public[it] for it in CHAIN])
    told = set(re.findall(r"\*\*`([^`]+)`\*\*", PART.sub("", text)))

    def part(found):
        mark, path = found[1], found[2]
        if mark == "ensures":
            lines = ["```", *clauses_of(repository, public[path]), "```"]
        else:
            nodes = [it for it in repository.levels([public[path]]) if it not in shown]
            lines = list(lines_of(repository, nodes, told, sorts, shown))
            shown.update(nodes)
        return "\n".join([f"<!-- {mark} {path} -->", *lines, "<!-- end -->"])

    return PART.sub(part, text)


def main(command, *paths):
    """Prints what is reached by the named functions or by all that is public, or all definitions by their sorts."""
    repository, files = Repository(), collections.defaultdict(set)
    if command == "pages":
        for name in PAGES:
            text = (repository.top / name).read_text(encoding="utf-8")
            (repository.top / name).write_text(
                filled(repository, text), encoding="utf-8"
            )
        return
    public, definitions = repository.public(), repository.definitions
    if set(paths) - {path for path, _ in public}:
        sys.exit(
            f"no crate gives out {', '.join(set(paths) - {path for path, _ in public})}"
        )
    sorts = repository.sorts([it for path, it in public if path in paths or not paths])
    for node in sorted(definitions, key=lambda it: (*it[1:3], definitions[it].line)):
        place = place_of(node)
        files[place].add(sorts[node] == "stated")
        if command == "reached" and sorts[node] in MARKS:
            print(f"{place}:{definitions[node].line}: {node[3]}{MARKS[sorts[node]]}")
    for crate, sort in itertools.product(
        sorted({it[1] for it in sorts}), SORTS if command == "kinds" else ()
    ):
        nodes = [it for it in definitions if it[1] == crate and sorts[it] == sort]
        lines = sum(definitions[it].end - definitions[it].line + 1 for it in nodes)
        print(f"{crate} {sort}: {len(nodes)} definitions, {lines} lines")
        for module in sorted({it[2] for it in nodes}):
            print(f"    {module}: {' '.join(it[3] for it in nodes if it[2] == module)}")
    if command == "kinds":
        print(
            "files of stated definitions and others:",
            ", ".join(it for it in files if len(files[it]) > 1) or "none",
        )


if __name__ == "__main__":
    main(*sys.argv[1:]) if sys.argv[1:2] == ["reached"] or sys.argv[1:] in (
        ["kinds"],
        ["pages"],
    ) else sys.exit(__doc__)
