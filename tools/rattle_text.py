"""What stands in files of Rattle as rt fmt lays them out: free names of terms, definitions, imports, items of code."""
import collections
import functools
import itertools
import re

WORD = r"(?![:=](?:\s|$))[^\s(){}\[\];,.\"λ¬]+"
TOKEN = re.compile(
    rf'"(?:\\.|[^"\\])*"|--[^\n]*|[(){{}}\[\];,λ¬]|\.(?=\s|$)|\.?{WORD}(?:\.{WORD})*|[:=]'
)
CLOSING = {"(": ")", "[": "]", "{": "}"}
GROUP = re.compile(r"[({]([^(){}:]+) :")
CHUNK = re.compile(r"^(?!--)[^\s)}\]{][^\n]*(?:\n(?=[ )}\]{\n])[^\n]*)*", re.MULTILINE)
NESTED = functools.reduce(
    lambda inner, _: rf"[^{{}}]*(?:\{{{inner}\}}[^{{}}]*)*", range(8), "[^{}]*"
)
CLAUSE = re.compile(
    rf"\b(?:requires|ensures|invariant|ghost)\b\*?\s*\w*\s*[:=]?\s*\{{({NESTED})\}}"
)
ITEM = re.compile(
    r"(pub )?(?:pub\S+ )?(?:(?:const |unsafe )*(fn)|"
    r"(struct|enum|trait|impl|mod|type|(?:ghost )?use|ghost))\b\s*(\w*)"
)
Definition = collections.namedtuple("Definition", "name kind line end outer chunks")
Item = collections.namedtuple("Item", "public kind name imports head clauses body")


def tokens_of(text):
    """The tokens of a term, without comments and texts."""
    return [it for it in TOKEN.findall(text) if not it.startswith(("--", '"'))]


def free_names(tokens, bound=()):
    """The names that a term leaves free. A binder holds up to a comma, a semicolon or the end of its brackets."""
    found, levels = [], [dict(kept=set(bound), names=set(), lets=[], group=[])]
    for at, token in enumerate(tokens):
        level, before, after = (
            levels[-1],
            tokens[at - 1] if at else "",
            "".join(tokens[at + 1 : at + 2]),
        )
        if token in CLOSING:
            names = list(
                itertools.takewhile(re.compile(WORD).fullmatch, tokens[at + 1 :])
            )
            group = names if tokens[at + 1 + len(names) :][:1] == [":"] else []
            levels.append(
                dict(
                    kept=set(group),
                    names=set(),
                    lets=[],
                    group=group if before != "record" else [],
                )
            )
        elif token in CLOSING.values():
            levels[max(0, len(levels) - 2)]["names"].update(
                levels.pop()["group"] if len(levels) > 1 else []
            )
        elif token in (";", ","):
            level["names"] = set()
        elif token == "λ":
            level["names"].update(
                itertools.takewhile(re.compile(WORD).fullmatch, tokens[at + 1 :])
            )
        elif token == "in" and level["lets"]:
            level["names"].add(level["lets"].pop())
        elif before == "let":
            level["lets"].append(token)
        elif before in ("{", ";") and after in ("=", ":"):
            level["kept"].update([token] if after == ":" else [])
        elif re.match(WORD, token) and not any(
            token.split(".")[0] in it["kept"] | it["names"] for it in levels
        ):
            found.append(token)
    return found


def members_of(definition):
    """The fields of a record, or the constructors of a data type: each name with the tokens of its type."""
    body = re.sub(
        r"--[^\n]*",
        "",
        definition.chunks[0].partition(" where")[2] if definition.kind else "",
    )
    parts = re.split(r"^ +(?:pub )?([^\s:(]+) :(?=\s)", body, flags=re.MULTILINE)
    return [(parts[at], tokens_of(parts[at + 1])) for at in range(1, len(parts), 2)]


def names_of(definition, look):
    """The names that a definition leaves free. In a pattern, what stands for a type of another name is no variable."""
    head, outer = definition.chunks[0].partition(" where")[0], definition.outer
    names, bound = (
        free_names(tokens_of(head), outer),
        outer + " ".join(GROUP.findall(head)).split(),
    )
    for member, tokens in members_of(definition):
        names += free_names(tokens, bound)
        bound = bound + [member] if definition.kind == "record" else bound
    for tokens in map(tokens_of, definition.chunks[1:]):
        pattern, term = tokens[: tokens.index("=")], tokens[tokens.index("=") :]
        constructors = [it for it in pattern if look(it) and look(it)[3] != it]
        names += constructors + free_names(
            term, outer + [it for it in pattern if it not in constructors]
        )
    return names


def definitions_of(text, outer=(), line=1):
    """The definitions of a file of specs, with the chunks of the text of each: a head, then clauses."""
    found = []
    for it in CHUNK.finditer(text):
        start, chunk = line + text.count("\n", 0, it.start()), it[0].rstrip()
        head = re.match(
            r"(?:(?:abbrev|unfoldable|pub) )*(?:(record|data) ([^\s(){}:]+)|([^\s(){}:]+) :\s)",
            chunk,
        )
        if chunk.startswith("module "):
            first, _, body = chunk.partition("\n")
            inner = [*outer, *" ".join(GROUP.findall(first)).split()]
            found += definitions_of(
                re.sub("^  ", "", body, flags=re.MULTILINE), inner, start + 1
            )
        elif head:
            found.append(
                Definition(
                    head[2] or head[3],
                    head[1],
                    start,
                    start + chunk.count("\n"),
                    [*outer],
                    [chunk],
                )
            )
        elif found and not re.match(
            r"(pub )?(use|mod|open|ruleset|infix\w*|unfolding) ", chunk
        ):
            found[-1] = found[-1]._replace(
                end=start + chunk.count("\n"), chunks=found[-1].chunks + [chunk]
            )
    return found


def uses_of(text):
    """The imports of a text: the module's path, the name there or None for the module, the name here, whether pub."""
    for public, path, items, alias in re.findall(
        r"^ *(pub )?(?:ghost )?use ([^\s{;]+?)(?:\.\{([^}]*)\})?(?: as ([^\s;]+))?;?$",
        text,
        re.MULTILINE,
    ):
        for item in re.split(r",\s*", items.strip().rstrip(",")) if items else [""]:
            name, _, other = item.partition(" as ")
            yield path.split("."), name or None, other or name or alias or path.split(
                "."
            )[-1], bool(public)


def items_of(text):
    """The items of a text of code. Comments, texts and characters are left out."""
    items = []
    for it in CHUNK.findall(
        re.sub(r'//[^\n]*|"(?:\\.|[^"\\])*"|\'(?:\\.|[^\'\\\s])\'', "", text)
    ):
        if item := ITEM.match(it):
            kind = item[2] or item[3].split()[-1]
            opened = re.search(r"^\{", it, re.M) or re.search(r"\{ *$", it, re.M)
            if opened and kind == "mod":
                raise ValueError(f"a module within a file is not read: {item[4]}")
            is_block = opened and kind not in ("use", "ghost", "type")
            whole, body = (
                (it[: opened.start()], it[opened.end() :].rpartition("}")[0])
                if is_block
                else (it, "")
            )
            uses = uses_of(it.replace("::", ".")) if kind == "use" else []
            imports = [
                (here, path + [name] if name else path) for path, name, here, _ in uses
            ]
            head = (
                re.split(r"\n *(?:requires|ensures|ghost)\b", whole)[0]
                if kind == "fn"
                else whole
            )
            body = re.sub("^    ", "", body, flags=re.MULTILINE)
            items.append(
                Item(
                    bool(item[1]),
                    kind,
                    item[4],
                    imports,
                    head,
                    CLAUSE.findall(whole),
                    body,
                )
            )
    return items
