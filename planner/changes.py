"""Finds the small changes of crnplan that a careless hand makes: in Python, in TOML and in templates."""
from __future__ import annotations

import ast
import copy
import re
import tomllib
from collections.abc import Callable, Iterator
from typing import Any, NamedTuple

import jinja2

# What stands in place of an operator, and of a function or method.
OPERATORS: dict[type[ast.AST], type[ast.AST]] = {
    ast.Lt: ast.LtE,
    ast.LtE: ast.Lt,
    ast.Gt: ast.GtE,
    ast.GtE: ast.Gt,
    ast.Eq: ast.NotEq,
    ast.NotEq: ast.Eq,
    ast.In: ast.NotIn,
    ast.NotIn: ast.In,
    ast.Is: ast.IsNot,
    ast.IsNot: ast.Is,
    ast.Add: ast.Sub,
    ast.Sub: ast.Add,
    ast.Mult: ast.Div,
    ast.Div: ast.Mult,
    ast.FloorDiv: ast.Div,
    ast.And: ast.Or,
    ast.Or: ast.And,
    ast.BitAnd: ast.BitOr,
    ast.BitOr: ast.BitAnd,
}
PAIRS = (
    ("any", "all"),
    ("min", "max"),
    ("minimum", "maximum"),
    ("floor", "ceil"),
)
EXCHANGED = {old: new for pair in PAIRS for old, new in (pair, pair[::-1])}
ROUNDING = {"round", "rint", "ceil", "floor"}
DROPPED = ROUNDING | {"sorted", "abs", "reversed", "sum", "max", "min"}
DROPPED_METHODS = {"strip", "rstrip", "lower", "casefold", "copy", "clip"}
COMPREHENSIONS = (ast.ListComp, ast.SetComp, ast.DictComp, ast.GeneratorExp)

KEY_LINE = re.compile(r'^(?P<key>[\w"\' .-]+= )(?P<value>.+)$', re.MULTILINE)
ENTRY = re.compile(r'(?<=[\[ ])"[^"\n]*",\s*')
TOML_NUMBER = re.compile(r"(?<=[\[ ])\d[\d_]*(?=[\],\n])")
FACT_FORM = re.compile(r"(?<={)([^{}:\n]+):[^{}\n]+(?=})")
TWO_FACTS = re.compile(r"({[^{}\n]+})([^{}\n]+)({[^{}\n]+})")

ATTRIBUTE = re.compile(
    r'\s[a-z][\w:-]*="(?:[^"{<>]|{{.*?}}|{%.*?%})*"(?=[^<>]*>)', re.DOTALL
)
FILTER = re.compile(r"\|\w+(\([^()]*\))?(?=[^{}]*[%}]})")
SHOWN = re.compile(r"{{.*?}}")
CONDITION = re.compile(r"(?<={% )(if|elif) (.*?)(?= %})")
LOOP_FILTER = re.compile(r"(?<={% for )([^%]*?) if [^%]*?(?= %})")
CONJUNCT = re.compile(r" (?:and|or) [^{}]*?(?= (?:and|or|%}|else)\b| %}| }})")


class Change(NamedTuple):
    """A change of a file: its kind, the line, the bytes from one place to another, and what stands there then. `first`
    is the line on which the statement begins, and `names` are those by which others use what is changed.
    """

    file: str
    kind: str
    line: int
    start: int
    end: int
    new: str
    names: frozenset[str] = frozenset()

    def apply(self, data: bytes) -> bytes:
        """Returns a file with the change."""
        return data[: self.start] + self.new.encode() + data[self.end :]


def changes_of(file: str, text: str) -> list[Change]:
    """Returns the changes of a file by the ending of its name. None breaks its grammar."""
    if file.endswith(".py"):
        return [*changes_of_python(file, text)]
    return [*changes_of_text(file, text)]


def holds_together(change: Change, text: str) -> bool:
    """Returns whether a file with a change can still be read, and is another one."""
    new = change.apply(text.encode()).decode()
    try:
        if change.file.endswith(".py"):
            return ast.dump(ast.parse(new)) != ast.dump(ast.parse(text))
        if change.file.endswith(".toml") and "{%" not in text:
            return tomllib.loads(new) != tomllib.loads(text)
        jinja2.Environment().parse(new)
    except (SyntaxError, ValueError, jinja2.TemplateSyntaxError):
        return False
    return new != text


def changes_of_python(file: str, text: str) -> Iterator[Change]:
    """Yields the changes of a module, but for those of its types, docstrings, texts and imports."""
    data, starts = text.encode(), [0]
    for line in data.splitlines(keepends=True):
        starts.append(starts[-1] + len(line))

    tree = ast.parse(text)
    needed = {id(it) for it in ast.walk(tree) if isinstance(it, ast.Assign)}
    for it in ast.walk(tree):
        if isinstance(it, ast.FunctionDef):
            needed -= {*map(id, assigned_again(it))}

    def walk(node: ast.AST, names: frozenset[str]) -> Iterator[Change]:
        if isinstance(node, ast.stmt):
            names |= names_of(node)
        if isinstance(node, (ast.expr, ast.stmt)) and id(node) not in needed:
            start = starts[node.lineno - 1] + node.col_offset
            end = starts[(node.end_lineno or 0) - 1] + (node.end_col_offset or 0)
            own = names | words_of(data[start:end].decode())
            for kind, new in changes_of_node(node):
                code = new if isinstance(node, ast.stmt) else f"({new})"
                yield Change(file, kind, node.lineno, start, end, code, own)
        for name, part in ast.iter_fields(node):
            if name in ("annotation", "returns") or isinstance(node, ast.JoinedStr):
                continue
            for child in part if isinstance(part, list) else [part]:
                if isinstance(child, ast.AST):
                    yield from walk(child, names)

    yield from walk(tree, frozenset())


def assigned_again(function: ast.FunctionDef) -> Iterator[ast.Assign]:
    """Yields the assignments without which a function still has a value for each name: to attributes and places, and to
    names that have one."""
    known = {it.arg for it in ast.walk(function.args) if isinstance(it, ast.arg)}
    stored = [it for it in ast.walk(function) if hasattr(it, "lineno")]
    for node in sorted(stored, key=lambda it: (it.lineno, it.col_offset)):
        if isinstance(node, ast.Assign) and all(
            known.issuperset(bound_by(target)) for target in node.targets
        ):
            yield node
        if isinstance(node, ast.Name) and isinstance(node.ctx, ast.Store):
            known.add(node.id)


def bound_by(target: ast.expr) -> list[str]:
    """Returns the names that an assignment to a target binds."""
    parts = [it for it in ast.walk(target) if isinstance(it, ast.Name)]
    return [it.id for it in parts if isinstance(it.ctx, ast.Store)]


def names_of(statement: ast.stmt) -> frozenset[str]:
    """Returns the names that a statement gives to something."""
    if isinstance(statement, (ast.FunctionDef, ast.ClassDef)):
        return frozenset([statement.name])
    targets = getattr(statement, "targets", [getattr(statement, "target", None)])
    parts = [it for target in targets if target for it in ast.walk(target)]
    return frozenset(
        getattr(it, "id", "") or getattr(it, "attr", "") for it in parts
    ) - {""}


def changes_of_node(node: ast.AST) -> Iterator[tuple[str, str]]:
    """Yields what may stand in place of a node, as code, each with its kind."""
    for kinds, change in CHANGES:
        if isinstance(node, kinds):
            for kind, new in change(node):
                yield kind, new if isinstance(new, str) else ast.unparse(new)


def with_part(node: Any, part: str, value: object) -> Any:
    """Returns a node with another part."""
    new = copy.copy(node)
    setattr(new, part, value)
    return new


def without(items: list[Any], at: int) -> list[Any]:
    """Returns all items but one."""
    return items[:at] + items[at + 1 :]


# The kinds of changes of a node, each with the node or the code that stands there then.
Changed = Iterator[tuple[str, Any]]


def of_compare(node: ast.Compare) -> Changed:
    for at, it in enumerate(node.ops):
        ops: list[Any] = [*node.ops]
        ops[at] = OPERATORS[type(it)]()
        yield "comparison", with_part(node, "ops", ops)


def of_operation(node: ast.BinOp | ast.BoolOp) -> Changed:
    if type(node.op) in OPERATORS:
        yield "operator", with_part(node, "op", OPERATORS[type(node.op)]())
    if isinstance(node, ast.BoolOp):
        for at in range(len(node.values)):
            left = without(node.values, at)
            yield "conjunct", with_part(node, "values", left) if left[1:] else left[0]
    elif isinstance(node.op, (ast.BitAnd, ast.BitOr)):
        yield "conjunct", node.left
        yield "conjunct", node.right


def of_sign(node: ast.UnaryOp) -> Changed:
    if isinstance(node.op, (ast.USub, ast.Not, ast.Invert)):
        yield "sign", node.operand


def of_constant(node: ast.Constant) -> Changed:
    if isinstance(node.value, bool):
        yield "constant", repr(not node.value)
    elif isinstance(node.value, int):
        yield "off by one", repr(node.value + 1)
        yield "off by one", repr(node.value - 1)
    elif isinstance(node.value, float):
        yield "constant", repr(node.value * 2 or 1.0)


def of_call(node: ast.Call) -> Changed:
    for at in range(len(node.keywords)):
        yield "keyword", with_part(node, "keywords", without(node.keywords, at))
    name = getattr(node.func, "id", "") or getattr(node.func, "attr", "")
    part = "id" if isinstance(node.func, ast.Name) else "attr"
    if name in EXCHANGED:
        yield name, with_part(node, "func", with_part(node.func, part, EXCHANGED[name]))
    if isinstance(node.func, ast.Attribute) and name in DROPPED_METHODS:
        yield "call", node.func.value
    if any(isinstance(it, ast.Starred) for it in node.args):
        return
    if name in DROPPED and node.args:
        yield "rounding" if name in ROUNDING else "call", node.args[0]
    if len(node.args) >= 2:
        yield "arguments", with_part(node, "args", [*node.args[1::-1], *node.args[2:]])


def of_comprehension(node: Any) -> Changed:
    for at, each in enumerate(node.generators):
        for place in range(len(each.ifs)):
            new = [*node.generators]
            new[at] = with_part(each, "ifs", without(each.ifs, place))
            yield "filter", with_part(node, "generators", new)


def of_branches(node: ast.IfExp) -> Changed:
    yield "branches", ast.IfExp(node.test, node.orelse, node.body)


def of_statement(node: ast.stmt) -> Changed:
    is_call = isinstance(node, ast.Expr) and isinstance(node.value, ast.Call)
    if is_call or not isinstance(node, ast.Expr):
        yield "statement", "pass"


CHANGES: list[tuple[Any, Callable[[Any], Changed]]] = [
    (ast.Compare, of_compare),
    ((ast.BinOp, ast.BoolOp), of_operation),
    (ast.UnaryOp, of_sign),
    (ast.Constant, of_constant),
    (ast.Call, of_call),
    (COMPREHENSIONS, of_comprehension),
    (ast.IfExp, of_branches),
    (
        (
            ast.Raise,
            ast.Assign,
            ast.AugAssign,
            ast.Delete,
            ast.Expr,
            ast.Continue,
            ast.Break,
        ),
        of_statement,
    ),
]


def changes_of_text(file: str, text: str) -> Iterator[Change]:
    """Yields the changes of a file of TOML or of a template, each within the text of one kind."""
    is_toml = file.endswith(".toml") and "{%" not in text
    for kind, start, end, new in of_toml(text) if is_toml else of_template(text):
        line = 1 + text.count("\n", 0, start)
        names = words_of(text[start:end])
        first, last = len(text[:start].encode()), len(text[:end].encode())
        yield Change(file, kind, line, first, last, new, names)


def words_of(text: str) -> frozenset[str]:
    return frozenset(re.findall(r"\w{3,}", text))


Spans = Iterator[tuple[str, int, int, str]]


def of_toml(text: str) -> Spans:
    """Yields changes of TOML: dropped keys and entries, exchanged values, other numbers, facts and forms of facts."""
    keys = [*KEY_LINE.finditer(text)]
    for it in keys:
        yield "key", it.start(), it.end() + 1, ""
        for old, new in (("true", "false"), ("false", "true")):
            if it["value"] == old:
                yield "constant", *it.span("value"), new
    for it, after in zip(keys, keys[1:]):
        if after.start() == it.end() + 1:
            new = f"{after['value']}\n{after['key']}{it['value']}"
            yield "exchanged", it.start("value"), after.end("value"), new
    for it in ENTRY.finditer(text):
        yield "entry", *it.span(), ""
    for it in TOML_NUMBER.finditer(text):
        yield "off by one", *it.span(), str(int(it[0]) + 1)
    for it in FACT_FORM.finditer(text):
        yield "rounding", *it.span(), it[1]
    for it in TWO_FACTS.finditer(text):
        yield "exchanged", *it.span(), it[3] + it[2] + it[1]


def of_template(text: str) -> Spans:
    """Yields changes of a template: dropped attributes, filters, values and conjuncts, and conditions turned round."""
    for kind, pattern, new in (
        ("attribute", ATTRIBUTE, ""),
        ("filter", FILTER, ""),
        ("value", SHOWN, ""),
        ("condition", CONDITION, r"\1 not (\2)"),
        ("filter", LOOP_FILTER, r"\1"),
        ("conjunct", CONJUNCT, ""),
    ):
        for it in pattern.finditer(text):
            yield kind, *it.span(), it.expand(new)
