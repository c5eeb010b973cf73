"""A module of the package imports only those above it in the table of docs/ARCHITECTURE.md. Each function, class and
constant is named somewhere in the package, not only where it is made. No function reads a sentence that another one
wrote: facts are handed on as data, words are made last."""
from __future__ import annotations

import ast
import re
import tomllib
from collections import Counter
from collections.abc import Collection, Iterator
from pathlib import Path

import pytest

TOP = Path(__file__).resolve().parents[2]
SOURCE = TOP / "planner/src/crnplan"
ROW = re.compile(r"^\| ((?:`\w+`(?:, )?)+) \|", re.MULTILINE)
FILES = sorted(
    it
    for it in SOURCE.rglob("*.py")
    if it.parent != SOURCE or not it.name.startswith("__")
)
KNOWN = tomllib.loads(Path(__file__).with_name("layers.toml").read_text("utf-8"))


def layers() -> list[str]:
    """Returns the modules in the order of the table."""
    text = (TOP / "docs/ARCHITECTURE.md").read_text(encoding="utf-8")
    table = text[text.index("| Module | Contents |") :].split("\n\n")[0]
    return [name for row in ROW.findall(table) for name in re.findall(r"\w+", row)]


def module_of(file: Path) -> str:
    return file.relative_to(SOURCE).parts[0].removesuffix(".py")


def imported(file: Path, text: str = "") -> Iterator[str]:
    """Yields the modules of the package that a file, or a text in its place, imports: also in functions, and for types."""
    package = ["crnplan", *file.relative_to(SOURCE).parent.parts]
    for node in ast.walk(ast.parse(text or file.read_text(encoding="utf-8"))):
        if isinstance(node, ast.ImportFrom) and node.level:
            base = [
                *package[: len(package) - node.level + 1],
                *(node.module or "").split("."),
            ]
            parts = [it for it in base if it]
            yield from [parts[1]] if len(parts) > 1 else [it.name for it in node.names]


def late(text: str) -> list[str]:
    """Returns the functions of a text that import a module of the package."""
    return [
        function.name
        for function in ast.walk(ast.parse(text))
        if isinstance(function, ast.FunctionDef)
        for node in ast.walk(function)
        if isinstance(node, ast.ImportFrom) and node.level
    ]


def test_table_has_all_modules() -> None:
    assert sorted(layers()) == sorted({module_of(it) for it in FILES})


@pytest.mark.parametrize("file", FILES, ids=lambda it: str(it.relative_to(SOURCE)))
def test_imports_only_those_above(file: Path) -> None:
    order = layers()
    above = {*order[: order.index(module_of(file)) + 1], "__version__"}
    assert set(imported(file)) - above == set()


def test_late_imports() -> None:
    """A function imports a module of the package only to start fast, as layers.toml says of its file."""
    found = {
        str(file.relative_to(SOURCE)) for file in FILES if late(file.read_text("utf-8"))
    }
    assert found == KNOWN["late"].keys()


@pytest.mark.parametrize("code", KNOWN["code"]["late"])
def test_planted_imports(code: str) -> None:
    """Sees an import in a function, in a method and for types."""
    assert [*imported(SOURCE / "law.py", code)] == ["plan"]
    assert late(code) == ([] if "TYPE_CHECKING" in code else ["f"])


def made_in(text: str) -> Iterator[str]:
    """Yields the names of the functions, classes and constants that a module makes, but for those of Python."""
    tree = ast.parse(text)
    yield from (
        node.name
        for node in ast.walk(tree)
        if isinstance(node, (ast.FunctionDef, ast.ClassDef))
    )
    for node in tree.body:
        targets = (
            node.targets
            if isinstance(node, ast.Assign)
            else [node.target]
            if isinstance(node, ast.AnnAssign)
            else []
        )
        yield from (
            it.id
            for target in targets
            for it in ast.walk(target)
            if isinstance(it, ast.Name)
        )


def unreached(texts: dict[str, str]) -> set[str]:
    """Returns the names that modules make and that no text has a second time."""
    counts = Counter(
        word for text in texts.values() for word in re.findall(r"\w+", text)
    )
    return {
        name
        for file, text in texts.items()
        if file.endswith(".py")
        for name in made_in(text)
        if counts[name] == 1 and not name.startswith("__")
    }


def types_in(text: str) -> Iterator[str]:
    """Yields the names of the classes and of the aliases of types that a module declares."""
    tree = ast.parse(text)
    yield from (it.name for it in ast.walk(tree) if isinstance(it, ast.ClassDef))
    for node in tree.body:
        if isinstance(node, ast.Assign) and not isinstance(node.value, ast.Call):
            name = ast.unparse(node.targets[0])
            if re.fullmatch("[A-Z][a-z][A-Za-z]*", name):
                yield name


def test_a_type_has_a_name_of_its_own() -> None:
    """No two modules declare a type of one name."""
    assert [*types_in("A = 1\nOne = int | str\nclass Two:\n    pass\n")] == [
        "Two",
        "One",
    ]
    names = Counter(
        name for file in FILES for name in types_in(file.read_text("utf-8"))
    )
    assert {name for name, count in names.items() if count > 1} == set()


def test_plants() -> None:
    """Finds what nothing calls, and places that read words; none where data are read."""
    texts = {
        "a.py": "MOST = 3\ndef one(): pass\nclass Two:\n    def three(self): pass\n",
        "b.py": "from a import one",
        "c.html": "{{ its.three }}",
    }
    assert unreached(texts) == {"MOST", "Two"}
    assert {len(found_in(code)) for code in KNOWN["code"]["wrong"]} == {1}
    assert [code for code in KNOWN["code"]["sound"] if found_in(code)] == []


def test_all_is_reached() -> None:
    """All is reached, and nothing looks into a text of our own, but for what is allowed, which is all there."""
    texts = {
        str(it.relative_to(SOURCE)): it.read_text("utf-8")
        for it in sorted(SOURCE.rglob("*"))
        if it.is_file() and it.suffix != ".pyc" and it.suffix != ".csv"
    }
    assert unreached(texts) - KNOWN["called"].keys() == set()
    found = {
        f"{path.relative_to(SOURCE)}: {code}": line
        for path in sorted(SOURCE.rglob("*.py"))
        for line, code in found_in(path.read_text("utf-8"))
    }
    assert {
        place: found[place] for place in found.keys() - KNOWN["allowed"].keys()
    } == {}
    assert KNOWN["allowed"].keys() - found.keys() == set()


# Methods and functions that look into a text.
LOOKING = {*KNOWN["code"]["looking"]}
# Words of names that stand for our own sentences, and of what an error says.
OURS = re.compile(
    r"(?:^|_)(?:message|note|reason|verdict|warning|advice|sentence|remark|refusal|alarm|why|fault|said"
    r"|told)(?:s|es)?(?:_|$)"
)


def names_in(node: ast.AST) -> Iterator[str]:
    for its in ast.walk(node):
        if isinstance(its, ast.Name):
            yield its.id
        elif isinstance(its, ast.Attribute):
            yield its.attr
        elif isinstance(its, ast.Subscript) and isinstance(its.slice, ast.Constant):
            yield str(its.slice.value)


def is_ours(node: ast.AST, ours: Collection[str] = ()) -> bool:
    """Returns whether a node names a text of our own. `ours` are more names of such."""
    return any(OURS.search(name) or name in ours for name in names_in(node))


def looks(node: ast.AST, ours: Collection[str] = ()) -> bool:
    """Returns whether a node looks into a text of our own."""
    if (
        isinstance(node, ast.Call)
        and isinstance(node.func, ast.Attribute)
        and node.func.attr in LOOKING
    ):
        return any(is_ours(it, ours) for it in (node.func.value, *node.args))
    if isinstance(node, ast.Compare) and isinstance(node.ops[0], (ast.In, ast.NotIn)):
        text = node.left.value if isinstance(node.left, ast.Constant) else ""
        return (
            isinstance(text, str) and " " in text and is_ours(node.comparators[0], ours)
        )
    return False


def found_in(text: str) -> set[tuple[int, str]]:
    """Returns the line and the code of each place that looks into a text of our own, or into one of several."""
    found = set()
    for node in ast.walk(ast.parse(text)):
        loops = [node] if isinstance(node, ast.For) else getattr(node, "generators", [])
        ours = {
            name
            for loop in loops
            if is_ours(loop.iter)
            for name in names_in(loop.target)
        }
        found |= {
            (it.lineno, ast.unparse(it))
            for it in (ast.walk(node) if ours else [node])
            if looks(it, ours)
        }
    return found
