"""crnplan has at most the tokens of planner/budgets.toml, and no denser lines."""
from __future__ import annotations

import tomllib

import pytest

from tests.runs import TOP
from tools.tokens import Size, by_package, size_of_python, total_of

BUDGETS = tomllib.loads((TOP / "planner/budgets.toml").read_text("utf-8"))
# A budget that is so much above what is there is lowered, so that what was won is kept.
MOST_ABOVE = 1.01


def size_of(folder: str) -> Size:
    return total_of(by_package(TOP / f"planner/{folder}").values())


@pytest.mark.parametrize("folder", BUDGETS)
def test_budget(folder: str) -> None:
    budget, size = BUDGETS[folder], size_of(folder)
    found = {"tokens": size.tokens, "others": size.others}
    for name in found.keys() & budget.keys():
        assert found[name] <= budget[name] <= found[name] * MOST_ABOVE, name
    if "a_line" in budget:
        assert size.tokens / size.code <= budget["a_line"]
        assert size.dense / size.statements <= budget["dense"]


def test_size_of_python() -> None:
    """By hand: `x`, `=`, a list display with its comprehension, and a call of a documented function."""
    text = (
        '"""Doc."""\n'
        "# A comment.\n"
        "x = [a for a in b]\n"
        "\n"
        "def f():\n"
        '    """Doc."""\n'
        "    return 1\n"
    )
    size = size_of_python(text)
    tokens = ["x", "=", "[", "a", "for", "a", "in", "b", "]"]
    tokens += ["def", "f", "(", ")", ":", "return", "1"]
    assert size.tokens == len(tokens)
    assert (size.lines, size.code, size.dense) == (7, 3, 1)
    # The docstrings are expressions, which are statements.
    assert size.statements == 5
