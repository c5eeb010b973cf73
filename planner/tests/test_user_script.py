"""Tests that the script by which mypy says the types of public results has all of them."""
from __future__ import annotations

import ast
from pathlib import Path

import crnplan as crn

SCRIPT = Path(__file__).parents[1] / "typed" / "user_script.py"
# What is no result of a call: errors, their parts, and what a scenario is made of.
NO_RESULTS = {"__version__", "Costs", "Fault", "CrnplanError", "Failed"}
NO_RESULTS |= {"ProgramError", "Refused", "ScenarioError"}


def test_each_public_name_stands_in_the_script() -> None:
    """`mypy --strict` checks it with the package. So each public function has the result that it says."""
    tree = ast.parse(SCRIPT.read_text("utf-8"))
    used = {
        node.attr
        for node in ast.walk(tree)
        if isinstance(node, ast.Attribute)
        and isinstance(node.value, ast.Name)
        and node.value.id == "crn"
    }
    assert {*crn.__all__} - NO_RESULTS - used == set()
    assert used & NO_RESULTS == set()
