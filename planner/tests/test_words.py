"""Tests how the words of remarks are made from their facts."""
from __future__ import annotations

import pytest

from crnplan.sentences import _Known, _policy_today


def test_facts_that_are_not_there() -> None:
    with pytest.raises(KeyError):
        _Known({})["things"]


def test_no_policy_today() -> None:
    assert _policy_today({"s": None, "S": None}) == "no policy is in use today"
