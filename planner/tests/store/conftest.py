"""Gives the tests of stored work their fixtures."""
from planner.tests.decide.answers import crnplan, room

__all__ = ["crnplan", "room"]
