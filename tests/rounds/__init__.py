"""Tests of the tool that plants wrong implementations."""
