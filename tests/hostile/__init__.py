"""Tests of the built program under hostile use: texts, streams, limits and refusals that nobody wishes."""
