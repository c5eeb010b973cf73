"""Tests of the pages: what they link to, quote, name, compute and run."""
