"""Tests of the program from outside, of its theory, its sources and its pages, and of the edits that its proofs
refuse."""
