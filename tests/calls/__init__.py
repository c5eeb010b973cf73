"""Tests of what the functions of the program call and make."""
