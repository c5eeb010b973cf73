"""Computes exact long-run figures of (s,S) policies, and searches for good ones.

The order of events is that of docs/FORMATS.md, "What happens in a period". All demand is met in the end (full backlog).
Demands, returns and lead times are independent and each of one law. Figures are exact but for rounding, and unproved.
"""
