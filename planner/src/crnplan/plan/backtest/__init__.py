"""Tests plans on a planner's own past: each is made at the end of a record, and run on the periods that came."""
