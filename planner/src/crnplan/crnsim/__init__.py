"""Runs the program crnsim and reads what it writes, exactly."""
from __future__ import annotations

from pathlib import Path

# Where an installed package has the program, and what says of what both are built.
INSIDE = Path(__file__).with_name("bin") / "crnsim"
BUILT = Path(__file__).with_name("built.toml")
