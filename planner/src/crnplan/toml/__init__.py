"""Reads TOML documents and says all that is wrong with them, each fault with its line."""
