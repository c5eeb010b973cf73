"""Draws pictures and renders pages, from numbers and texts alone."""
