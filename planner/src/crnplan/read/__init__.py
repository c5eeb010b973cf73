"""Reads tables of demand, masters and stock: real exports, with all faults in one pass and nothing silently wrong."""
