"""Plans an item: from facts to a decision, for one item and for a million."""
