"""Says how much service the stock of a catalogue can give: the exchange curve."""
