"""Decides between policies by the runs of crnsim and by theory, and says how sure that is."""
