"""The desk: pages in a browser on one machine, from exports to orders, over the same calls that notebooks have.

`kept` is what a desk keeps in its folder, `work` the process that reads and plans, `safety` who may ask, `server` the
application, and each other module the pages of one step.
"""
