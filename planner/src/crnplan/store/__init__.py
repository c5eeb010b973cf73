"""Own folders, one store of what is kept, and work here, in processes and on Dask."""
