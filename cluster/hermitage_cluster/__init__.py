"""Judges history files on the workers of a Dask cluster. `cluster/judge` is the command."""
