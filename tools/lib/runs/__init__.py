"""Runs of the program or of its library: one journal or many, here or on a cluster.

It may import: base, crates, journal, process, results."""
