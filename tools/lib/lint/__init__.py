"""Texts that people hand in: the faults of a journal, and how commands that were sent compare with one.

It may import: base, journal, process, results, tables, tool."""
